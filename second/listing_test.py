#!/usr/bin/env python3
"""Tests of listing.py: images with every count code, flag, number and data length.

What is expected is reckoned here from document 01, L3 and L4.
"""

import itertools
import unittest

from listing import Streams, judge_image, list_record

MIDDLE, START, END, SINGLE = 0b00, 0b01, 0b10, 0b11
DATA = bytes(range(1, 10))


def image_of(flag, number, code, size):
    return bytes([0x80 | code, 0x45, 0, flag << 6 | number, 0x10]) + DATA[:size]


def keeps_the_piece_rule(flag, number, count):
    return {
        SINGLE: number == 0,
        START: count == 8 and number == 0,
        MIDDLE: count == 8,
        END: 1 <= count <= 8,
    }[flag]


def expected(flag, number, code, size):
    """The refusal's number, or 0: L3 reads the codes 9 to 15 as 8, and L4 tells too short from too long, before the
    piece rules."""
    count = 8 if code >= 9 else code
    if size > 8:
        return 1
    if size != count:
        return 4 if size < count else 25
    return 0 if keeps_the_piece_rule(flag, number, count) else 5


class CountCodes(unittest.TestCase):
    def test_every_code_with_every_length_flag_and_number(self):
        for piece in itertools.product(range(4), range(64), range(16), range(10)):
            self.assertEqual(judge_image(image_of(*piece)), expected(*piece), piece)

    def test_form_and_remote_come_before_the_count(self):
        for code, size in itertools.product(range(16), range(9)):
            image = image_of(SINGLE, 0, code, size)
            self.assertEqual(judge_image(bytes([image[0] | 0x50]) + image[1:]), 2)
            self.assertEqual(judge_image(bytes([image[0] | 0x40]) + image[1:]), 3)

    def test_codes_over_8_are_listed_as_8(self):
        for code in range(9, 16):
            streams = Streams()
            lines = [
                list_record(record, 0, image_of(flag, number, code, 8), streams)
                for record, (flag, number) in enumerate([(START, 0), (MIDDLE, 1), (END, 2), (SINGLE, 0)], 1)
            ]
            self.assertEqual(lines, [
                "1 A 1 5 0 0 1 0 2 8 kept\n",
                "2 A 1 5 0 0 0 1 2 8 kept\n",
                "3 A 1 5 0 0 2 2 2 8 packet 24\n",
                "4 A 1 5 0 0 3 0 2 8 packet 8\n",
            ])
            refused = list_record(5, 1, image_of(SINGLE, 0, code, 7), streams)
            self.assertEqual(refused, "5 B refused 4\n")

    def test_images_too_short_or_too_long_touch_no_stream(self):
        streams = Streams()
        self.assertEqual(list_record(1, 0, image_of(START, 0, 8, 8), streams), "1 A 1 5 0 0 1 0 2 8 kept\n")
        held = dict(streams.held)
        for flag, number, bus in itertools.product(range(4), (0, 1), (0, 1)):
            for size, refusal in (1, 4), (3, 25):
                line = list_record(2, bus, image_of(flag, number, 2, size), streams)
                self.assertEqual(line, f"2 {'AB'[bus]} refused {refusal}\n")
        self.assertEqual(streams.held, held)
        self.assertEqual(list_record(3, 0, image_of(END, 1, 2, 2), streams), "3 A 1 5 0 0 2 1 2 2 packet 10\n")


if __name__ == "__main__":
    unittest.main()
