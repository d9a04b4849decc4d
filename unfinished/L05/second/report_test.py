#!/usr/bin/env python3
"""Tests of report.py: each answer by its name, files that end early, are damaged or missing, and sums.

What is expected is reckoned here from documents 01 and 02 (L5).
"""

import os
import subprocess
import sys
import tempfile
import unittest

import report
from listing import Streams

REPORT = os.path.join(os.path.dirname(os.path.abspath(__file__)), "report.py")
MIDDLE, START, END, SINGLE = 0b00, 0b01, 0b10, 0b11

# The lines of a report, in document 02's order.
ORDER = [
    "packet", "packet broke", "kept", "kept broke", "filtered", "refused 1", "refused 2", "refused 3", "refused 4",
    "refused 5", "refused 6", "refused 7", "refused 8", "refused 25",
]


def image_of(flag, number, count, source=5):
    return bytes([0x80 | count, source, 0, flag << 6 | number, 0x10]) + bytes(count)


def record_of(image, bus=0):
    return bytes([0, len(image) + 2, 1, bus]) + image


def with_first(image, bits):
    """The image with more bits set in its first byte."""
    return bytes([image[0] | bits]) + image[1:]


START_IMAGE, SINGLE_IMAGE = image_of(START, 0, 8), image_of(SINGLE, 0, 1)

# Images of one stream, one after the other, each with its answer.
RUN = [
    (image_of(END, 1, 1), "refused 6"),
    (START_IMAGE, "kept"),
    (START_IMAGE, "kept broke"),
    (image_of(MIDDLE, 1, 8), "kept"),
    (image_of(END, 2, 3), "packet"),
    (START_IMAGE, "kept"),
    (image_of(MIDDLE, 2, 8), "refused 7"),
    (START_IMAGE, "kept"),
    (SINGLE_IMAGE, "packet broke"),
    (b"", "refused 1"),
    (with_first(SINGLE_IMAGE, 0x10), "refused 2"),
    (with_first(SINGLE_IMAGE, 0x40), "refused 3"),
    (SINGLE_IMAGE[:-1], "refused 4"),
    (image_of(SINGLE, 1, 1), "refused 5"),
    (SINGLE_IMAGE + b"\0", "refused 25"),
    # The start and 255 middles fill 2,048 bytes.
    (START_IMAGE, "kept"),
    *((image_of(MIDDLE, number % 64, 8), "kept") for number in range(1, 256)),
    (image_of(MIDDLE, 0, 8), "refused 8"),
]


class Answers(unittest.TestCase):
    def test_lines_are_in_document_02s_order(self):
        self.assertEqual(list(report.ANSWERS), ORDER)

    def test_each_answer_has_its_own_tally(self):
        streams = Streams()
        for image, answer in RUN:
            self.assertEqual(report.tally_of(report.answer_to(0, image, streams)), answer)
        # With fifteen more keys open, the next is filtered; the other bus is another key too.
        for source in range(20, 35):
            self.assertEqual(report.answer_to(0, image_of(SINGLE, 0, 0, source), streams), "packet 0")
        for source, bus in (35, 0), (5, 1):
            self.assertEqual(report.answer_to(bus, image_of(SINGLE, 0, 0, source), streams), "filtered")

    def test_keys_differ_in_every_field(self):
        streams = Streams()
        image = bytearray(SINGLE_IMAGE)
        others = [(1, 0x40), (1, 1), (2, 0x40), (2, 1), (4, 8)]  # priority, source, group, destination, function
        for place, bit in [(0, 0), *others]:
            image[place] ^= bit
            self.assertEqual(report.answer_to(0, bytes(image), streams), "packet 1")
            image[place] ^= bit
        self.assertEqual(len(streams.held), 1 + len(others))


class Sums(unittest.TestCase):
    def test_sums_stop_at_the_largest_number(self):
        largest = 18_446_744_073_709_551_615
        for first, second, total in [
            (0, 0, 0), (2, 3, 5), (largest - 1, 1, largest), (largest - 1, 2, largest), (largest, 1, largest),
            (2**63, 2**63, largest), (largest, largest, largest),
        ]:
            for answer in ORDER:
                sums = dict.fromkeys(ORDER, 7)
                sums[answer] = first
                report.add(sums, {**dict.fromkeys(ORDER, 0), answer: second})
                self.assertEqual(sums, {**dict.fromkeys(ORDER, 7), answer: total})


class Files(unittest.TestCase):
    def setUp(self):
        self.folder = tempfile.TemporaryDirectory()
        self.addCleanup(self.folder.cleanup)

    def file(self, name, trace):
        path = os.path.join(self.folder.name, name)
        with open(path, "wb") as file:
            file.write(trace)
        return path

    def report(self, *paths):
        """The sums that are not 0, and what was said."""
        run = subprocess.run([sys.executable, "-B", REPORT, *paths], capture_output=True, check=True)
        lines = [line.rsplit(" ", 1) for line in run.stdout.decode("ascii").splitlines()]
        self.assertEqual([answer for answer, _ in lines], ORDER)
        return {answer: int(total) for answer, total in lines if total != "0"}, run.stderr

    def test_no_files_are_fourteen_zeros(self):
        run = subprocess.run([sys.executable, "-B", REPORT], capture_output=True, check=True)
        self.assertEqual(run.stdout.decode(), "".join(f"{answer} 0\n" for answer in ORDER))
        self.assertEqual(run.stderr, b"")

    def test_every_answer_is_summed_over_files_and_a_file_twice_counts_twice(self):
        path = self.file("run", b"".join(record_of(image) for image, _ in RUN))
        once = {answer: [a for _, a in RUN].count(answer) for answer in ORDER if answer != "filtered"}
        self.assertEqual(self.report(path), (once, b""))
        twice = {answer: 2 * total for answer, total in once.items()}
        self.assertEqual(self.report(path, path), (twice, b""))

    def test_each_file_has_streams_of_its_own(self):
        start = self.file("start", record_of(START_IMAGE))
        end = self.file("end", record_of(image_of(END, 1, 1)))
        self.assertEqual(self.report(start, end)[0], {"kept": 1, "refused 6": 1})

    def test_what_cant_be_opened_adds_nothing_and_is_named(self):
        trace = self.file("trace", record_of(SINGLE_IMAGE))
        for name in b"no such file", b"no such \xff file":
            missing = os.path.join(os.fsencode(self.folder.name), name)
            sums, said = self.report(trace, missing, trace)
            self.assertEqual(sums, {"packet": 2})
            self.assertTrue(said.startswith(missing + b": "), said)
        self.assertNotEqual(self.report("")[1], b"")

    def test_damage_ends_a_file_and_what_came_before_counts(self):
        record = record_of(SINGLE_IMAGE)
        for damage in b"\0\0", b"\0\1\1", b"\0\x10\1\0", b"\1\2\1\0", b"\0\2\2\0", b"\0\2\1\2":
            path = self.file("damaged", record + damage + record)
            self.assertEqual(self.report(path)[0], {"packet": 1}, damage)
        for size in range(1, len(record)):
            path = self.file("cut", record + record[:size])
            self.assertEqual(self.report(path)[0], {"packet": 1}, size)

    def test_a_folder_adds_nothing(self):
        trace = self.file("trace", record_of(SINGLE_IMAGE))
        self.assertEqual(self.report(self.folder.name, trace)[0], {"packet": 1})


if __name__ == "__main__":
    unittest.main()
