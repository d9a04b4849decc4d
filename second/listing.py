#!/usr/bin/env python3
"""List a trace of extended frames: standard input to standard output.

A record of the trace is a two-byte big-endian length of what follows,
a version byte, a bus byte and the frame image. Every record gives one line.
"""

import os
import sys

HEADER = "record bus priority source group dest flag number function count answer"

BLOCK_SIZE = 1 << 16  # bytes asked for in one read
VERSION = 1
BUS_NAMES = "AB"

MIDDLE, START, END, SINGLE = range(4)  # the flag of a piece

HEADER_SIZE = 5  # image bytes before the data
MOST_DATA = 8
PIECE_SIZE = 8  # packet bytes in every piece but an end or a single
MOST_PACKET = 2048
MOST_STREAMS = 16

# Refusal numbers.
LENGTH, FORM, REMOTE, COUNT, PIECE, ORPHAN, STEP, LONG = range(1, 9)
SURPLUS = 25


class DamagedRecord(Exception):
    """The trace cannot be read further."""


def read_block(source):
    """Return the next bytes of the trace, none at its end."""
    try:
        # This read returns what a pipe has, without waiting for a full block.
        return os.read(source, BLOCK_SIZE)
    except OSError:
        return b""  # a read error counts as the end of the input


def read_records(source):
    """Yield the bus and the image of each record."""
    rest = b""  # a record cut by the end of a block, so always short
    while block := read_block(source):
        trace = rest + block
        place = 0
        while place + 2 <= len(trace):
            length = trace[place] << 8 | trace[place + 1]
            # Judged before the record is whole: the rest may never come.
            if not 2 <= length <= 2 + HEADER_SIZE + MOST_DATA:
                raise DamagedRecord
            end = place + 2 + length
            if end > len(trace):
                break
            version, bus = trace[place + 2], trace[place + 3]
            if version != VERSION or bus > 1:
                raise DamagedRecord
            yield bus, trace[place + 4:end]
            place = end
        rest = trace[place:]
    if rest:
        raise DamagedRecord


def piece_is_sound(flag, number, count):
    """Tell whether the piece rules hold."""
    if flag == SINGLE:
        return number == 0
    if flag == START:
        return number == 0 and count == PIECE_SIZE
    if flag == MIDDLE:
        return count == PIECE_SIZE
    return count >= 1  # an end carries at least one packet byte


def count_of(image):
    """Return the count of an image's data bytes that its code stands for.

    L3 overrules document 01, which refuses the codes 9 to 15: they mean 8.
    """
    return min(image[0] & 0b1111, MOST_DATA)


def judge_image(image):
    """Return the first refusal that applies, of 1 to 5 with 25 in the place of 4, or 0.

    L4 tells apart the two ways in which count and length can disagree.
    """
    if not HEADER_SIZE <= len(image) <= HEADER_SIZE + MOST_DATA:
        return LENGTH
    first = image[0]
    if first & 0b1011_0000 != 0b1000_0000 or image[4] & 0b111:
        return FORM
    if first & 0b0100_0000:
        return REMOTE
    count = count_of(image)
    if len(image) < HEADER_SIZE + count:
        return COUNT
    if len(image) > HEADER_SIZE + count:
        return SURPLUS
    if not piece_is_sound(image[3] >> 6, image[3] & 63, count):
        return PIECE
    return 0


class Streams:
    """The open streams and how far each has collected its packet.

    The listing shows lengths only, so the packet bytes are not kept. A stream
    that collects holds at least one piece; 0 stands for idle and done alike,
    since both answer the next frame in the same way.
    """

    def __init__(self):
        self.held = {}  # key: bytes held

    def is_open(self, key):
        """Open a new key while there is room; tell whether the key is open."""
        if key not in self.held and len(self.held) < MOST_STREAMS:
            self.held[key] = 0
        return key in self.held

    def receive(self, key, flag, number, count):
        """Take a sound frame and return its answer."""
        if not self.is_open(key):
            return "filtered"
        held = self.held[key]
        if flag in (START, SINGLE):
            self.held[key] = count if flag == START else 0
            answer = "kept" if flag == START else f"packet {count}"
            return answer + " broke" if held else answer
        if not held:
            return f"refused {ORPHAN}"
        return self.follow(key, held, flag, number, count)

    def follow(self, key, held, flag, number, count):
        """Add a middle or an end to the packet being collected."""
        self.held[key] = 0  # unless the packet goes on, below
        if number != held // PIECE_SIZE % 64:
            return f"refused {STEP}"
        if held + count > MOST_PACKET:
            return f"refused {LONG}"
        if flag == END:
            return f"packet {held + count}"
        self.held[key] = held + count
        return "kept"


def list_record(record, bus, image, streams):
    """Return the line of one record."""
    refusal = judge_image(image)
    if refusal:
        return f"{record} {BUS_NAMES[bus]} refused {refusal}\n"
    priority, source = image[1] >> 6, image[1] & 63
    group, dest = image[2] >> 6, image[2] & 63
    flag, number = image[3] >> 6, image[3] & 63
    function = image[4] >> 3
    count = count_of(image)
    key = bus, priority, source, group, dest, function
    answer = streams.receive(key, flag, number, count)
    return (
        f"{record} {BUS_NAMES[bus]} {priority} {source} {group} {dest}"
        f" {flag} {number} {function} {count} {answer}\n"
    )


def list_trace(source):
    """Yield the lines of the whole listing."""
    yield HEADER + "\n"
    streams = Streams()
    record = 0
    try:
        for record, (bus, image) in enumerate(read_records(source), 1):
            yield list_record(record, bus, image, streams)
    except DamagedRecord:
        yield f"{record + 1} stopped\n"
    yield f"records {record}\n"


def main():
    # Lines are gathered in a buffer and end in "\n" on every system.
    with open(1, "w", BLOCK_SIZE, "ascii", newline="\n", closefd=False) as output:
        output.writelines(list_trace(0))


if __name__ == "__main__":
    try:
        main()
    except BrokenPipeError:
        pass  # the reader has seen enough
