#!/usr/bin/env python3
"""Prints the packets of each stream in a trace of extended frames, as hex.

usage: python3 example.py TRACE

A record of the trace is a two-byte big-endian length of what follows, version byte 1, bus byte 0 (A) or 1 (B), image.
"""

import os
import sys
from pathlib import Path

from siljuvatt import SLOTS, Bus, ExtendedFields, Filtered, Format, Packet, Refused, Station


class Damaged(Exception):
    """The trace cannot be read further."""


def records(trace):
    """Yields the bus and the image of each record."""
    place = 0
    while place < len(trace):
        length = int.from_bytes(trace[place:place + 2], "big")
        record = trace[place + 2:place + 2 + length]
        if not 2 <= length <= 15 or len(record) != length or record[0] != 1 or record[1] > 1:
            raise Damaged
        yield Bus(record[1]), record[2:]
        place += 2 + length


def fields_of(image):
    """The fields of an extended image, but for flag and number."""
    return ExtendedFields(image[1] >> 6, image[1] & 63, image[2] >> 6, image[2] & 63, image[4] >> 3)


class Bench:
    """A station that opens each key as it is first seen, up to sixteen."""

    def __init__(self):
        self.station = Station(Format.EXTENDED)
        self.slots = {}

    def receive(self, bus, image):
        """What the station answers to a frame: Filtered only if sixteen other streams are open."""
        answer = self.station.receive(bus, image)
        if answer == Filtered() and len(self.slots) < SLOTS:
            # The image is sound, or it were refused: its key is new.
            self.slots[bus, fields_of(image)] = self.station.open(bus, fields_of(image))
            answer = self.station.receive(bus, image)
        return answer

    def packet(self, bus, image):
        """The packet of a frame's stream: the part of the store itself."""
        return self.station.read(self.slots[bus, fields_of(image)])


def line(bench, bus, image):
    """What there is to say about a frame, if anything."""
    try:
        answer = bench.receive(bus, image)
    except Refused as refused:
        return f"bus {bus.name}, refused {refused}"
    fields = fields_of(image)
    stream = f"bus {bus.name}, source {fields.source}, function {fields.function}"
    if answer == Filtered():
        return f"{stream}: filtered, sixteen streams are open"
    if isinstance(answer, Packet):
        return f"{stream}, {answer.length} bytes: {bench.packet(bus, image).hex(' ')}"
    return None


def list_trace(path):
    """Prints a line for each frame that there is something to say about. Returns what is wrong, or None."""
    bench = Bench()
    number = 0
    try:
        for number, (bus, image) in enumerate(records(Path(path).read_bytes()), 1):
            text = line(bench, bus, image)
            if text is not None:
                print(f"record {number}: {text}")
    except Damaged:
        return f"record {number + 1}: damaged"
    print(f"{number} records")
    return None


def main():
    if len(sys.argv) != 2:
        sys.exit(__doc__.strip())
    try:
        problem = list_trace(sys.argv[1])
        print(end="", flush=True)  # what cannot be written is told here: where Python ends it would be a traceback
    except OSError as error:
        # No one reads on, no file, no library, a full disk. What is left to print goes nowhere.
        os.dup2(os.open(os.devnull, os.O_WRONLY), 1)
        problem = 1 if isinstance(error, BrokenPipeError) else f"example.py: {error}"
    sys.exit(problem)


if __name__ == "__main__":
    main()
