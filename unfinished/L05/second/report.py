#!/usr/bin/env python3
"""Report how often each answer occurred in trace files: report.py FILE ..

Each file is a trace as listing.py reads it, with streams of its own. One line
for each answer, with its sum over the files. A file that can't be opened adds
nothing and is named on standard error.
"""

import os
import sys

from listing import DamagedRecord, Streams, count_of, judge_image, read_records

REFUSALS = (*range(1, 9), 25)
ANSWERS = (
    "packet", "packet broke", "kept", "kept broke", "filtered",
    *(f"refused {number}" for number in REFUSALS),
)

LARGEST = 2**64 - 1  # a sum goes no further; no file has so many records


def answer_to(bus, image, streams):
    """Return the answer to an image, as the listing prints it."""
    refusal = judge_image(image)
    if refusal:
        return f"refused {refusal}"
    # These bytes are all of the identifier but flag and number.
    key = bus, image[1], image[2], image[4]
    return streams.receive(key, image[3] >> 6, image[3] & 63, count_of(image))


def tally_of(answer):
    """Return the name of the tally: packets of all lengths have the same."""
    words = answer.split(" ")
    if words[0] == "packet":
        del words[1]
    return " ".join(words)


def tally_trace(source):
    """Return how often each answer occurs in a trace, up to its end or damage."""
    tallies = dict.fromkeys(ANSWERS, 0)
    streams = Streams()
    try:
        for bus, image in read_records(source):
            tallies[tally_of(answer_to(bus, image, streams))] += 1
    except DamagedRecord:
        pass  # what came before counts
    return tallies


def add(sums, tallies):
    """Add the tallies of a file to the sums."""
    for answer, tally in tallies.items():
        sums[answer] = min(sums[answer] + tally, LARGEST)


def report(paths):
    """Return the sums over the files."""
    sums = dict.fromkeys(ANSWERS, 0)
    for path in paths:
        try:
            source = os.open(path, os.O_RDONLY)
        except OSError as error:
            # A name need not be text.
            sys.stderr.buffer.write(os.fsencode(path) + f": {error.strerror}\n".encode())
            continue
        add(sums, tally_trace(source))
        os.close(source)
    return sums


def main():
    for answer, tally in report(sys.argv[1:]).items():
        print(answer, tally)


if __name__ == "__main__":
    main()
