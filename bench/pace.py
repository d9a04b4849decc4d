#!/usr/bin/env python3
"""Measures the station by value, which only a Rattle program can call: crates/pace_program.

usage: bench/pace.py PROGRAM [--quick]

The program reads a count of four bytes, high byte first, a byte for how many streams are open, a byte for the format
(0 extended, 1 standard) and an image, and receives the image that many times on bus A. Slot i is open on bus A with
priority 1, source or address i, group 0, destination 0, function 2 or side 1. Each figure is the difference between a
larger and a smaller count, so that what the program does once falls out. Writes a line for each case: table, row,
contestant, instructions, nanoseconds.
"""

import resource
import subprocess
import sys
import tempfile

COUNTED = (1_000, 3_000)
TIMED = (100_000, 600_000)
ROUNDS = 9
FORMATS = ("extended", "standard")


def image_for(form, slot):
    """A single of eight bytes from the stream of a slot, as arrivals.rs opens them."""
    if form == "extended":
        return bytes([0x88, 0x40 | slot, 0x00, 0xC0, 0x10]) + bytes(range(8))
    return bytes([0x40 | slot, 0xE8]) + bytes(range(8))


def request_for(count, opened, form):
    """What the program reads."""
    head = count.to_bytes(4, "big") + bytes([opened, FORMATS.index(form)])
    return head + image_for(form, max(opened, 1) - 1)


def instructions(program, opened, form, count):
    """What a whole run of the program executes."""
    with tempfile.NamedTemporaryFile() as profile:
        subprocess.run(
            ["valgrind", "--tool=callgrind", f"--callgrind-out-file={profile.name}", program],
            input=request_for(count, opened, form),
            stdout=subprocess.DEVNULL,
            stderr=subprocess.DEVNULL,
            check=True,
        )
        with open(profile.name) as lines:
            return next(int(line.split()[1]) for line in lines if line.startswith("summary:"))


def seconds(program, opened, form, count):
    """The processor time of a whole run of the program: waiting for other programs does not count."""
    before = resource.getrusage(resource.RUSAGE_CHILDREN)
    subprocess.run([program], input=request_for(count, opened, form), stdout=subprocess.DEVNULL, check=True)
    after = resource.getrusage(resource.RUSAGE_CHILDREN)
    return after.ru_utime - before.ru_utime + after.ru_stime - before.ru_stime


def per_call(figure, counts):
    """The difference of a figure at two counts, for one call."""
    few, many = counts
    return (figure(many) - figure(few)) / (many - few)


def best_times(program, cases):
    """The shortest time of each case at each count. Each round runs every case, so that a slow moment of the machine
    falls on one sample of each and not on all of one."""
    best = {}
    for _ in range(ROUNDS):
        for case in cases:
            for count in TIMED:
                taken = seconds(program, case[2], case[3], count)
                best[case, count] = min(taken, best.get((case, count), taken))
    return best


def main():
    program, quick = sys.argv[1], "--quick" in sys.argv[2:]
    cases = [("single", "extended", 16, "extended")]
    if not quick:
        cases += [("streams", f"{form} {n}", n, form) for form in FORMATS for n in (0, 1, 2, 4, 8, 16)]
    best = best_times(program, cases)
    for case in cases:
        table, row, opened, form = case
        counted = per_call(lambda count: instructions(program, opened, form, count), COUNTED)
        timed = per_call(lambda count: best[case, count], TIMED)
        print(table, row, "value", counted, timed * 1e9, sep="\t")


main()
