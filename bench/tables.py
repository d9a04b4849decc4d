#!/usr/bin/env python3
"""Prints the measurements as Markdown tables, and whether each target is met.

usage: bench/tables.py FOLDER [--quick] [--counts]   of the files that bench/run makes
"""

import os
import sys

RECEIVE_LIMIT = 1_200
VALUE_LIMIT = 1_400
SPLIT_RATIO = 2.0


class Figures:
    """Instructions and nanoseconds of each case, for one run of it."""

    def __init__(self, folder):
        self.calls, self.bytes, self.counted, self.timed, self.rows = {}, {}, {}, {}, {}
        with open(os.path.join(folder, "profile")) as profile:
            totals = [int(line.split()[1]) for line in profile if line.startswith("summary:")]
        counted = self.lines(folder, "counted")
        # One more is what the program does after its last case.
        if len(totals) != len(counted) + 1:
            sys.exit("bench/tables.py: the profiler missed a case")
        for fields, total in zip(counted, totals):
            table, row, who = case = tuple(fields[:3])
            self.calls[case], self.bytes[case] = int(fields[3]), int(fields[4])
            self.counted[case] = total / float(fields[5])
            rows = self.rows.setdefault(table, [])
            if row not in rows:
                rows.append(row)
        for fields in self.lines(folder, "timed"):
            self.timed[tuple(fields[:3])] = float(fields[5])
        for fields in self.lines(folder, "paced"):
            case = tuple(fields[:3])
            self.calls[case], self.counted[case], self.timed[case] = 1, float(fields[3]), float(fields[4])

    @staticmethod
    def lines(folder, name):
        with open(os.path.join(folder, name)) as lines:
            return [line.rstrip("\n").split("\t") for line in lines]

    def instructions(self, *case):
        """A call's, or none where it was not measured."""
        return self.counted[case] / self.calls[case] if case in self.counted else None

    def nanoseconds(self, *case):
        return self.timed[case] / self.calls[case] if case in self.timed else None


def number(value):
    """Whole numbers as such, small ones with a digit more; a dash where there is none."""
    if value is None:
        return "-"
    if value == int(value) or value >= 100:
        return f"{round(value):,}"
    return f"{value:.1f}" if value >= 10 else f"{value:.2f}"


def ratio(value, base):
    return "-" if value is None or base is None else f"{value / base:.2f}"


def print_table(title, heads, rows):
    print(f"\n{title}\n")
    print("| " + " | ".join(heads) + " |")
    print("|" + "---|" + "--:|" * (len(heads) - 1))
    for row in rows:
        print("| " + " | ".join(row) + " |")


def single(figures):
    names = [
        ("library", "library: `siljuvatt_receive`"),
        ("value", "station by value: `Station::receive`"),
        ("plain", "plain Rust"),
        ("plain_bytes", "plain Rust over the library's bytes"),
        ("memcpy", "`memcpy` of the 8 bytes"),
    ]
    count_base = figures.instructions("single", "extended", "plain")
    time_base = figures.nanoseconds("single", "extended", "plain")
    rows = []
    for who, name in names:
        count = figures.instructions("single", "extended", who)
        time = figures.nanoseconds("single", "extended", who)
        rows.append([name, number(count), ratio(count, count_base), number(time), ratio(time, time_base)])
    heads = ["one frame", "instructions", "to plain Rust", "ns", "to plain Rust"]
    print_table("Sixteen streams open; an extended single of 8 bytes for the last of them:", heads, rows)


def streams(figures):
    contestants = [(form, who) for form in ("extended", "standard") for who in ("library", "value", "plain")]
    names = {"library": "library", "value": "by value", "plain": "plain Rust"}
    for unit, figure in (("instructions", figures.instructions), ("nanoseconds", figures.nanoseconds)):
        rows = []
        for opened in ("0", "1", "2", "4", "8", "16"):
            cells = [number(figure("streams", f"{form} {opened}", who)) for form, who in contestants]
            rows.append([opened, *cells])
        heads = ["open streams", *(f"{form}, {names[who]}" for form, who in contestants)]
        title = f"A single of 8 bytes for the last open stream, {unit} a call (with none open it is filtered):"
        print_table(title, heads, rows)


def packets(figures):
    rows = []
    for row in figures.rows["packet"]:
        library, plain, copy = (("packet", row, who) for who in ("library", "plain", "memcpy"))
        whole, size = figures.counted[library], figures.bytes[copy]
        cells = [
            figures.calls[library], whole, figures.instructions(*library), whole / size, figures.counted[plain],
            figures.counted[copy], whole / figures.counted[copy], figures.timed[library], figures.timed[plain],
            figures.timed[copy],
        ]
        rows.append([row, *(number(cell) for cell in cells)])
    heads = [
        "packet of bytes", "frames", "library, a packet", "a frame", "a byte", "plain Rust, a packet", "`memcpy`",
        "library to `memcpy`", "ns library", "ns plain Rust", "ns `memcpy`",
    ]
    print_table("Whole packets, frame by frame, sixteen streams open, to the last of them; instructions:", heads, rows)


def frames(figures):
    kinds = [row.split(" ", 1)[1] for row in figures.rows["frame"] if row.startswith("extended")]
    rows = []
    for kind in sorted(kinds, key=lambda kind: (kind.startswith("refused"), kind_order(kind))):
        cells = [figures.instructions("frame", f"{form} {kind}", who)
                 for form in ("extended", "standard") for who in ("library", "plain")]
        rows.append([kind, *(number(cell) for cell in cells)])
    heads = ["answer", "extended, library", "extended, plain Rust", "standard, library", "standard, plain Rust"]
    print_table("One frame by its answer, sixteen streams open, instructions a call:", heads, rows)


def kind_order(kind):
    return int(kind.split()[1]) if kind.startswith("refused") else 0


def split(figures):
    rows = []
    for row in figures.rows["split"]:
        count, base = (figures.instructions("split", row, who) for who in ("library", "plain"))
        times = (figures.nanoseconds("split", row, who) for who in ("library", "plain"))
        counts = (figures.instructions("count", row, who) for who in ("library", "plain"))
        pieces = figures.calls["split", row, "library"]
        rows.append([row, number(pieces), number(count), number(base), ratio(count, base),
                     *map(number, times), *map(number, counts)])
    heads = ["packet of bytes", "pieces", "`write_piece`, library", "plain Rust", "ratio", "ns library",
             "ns plain Rust", "`piece_count`, library", "plain Rust"]
    print_table("Splitting, a piece each call, instructions a call:", heads, rows)


def pairs(figures, table, first, title):
    rows = []
    for row in figures.rows[table]:
        counts = [figures.instructions(table, row, who) for who in ("library", "plain")]
        times = [figures.nanoseconds(table, row, who) for who in ("library", "plain")]
        rows.append([row, *map(number, counts), *map(number, times)])
    print_table(title, [first, "library", "plain Rust", "ns library", "ns plain Rust"], rows)


def within(value, limit):
    return None if value is None else value <= limit


def targets(figures):
    """Each target, what was measured, whether it is met, none where nothing was measured, and whether it is a count,
    which is the same in every run."""
    one = ("single", "extended")
    library, value = (figures.instructions(*one, who) for who in ("library", "value"))
    plain_time = figures.nanoseconds(*one, "plain")
    library_time, value_time = (figures.nanoseconds(*one, who) for who in ("library", "value"))
    worst = max(figures.instructions("split", row, "library") / figures.instructions("split", row, "plain")
                for row in figures.rows["split"])
    reads = {figures.instructions("read", row, "library") for row in figures.rows["read"] if row.isdigit()}
    return [
        (
            f"library's receive: at most {RECEIVE_LIMIT:,} instructions",
            number(library),
            within(library, RECEIVE_LIMIT),
            True,
        ),
        (f"station by value: at most {VALUE_LIMIT:,} instructions", number(value), within(value, VALUE_LIMIT), True),
        ("library's receive: faster than plain Rust, whose time is 1", ratio(library_time, plain_time),
         within(library_time, plain_time), False),
        ("station by value: faster than plain Rust, whose time is 1", ratio(value_time, plain_time),
         within(value_time, plain_time), False),
        (
            "splitting: at most twice plain Rust's instructions",
            f"{worst:.2f} at most",
            within(worst, SPLIT_RATIO),
            True,
        ),
        (
            "reading: the same at every packet size",
            " ".join(number(read) for read in sorted(reads)),
            len(reads) == 1,
            True,
        ),
    ]


def print_targets(figures, counts_only):
    """Prints the targets; whether none that decides is missed."""
    said = {True: "met", False: "NOT MET", None: "NOT MEASURED"}
    found = targets(figures)
    rows = [[what, measured, said[met]] for what, measured, met, _ in found]
    print_table("Targets:", ["target", "measured", "met"], rows)
    return all(met is True for _, _, met, is_count in found if is_count or not counts_only)


def main():
    folder, quick = sys.argv[1], "--quick" in sys.argv[2:]
    figures = Figures(folder)
    single(figures)
    if not quick:
        title = "The same frame, by the field in which the sixteen keys differ, instructions a call:"
        pairs(figures, "keys", "keys differ in", title)
        streams(figures)
        packets(figures)
        frames(figures)
    split(figures)
    pairs(figures, "read", "reading a packet of bytes", "`siljuvatt_read`, sixteen streams open, instructions a call:")
    if not quick:
        pairs(figures, "change", "call", "Opening and closing, extended, instructions a call:")
    sys.exit(0 if print_targets(figures, "--counts" in sys.argv[2:]) else 1)


main()
