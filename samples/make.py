#!/usr/bin/env python3
"""Makes each trace beside this script of its .hex file, which says what is in it.

usage: samples/make.py [--check]     --check: fails if a trace is not that of its .hex file
"""

import sys
from pathlib import Path


def trace_of(text):
    """The bytes of a text in hex; from # on a line is a comment."""
    return b"".join(bytes.fromhex(line.partition("#")[0]) for line in text.splitlines())


def main():
    for text in sorted(Path(__file__).parent.glob("*.hex")):
        trace = text.with_suffix(".trace")
        made = trace_of(text.read_text(encoding="ascii"))
        if "--check" not in sys.argv[1:]:
            trace.write_bytes(made)
        elif trace.read_bytes() != made:
            sys.exit(f"{trace.name} is not what {text.name} has: run samples/make.py")


if __name__ == "__main__":
    main()
