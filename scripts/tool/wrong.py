"""A program that answers as `calls` does, but for one thing, to try whether a script notices it.

usage: wrong.py OPERATION PLACE FRONT CHANGE COMMAND..

Changed is what comes of the request for that operation (by name) at that place among those while the front is set, from
0: `flip N` the lowest bit of byte N of the response, `short` and `long` a byte, `hang` and `end` in its place, `say`
something on standard error beside it, `status` another exit status, `after` a byte at the end of the output.
"""

import subprocess
import sys
import time

sys.dont_write_bytecode = True

from driver import Operation


def read(stream):
    """A request or a response, or None at the end."""
    head = stream.read(2)
    return stream.read(int.from_bytes(head, "big")) if len(head) == 2 else None


def write(stream, data):
    stream.write(len(data).to_bytes(2, "big") + data)
    stream.flush()


def changed(change, response):
    """The response in place of the right one; some changes end the program or say something."""
    if change.startswith("flip "):
        flipped = bytearray(response)
        flipped[int(change[5:])] ^= 1
        return bytes(flipped)
    if change == "hang":
        time.sleep(60)
    if change == "end":
        sys.exit(0)
    if change == "say":
        print("something", file=sys.stderr)
    return {"short": response[:-1], "long": response + b"\0"}.get(change, response)


def main():
    name, place, front, change, *command = sys.argv[1:]
    operation, place, front = Operation[name], int(place), int(front)
    program = subprocess.Popen(command, stdin=subprocess.PIPE, stdout=subprocess.PIPE)
    now = 0
    while (request := read(sys.stdin.buffer)) is not None:
        write(program.stdin, request)
        response = read(program.stdout)
        if request[:1] == bytes([Operation.FRONT]):
            now = request[1]
        if request[:1] == bytes([operation]) and now == front:
            response = changed(change, response) if place == 0 else response
            place -= 1
        write(sys.stdout.buffer, response)
    sys.stdout.buffer.write(b"\0" if change == "after" else b"")
    sys.exit(3 if change == "status" else 0)


main()
