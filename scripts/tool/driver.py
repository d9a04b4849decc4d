"""The program `calls` under way: requests and their responses, as compare/PROTOCOL.md has them."""

import contextlib
import enum
import signal
import subprocess
import tempfile
from collections import namedtuple

BATCH = 256  # short requests that are sent together: they and their responses fit in a pipe

Operation = enum.IntEnum("Operation", """
    NEW OPEN CLOSE RECEIVE READ COUNT PIECE SLOT LEND STORE FILL FRONT
    JUDGE NUMBER FILTER ROW RECORD LINE
    LISTING LISTED LIST END
    MASTER EXCHANGE START REPLY TIMEOUT WATCH HEARD CHECK
""")
Kind = enum.IntEnum("Kind", """
    PACKET KEPT FILTERED REFUSED VALUE SEND DONE GAVE_UP RECORD DAMAGED CUT END INPUT ROOM
""")
Answer = namedtuple("Answer", "kind number more")

WITH_NUMBER = (Kind.PACKET, Kind.REFUSED, Kind.VALUE, Kind.SEND, Kind.RECORD)
WITH_MORE = (Kind.PACKET, Kind.KEPT, Kind.RECORD)


class Failure(Exception):
    """What is wrong: with a line of a script, or with what the program did."""


class Response:
    """The bytes of a response, taken one part after the other."""

    def __init__(self, operation, data):
        self.name, self.data, self.place = operation.name, data, 0

    def take(self, size):
        part = self.data[self.place:self.place + size]
        if len(part) < size:
            raise Failure(f"the response to {self.name} is too short: {self.data.hex(' ') or 'empty'}")
        self.place += size
        return part

    def number(self, size):
        return int.from_bytes(self.take(size), "big")

    def answer(self):
        """The four bytes of an answer, if they are one."""
        kind, number, more = self.number(1), self.number(2), self.number(1)
        if kind not in list(Kind) or number and kind not in WITH_NUMBER or more and kind not in WITH_MORE:
            raise Failure(f"the response to {self.name} has no answer: {self.data[:4].hex(' ')}")
        return Answer(Kind(kind), number, more)

    def only_answer(self):
        """An answer that is all of the response."""
        answer = self.answer()
        self.end()
        return answer

    def settled(self, value=0):
        """Takes the answer of a call that sets something, which is always the same."""
        answer = self.answer()
        if answer != (Kind.VALUE, value, 0):
            raise Failure(f"the answer to {self.name} is not the value {value}: {answer}")

    def rest(self):
        return self.take(len(self.data) - self.place)

    def end(self):
        if self.place < len(self.data):
            raise Failure(f"the response to {self.name} is too long: {self.data.hex(' ')}")


@contextlib.contextmanager
def time_limit(seconds):
    """Fails what waits for the program longer than it may."""
    def late(_signal, _frame):
        raise Failure(f"the program hangs: nothing came for {seconds:g} seconds")
    before = signal.signal(signal.SIGALRM, late)
    signal.setitimer(signal.ITIMER_REAL, seconds)
    try:
        yield
    finally:
        signal.setitimer(signal.ITIMER_REAL, 0)
        signal.signal(signal.SIGALRM, before)


class Driver:
    """One such program, from its start to its end."""

    def __init__(self, command, seconds):
        self.calls, self.seconds = 0, seconds
        self.errors = tempfile.TemporaryFile()
        try:
            self.process = subprocess.Popen(
                command, stdin=subprocess.PIPE, stdout=subprocess.PIPE, stderr=self.errors)
        except OSError as error:
            raise Failure(f"the program does not start: {error}") from error

    def ask(self, operation, arguments=b""):
        """Sends a request, and returns its response, which must not be empty."""
        return self.ask_all(operation, [arguments])[0]

    def ask_all(self, operation, all_arguments):
        """Asks the same operation with each of the arguments. Several are sent together, up to a batch."""
        responses = []
        for start in range(0, len(all_arguments), BATCH):
            requests = [bytes([operation]) + arguments for arguments in all_arguments[start:start + BATCH]]
            responses += [Response(operation, data) for data in self.exchange(requests)]
        if not all(response.data for response in responses):
            raise Failure(f"an empty response to {operation.name}: calls takes it for no request")
        return responses

    def exchange(self, requests):
        """Sends requests as they are, and returns the bytes of each response, also of empty ones."""
        for request in requests:
            if len(request) > 65535:
                raise Failure(f"a request of {len(request)} bytes is too long")
        with time_limit(self.seconds):
            self.send(b"".join(len(request).to_bytes(2, "big") + request for request in requests))
            return [self.receive() for _ in requests]

    def send(self, data):
        try:
            self.process.stdin.write(data)
            self.process.stdin.flush()
        except BrokenPipeError:
            raise Failure("the program ended before it was told to" + self.complaint()) from None

    def receive(self):
        size = int.from_bytes(self.read(2), "big")
        self.calls += 1
        return self.read(size)

    def read(self, size):
        data = self.process.stdout.read(size)
        if len(data) < size:
            raise Failure("the program ended before it was told to" + self.complaint())
        return data

    def complaint(self):
        """What the program wrote to standard error, as a part of a message."""
        self.errors.seek(0)
        text = self.errors.read().decode("ascii", "backslashreplace").strip()
        return f"; standard error: {text}" if text else ""

    def finish(self):
        """Ends the input. The program must end too, by itself, and say no more."""
        with time_limit(self.seconds):
            with contextlib.suppress(BrokenPipeError):
                self.process.stdin.close()
            left = self.process.stdout.read()
            status = self.process.wait()
        if left:
            raise Failure(f"the program wrote {len(left)} bytes after its last response")
        if status != 0:
            raise Failure(f"the program's exit status is {status}" + self.complaint())
        if self.complaint():
            raise Failure("the program wrote to standard error" + self.complaint())

    def stop(self):
        """Leaves nothing behind, whatever happened."""
        if self.process.poll() is None:
            self.process.kill()
            self.process.wait()
        with contextlib.suppress(BrokenPipeError):
            self.process.stdin.close()
        self.process.stdout.close()
        self.errors.close()
