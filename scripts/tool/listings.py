"""Commands on traces: reading a record, writing a line, and listing a trace part by part."""

from driver import Failure, Kind, Operation
from lines import answer_text, filled_text, hex_text, text
from stations import RECORD_HEAD
from words import FLAGS

LINES = ["header", "frame", "refused", "stopped", "records"]
ANSWERS = ["packet", "kept", "filtered", "refused"]
LINE_ROOM = 96  # room for any line
COUNT = 8  # bytes of a count of records


def line_answer(words):
    """An answer in the ten bytes of a line's request. A refusal is named by its place in the table."""
    kind = words.choice("answer", ANSWERS)
    number = words.number("number", 8) if ANSWERS[kind] in ("packet", "refused") else 0
    return bytes([kind + 1]) + number.to_bytes(8, "big") + bytes([words.has("broke")])


def line(words):
    """A line in the 29 bytes of its request."""
    kind = words.choice("line", LINES)
    name = LINES[kind]
    ordinal = 0 if name == "header" else words.number("ordinal or count", 8)
    found = bytes([kind]) + ordinal.to_bytes(8, "big")
    if name == "frame":
        found += words.key() + bytes([words.choice("flag", FLAGS), words.number("number"), words.number("count")])
        found += line_answer(words)
    if name == "refused":
        found += bytes([words.bus()]) + bytes(9) + b"\4" + words.number("refusal", 8).to_bytes(8, "big")
    return found.ljust(29, b"\0")


class Listings:
    """The commands; each returns the text that it shows, if any."""

    def __init__(self, bench):
        self.bench, self.output, self.trace, self.place = bench, None, b"", 0
        self.count = 0  # of the records listed, after the last call

    def commands(self):
        return {
            "record": self.record, "fit": self.fit, "write": self.write, "listing": self.listing,
            "listed": self.listed, "list": self.list, "trace": self.set_trace, "pass": self.list_to,
            "end": self.end, "areas": self.areas, "output": self.show_output,
        }

    def record(self, words):
        data = words.bytes()
        answer = self.bench.ask(Operation.RECORD, data).only_answer()
        shown = f"read{hex_text(data)}:{answer_text(answer)}"
        if answer.kind == Kind.RECORD:
            shown += " image" + hex_text(data[RECORD_HEAD:answer.number])
        return shown + "\n"

    def write_line(self, given, room):
        response = self.bench.ask(Operation.LINE, bytes([room]) + given)
        answer, output = response.answer(), response.take(room)
        response.end()
        return answer, output

    def written(self, given, room):
        return f"room {room}:{filled_text(*self.write_line(given, room))}"

    def fit(self, words):
        """Writes a line in an output of one byte less than its length, then in one of its length."""
        given = line(words)
        answer, _ = self.write_line(given, LINE_ROOM)
        if answer.kind != Kind.VALUE or answer.number == 0:
            return "no line\n"
        return self.written(given, answer.number - 1) + self.written(given, answer.number)

    def write(self, words):
        """Writes a line in an output of so many bytes, with words in front, if there are any."""
        name = words.text("name") + ", " if words.words and isinstance(words.words[0], bytes) else ""
        room = words.room(1)
        return name + self.written(line(words), room)

    def set_count(self, operation, arguments, count):
        response = self.bench.ask(operation, arguments)
        response.settled()
        self.count = count
        self.kept_count(response)
        response.end()

    def kept_count(self, response):
        """Takes the count from a response that must have left it as it was."""
        if response.number(COUNT) != self.count:
            raise Failure(f"the count is not {self.count} after {response.name}")

    def listing(self, _words):
        self.set_count(Operation.LISTING, b"", 0)

    def listed(self, words):
        count = words.number("count", COUNT)
        self.set_count(Operation.LISTED, count.to_bytes(COUNT, "big"), count)

    def list_part(self, part, room):
        """Lists a part of a trace: how many bytes were used, and the text of it."""
        response = self.bench.ask(Operation.LIST, room.to_bytes(2, "big") + part)
        why, self.count = response.answer(), response.number(COUNT)
        used, written, self.output = response.number(2), response.number(2), response.take(room)
        response.end()
        shown = f"list {len(part)} in {room}:{answer_text(why)} used {used} written {written} count {self.count}\n"
        return used, shown + text(self.output[:written])

    def list(self, words):
        room = words.room()
        return self.list_part(words.bytes(), room)[1]

    def set_trace(self, words):
        """The trace that `pass` lists, from its beginning."""
        self.trace, self.place = words.bytes(), 0

    def list_to(self, words):
        """Lists what stands between the place in the trace and another; what was used is passed."""
        to, room = words.number("place", 2), words.room()
        if not self.place <= to <= len(self.trace):
            raise Failure(f"{to} is no place in the rest of the trace, from {self.place} to {len(self.trace)}")
        used, shown = self.list_part(self.trace[self.place:to], room)
        self.place += used
        return shown

    def end(self, words):
        """Ends the listing with what is left of the trace."""
        room = words.room()
        left = words.bytes()
        response = self.bench.ask(Operation.END, room.to_bytes(2, "big") + left)
        answer = response.answer()
        self.kept_count(response)
        output = response.take(room)
        response.end()
        return f"end{hex_text(left)} in {room}:{filled_text(answer, output)}"

    def areas(self, words):
        """Some of the store's bytes: pairs of a place and a size."""
        shown = []
        while words.words:
            place, size = words.number("place", 2), words.number("size", 2)
            response = self.bench.ask(Operation.STORE, place.to_bytes(2, "big") + size.to_bytes(2, "big"))
            shown.append(hex_text(response.take(size)))
            response.end()
        return f"areas:{','.join(shown)}\n"

    def show_output(self, _words):
        """The whole output of the last part listed."""
        if self.output is None:
            raise Failure("no part was listed yet")
        return text(self.output) + "\n"
