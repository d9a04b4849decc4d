"""Commands on stations: opening, receiving, reading and closing, packets fed piece by piece, and the two fronts.

Where two fronts are set, every call is made on both, and both answers are shown.
"""

from driver import Failure, Kind, Operation
from images import judge, write_piece
from lines import answer_text, bus_name, hex_text, text
from words import COUNTS, PROGRESS

SLOTS, SLOT_SIZE = 16, 10
WHOLE_IMAGE = 13  # room for any image
RECORD_HEAD = 4  # of a record: length, version and bus; the image follows
MOST_RECORD_BYTES = 65534  # of a trace that are handed in to find its next record


def side_by_side(answers, name=""):
    return " |".join(answer_text(answer, name) for answer in answers)


def alike(what, first, second):
    """How many parts of two are alike, place by place."""
    count = sum(one == other for one, other in zip(first, second))
    return f"{what} alike: {count} of {len(first)}\n"


def orders(pieces):
    """Every order of so many pieces of each of two boards: True where it is the first's turn."""
    turns = 2 * pieces
    for number in range(2 ** turns):
        order = [number >> turn & 1 == 1 for turn in range(turns)]
        if sum(order) == pieces:
            yield order


class Stations:
    """The commands; each returns the text that it shows, if any."""

    def __init__(self, bench):
        self.bench, self.slots = bench, []

    def commands(self):
        return {
            "new": self.new, "open": self.open, "close": self.close, "receive": self.receive, "hear": self.hear,
            "read": self.read, "compare": self.compare, "slot": self.slot, "lend": self.lend, "fill": self.fill,
            "feed": self.feed, "orders": self.orders, "tally": self.tally,
            "fronts": self.fronts, "alike": self.alike, "replay": self.replay,
        }

    def keep_slots(self, responses):
        self.slots = [response.take(SLOTS * SLOT_SIZE) for response in responses]
        for response in responses:
            response.end()

    def change(self, operation, arguments):
        """A call that may change the slots; returns the answers."""
        responses = self.bench.ask_each(operation, arguments)
        answers = [response.answer() for response in responses]
        self.keep_slots(responses)
        return answers

    def settle(self, operation, arguments):
        """Sets the slots, which is always answered alike."""
        responses = self.bench.ask_each(operation, arguments)
        for response in responses:
            response.settled()
        self.keep_slots(responses)

    def renew(self, form):
        self.settle(Operation.NEW, bytes([form]))
        if len(self.bench.drivers) > 1:
            self.bench.set_fronts()

    def new(self, words):
        self.renew(words.format())

    def open(self, words):
        return f"open:{side_by_side(self.change(Operation.OPEN, words.key()), 'slot')}\n"

    def close(self, words):
        number = words.number("slot")
        return f"close {number}:{side_by_side(self.change(Operation.CLOSE, bytes([number])), 'slot')}\n"

    def receive(self, words):
        bus, image = words.bus(), words.bytes()
        answers = self.change(Operation.RECEIVE, bytes([bus]) + image)
        return f"bus {bus}{hex_text(image)}:{side_by_side(answers)}\n"

    def hear(self, words):
        """As receive, with words in front of the answers in place of the image."""
        name, bus, image = words.text("name"), words.bus(), words.bytes()
        return f"{name}:{side_by_side(self.change(Operation.RECEIVE, bytes([bus]) + image))}\n"

    def slot(self, words):
        number, kind = words.number("slot"), words.choice("state", PROGRESS)
        held = words.number("size", 2) if PROGRESS[kind] in ("collecting", "done") else 0
        key = bytes(7) if PROGRESS[kind] == "closed" else words.key()
        self.settle(Operation.SLOT, bytes([number, kind]) + held.to_bytes(2, "big") + key)

    def lend(self, words):
        size = words.number("size", 2)
        self.bench.settle(Operation.LEND, size.to_bytes(2, "big"), size)

    def fill(self, words):
        seed = words.byte()
        self.bench.settle(Operation.FILL, seed + bytes([words.number("step")]))

    def packets(self, number):
        """What reading a slot gives on each front: answers and bytes."""
        responses = self.bench.ask_each(Operation.READ, bytes([number]))
        return [response.answer() for response in responses], [response.rest() for response in responses]

    def read(self, words):
        number = words.number("slot")
        answers, parts = self.packets(number)
        shown = [f"{answer_text(answer, 'length')} part{hex_text(part)}" for answer, part in zip(answers, parts)]
        return f"read {number}:{' |'.join(shown)}\n"

    def compare(self, words):
        number, sent = words.number("slot"), words.bytes()
        answers, parts = self.packets(number)
        equal = "equal" if all(part == sent for part in parts) else "NOT equal"
        return f"read {number}:{side_by_side(answers, 'length')} {equal}\n"

    def feed_piece(self, key, packet, k):
        """Writes piece k of a packet, and receives it."""
        answer, image = write_piece(self.bench, key[1:], packet, k, WHOLE_IMAGE)
        if answer.kind != Kind.VALUE:
            raise Failure(f"there is no piece {k} to feed:{answer_text(answer)}")
        self.change(Operation.RECEIVE, key[:1] + image[:answer.number])

    def feed(self, words):
        pieces, key, packet = words.number("count", 2), words.key(), words.bytes()
        for k in range(pieces):
            self.feed_piece(key, packet, k)

    def two_boards(self, words):
        """The arguments of orders and tally: pieces of each, and the key and packet of each board."""
        pieces, boards = words.choice("count", COUNTS), [(words.key(), words.bytes("and"))]
        words.expect("and")
        return pieces, boards + [(words.key(), words.bytes())]

    def weave(self, boards, order):
        """Feeds both packets to a new station in that order; what each board's slot holds at the end."""
        self.renew(boards[0][0][1])
        for key, _ in boards:
            self.change(Operation.OPEN, key)
        fed = [0, 0]
        for own in order:
            board = 0 if own else 1
            self.feed_piece(*boards[board], fed[board])
            fed[board] += 1
        return [self.packets(slot)[1] for slot in (0, 1)]

    def orders(self, words):
        """Every order of the pieces of two boards, and what is read at the end, a line each."""
        pieces, boards = self.two_boards(words)
        shown = ""
        for order in orders(pieces):
            shown += "".join("1" if own else "2" for own in order) + ":"
            for parts, (_, sent) in zip(self.weave(boards, order), boards):
                equal = "equal" if all(part == sent for part in parts) else "NOT equal"
                shown += f" {text(parts[0])}, {equal};"
            shown += "\n"
        return shown

    def tally(self, words):
        """The same, counted."""
        pieces, boards = self.two_boards(words)
        all_orders, equal = 0, 0
        for order in orders(pieces):
            all_orders += 1
            held = self.weave(boards, order)
            equal += all(part == sent for parts, (_, sent) in zip(held, boards) for part in parts)
        return f"of {all_orders} orders of {COUNTS[pieces]} pieces each, both packets equal: {equal}\n"

    def fronts(self, _words):
        """From here on every call is made on both fronts."""
        if len(self.bench.drivers) > 1:
            raise Failure("two fronts are set already")
        self.bench.start()
        self.renew(0)

    def two_fronts(self):
        if len(self.bench.drivers) < 2:
            raise Failure("there is only one front: 'fronts' sets two")

    def alike(self, words):
        """How many slots of the two fronts are alike after the last call, and how many bytes of their stores."""
        size = words.number("size", 2)
        self.two_fronts()
        stores = self.bench.ask_each(Operation.STORE, bytes(2) + size.to_bytes(2, "big"))
        first, second = (store.take(size) for store in stores)
        slots = [[held[i:i + SLOT_SIZE] for i in range(0, len(held), SLOT_SIZE)] for held in self.slots]
        return alike("slots", *slots) + alike("store bytes", first, second)

    def next_record(self, trace, at):
        """The record at that place of a trace: the answer, and its image. A damaged or cut record is none."""
        answer = self.bench.ask(Operation.RECORD, trace[at:at + MOST_RECORD_BYTES]).only_answer()
        return answer, trace[at + RECORD_HEAD:at + answer.number]

    def replay(self, words):
        """Every whole record of a trace, in order. A frame's key is opened before it, if it is not open."""
        form, trace = words.format(), self.bench.read_file(words.text("path"))
        self.two_fronts()
        shown, at, first, second = "", 0, [], []
        while True:
            record, image = self.next_record(trace, at)
            if record.kind != Kind.RECORD:
                return shown + alike("answers", first, second)
            _, fields, _, _ = judge(self.bench, form, image)
            if fields is not None:
                self.change(Operation.OPEN, bytes([record.more]) + fields)
            answers = self.change(Operation.RECEIVE, bytes([record.more]) + image)
            first.append(answers[0])
            second.append(answers[-1])
            shown += f"{len(first)}{bus_name(record.more)}{side_by_side(answers)}\n"
            if record.number == 0:
                raise Failure("a record of no bytes")
            at += record.number
