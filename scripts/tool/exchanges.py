"""Commands on a master's exchanges and on the watch for a silent bus."""

from driver import Failure, Kind, Operation
from lines import answer_text, bus_name, exchange_name
from words import EXCHANGES

NODES = 64
TIME = 4  # bytes of a time


def master_text(master):
    """The exchange under way and its node's chosen bus, which end a line."""
    kind, node, sends, chosen = master[0], master[1], master[2], master[3:]
    if kind == 0:
        return "; no exchange\n"
    bus = bus_name(chosen[node]) if node < NODES else " none"
    return f";{exchange_name(kind)} to {node} sent {sends} chosen{bus}\n"


class Exchanges:
    """The commands; each returns the text that it shows, if any."""

    def __init__(self, bench):
        self.bench, self.chosen = bench, b""

    def commands(self):
        return {
            "master": self.master, "exchange": self.exchange, "start": self.start, "reply": self.reply,
            "timeout": self.timeout, "chosen": self.show_chosen,
            "watch": self.watch, "heard": self.heard, "check": self.check,
        }

    def move(self, operation, arguments=b""):
        """A call on the master: what it answers, and the master afterwards."""
        response = self.bench.ask(operation, arguments)
        answer, master = response.answer(), response.take(3 + NODES)
        response.end()
        self.chosen = master[3:]
        return answer, master

    def moved(self, operation, arguments=b""):
        answer, master = self.move(operation, arguments)
        return answer_text(answer) + master_text(master)

    def settle(self, operation, arguments, exchange, chosen):
        """Sets the master, which is always answered alike, and is then the one that was asked for."""
        response = self.bench.ask(operation, arguments)
        response.settled()
        self.chosen = chosen
        if response.rest() != exchange + chosen:
            raise Failure(f"the master after {operation.name} is another: {response.data.hex(' ')}")

    def master(self, _words):
        self.settle(Operation.MASTER, b"", bytes(3), bytes(NODES))

    def exchange(self, words):
        """A master made by hand: one node's chosen bus, and the exchange, if there is one."""
        node, bus, exchange = words.number("node"), words.bus(), bytes(3)
        if words.words:
            exchange = bytes([1 + words.choice("exchange", EXCHANGES[1:]), words.number("node"), words.number("sends")])
        chosen = bytes(bus if place == node else 0 for place in range(NODES))
        self.settle(Operation.EXCHANGE, bytes([node, bus]) + exchange, exchange, chosen)

    def start(self, words):
        kind, node = words.choice("exchange", EXCHANGES), words.number("node")
        return f"start{exchange_name(kind)} to {node}:" + self.moved(Operation.START, bytes([kind, node]))

    def reply(self, words):
        bus, node, function = words.bus(), words.number("node"), words.number("function")
        shown = f"reply on{bus_name(bus)} from {node} function {function}:"
        return shown + self.moved(Operation.REPLY, bytes([bus, node, function]))

    def timeout(self, _words):
        return "timeout:" + self.moved(Operation.TIMEOUT)

    def show_chosen(self, _words):
        """The nodes for which bus B is chosen after the last call."""
        if not self.chosen:
            raise Failure("no call was made on a master yet")
        return "B chosen:" + "".join(f" {node}" for node, bus in enumerate(self.chosen) if bus == 1) + "\n"

    def ask_watch(self, operation, arguments):
        """A call on the watch: what it answers, and the last times afterwards as text."""
        response = self.bench.ask(operation, arguments)
        answer, a, b = response.answer(), response.number(TIME), response.number(TIME)
        response.end()
        return answer, f" last A {a}, B {b}\n"

    def watch(self, words):
        time = words.number("time", TIME)
        answer, times = self.ask_watch(Operation.WATCH, time.to_bytes(TIME, "big"))
        if answer != (Kind.VALUE, 0, 0):
            raise Failure(f"the answer to WATCH is not the value 0: {answer}")
        return f"new {time}:{times}"

    def heard(self, words):
        bus, time = words.bus(), words.number("time", TIME)
        answer, times = self.ask_watch(Operation.HEARD, bytes([bus]) + time.to_bytes(TIME, "big"))
        return f"heard {bus} at {time}:{answer_text(answer, 'bus')};{times}"

    def check(self, words):
        time = words.number("time", TIME)
        answer, times = self.ask_watch(Operation.CHECK, time.to_bytes(TIME, "big"))
        if answer.kind != Kind.VALUE or answer.number > 3:
            return f"check {time}:{answer_text(answer, 'value')};{times}"
        a, b = (" reset" if answer.number & bit else " no reset" for bit in (1, 2))
        return f"check {time}: A{a}, B{b};{times}"
