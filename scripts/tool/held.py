"""Looking at all that the program holds between requests, by calls that change none of it."""

from driver import Failure, Operation
from exchanges import NODES, TIME
from lines import answer_text, bus_name, exchange_name, hex_text
from listings import COUNT
from stations import SLOTS, SLOT_SIZE

BYTES = 40000  # all that the program holds, lent or not
FEW = 16  # bytes that are shown one by one


def slots_text(response):
    """The slots that are not all 0, in the protocol's bytes."""
    shown, slots = answer_text(response.answer()), [response.take(SLOT_SIZE) for _ in range(SLOTS)]
    found = [f", {place}:{hex_text(slot)}" for place, slot in enumerate(slots) if any(slot)]
    return shown + ("".join(found) or ", all closed")


def store_text(response):
    """The answer alone: the slots are shown by themselves."""
    answer, _ = response.answer(), response.take(SLOTS * SLOT_SIZE)
    return answer_text(answer)


def bytes_text(response):
    """The seed and the step that the first two bytes are filled by, and the bytes that are not."""
    data = response.take(BYTES)
    step = (data[1] - data[0]) % 256
    others = [place for place, byte in enumerate(data) if byte != (data[0] + place * step) % 256]
    few = "".join(f", {place}: {data[place]:02x}" for place in others)
    return f" from {data[0]:02x} by {step}" + (few if len(others) <= FEW else f", {len(others)} others")


def count_text(response):
    return f"{answer_text(response.answer())}, {response.number(COUNT)}"


def master_text(response):
    """The exchange, and the nodes for which another bus than A is chosen."""
    shown = answer_text(response.answer())
    (kind, node, sends), chosen = response.take(3), response.take(NODES)
    shown += f",{exchange_name(kind)} to {node} sent {sends}"
    return shown + "".join(f", {place} on{bus_name(bus)}" for place, bus in enumerate(chosen) if bus != 0)


def watch_text(response):
    return f"{answer_text(response.answer())}, last A {response.number(TIME)}, B {response.number(TIME)}"


# Each part, and a call that shows it and changes nothing: there is no slot 200, an output of 0 bytes has no room, and
# there is no bus 9. What is received is too short for an extended image, and remote as a standard one: 1 is the answer
# of an extended station, 3 of a standard one, 13 if another store than of 32,768 bytes is lent.
PARTS = {
    "slots": (Operation.CLOSE, bytes([200]), slots_text),
    "store": (Operation.RECEIVE, bytes([0, 0x00, 0x10, 0, 0]), store_text),
    "bytes": (Operation.STORE, bytes(2) + BYTES.to_bytes(2, "big"), bytes_text),
    "count": (Operation.END, bytes(2), count_text),
    "master": (Operation.REPLY, bytes([9, 0, 0]), master_text),
    "watch": (Operation.HEARD, bytes([9]) + bytes(TIME), watch_text),
}


class Held:
    """What was seen at the last look."""

    def __init__(self, bench):
        self.bench, self.seen = bench, {}

    def look(self, name):
        """Each part that is other than at the last look; at the first, every one."""
        if len(self.bench.drivers) > 1:
            raise Failure("a look is for one front")
        shown = ""
        for part, (operation, arguments, words) in PARTS.items():
            response = self.bench.ask(operation, arguments)
            now = words(response)
            response.end()
            if self.seen.get(part) != now:
                shown += f"{name}, {part}:{now}\n"
            self.seen[part] = now
        return shown or f"{name}: all as before\n"
