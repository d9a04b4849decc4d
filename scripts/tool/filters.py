"""Commands on acceptance filters: what passes of all identifiers, counted and compared with what is expected."""

from collections import Counter, defaultdict

from driver import Failure, Operation
from images import judged

ALL = 65536  # identifiers of 16 bits
HALF = ALL // 2  # as many as one request asks for
OF_FIELDS = slice(2, 5)  # source, group and destination among format and fields
ASPECTS = ["sources", "groups", "destinations"]


def two(number):
    return number.to_bytes(2, "big")


def values(words):
    """Numbers and ranges, as 0 2 16-23, or any."""
    if words.has("any"):
        return range(256)
    found = set()
    while words.words and words.words[0] not in ASPECTS + ["or"]:
        first, _, last = str(words.next("value")).partition("-")
        if not (first.isdigit() and (last or first).isdigit()):
            raise Failure(f"'{first}' is not a value, as 5 or 16-23")
        found.update(range(int(first), int(last or first) + 1))
    return found


def boxes(words):
    """What is expected to pass: sets of sources, groups and destinations, one or several."""
    found = []
    while not found or words.has("or"):
        box = []
        for aspect in ASPECTS:
            words.expect(aspect)
            box.append(values(words))
        found.append(box)
    return found


class Filters:
    """The commands; each returns the text that it shows, if any."""

    def __init__(self, bench):
        self.bench, self.number, self.registers = bench, 0, b""
        self.fields = []  # source, group and destination of each identifier
        self.places = defaultdict(list)  # the identifiers that have them

    def commands(self):
        return {
            "identifiers": self.identifiers, "groups": self.groups, "row": self.row, "named": self.named,
            "passing": self.passing,
        }

    def identifiers(self, words):
        """Which source, group and destination each identifier has: as an image is judged that has it at ID."""
        form, before = bytes([words.format()]), words.bytes("ID")
        words.expect("ID")
        after = words.bytes()
        images = [form + before + two(identifier) + after for identifier in range(ALL)]
        self.fields = []
        self.places.clear()
        for identifier, response in enumerate(self.bench.drivers[0].ask_all(Operation.JUDGE, images)):
            _, head, _, _ = judged(response)
            if head is None:
                raise Failure(f"identifier {identifier} has no fields: its image is refused")
            fields = tuple(head[OF_FIELDS])
            self.fields.append(fields)
            self.places[fields].append(identifier)

    def accepted(self, operation, arguments, first, count):
        """What a filter or a row says of so many identifiers: a byte each."""
        response = self.bench.ask(operation, arguments + two(first) + two(count))
        found = response.take(count)
        response.end()
        return found

    def all_accepted(self, operation, arguments):
        if not self.fields:
            raise Failure("the identifiers have no fields yet: 'identifiers' finds them")
        return b"".join(self.accepted(operation, arguments, first, HALF) for first in (0, HALF))

    def groups(self, words):
        """How many identifiers of each group one filter lets pass. The line shows byte 2 of code and mask."""
        words.expect("code")
        code = words.bytes("mask", size=2)
        words.expect("mask")
        mask = words.bytes(size=2)
        passing = Counter()
        for (_, group, _), passes in zip(self.fields, self.all_accepted(Operation.FILTER, code + mask)):
            passing[group] += passes
        counts = ",".join(f" group {group} {count}" for group, count in sorted(passing.items()))
        return f"code {code[1]:02x} mask {mask[1]:02x}:{counts}\n"

    def row(self, words):
        """The row of Table A.1 that the next commands are about."""
        self.number, self.registers = words.number("row"), words.bytes(size=8)

    def passes(self, fields):
        """Whether all identifiers of a source, group and destination pass, none or some: each is asked for."""
        wanted = self.places[fields]
        if not wanted:
            raise Failure(f"no identifier has source, group and destination {fields}")
        count = sum(self.accepted(Operation.ROW, self.registers, identifier, 1)[0] for identifier in wanted)
        return "none" if count == 0 else "all" if count == len(wanted) else "some"

    def named(self, words):
        """Identifiers by name: each a text, a source, a group and a destination."""
        shown = []
        while words.words:
            name = words.text("name")
            fields = words.number("source"), words.number("group"), words.number("destination")
            shown.append(f" {name} {self.passes(fields)}")
        return f"row {self.number}:{','.join(shown)}\n"

    def passing(self, words):
        """Over all identifiers: how many pass, and how many do not as expected."""
        expected = boxes(words)
        passed = differ = 0
        for fields, passes in zip(self.fields, self.all_accepted(Operation.ROW, self.registers)):
            expects = any(all(value in part for value, part in zip(fields, box)) for box in expected)
            passed += passes
            differ += passes != expects
        return f"row {self.number}: {passed} of {ALL} pass, {differ} differ\n"
