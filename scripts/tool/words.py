"""The words of a script: its lines, the names it gives, and the arguments of a call."""

import re
from functools import reduce

from driver import Failure

TOKEN = re.compile(r'\s*(?:#.*|"([^"]*)"|([^\s"#]+))')
NAME = re.compile(r"[A-Za-z][A-Za-z0-9-]*")
HEX_BYTES = re.compile(r"[0-9A-Fa-f]{2}(\|[0-9A-Fa-f]{2})*")

FORMATS = ["extended", "standard"]
FIELD_COUNTS = {"extended": 5, "standard": 3}
FLAGS = ["middle", "start", "end", "single"]
PROGRESS = ["closed", "idle", "collecting", "done"]
EXCHANGES = ["none", "poll", "data-block", "command"]
BUSES = ["A", "B"]
COUNTS = ["no", "one", "two", "three", "four", "five", "six"]

KEYWORDS = {
    *FORMATS, *FLAGS, *PROGRESS, *EXCHANGES, *BUSES, *COUNTS, "let", "each", "quiet", "after", "sample", "room", "and",
    "or", "any", "code", "mask", "ID", "sources", "groups", "destinations", "header", "frame", "refused", "stopped",
    "records", "packet", "kept", "broke", "filtered",
}


def tokens(line):
    """The words of a line: text in quotes as bytes, all else as str; what follows '#' is none of it."""
    found, place = [], 0
    line = line.rstrip()
    while place < len(line):
        match = TOKEN.match(line, place)
        if not match:
            raise Failure("a quote is not closed")
        text, word = match.groups()
        if text is not None:
            found.append(text.encode("latin-1"))
        elif word is not None:
            found.append(word)
        place = match.end()
    return found


def sample(size):
    """Bytes of which no two pieces of a packet are alike, in either format."""
    return bytes((i % 256 + i // 256) % 256 for i in range(size))


class Names:
    """What `let` has named: words that stand for others."""

    def __init__(self, reserved):
        self.reserved, self.meanings = reserved, {}

    def let(self, words):
        if len(words) < 2 or words[1] != "=" or not isinstance(words[0], str):
            raise Failure("a name is given as: let NAME = WORDS")
        name = words[0]
        if not NAME.fullmatch(name) or HEX_BYTES.fullmatch(name):
            raise Failure(f"'{name}' cannot be a name: it takes letters, digits and '-', and must not look like a byte")
        if name in self.reserved or name in self.meanings:
            raise Failure(f"'{name}' has a meaning already")
        self.meanings[name] = self.expand(words[2:])

    def expand(self, words):
        found = []
        for word in words:
            found += self.meanings.get(word, [word])
        return found


class Arguments:
    """The words after a command, taken one after the other. A number may be an int already (see `each`)."""

    def __init__(self, words):
        self.words = list(words)

    def next(self, what):
        if not self.words:
            raise Failure(f"{what} is missing")
        return self.words.pop(0)

    def end(self):
        if self.words:
            raise Failure(f"'{self.words[0]}' is too much")

    def has(self, word):
        """Takes a word, if it is the next."""
        found = self.words[:1] == [word]
        if found:
            self.words.pop(0)
        return found

    def expect(self, word):
        if not self.has(word):
            raise Failure(f"'{word}' is missing" + (f" before '{self.words[0]}'" if self.words else ""))

    def number(self, what, size=1):
        """A number in decimal, of so many bytes."""
        word = self.next(what)
        if isinstance(word, str) and word.isascii() and word.isdigit():
            word = int(word)
        if not isinstance(word, int) or word >= 256 ** size:
            raise Failure(f"'{word}' is not a {what}")
        return word

    def choice(self, what, names):
        """The place of a word among names."""
        word = self.next(what)
        if word not in names:
            raise Failure(f"'{word}' is not a {what}: {', '.join(names)}")
        return names.index(word)

    def text(self, what):
        word = self.next(what)
        if not isinstance(word, bytes):
            raise Failure(f"'{word}' is not a {what} in quotes")
        return word.decode("latin-1")

    def bus(self):
        """A bus by its name, or by a number, in range or not."""
        return self.choice("bus", BUSES) if self.words[:1] and self.words[0] in BUSES else self.number("bus")

    def format(self):
        return self.choice("format", FORMATS)

    def fields(self):
        """A format and its fields, in the six bytes of a request."""
        code = self.format()
        count = FIELD_COUNTS[FORMATS[code]]
        return bytes([code] + [self.number("field") for _ in range(count)]).ljust(6, b"\0")

    def key(self):
        return bytes([self.bus()]) + self.fields()

    def room(self, size=2):
        self.expect("room")
        return self.number("room", size)

    def byte(self):
        word = self.next("byte")
        if isinstance(word, int) and word < 256:
            return bytes([word])
        if isinstance(word, bytes):
            return word
        if not isinstance(word, str) or not HEX_BYTES.fullmatch(word):
            raise Failure(f"'{word}' is not a byte in two hexadecimal digits, or text in quotes")
        return bytes([reduce(int.__or__, (int(part, 16) for part in word.split("|")))])

    def bytes(self, until=None, size=None):
        """All the bytes up to that word, or up to the end; if a size is given, just so many."""
        found = b""
        while self.words and self.words[0] != until:
            found += sample(self.number("size", 2)) if self.has("sample") else self.byte()
        if size is not None and len(found) != size:
            raise Failure(f"{len(found)} bytes are given, not {size}")
        return found
