"""The text of the lines: what a response says, in words. Bytes are text as they are (latin-1)."""

from driver import Failure, Kind
from words import EXCHANGES, FLAGS, FORMATS

FIELD_NAMES = {
    "extended": ["priority", "source", "group", "destination", "function"],
    "standard": ["priority", "address", "side"],
}
PLAIN = {
    Kind.FILTERED: " filtered", Kind.DONE: " done", Kind.GAVE_UP: " gave up", Kind.DAMAGED: " damaged",
    Kind.CUT: " cut", Kind.END: " end", Kind.INPUT: " input", Kind.ROOM: " room",
}


def text(data):
    return data.decode("latin-1")


def name_of(names, place):
    """The name at a place that a response gives."""
    if place >= len(names):
        raise Failure(f"a response has {place} where there are only: {', '.join(names)}")
    return names[place]


def hex_text(data):
    """Bytes in hexadecimal, with a blank before each."""
    return "".join(f" {byte:02x}" for byte in data)


def bus_name(bus):
    return " A" if bus == 0 else " B" if bus == 1 else f" bus {bus}"


def answer_text(answer, name=""):
    """An answer; a value has a name before it."""
    broke = " broke" if answer.more else ""
    if answer.kind == Kind.PACKET:
        return f" packet {answer.number}{broke}"
    if answer.kind == Kind.KEPT:
        return f" kept{broke}"
    if answer.kind == Kind.REFUSED:
        return f" refused {answer.number}"
    if answer.kind == Kind.VALUE and name:
        return f" {name} {answer.number}"
    if answer.kind == Kind.SEND:
        return " send" + bus_name(answer.number)
    if answer.kind == Kind.RECORD:
        return f" bus {answer.more} size {answer.number}"
    if answer.kind not in PLAIN:
        raise Failure(f"there are no words for this answer here: {answer}")
    return PLAIN[answer.kind]


def fields_text(fields):
    """A format byte and its five fields, by name."""
    names = FIELD_NAMES[name_of(FORMATS, fields[0])]
    return "".join(f" {name} {value}" for name, value in zip(names, fields[1:]))


def flag_text(flag):
    return " " + name_of(FLAGS, flag)


def exchange_name(kind):
    return " " + name_of(EXCHANGES, kind).replace("-", " ")


def filled_text(answer, output):
    """The length of what was written, and the whole output, which is ended unless lines fill it."""
    full = answer.kind == Kind.VALUE and answer.number == len(output)
    return answer_text(answer, "length") + "\n" + text(output) + ("" if full else "\n")
