"""Satellite avionics units on their two CAN lines, to GB/T 43671-2024.

Frames of both formats, split and joined; up to sixteen streams a station; acceptance filters; a master's exchanges over
both buses; a watch for a bus gone silent. The functions behind this module are proved; the module hands bytes to them
and names their answers. What cannot be done raises Refused, with a number and a name of document 01 or 02.

The shared library is loaded at the first call: the file that load() was given, or else the one that the environment
variable SILJUVATT_SO names, or else libsiljuvatt.so beside this file, where pip installs it, or in crates/siljuvatt/out
of the repository, where library/make-shared makes it. It must be of this module's release.

>>> board = ExtendedFields(priority=1, source=5, group=0, destination=0, function=2)
>>> station = Station(Format.EXTENDED)
>>> slot = station.open(Bus.A, board)
>>> for image in pieces(Format.EXTENDED, board, b"004127019"):
...     print(image.hex(" "), station.receive(Bus.A, image))
88 45 00 40 10 30 30 34 31 32 37 30 31 Kept(broke=False)
81 45 00 81 10 39 Packet(length=9, broke=False)
>>> station.read_bytes(slot)
b'004127019'
"""

from __future__ import annotations

import ctypes
import operator
import os
import struct
from dataclasses import dataclass
from enum import IntEnum
from pathlib import Path
from typing import Any, Iterator, NamedTuple, Optional, Sequence, Union

__all__ = [
    "AREA_SIZE", "Bus", "DONE", "Done", "EXTENDED_FIELDS", "EXTENDED_IMAGE", "EXTENDED_LIMIT", "ExtendedFields",
    "FILTERED", "Fields", "Filter", "Filtered", "Format", "GAVE_UP", "GaveUp", "KEPT", "Kept", "Kind", "MASTER_LAYOUT",
    "MASTER_SIZE", "Master", "PACKET", "Packet", "ROW_SIZE", "Refusal", "Refused", "Reply", "SEND", "SILENCE", "SLOTS",
    "STANDARD_FIELDS", "STANDARD_IMAGE", "STANDARD_LIMIT", "STATION_LAYOUT", "STATION_SIZE", "STORE_SIZE", "Send",
    "Silent", "StandardFields", "Station", "Step", "VERSION", "VERSION_MAJOR", "VERSION_MINOR", "VERSION_PATCH",
    "WATCH_LAYOUT", "WATCH_SIZE", "Watch", "id_of", "load", "piece_count", "pieces", "row_accepts", "version",
    "write_piece",
]

# The names and the numbers are those of include/siljuvatt.h, which has SILJUVATT_ before each.

VERSION_MAJOR = 0
VERSION_MINOR = 2
VERSION_PATCH = 0
VERSION = 65536 * VERSION_MAJOR + 256 * VERSION_MINOR + VERSION_PATCH
__version__ = f"{VERSION_MAJOR}.{VERSION_MINOR}.{VERSION_PATCH}"

EXTENDED_FIELDS = 5
STANDARD_FIELDS = 3
EXTENDED_LIMIT = 2048  # most bytes in a packet
STANDARD_LIMIT = 1792
EXTENDED_IMAGE = 13  # most bytes in an image
STANDARD_IMAGE = 10

STATION_SIZE = 130
STATION_LAYOUT = 1
SLOTS = 16
STORE_SIZE = 32768
AREA_SIZE = 2048  # what each slot owns of the store
MASTER_SIZE = 68
MASTER_LAYOUT = 1
WATCH_SIZE = 9
WATCH_LAYOUT = 1
SILENCE = 16000  # milliseconds
ROW_SIZE = 8

# Kinds of answers, which this module names by the classes Packet to GaveUp.
PACKET = 4
KEPT = 5
FILTERED = 6
SEND = 7
DONE = 8
GAVE_UP = 9

_VARIABLE = "SILJUVATT_SO"
_FILE = "libsiljuvatt.so"


class Format(IntEnum):
    """A frame format. A station works in one."""

    EXTENDED = 0
    STANDARD = 1


class Bus(IntEnum):
    """One of the two lines."""

    A = 0
    B = 1


class Kind(IntEnum):
    """The kind of an exchange. A poll is sent with function 1 and awaits 2; the others are sent with 3 and await 4."""

    POLL = 1
    DATA_BLOCK = 2
    COMMAND = 3


class ExtendedFields(NamedTuple):
    """The fields of an extended identifier, but for flag and number."""

    priority: int  # 0 to 3
    source: int  # 0 to 63
    group: int  # 0 to 3
    destination: int  # 0 to 63
    function: int  # 0 to 31


class StandardFields(NamedTuple):
    """The fields of a standard identifier, but for flag and number."""

    priority: int  # 0 to 3
    address: int  # 0 to 63
    side: int  # who sent the frame: 0 the master, 1 a slave


Fields = Union[ExtendedFields, StandardFields, Sequence[int]]


class Refusal(IntEnum):
    """The refusals of documents 01 and 02, each with the text that says when it is given: Refusal.REMOTE.text.

    The numbers have gaps. Later releases add some, and these may take over a part of another's meaning, as SURPLUS did
    of COUNT's: what compares refusals needs a case for the others.
    """

    text: str

    def __new__(cls, number: int, text: str) -> Refusal:
        refusal = int.__new__(cls, number)
        refusal._value_ = number
        refusal.text = text
        return refusal

    LENGTH = 1, "the image's length is outside its format's range"
    FORM = 2, "fixed bits of an extended image are wrong"
    REMOTE = 3, "RTR is 1"
    COUNT = 4, "the image is shorter than its count says; a count of 9 to 15 says 8"
    PIECE = 5, "a rule on flag, number and count is broken"
    ORPHAN = 6, "a middle or an end while its stream is not collecting"
    STEP = 7, "another number than awaited; the stream is idle now"
    LONG = 8, "the packet would pass 2,048 bytes; the stream is idle now"
    FIELD = 9, "a format, field, bus, kind or node is out of range, or the fields are of another format"
    SIZE = 10, "the packet is over the format's limit"
    INDEX = 11, "there is no piece k"
    ROOM = 12, "the output is shorter than the image"
    STORE = 13, "the store is not 32,768 bytes"
    TAKEN = 14, "the key is open already"
    FULL = 15, "all sixteen slots are open"
    CLOSED = 16, "the slot number is over 15, or the slot is closed"
    NOPACKET = 17, "the slot has no whole packet"
    BUSY = 18, "a start during an exchange"
    IDLE = 19, "a reply or a timeout with no exchange"
    NOTAWAITED = 20, "the reply does not count"
    STATE = 21, "the bytes are no sound station, master or watch of this release's layout"
    SURPLUS = 25, "the image is longer than its count says"


_REFUSALS = {int(refusal): refusal for refusal in Refusal}


class Refused(Exception):
    """A call was refused. Nothing has changed, but for the stream that lost its place (STEP, LONG).

    A number that this release does not know has the name UNKNOWN, and no refusal.

    >>> try:
    ...     piece_count(Format.EXTENDED, 2049)
    ... except Refused as refused:
    ...     print(refused.number, refused.name, "-", refused)
    10 SIZE - 10 SIZE: the packet is over the format's limit
    """

    number: int
    name: str
    refusal: Optional[Refusal]

    def __init__(self, number: int) -> None:
        self.number = operator.index(number)
        self.refusal = _REFUSALS.get(self.number)
        self.name = "UNKNOWN" if self.refusal is None else self.refusal.name
        text = "no refusal of this release" if self.refusal is None else self.refusal.text
        super().__init__(f"{self.number} {self.name}: {text}")

    def __reduce__(self) -> tuple[Any, ...]:
        return Refused, (self.number,)  # so that another process can hand it back


@dataclass(frozen=True)
class Packet:
    """The stream has a packet of this length; broke: an older one was not whole and is dropped."""

    length: int
    broke: bool


@dataclass(frozen=True)
class Kept:
    """More of the packet is awaited; broke: an older one was not whole and is dropped."""

    broke: bool


@dataclass(frozen=True)
class Filtered:
    """No slot is open with the frame's key."""


@dataclass(frozen=True)
class Send:
    """The master is to send on this bus."""

    bus: Bus


@dataclass(frozen=True)
class Done:
    """The exchange is answered."""


@dataclass(frozen=True)
class GaveUp:
    """The exchange has ended unanswered."""


Reply = Union[Packet, Kept, Filtered]
Step = Union[Send, Done, GaveUp]


class Silent(NamedTuple):
    """Which buses are to be reset."""

    a: bool
    b: bool


# ---- The shared library ----

_loaded: Optional[ctypes.CDLL] = None

_u8, _u16, _u32, _size = ctypes.c_uint8, ctypes.c_uint16, ctypes.c_uint32, ctypes.c_size_t
_lent: list[Any] = [ctypes.c_void_p, _size]  # a pointer, and its length behind it

# include/siljuvatt.h has the declarations in C.
_ARGUMENTS: dict[str, list[Any]] = {
    "version": [],
    "piece_count": [_u8, _size],
    "write_piece": [_u8, *_lent, *_lent, _size, *_lent],
    "station_new": [*_lent, _u8],
    "open": [*_lent, _u8, *_lent],
    "close": [*_lent, _size],
    "receive": [*_lent, *_lent, _u8, *_lent],
    "read": [*_lent, *_lent, _size, ctypes.POINTER(_size)],
    "filter_accepts": [_u16, _u16, _u16],
    "row_accepts": [ctypes.c_void_p, _u16],
    "master_new": _lent,
    "master_start": [*_lent, _u8, _u8],
    "master_reply": [*_lent, _u8, _u8, _u8],
    "master_timeout": _lent,
    "watch_new": [*_lent, _u32],
    "watch_heard": [*_lent, _u8, _u32],
    "watch_check": [*_lent, _u32],
}

_BOOLEAN = ("filter_accepts", "row_accepts")  # the others answer 32 bits


def _places() -> list[Path]:
    """Where the library is looked for if nothing names it."""
    here = Path(__file__).resolve().parent
    return [here / _FILE, here.parents[2] / "crates/siljuvatt/out" / _FILE]


def _find() -> str:
    named = os.environ.get(_VARIABLE)
    if named:
        return named
    for place in _places():
        if place.is_file():
            return str(place)
    raise OSError(f"{_FILE} is not there: make it by library/make-shared, or name it in {_VARIABLE} or to load()")


def _same_release(library: Any, file: Any) -> None:
    """The module knows the calls and the states of its own release alone. OSError if the library is of another."""
    try:
        asked = library.siljuvatt_version
    except AttributeError:
        raise OSError(f"{file} has no siljuvatt_version: it is no siljuvatt library of 0.2.0 or later") from None
    asked.restype = _u32
    number = asked()
    if number != VERSION:
        release = f"{number >> 16}.{number >> 8 & 0xFF}.{number & 0xFF}"
        raise OSError(f"{file} is of release {release}, and this module is of {__version__}: install both from one")


def load(path: Union[str, os.PathLike[str], None] = None) -> None:
    """Loads the shared library from a file, or from where it is found (see the module's text).

    OSError if it is not there, or is of another release.
    """
    global _loaded
    file = os.fspath(path) if path is not None else _find()
    # PyDLL and not CDLL: other Python threads wait for a call, which takes microseconds, so that none of them can
    # touch a station, or resize its store, while the library works on it.
    library = ctypes.PyDLL(file)
    _same_release(library, file)
    for name, arguments in _ARGUMENTS.items():
        function = getattr(library, f"siljuvatt_{name}")
        function.argtypes = arguments
        function.restype = ctypes.c_bool if name in _BOOLEAN else _u32
    _loaded = library


def _library() -> Any:
    if _loaded is None:
        load()
    return _loaded


def version() -> int:
    """The release of the shared library, as VERSION is that of the module: 65,536 * major + 256 * minor + patch.

    >>> version() == VERSION
    True
    """
    return int(_library().siljuvatt_version())


def _number(answer: int) -> int:
    return answer & 0xFFFF


def _accepted(answer: int) -> int:
    """The answer, unless it is a refusal."""
    if answer >> 31:
        raise Refused(_number(answer))
    return answer


def _kind(answer: int) -> int:
    return answer >> 16 & 0xFF


def _unknown(answer: int) -> RuntimeError:
    """For an answer that means nothing to this module. It is no Refused, which says that nothing has changed."""
    return RuntimeError(f"the library answers {answer:#010x}, of kind {_kind(answer)}: no answer of this release")


# A number too large for its place in C must not wrap into range. The largest number that fits is out of range
# wherever a byte or a size may be refused.


def _byte(number: int) -> int:
    number = operator.index(number)
    return number if 0 <= number <= 0xFF else 0xFF


def _any_size(number: int) -> int:
    number = operator.index(number)
    most = _size(-1).value
    return number if 0 <= number <= most else most


def _sixteen_bits(number: int) -> int:
    number = operator.index(number)
    if not 0 <= number <= 0xFFFF:
        raise ValueError(f"{number} is not a number of 16 bits")
    return number


def _time(now: int) -> int:
    """Milliseconds of a free-running count, as the 32 bits of it that the watch keeps."""
    return operator.index(now) & 0xFFFFFFFF


def _given(data: Any) -> tuple[bytes, int]:
    """Bytes to be read by the library, and their number. A number or a text is none: TypeError."""
    if not isinstance(data, bytes):
        data = bytes(memoryview(data))
    return data, len(data)


def _field_bytes(fields: Fields) -> tuple[bytes, int]:
    return _given(bytes(_byte(field) for field in fields))


def _writable(buffer: Any) -> tuple[Any, int]:
    """A buffer to be written to by the library, and its length. It can't be resized as long as this is in use."""
    view = memoryview(buffer)
    array = (ctypes.c_uint8 * view.nbytes).from_buffer(view)
    return array, view.nbytes


def _sound(data: Any, refusal: Refusal, call: str, *arguments: int) -> Any:
    """A state of these bytes. Refused: STATE.

    The arguments are ones that the call refuses, with that refusal, of a sound state: STATE comes first.
    """
    data, length = _given(data)
    state = (ctypes.c_uint8 * length).from_buffer_copy(data)
    answer = getattr(_library(), f"siljuvatt_{call}")(state, length, *arguments)
    if not answer >> 31:
        raise _unknown(answer)
    if _number(answer) != refusal:
        raise Refused(_number(answer))
    return state


_NO_SLOT = SLOTS
_NO_BUS = 2


# ---- Splitting ----


def piece_count(format: int, size: int) -> int:
    """How many pieces a packet of that many bytes is: 1 to 256. Refused: FIELD, SIZE.

    >>> piece_count(Format.EXTENDED, 17), piece_count(Format.STANDARD, 1792)
    (3, 256)
    """
    return _accepted(_library().siljuvatt_piece_count(_byte(format), _any_size(size)))


def write_piece(format: int, fields: Fields, packet: Any, k: int, output: Any) -> int:
    """Writes the image of piece k over the head of a writable buffer and returns its length.

    The rest of the output stays. The count in the image is how many data bytes it has, at most 8. Refused: FIELD, SIZE,
    INDEX, ROOM.
    """
    answer = _library().siljuvatt_write_piece(
        _byte(format), *_field_bytes(fields), *_given(packet), _any_size(k), *_writable(output))
    return _accepted(answer)


def pieces(format: int, fields: Fields, packet: Any) -> Iterator[bytes]:
    """The images of a packet's pieces, in the order in which they are sent. Refused at once: FIELD, SIZE.

    >>> [image.hex(" ") for image in pieces(Format.STANDARD, StandardFields(2, 22, 1), b"004127019")]
    ['96 a8 00 30 30 34 31 32 37 30', '96 c3 01 31 39']
    """
    packet, size = _given(packet)
    output = bytearray(EXTENDED_IMAGE)  # the longer one
    write_piece(format, fields, packet, 0, output)  # piece 0 is refused only for the format, the fields or the size
    count = piece_count(format, size)

    def images() -> Iterator[bytes]:
        for k in range(count):
            length = write_piece(format, fields, packet, k, output)
            yield bytes(output[:length])

    return images()


# ---- A station ----

_STREAMS = ("closed", "idle", "collecting", "done")


class Station:
    """Up to sixteen streams of one format.

    The packets lie in a store of 32,768 bytes: one of the station's own, or any writable buffer that is lent to it, as
    a bytearray or an mmap. The station itself is 130 bytes: bytes(station), and Station.from_bytes makes it again of
    them and the store. Stations are equal if these bytes and their stores are.

    >>> station = Station(Format.EXTENDED)
    >>> station.open(Bus.B, ExtendedFields(priority=0, source=6, group=0, destination=0, function=2))
    0
    >>> station.receive(Bus.B, b"\\x81\\x06\\x00\\xC0\\x10\\x39")
    Packet(length=1, broke=False)
    >>> station.read_bytes(0)
    b'9'
    >>> station.receive(Bus.A, b"\\x81\\x06\\x00\\xC0\\x10\\x39")
    Filtered()
    >>> station
    <Station EXTENDED: slot 0 done, 1 bytes>
    """

    def __init__(self, format: int = Format.EXTENDED, store: Any = None) -> None:
        self._state: Any = (ctypes.c_uint8 * STATION_SIZE)()
        _accepted(_library().siljuvatt_station_new(self._state, STATION_SIZE, _byte(format)))
        self._lend(bytearray(STORE_SIZE) if store is None else store)

    def _lend(self, store: Any) -> None:
        self._lent = store
        self._store, self._store_size = _writable(store)

    @property
    def store(self) -> Any:
        """The buffer in which the packets lie."""
        return self._lent

    @classmethod
    def from_bytes(cls, data: Any, store: Any) -> Station:
        """The station that these bytes are, with the store that it had: a packet lies in it. Refused: STATE."""
        station = cls.__new__(cls)
        station._state = _sound(data, Refusal.CLOSED, "close", _NO_SLOT)
        station._lend(store)
        return station

    def __bytes__(self) -> bytes:
        return bytes(self._state)

    def __reduce__(self) -> tuple[Any, ...]:
        # A copy has a state and a store of its own.
        return Station.from_bytes, (bytes(self), bytearray(self._store))

    def __eq__(self, other: object) -> bool:
        if not isinstance(other, Station):
            return NotImplemented
        return bytes(self) == bytes(other) and bytes(self._store) == bytes(other._store)

    def __repr__(self) -> str:
        records = struct.unpack_from(f"<{2 * SLOTS}I", self._state)[1::2]
        streams = [f"slot {slot} {_STREAMS[record >> 16]}" + (f", {_number(record)} bytes" if record >> 17 else "")
                   for slot, record in enumerate(records) if record]
        return f"<Station {Format(self._state[8 * SLOTS]).name}: {'; '.join(streams) or 'no slot open'}>"

    def open(self, bus: int, fields: Fields) -> int:
        """Opens a key in the lowest closed slot and returns the slot's number. Refused: FIELD, TAKEN, FULL."""
        return _accepted(
            _library().siljuvatt_open(self._state, STATION_SIZE, _byte(bus), *_field_bytes(fields)))

    def close(self, slot: int) -> None:
        """Closes a slot; no byte of the store changes. Refused: CLOSED."""
        _accepted(_library().siljuvatt_close(self._state, STATION_SIZE, _any_size(slot)))

    def receive(self, bus: int, image: Any) -> Reply:
        """Receives the image of a frame on a bus: Packet, Kept or Filtered.

        A count of 9 to 15 in the image is read as 8, in both formats: it says eight data bytes (ISO 11898-1, classical
        CAN), of which a standard start, middle or end has its number first. Nothing keeps which count it was.
        Refused: STORE, FIELD (the bus), LENGTH, FORM, REMOTE, COUNT, SURPLUS, PIECE, ORPHAN, STEP, LONG.
        """
        answer = _accepted(_library().siljuvatt_receive(
            self._state, STATION_SIZE, self._store, self._store_size, _byte(bus), *_given(image)))
        kind, broke = _kind(answer), bool(answer >> 24 & 1)
        if kind == PACKET:
            return Packet(_number(answer), broke)
        if kind == KEPT:
            return Kept(broke)
        if kind == FILTERED:
            return Filtered()
        raise _unknown(answer)

    def read(self, slot: int) -> memoryview:
        """The packet of a slot: the part of the store itself, read-only, with no copying.

        It shows what the store holds, so it changes with the stream's next start or single; read_bytes copies.
        Refused: STORE, CLOSED, NOPACKET.
        """
        start = _size(0)
        length = _accepted(_library().siljuvatt_read(
            self._state, STATION_SIZE, self._store, self._store_size, _any_size(slot), ctypes.byref(start)))
        part = memoryview(self._lent).cast("B")[start.value:start.value + length]
        return part.toreadonly()

    def read_bytes(self, slot: int) -> bytes:
        """The packet of a slot, copied: it stays as it is. Refused as read."""
        return bytes(self.read(slot))


# ---- Acceptance filters ----


def id_of(image: Any) -> int:
    """What filters look at: ID.28 to ID.13, bytes 1 and 2 of an extended image. ValueError if it is shorter."""
    data, size = _given(image)
    if size < 3:
        raise ValueError("an image of less than 3 bytes")
    return data[1] << 8 | data[2]


class Filter(NamedTuple):
    """A filter of 16 code bits and 16 mask bits, over ID.28 to ID.13.

    >>> groups_1_and_3 = Filter(code=0x00C0, mask=0xFFBF)
    >>> [groups_1_and_3.accepts(group << 6) for group in range(4)]
    [False, True, False, True]
    """

    code: int
    mask: int

    def accepts(self, id: int) -> bool:
        """Whether each bit is the code's or has mask bit 1."""
        return bool(_library().siljuvatt_filter_accepts(
            _sixteen_bits(self.code), _sixteen_bits(self.mask), _sixteen_bits(id)))


def row_accepts(row: Any, id: int) -> bool:
    """Whether a row of Table A.1 accepts: code 0, mask 0, code 1, mask 1 and so on, 8 bytes.

    ValueError if they are not 8: it is the module that asks for them, no refusal of the library.

    >>> row_accepts(bytes.fromhex("45 00 00 00 46 00 00 00"), 0x4600)
    True
    """
    data, size = _given(row)
    if size != ROW_SIZE:
        raise ValueError(f"a row is {ROW_SIZE} bytes, and not {size}")
    return bool(_library().siljuvatt_row_accepts(data, _sixteen_bits(id)))


# ---- A master ----


class Master:
    """The bus chosen for each of 64 nodes, and at most one exchange: 68 bytes, bytes(master).

    >>> master = Master()
    >>> master.start(Kind.COMMAND, node=22), master.timeout(), master.timeout()
    (Send(bus=<Bus.A: 0>), Send(bus=<Bus.A: 0>), Send(bus=<Bus.B: 1>))
    >>> master
    <Master: COMMAND with node 22, 3 sent; nodes on bus B: 22>
    >>> master.reply(Bus.B, node=22, function=4)
    Done()
    """

    def __init__(self) -> None:
        self._state: Any = (ctypes.c_uint8 * MASTER_SIZE)()
        _accepted(_library().siljuvatt_master_new(self._state, MASTER_SIZE))

    @classmethod
    def from_bytes(cls, data: Any) -> Master:
        """The master that these bytes are. Refused: STATE."""
        master = cls.__new__(cls)
        master._state = _sound(data, Refusal.FIELD, "master_reply", _NO_BUS, 0, 0)
        return master

    def __bytes__(self) -> bytes:
        return bytes(self._state)

    def __reduce__(self) -> tuple[Any, ...]:
        return Master.from_bytes, (bytes(self),)  # a copy has a state of its own

    def __eq__(self, other: object) -> bool:
        if not isinstance(other, Master):
            return NotImplemented
        return bytes(self) == bytes(other)

    def __repr__(self) -> str:
        *buses, kind, node, sends, _ = self._state
        exchange = f"{Kind(kind).name} with node {node}, {sends} sent" if kind else "no exchange"
        nodes = [str(node) for node, bus in enumerate(buses) if bus == Bus.B]
        return f"<Master: {exchange}; nodes on bus B: {', '.join(nodes) or 'none'}>"

    def start(self, kind: int, node: int) -> Step:
        """Starts an exchange with a node: Send. Refused: FIELD, BUSY."""
        return _step(_library().siljuvatt_master_start(self._state, MASTER_SIZE, _byte(kind), _byte(node)))

    def reply(self, bus: int, node: int, function: int) -> Step:
        """A reply from a node has come in: Done. Refused: FIELD, IDLE, NOTAWAITED."""
        return _step(_library().siljuvatt_master_reply(
            self._state, MASTER_SIZE, _byte(bus), _byte(node), _byte(function)))

    def timeout(self) -> Step:
        """No reply came in time: Send or GaveUp. Refused: IDLE."""
        return _step(_library().siljuvatt_master_timeout(self._state, MASTER_SIZE))


def _step(answer: int) -> Step:
    answer = _accepted(answer)
    kind = _kind(answer)
    if kind == SEND and _number(answer) in (Bus.A, Bus.B):
        return Send(Bus(_number(answer)))
    if kind == DONE:
        return Done()
    if kind == GAVE_UP:
        return GaveUp()
    raise _unknown(answer)


# ---- A watch ----


class Watch:
    """The silence of each bus, in milliseconds of a free-running count: 9 bytes, bytes(watch).

    A time may be any whole number, as int(time.monotonic() * 1000): its low 32 bits count.

    >>> watch = Watch(now=0)
    >>> watch.heard(Bus.B, now=9000)
    >>> watch.check(now=15999), watch.check(now=16000)
    (Silent(a=False, b=False), Silent(a=True, b=False))
    >>> watch
    <Watch: bus A from 16000, bus B from 9000>
    """

    def __init__(self, now: int) -> None:
        self._state: Any = (ctypes.c_uint8 * WATCH_SIZE)()
        _accepted(_library().siljuvatt_watch_new(self._state, WATCH_SIZE, _time(now)))

    @classmethod
    def from_bytes(cls, data: Any) -> Watch:
        """The watch that these bytes are. Refused: STATE."""
        watch = cls.__new__(cls)
        watch._state = _sound(data, Refusal.FIELD, "watch_heard", _NO_BUS, 0)
        return watch

    def __bytes__(self) -> bytes:
        return bytes(self._state)

    def __reduce__(self) -> tuple[Any, ...]:
        return Watch.from_bytes, (bytes(self),)  # a copy has a state of its own

    def __eq__(self, other: object) -> bool:
        if not isinstance(other, Watch):
            return NotImplemented
        return bytes(self) == bytes(other)

    def __repr__(self) -> str:
        times = struct.unpack_from("<2I", self._state)
        return f"<Watch: bus A from {times[0]}, bus B from {times[1]}>"

    def heard(self, bus: int, now: int) -> None:
        """A bus is heard. Refused: FIELD."""
        _accepted(_library().siljuvatt_watch_heard(self._state, WATCH_SIZE, _byte(bus), _time(now)))

    def check(self, now: int) -> Silent:
        """Which buses have been silent for 16,000 ms (SILENCE) or more; such a bus's silence counts from now on."""
        answer = _accepted(_library().siljuvatt_watch_check(self._state, WATCH_SIZE, _time(now)))
        return Silent(bool(answer >> 25 & 1), bool(answer >> 26 & 1))
