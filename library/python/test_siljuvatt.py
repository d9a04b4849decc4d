"""Holds document 01's examples and rules against the module, and runs the examples. test_install.py tests the package.

usage: python3 -m unittest test_siljuvatt   (in this folder; SILJUVATT_SO names the shared library)
"""

import contextlib
import copy
import ctypes
import doctest
import itertools
import mmap
import os
import pickle
import re
import subprocess
import symtable
import sys
import tempfile
import threading
import unittest
from pathlib import Path
from unittest import mock

import siljuvatt
from siljuvatt import (
    EXTENDED_LIMIT, STANDARD_LIMIT, STORE_SIZE, Bus, Done, ExtendedFields, Filter, Filtered, Format, GaveUp, Kept, Kind,
    Master, Packet, Refusal, Refused, Send, Silent, StandardFields, Station, Watch, id_of, piece_count, pieces,
    row_accepts, write_piece)

HERE = Path(__file__).resolve().parent
SAMPLES = HERE.parent.parent / "samples"

BOARD = ExtendedFields(1, 5, 0, 0, 2)
SLAVE = StandardFields(2, 22, 1)
KEPT, BROKE = Kept(False), Kept(True)

BOTH = [(Format.EXTENDED, BOARD), (Format.STANDARD, SLAVE)]
LIMITS = {Format.EXTENDED: EXTENDED_LIMIT, Format.STANDARD: STANDARD_LIMIT}
TOO_LARGE = (-1, 2**32, 2**32 + 1, 2**64, 2**64 + 1)  # for a size: what is over 32 or 64 bits must not wrap


def split(fields, packet):
    """A packet's pieces, by the library. Splitting checks them against images that are written out."""
    format = Format.EXTENDED if len(fields) == 5 else Format.STANDARD
    return list(pieces(format, fields, packet))


def single(fields, packet):
    """The one piece of a packet that has no more."""
    [piece] = split(fields, packet)
    return piece


def packet_of(size, seed=0):
    return bytes((i * 7 + i // 251 + seed * 31) % 256 for i in range(size))


class Case(unittest.TestCase):
    def refused(self, name, call, *arguments):
        with self.assertRaises(Refused) as caught:
            call(*arguments)
        self.assertEqual(caught.exception.name, name)
        self.assertEqual(caught.exception.number, Refusal[name])

    def station(self, format=Format.EXTENDED, fields=BOARD):
        station = Station(format)
        self.assertEqual(station.open(Bus.A, fields), 0)
        return station

    def keep(self, station, frames):
        """The stream keeps each of these pieces: none is the last."""
        for piece in frames:
            self.assertEqual(station.receive(Bus.A, piece), KEPT)

    def edited(self, sound, place, byte):
        return sound[:place] + bytes([byte]) + sound[place + 1:]

    def equal_until(self, change, one, other):
        """Two that are equal, and not the same, until one is changed."""
        self.assertIsNot(one, other)
        self.assertTrue(one == other and not one != other)
        change(one)
        self.assertTrue(one != other and not one == other)
        self.assertFalse(one == bytes(one))
        self.assertRaises(TypeError, hash, one)

    def unchanged(self, name, station, frame):
        before = bytes(station), bytes(station.store)
        self.refused(name, station.receive, Bus.A, frame)
        self.assertTrue(before == (bytes(station), bytes(station.store)), name)


class Document01(Case):
    def test_extended_images(self):
        station = self.station()
        self.assertEqual(station.receive(Bus.A, bytes.fromhex("81 45 00 C0 10 07")), Packet(1, False))
        self.assertEqual(station.read_bytes(0), b"\x07")
        largest = self.station(fields=(3, 63, 3, 63, 31))
        self.assertEqual(largest.receive(Bus.A, bytes.fromhex("80 FF FF C0 F8")), Packet(0, False))
        self.assertEqual(largest.read_bytes(0), b"")
        for name, frame in [
                ("PIECE", "81 45 00 C1 10 07"), ("FORM", "91 45 00 C0 10 07"), ("FORM", "D1 45 00 C0 10 07"),
                ("REMOTE", "C1 45 00 C0 10 07"), ("LENGTH", "81 45 00 C0"), ("LENGTH", "81" * 14)]:
            self.unchanged(name, station, bytes.fromhex(frame))

    def test_count_of_9_before_eight_data_bytes(self):
        """COUNT in document 01, and sound by request L3 of document 02, which overrules it."""
        station = self.station()
        frame = bytes.fromhex("89 45 00 C0 10 01 02 03 04 05 06 07 08")
        self.assertEqual(station.receive(Bus.A, frame), Packet(8, False))
        self.assertEqual(station.read_bytes(0), bytes(range(1, 9)))

    def test_standard_images(self):
        station = self.station(Format.STANDARD, SLAVE)
        self.assertEqual(station.receive(Bus.A, bytes.fromhex("96 E3 01 02 03")), Packet(3, False))
        self.assertEqual(station.receive(Bus.A, bytes.fromhex("96 A8 00 01 02 03 04 05 06 07")), KEPT)
        self.unchanged("PIECE", station, bytes.fromhex("96 C2 01 08"))
        self.assertEqual(station.receive(Bus.A, bytes.fromhex("96 C3 01 08 09")), Packet(9, False))
        self.assertEqual(station.read_bytes(0), bytes(range(1, 10)))

    def test_piece_counts(self):
        for format, sizes in [
                (Format.EXTENDED, {0: 1, 8: 1, 9: 2, 16: 2, 17: 3, 2048: 256}),
                (Format.STANDARD, {0: 1, 8: 1, 9: 2, 14: 2, 15: 3, 1792: 256})]:
            for size, count in sizes.items():
                self.assertEqual(piece_count(format, size), count)
        self.refused("SIZE", piece_count, Format.EXTENDED, 2049)
        self.refused("SIZE", piece_count, Format.STANDARD, 1793)

    def test_byte_3_of_pieces_64_and_255(self):
        images = list(pieces(Format.EXTENDED, BOARD, packet_of(2048)))
        self.assertEqual((len(images), images[64][3], images[255][3]), (256, 0x00, 0xBF))

    def test_byte_2_of_pieces_64_and_255_in_standard(self):
        images = list(pieces(Format.STANDARD, SLAVE, packet_of(1792)))
        self.assertEqual((len(images), images[64][2], images[255][2]), (256, 64, 255))

    def test_filter_of_groups_1_and_3(self):
        filter = Filter(0x00C0, 0xFFBF)
        row = bytes.fromhex("00 FF C0 BF 00 FF C0 BF")
        for group, source in itertools.product(range(4), range(64)):
            id = id_of(single(ExtendedFields(1, source, group, 9, 2), b""))
            self.assertIs(filter.accepts(id), group in (1, 3))
            self.assertIs(row_accepts(row, id), group in (1, 3))

    def test_command_to_node_22(self):
        master = Master()
        self.assertEqual(master.start(Kind.COMMAND, 22), Send(Bus.A))
        self.assertEqual(master.timeout(), Send(Bus.A))
        self.assertEqual(master.timeout(), Send(Bus.B))
        self.refused("NOTAWAITED", master.reply, Bus.A, 22, 4)
        self.assertEqual(master.reply(Bus.B, 22, 4), Done())
        self.assertEqual(master.start(Kind.COMMAND, 22), Send(Bus.B))

    def test_silence(self):
        for begin, now, silent in [
                (0, 15_999, False), (0, 16_000, True), (4_294_967_000, 15_703, False), (4_294_967_000, 15_704, True)]:
            self.assertEqual(Watch(begin).check(now), Silent(silent, silent))


class Splitting(Case):
    def test_images_as_they_are_written_out(self):
        for fields, packet, images in [
                (BOARD, b"", ["80 45 00 C0 10"]),
                (BOARD, b"00412701", ["88 45 00 C0 10 30 30 34 31 32 37 30 31"]),
                (BOARD, b"0041270190041270", ["88 45 00 40 10 30 30 34 31 32 37 30 31",
                                              "88 45 00 81 10 39 30 30 34 31 32 37 30"]),
                (BOARD, b"00412701900412701", ["88 45 00 40 10 30 30 34 31 32 37 30 31",
                                               "88 45 00 01 10 39 30 30 34 31 32 37 30", "81 45 00 82 10 31"]),
                (ExtendedFields(3, 63, 3, 63, 31), b"7", ["81 FF FF C0 F8 37"]),
                (SLAVE, b"", ["96 E0"]),
                (SLAVE, b"00412701", ["96 E8 30 30 34 31 32 37 30 31"]),
                (SLAVE, b"004127019", ["96 A8 00 30 30 34 31 32 37 30", "96 C3 01 31 39"]),
                (SLAVE, b"004127019004127", ["96 A8 00 30 30 34 31 32 37 30", "96 88 01 31 39 30 30 34 31 32",
                                             "96 C2 02 37"]),
                (StandardFields(3, 63, 0), b"7", ["FF 61 37"])]:
            self.assertEqual([image.hex(" ").upper() for image in split(fields, packet)], images)

    def test_every_size_comes_out_whole(self):
        for format, fields in BOTH:
            station = self.station(format, fields)
            for size in range(0, LIMITS[format] + 1):
                # A part of the sizes: Python is slow.
                if size > 64 and size % 13 and size != LIMITS[format]:
                    continue
                packet = packet_of(size, size)
                *rest, last = split(fields, packet)
                self.assertEqual(piece_count(format, size), len(rest) + 1)
                self.keep(station, rest)
                self.assertEqual(station.receive(Bus.A, last), Packet(size, False))
                self.assertEqual(station.read_bytes(0), packet)

    def test_refused_in_order_and_nothing_written(self):
        output = bytearray(b"\xEE" * 4)
        over = BOARD._replace(source=64)
        self.refused("FIELD", write_piece, Format.EXTENDED, over, bytes(2049), 999, output)
        self.refused("SIZE", write_piece, Format.EXTENDED, BOARD, bytes(2049), 999, output)
        self.refused("INDEX", write_piece, Format.EXTENDED, BOARD, bytes(9), 2, output)
        self.refused("ROOM", write_piece, Format.EXTENDED, BOARD, bytes(9), 1, output)
        self.refused("ROOM", write_piece, Format.EXTENDED, BOARD, bytes(9), 1, bytearray())
        self.refused("FIELD", pieces, Format.EXTENDED, over, bytes(2049))
        self.refused("SIZE", pieces, Format.STANDARD, SLAVE, bytes(1793))
        self.assertEqual(output, b"\xEE" * 4)

    def test_only_the_image_is_written(self):
        output = bytearray(b"\xEE" * 20)
        length = write_piece(Format.STANDARD, SLAVE, b"004127019", 1, output)
        self.assertEqual(output, bytes.fromhex("96 C3 01 31 39") + b"\xEE" * 15)
        self.assertEqual(length, 5)

    def test_numbers_that_do_not_fit_do_not_wrap(self):
        for over in (256, 256 + 1, -1, 2**64, 2**64 + 1):
            self.refused("FIELD", pieces, over, BOARD, b"")
            self.refused("FIELD", pieces, Format.EXTENDED, BOARD._replace(source=over), b"")
        self.refused("FIELD", piece_count, 256, 0)
        for over in TOO_LARGE:
            self.refused("SIZE", piece_count, Format.EXTENDED, over)
            self.refused("INDEX", write_piece, Format.EXTENDED, BOARD, bytes(9), over, bytearray(13))
        self.assertRaises(ValueError, Filter(0x10000, 0).accepts, 0)

    def test_packets_are_bytes(self):
        for wrong in (7, "007", None, 7.0):
            self.assertRaises(TypeError, pieces, Format.EXTENDED, BOARD, wrong)
            self.assertRaises(TypeError, self.station().receive, Bus.A, wrong)
        for right in (b"007", bytearray(b"007"), memoryview(b"x007")[1:]):
            self.assertEqual([piece[5:] for piece in split(BOARD, right)], [b"007"])

    def test_fields_of_another_format(self):
        self.refused("FIELD", pieces, Format.STANDARD, BOARD, b"")
        self.refused("FIELD", pieces, Format.EXTENDED, SLAVE, b"")
        self.refused("FIELD", Station(Format.EXTENDED).open, Bus.A, SLAVE)

    def test_leading_zeros_are_kept(self):
        for format, fields in BOTH:
            for serial in (b"0", b"", b"000000000", b"004127019", b"\0\0\0\x2A", b"0" * 40 + b"1"):
                station = self.station(format, fields)
                for piece in pieces(format, fields, serial):
                    station.receive(Bus.A, piece)
                self.assertEqual(station.read_bytes(0), serial)


class Receiving(Case):
    def test_broke(self):
        for format, fields in BOTH:
            station = self.station(format, fields)
            frames = split(fields, packet_of(99))
            first, last = split(fields, b"9999999907")
            self.keep(station, frames[:3])
            self.assertEqual(station.receive(Bus.A, first), BROKE)
            self.assertEqual(station.receive(Bus.A, last), Packet(10, False))
            self.assertEqual(station.read_bytes(0), b"9999999907")
            self.keep(station, frames[:1])
            self.assertEqual(station.receive(Bus.A, single(fields, b"01")), Packet(2, True))

    def test_orphan_keeps_a_done_packet(self):
        for format, fields in BOTH:
            station = self.station(format, fields)
            _, middle, end = split(fields, packet_of(20))
            self.unchanged("ORPHAN", station, end)
            self.assertEqual(station.receive(Bus.A, single(fields, b"0042")), Packet(4, False))
            self.unchanged("ORPHAN", station, middle)
            self.assertEqual(station.read_bytes(0), b"0042")

    def test_step_then_idle(self):
        for format, fields in BOTH:
            station = self.station(format, fields)
            frames = split(fields, packet_of(99))
            self.keep(station, frames[:2])
            before = bytes(station.store)
            self.refused("STEP", station.receive, Bus.A, frames[3])
            self.assertTrue(bytes(station.store) == before)
            self.refused("ORPHAN", station.receive, Bus.A, frames[2])
            self.refused("NOPACKET", station.read, 0)
            self.keep(station, frames[:1])

    def full(self):
        """A stream that has 2,048 bytes and no end: middle 191 stands for 255, since both have number 63."""
        station = self.station()
        frames = split(BOARD, packet_of(2048))
        self.keep(station, [*frames[:255], frames[191]])
        return station

    def test_long_at_2048_then_idle(self):
        station = self.full()
        end = split(BOARD, packet_of(513))[64]  # with number 0
        before = bytes(station.store)
        self.refused("LONG", station.receive, Bus.A, end)
        self.assertTrue(bytes(station.store) == before)
        self.refused("ORPHAN", station.receive, Bus.A, end)

    def test_long_stands_behind_step(self):
        self.refused("STEP", self.full().receive, Bus.A, split(BOARD, packet_of(9))[1])  # with number 1

    def test_images_refused_in_their_order(self):
        station = self.station()
        for name, frame in [
                ("LENGTH", "7F 00 00 00"), ("FORM", "7F 45 00 C1 17"), ("FORM", "EF 45 00 C1 10"),
                ("FORM", "80 45 00 C0 11"), ("REMOTE", "CF 45 00 C1 10"), ("COUNT", "8F 45 00 C1 10"),
                ("COUNT", "82 45 00 C1 10 01"), ("REMOTE", "C0 45 00 C1 10 01"), ("SURPLUS", "80 45 00 C1 10 01"),
                ("PIECE", "81 45 00 C1 10 01"), ("ORPHAN", "81 45 00 81 10 01")]:
            self.unchanged(name, station, bytes.fromhex(frame))
        station = self.station(Format.STANDARD, SLAVE)
        for name, frame in [
                ("LENGTH", "96"), ("LENGTH", "96" * 11), ("REMOTE", "96 FF"), ("COUNT", "96 EF"), ("COUNT", "96 E2 01"),
                ("REMOTE", "96 F0 00"), ("SURPLUS", "96 A0 00"), ("PIECE", "96 A1 00"),
                ("PIECE", "96 88 FF 01 02 03 04 05 06 07"), ("PIECE", "96 C0"),
                ("ORPHAN", "96 88 FE 01 02 03 04 05 06 07")]:
            self.unchanged(name, station, bytes.fromhex(frame))

    def test_key_is_bus_and_every_field(self):
        for format, fields in BOTH:
            station = self.station(format, fields)
            own = single(fields, b"1")
            self.assertEqual(station.receive(Bus.B, own), Filtered())
            for place in range(len(fields)):
                other = [field ^ (place == at) for at, field in enumerate(fields)]
                self.assertEqual(station.receive(Bus.A, single(other, b"1")), Filtered())
            self.assertEqual(station.receive(Bus.A, own), Packet(1, False))

    def test_store_then_bus_then_image(self):
        station = Station(Format.EXTENDED, bytearray(STORE_SIZE - 1))
        self.refused("STORE", station.receive, 2, b"")
        self.refused("STORE", station.read, 16)
        for bus in (2, 256, -1):
            self.refused("FIELD", Station().receive, bus, b"")
        self.refused("LENGTH", Station().receive, Bus.A, b"")


class Counts(Case):
    """Counts and lengths, by requests L3 and L4 of document 02, which overrule document 01.

    A count of 9 to 15 is read as 8, and an image too short for its count is told from one too long.
    """

    CODES = range(9, 16)
    DATA = " 01 02 03 04 05 06 07 08"
    LAYOUT = {Format.EXTENDED: (0, 0x40, 5), Format.STANDARD: (1, 0x10, 2)}  # byte of the count, RTR in it, header

    # Of each flag an image with eight data bytes and a count of 8, whether it comes after a start, and its answer.
    FILLED = [
        (Format.EXTENDED, BOARD, "88 45 00 C0 10" + DATA, False, Packet(8, False)),
        (Format.EXTENDED, BOARD, "88 45 00 40 10" + DATA, False, KEPT),
        (Format.EXTENDED, BOARD, "88 45 00 01 10" + DATA, True, KEPT),
        (Format.EXTENDED, BOARD, "88 45 00 81 10" + DATA, True, Packet(16, False)),
        (Format.STANDARD, SLAVE, "96 E8" + DATA, False, Packet(8, False)),
        (Format.STANDARD, SLAVE, "96 A8 00" + DATA[:-3], False, KEPT),
        (Format.STANDARD, SLAVE, "96 88" + DATA, True, KEPT),  # number 1
        (Format.STANDARD, SLAVE, "96 C8" + DATA, True, Packet(14, False)),
    ]

    def with_count(self, format, frame, code):
        at, _, _ = self.LAYOUT[format]
        return self.edited(frame, at, frame[at] & 0xF0 | code)

    def stations(self):
        """Of each row: its format, what makes a station that awaits the image, the image, and its answer."""
        for format, fields, frame, after_start, answer in self.FILLED:
            def awaiting(format=format, fields=fields, after_start=after_start):
                station = self.station(format, fields)
                self.keep(station, split(fields, packet_of(9))[:after_start])
                return station
            yield format, awaiting, bytes.fromhex(frame), answer

    def test_with_eight_data_bytes_all_is_as_with_8(self):
        for format, awaiting, frame, answer in self.stations():
            with_8 = awaiting()
            self.assertEqual(with_8.receive(Bus.A, frame), answer)
            for code in self.CODES:
                station = awaiting()
                self.assertEqual(station.receive(Bus.A, self.with_count(format, frame, code)), answer)
                self.assertTrue(station == with_8, (frame, code))

    def test_too_short_is_told_from_too_long(self):
        for format, awaiting, frame, _ in self.stations():
            _, _, header = self.LAYOUT[format]
            station = awaiting()
            for code, size in itertools.product(range(16), range(9)):
                said = min(code, 8)
                if size != said:
                    name = "COUNT" if size < said else "SURPLUS"
                    self.unchanged(name, station, self.with_count(format, frame, code)[:header + size])

    def test_length_form_and_remote_come_first(self):
        for format, awaiting, frame, _ in self.stations():
            at, rtr, _ = self.LAYOUT[format]
            for code in (0, 7, *self.CODES):
                remote = self.edited(frame, at, frame[at] & 0xF0 | rtr | code)
                self.unchanged("REMOTE", awaiting(), remote)
                self.unchanged("REMOTE", awaiting(), remote[:-1])
                self.unchanged("LENGTH", awaiting(), self.with_count(format, frame, code) + b"9")
                if format == Format.EXTENDED:
                    self.unchanged("FORM", awaiting(), self.edited(remote, 4, 0x11))
                    self.unchanged("FORM", awaiting(), self.edited(remote, 0, 0xD0 | code)[:-1])

    def test_piece_rules_come_after_it(self):
        for format, fields, frame in [
                (Format.EXTENDED, BOARD, "88 45 00 C1 10" + self.DATA),
                (Format.EXTENDED, BOARD, "88 45 00 41 10" + self.DATA),
                (Format.STANDARD, SLAVE, "96 A8" + self.DATA),
                (Format.STANDARD, SLAVE, "96 88 00" + self.DATA[:-3]),
                (Format.STANDARD, SLAVE, "96 88 FF" + self.DATA[:-3]),
                (Format.STANDARD, SLAVE, "96 C8 00" + self.DATA[:-3])]:
            station = self.station(format, fields)
            for code in self.CODES:
                broken = self.with_count(format, bytes.fromhex(frame), code)
                self.unchanged("PIECE", station, broken)
                self.unchanged("COUNT", station, broken[:-1])
            self.unchanged("SURPLUS", station, self.with_count(format, bytes.fromhex(frame), 7))

    def test_a_packet_comes_out_byte_for_byte(self):
        """The longest packet, whose pieces are all filled: written with 8, received with 9 to 15 in turn."""
        for format, fields in BOTH:
            at, _, _ = self.LAYOUT[format]
            packet = packet_of(LIMITS[format])
            frames = split(fields, packet)
            self.assertEqual({frame[at] & 0x0F for frame in frames}, {8})
            *rest, last = [self.with_count(format, frame, code)
                           for code, frame in zip(itertools.cycle(self.CODES), frames)]
            station = self.station(format, fields)
            self.keep(station, rest)
            self.assertEqual(station.receive(Bus.A, last), Packet(LIMITS[format], False))
            self.assertEqual(station.read_bytes(0), packet)


class Streams(Case):
    def test_slots(self):
        station = Station()
        for source in range(16):
            self.assertEqual(station.open(Bus.A, BOARD._replace(source=source)), source)
        self.refused("FIELD", station.open, 2, BOARD)
        self.refused("TAKEN", station.open, Bus.A, BOARD)
        self.refused("FULL", station.open, Bus.B, BOARD)
        station.close(9)
        station.close(4)
        self.refused("CLOSED", station.close, 4)
        self.refused("CLOSED", station.read, 4)
        for slot in (16, *TOO_LARGE):
            self.refused("CLOSED", station.close, slot)
            self.refused("CLOSED", station.read, slot)
        self.assertEqual(station.open(Bus.B, BOARD), 4)

    def test_two_boards_in_every_order(self):
        keys = [(Bus.A, BOARD), (Bus.B, BOARD)]
        packets = [packet_of(33, 1), packet_of(33, 2)]
        orders = list(itertools.combinations(range(10), 5))
        self.assertEqual(len(orders), 252)
        for order in orders:
            station = Station()
            slots = [station.open(*key) for key in keys]
            frames = [iter(split(BOARD, packet)) for packet in packets]
            for turn in range(10):
                which = turn in order
                station.receive(keys[which][0], next(frames[which]))
            self.assertEqual([station.read_bytes(slot) for slot in slots], packets, order)

    def test_functions_of_one_node_are_kept_apart(self):
        other = BOARD._replace(function=4)
        station = self.station()
        station.open(Bus.A, other)
        for one, two in zip(split(BOARD, packet_of(99, 1)), split(other, packet_of(99, 2))):
            station.receive(Bus.A, one)
            station.receive(Bus.A, two)
        self.assertEqual(station.read_bytes(0), packet_of(99, 1))
        self.assertEqual(station.read_bytes(1), packet_of(99, 2))

    def test_read_is_the_part_of_the_store(self):
        station = self.station()
        station.receive(Bus.A, single(BOARD, b"007"))
        view, kept = station.read(0), station.read_bytes(0)
        self.assertTrue(view.readonly)
        self.assertEqual(view, b"007")
        station.receive(Bus.A, single(BOARD, b"008"))
        self.assertEqual((bytes(view), kept), (b"008", b"007"))
        self.assertEqual(station.store[:4], b"008\0")

    def test_lent_stores(self):
        with mmap.mmap(-1, STORE_SIZE) as lent:
            station = Station(Format.EXTENDED, lent)
            station.open(Bus.A, BOARD)
            station.receive(Bus.A, single(BOARD, b"007"))
            self.assertEqual(lent[:3], b"007")
            self.assertEqual(station.read_bytes(0), b"007")
            del station
        lent = bytearray(STORE_SIZE)
        station = Station(Format.EXTENDED, lent)
        with self.assertRaises(BufferError):
            lent.append(0)  # the station has it in use
        self.assertRaises(TypeError, Station, Format.EXTENDED, bytes(STORE_SIZE))

    def test_bytes_and_copies(self):
        station = self.station()
        first, *rest = split(BOARD, packet_of(30))
        station.receive(Bus.A, first)
        others = [
            copy.copy(station), copy.deepcopy(station), pickle.loads(pickle.dumps(station)),
            Station.from_bytes(bytes(station), bytearray(station.store))]
        before = bytes(station), bytes(station.store)
        for other in others:
            for piece in rest:
                other.receive(Bus.A, piece)
            self.assertEqual(other.read_bytes(0), packet_of(30))
        self.assertEqual((bytes(station), bytes(station.store)), before)

    def test_bytes_that_are_no_sound_station(self):
        sound = bytes(self.station())
        store = bytearray(STORE_SIZE)
        self.assertEqual(bytes(Station.from_bytes(sound, store)), sound)
        # The format, the key, the stream, and the layout, which is the last byte.
        for place, byte in [(128, 2), (1, 64), (6, 4), (4, 1), (129, 0), (129, 2)]:
            self.refused("STATE", Station.from_bytes, self.edited(sound, place, byte), store)
        self.refused("STATE", Station.from_bytes, sound[:8] * 2 + sound[16:], store)  # one key twice
        for none in (b"", sound[1:], sound + b"\1", bytes(len(sound))):
            self.refused("STATE", Station.from_bytes, none, store)
        self.refused("FIELD", Station, 2)

    def test_bytes_need_their_store(self):
        station = self.station()
        station.receive(Bus.A, single(BOARD, b"007"))
        self.assertEqual(Station.from_bytes(bytes(station), station.store).read_bytes(0), b"007")
        self.assertRaises(TypeError, Station.from_bytes, bytes(station))
        self.assertRaises(TypeError, Station.from_bytes, bytes(station), None)

    def test_equal(self):
        for frame in (single(BOARD, b"7"), split(BOARD, b"000000070")[0]):
            one, other = self.station(), self.station()
            self.equal_until(lambda station: station.receive(Bus.A, frame), one, other)
            other.receive(Bus.A, frame)
            self.assertEqual(one, other)
        self.equal_until(lambda station: station.store.__setitem__(-1, 1), one, other)  # the store alone
        self.assertNotEqual(Station(Format.EXTENDED), Station(Format.STANDARD))
        self.assertNotEqual(Station(), Station(Format.EXTENDED, bytearray(STORE_SIZE - 1)))

    def test_shown(self):
        station = Station(Format.STANDARD)
        self.assertEqual(repr(station), "<Station STANDARD: no slot open>")
        keys = [SLAVE._replace(address=address) for address in range(16)]
        for key in keys:
            station.open(Bus.A, key)
        for slot in set(range(16)) - {0, 7, 15}:
            station.close(slot)
        station.receive(Bus.A, split(keys[7], packet_of(9))[0])
        station.receive(Bus.A, single(keys[15], b"07"))
        self.assertEqual(
            repr(station), "<Station STANDARD: slot 0 idle; slot 7 collecting, 7 bytes; slot 15 done, 2 bytes>")

    def test_threads(self):
        station = Station()
        keys = [BOARD._replace(source=source) for source in range(4)]
        slots = [station.open(Bus.A, key) for key in keys]

        def send(key, seed):
            for piece in split(key, packet_of(2000, seed)):
                station.receive(Bus.A, piece)

        threads = [threading.Thread(target=send, args=(key, seed)) for seed, key in enumerate(keys)]
        for thread in threads:
            thread.start()
        for thread in threads:
            thread.join()
        self.assertEqual([station.read_bytes(slot) for slot in slots], [packet_of(2000, seed) for seed in range(4)])


class Exchanges(Case):
    def test_poll_and_data_block(self):
        master = Master()
        self.assertEqual(master.start(Kind.POLL, 7), Send(Bus.A))
        self.refused("NOTAWAITED", master.reply, Bus.A, 7, 4)
        self.assertEqual(master.timeout(), GaveUp())
        self.assertEqual(master.start(Kind.DATA_BLOCK, 7), Send(Bus.B))
        self.assertEqual(master.timeout(), Send(Bus.B))
        self.assertEqual(master.reply(Bus.B, 7, 4), Done())

    def test_command_goes_over_and_back(self):
        master = Master()
        for first, other in [(Bus.A, Bus.B), (Bus.B, Bus.A)]:
            self.assertEqual(master.start(Kind.COMMAND, 22), Send(first))
            self.assertEqual([master.timeout() for _ in range(3)], [Send(first), Send(other), GaveUp()])
        self.assertEqual(master.start(Kind.COMMAND, 22), Send(Bus.A))
        self.assertEqual(master.reply(Bus.A, 22, 4), Done())
        self.assertEqual(master.start(Kind.COMMAND, 23), Send(Bus.A))

    def test_refused_in_order(self):
        master = Master()
        self.refused("FIELD", master.start, Kind.POLL, 64)
        for over in (0, 4, 256 + 1):
            self.refused("FIELD", master.start, over, 22)
        self.refused("FIELD", master.start, Kind.POLL, 256 + 22)
        self.refused("FIELD", master.reply, 2, 22, 4)
        self.refused("FIELD", master.reply, Bus.A, 22, 32)
        self.refused("IDLE", master.reply, Bus.A, 22, 4)
        self.refused("IDLE", master.timeout)
        master.start(Kind.COMMAND, 22)
        self.refused("BUSY", master.start, Kind.POLL, 1)
        for bus, node, function in [(Bus.B, 22, 4), (Bus.A, 23, 4), (Bus.A, 22, 2)]:
            self.refused("NOTAWAITED", master.reply, bus, node, function)

    def test_bytes_and_copies(self):
        master = Master()
        master.start(Kind.COMMAND, 22)
        sound = bytes(master)
        for other in (copy.copy(master), copy.deepcopy(master), Master.from_bytes(sound)):
            self.assertEqual(other.reply(Bus.A, 22, 4), Done())
        self.assertEqual(bytes(master), sound)
        for place, byte in [(0, 2), (64, 4), (65, 64), (66, 0), (66, 4), (67, 0), (67, 2)]:
            self.refused("STATE", Master.from_bytes, self.edited(sound, place, byte))
        for none in (b"", sound[1:], sound + b"\1", bytes(len(sound))):
            self.refused("STATE", Master.from_bytes, none)

    def test_masters_equal_and_shown(self):
        self.equal_until(lambda master: master.start(Kind.POLL, 7), Master(), Master())
        master = Master()
        self.assertEqual(repr(master), "<Master: no exchange; nodes on bus B: none>")
        for node in (7, 63):
            master.start(Kind.POLL, node)
            master.timeout()
        self.assertEqual(repr(master), "<Master: no exchange; nodes on bus B: 7, 63>")
        master.start(Kind.DATA_BLOCK, 22)
        self.assertEqual(repr(master), "<Master: DATA_BLOCK with node 22, 1 sent; nodes on bus B: 7, 63>")

    def test_watch(self):
        watch = Watch(1000)
        watch.heard(Bus.A, 9000)
        self.refused("FIELD", watch.heard, 2, 0)
        self.assertEqual(watch.check(16_999), (False, False))
        self.assertEqual(watch.check(17_000), (False, True))
        self.assertEqual(Watch.from_bytes(bytes(watch)).check(25_000), (True, False))
        self.assertEqual(copy.copy(watch).check(2**32 + 25_000), (True, False))
        self.assertEqual(watch.check(24_999), (False, False))
        sound = bytes(watch)
        for none in (b"", sound[1:], sound + b"\1", bytes(len(sound)), self.edited(sound, 8, 2)):
            self.refused("STATE", Watch.from_bytes, none)

    def test_watches_equal_and_shown(self):
        self.equal_until(lambda watch: watch.heard(Bus.B, 2**32 - 1), Watch(1000), Watch(1000))
        watch = Watch(1000)
        watch.heard(Bus.B, 2**32 - 1)
        self.assertEqual(repr(watch), "<Watch: bus A from 1000, bus B from 4294967295>")

    def test_rows(self):
        row = bytes.fromhex("12 0F 34 F0 AB 00 CD 01")
        first, second = Filter(0x1234, 0x0FF0), Filter(0xABCD, 0x0001)
        for id in range(0, 0x10000, 3):
            self.assertIs(row_accepts(row, id), first.accepts(id) or second.accepts(id))
        for none in (b"", row[1:], row + b"\0"):
            self.assertRaises(ValueError, row_accepts, none, 0)
        self.assertRaises(ValueError, row_accepts, row, 0x10000)
        self.assertRaises(ValueError, id_of, b"\x81\x45")


class Examples(Case):
    def run_example(self, *arguments, stdout=subprocess.PIPE):
        command = [sys.executable, str(HERE / "example.py"), *map(str, arguments)]
        # Its output is kept back until there is more of it, as it is for a user.
        buffered = {name: value for name, value in os.environ.items() if name != "PYTHONUNBUFFERED"}
        return subprocess.run(command, stdout=stdout, stderr=subprocess.PIPE, text=True, env=buffered)

    def run_on(self, trace, **options):
        with tempfile.NamedTemporaryFile() as file:
            file.write(trace)
            file.flush()
            return self.run_example(file.name, **options)

    def test_example_prints_what_is_written_beside_it(self):
        ran = self.run_example(SAMPLES / "two-boards.trace")
        self.assertEqual((ran.returncode, ran.stderr), (0, ""))
        self.assertEqual(ran.stdout, (HERE / "example.txt").read_text())

    def test_example_agrees_with_the_listing(self):
        listed = re.findall(r"^(\d+) [AB].* (?:packet|refused) (\d+)", (SAMPLES / "two-boards.txt").read_text(), re.M)
        lines = (HERE / "example.txt").read_text()
        printed = re.findall(r"^record (\d+): .*?(?:(\d+) bytes|refused (\d+))", lines, re.M)
        self.assertGreater(len(listed), 10)
        self.assertEqual([(record, size or number) for record, size, number in printed], listed)

    def test_example_stops_at_damage(self):
        ran = self.run_example(SAMPLES / "two-boards.txt")
        self.assertEqual((ran.returncode, ran.stdout, ran.stderr), (1, "", "record 1: damaged\n"))

    def test_example_tells_each_frame_of_a_17th_stream(self):
        sources = [*range(16), 40, 3, 41, 40]
        images = [single(BOARD._replace(source=source), b"7") for source in sources]
        trace = b"".join(bytes([0, len(piece) + 2, 1, Bus.B]) + piece for piece in images)
        expected = [
            f"record {record}: bus B, source {source}, function 2"
            + (": filtered, sixteen streams are open\n" if source >= 16 else ", 1 bytes: 37\n")
            for record, source in enumerate(sources, 1)]
        ran = self.run_on(trace)
        self.assertEqual((ran.returncode, ran.stderr), (0, ""))
        self.assertEqual(ran.stdout, "".join(expected) + "20 records\n")

    def test_example_says_in_a_line_what_cannot_be_read(self):
        for path, text in [(HERE / "none.trace", "No such file"), (HERE, "Is a directory")]:
            ran = self.run_example(path)
            self.assertEqual((ran.returncode, ran.stdout), (1, ""))
            self.assertRegex(ran.stderr, rf"\Aexample.py: .*{text}.*{re.escape(str(path))}.*\n\Z")

    def test_example_ends_quietly_with_its_reader(self):
        once = (SAMPLES / "two-boards.trace").read_bytes()
        # What it prints is written at its end, or in between; or there is damage to be told.
        for trace in (once, once * 50, once + b"0"):
            read, write = os.pipe()
            os.close(read)
            ran = self.run_on(trace, stdout=write)
            os.close(write)
            self.assertEqual((ran.returncode, ran.stderr), (1, ""))

    def test_example_says_in_a_line_what_cannot_be_written(self):
        with open("/dev/full", "w") as full:
            ran = self.run_example(SAMPLES / "two-boards.trace", stdout=full)
        self.assertEqual(ran.returncode, 1)
        self.assertRegex(ran.stderr, r"\Aexample.py: .*No space left.*\n\Z")

    def test_text_of_the_module(self):
        failed, tried = doctest.testmod(siljuvatt)
        self.assertGreater(tried, 10)
        self.assertEqual(failed, 0)

    def test_page_for_programmers(self):
        failed, tried = doctest.testfile(str(HERE.parent / "README.md"), module_relative=False)
        self.assertGreater(tried, 5)
        self.assertEqual(failed, 0)


class Answers(Case):
    """What a library of another release might answer."""

    @contextlib.contextmanager
    def answering(self, answer):
        calls = mock.Mock(spec_set=[f"siljuvatt_{call}" for call in siljuvatt._ARGUMENTS])
        for call in siljuvatt._ARGUMENTS:
            getattr(calls, f"siljuvatt_{call}").return_value = answer
        with mock.patch.object(siljuvatt, "_loaded", calls):
            yield calls

    def test_refusals_that_are_not_known(self):
        station, master, watch = Station(), Master(), Watch(0)
        for number in sorted({*range(100), 0xFFFF} - {*Refusal}):  # those in gaps too
            with self.answering(0x80000000 | number):
                for call, *arguments in [
                        (piece_count, 0, 0), (station.receive, 0, b""), (master.start, 1, 1), (watch.check, 0)]:
                    with self.assertRaises(Refused) as caught:
                        call(*arguments)
                    self.assertEqual((caught.exception.number, caught.exception.name), (number, "UNKNOWN"))
                    self.assertIsNone(caught.exception.refusal)

    def test_kinds_that_are_not_known(self):
        station, master = Station(), Master()
        received = {4: Packet(1, False), 5: Kept(False), 6: Filtered()}
        stepped = {7: Send(Bus.B), 8: Done(), 9: GaveUp()}
        calls = [
            (received, station.receive, 0, b""), (stepped, master.start, 1, 1), (stepped, master.reply, 0, 1, 2),
            (stepped, master.timeout)]
        for kind in range(256):
            with self.answering(kind << 16 | 1):
                for known, call, *arguments in calls:
                    if kind in known:
                        self.assertEqual(call(*arguments), known[kind])
                    else:
                        self.assertRaisesRegex(RuntimeError, rf"of kind {kind}\b", call, *arguments)

    def test_bus_that_is_not_known(self):
        master = Master()
        with self.answering(siljuvatt.SEND << 16 | 2):
            self.assertRaisesRegex(RuntimeError, "0x00070002", master.timeout)

    def test_state_is_sound_only_if_it_is_refused_as_expected(self):
        station, master, watch = Station(), Master(), Watch(0)
        for refusal, make, *arguments in [
                (Refusal.CLOSED, Station.from_bytes, bytes(station), station.store),
                (Refusal.FIELD, Master.from_bytes, bytes(master)), (Refusal.FIELD, Watch.from_bytes, bytes(watch))]:
            with self.answering(0x80000000 | refusal):
                self.assertIn(make(*arguments), (station, master, watch))
            with self.answering(0x80000000 | 99):
                self.assertRaisesRegex(Refused, "99 UNKNOWN", make, *arguments)
            for done in (0, refusal, siljuvatt.DONE << 16 | refusal):
                with self.answering(done):
                    self.assertRaisesRegex(RuntimeError, f"{done:#010x}", make, *arguments)

    def test_times_are_handed_on_as_32_bits(self):
        watch = Watch(0)
        for now, bits in [(2**32 + 5, 5), (2**64 + 5, 5), (-1, 2**32 - 1)]:
            with self.answering(0) as calls:
                Watch(now)
                watch.heard(Bus.A, now)
                watch.check(now)
            for call in (calls.siljuvatt_watch_new, calls.siljuvatt_watch_heard, calls.siljuvatt_watch_check):
                self.assertEqual(call.call_args.args[-1], bits)

    def test_refusals_shown_and_handed_on(self):
        for refusal in Refusal:
            refused = Refused(refusal)
            self.assertEqual((refused.number, refused.name, refused.refusal), (refusal.value, refusal.name, refusal))
            self.assertEqual(str(refused), f"{refusal.value} {refusal.name}: {refusal.text}")
            self.assertIs(pickle.loads(pickle.dumps(refusal)), refusal)
        for number in (7, 99):
            again = pickle.loads(pickle.dumps(Refused(number)))
            self.assertEqual((again.number, str(again)), (number, str(Refused(number))))
        self.assertEqual(str(Refused(99)), "99 UNKNOWN: no refusal of this release")


class Loading(Case):
    def compiled(self, folder, source):
        path = Path(folder) / "other.so"
        subprocess.run(["cc", "-shared", "-o", path, "-x", "c", "-"], input=source, text=True, check=True)
        return path

    def test_every_call_is_declared_as_in_the_header(self):
        types = {
            "uint8_t": ctypes.c_uint8, "uint16_t": ctypes.c_uint16, "uint32_t": ctypes.c_uint32,
            "size_t": ctypes.c_size_t, "bool": ctypes.c_bool, "uint8_t *": ctypes.c_void_p,
            "siljuvatt_row *": ctypes.c_void_p, "size_t *": ctypes.POINTER(ctypes.c_size_t)}
        header = (HERE.parent / "include" / "siljuvatt.h").read_text()
        calls = re.findall(r"^SILJUVATT_USE_ANSWER (\w+) siljuvatt_(\w+)\(([^)]*)\);", header, re.M)
        self.assertEqual(sorted(name for _, name, _ in calls), sorted(siljuvatt._ARGUMENTS))
        library = siljuvatt._library()
        for answer, name, arguments in calls:
            taken = [types[one.strip()] for one in re.findall(r"(\w+ \*?)\w+(?:,|$)", arguments)]
            call = getattr(library, f"siljuvatt_{name}")
            self.assertEqual((name, list(call.argtypes or ()), call.restype), (name, taken, types[answer]))

    def test_other_threads_wait_for_a_call(self):
        self.assertIsInstance(siljuvatt._library(), ctypes.PyDLL)

    def test_every_public_name_is_in_all(self):
        symbols = symtable.symtable(Path(siljuvatt.__file__).read_text(), "siljuvatt", "exec").get_symbols()
        defined = [symbol.get_name() for symbol in symbols if symbol.is_assigned() and not symbol.is_imported()]
        self.assertEqual(siljuvatt.__all__, sorted(name for name in defined if not name.startswith("_")))

    def test_release(self):
        self.assertEqual(siljuvatt.version(), siljuvatt.VERSION)
        self.assertEqual(siljuvatt.__version__, ".".join(map(str, siljuvatt.version().to_bytes(3, "big"))))

    def test_library_of_another_release(self):
        for source, text in [
                ("int siljuvatt_version(void) { return 0x010203; }", f"of release 1.2.3, .* {siljuvatt.__version__}:"),
                ("int other;", "has no siljuvatt_version")]:
            with tempfile.TemporaryDirectory() as folder:
                self.assertRaisesRegex(OSError, text, siljuvatt.load, self.compiled(folder, source))
            self.assertEqual(piece_count(Format.EXTENDED, 9), 2)  # by the library that was loaded before

    def test_library_that_is_not_there(self):
        without = {name: value for name, value in os.environ.items() if name != "SILJUVATT_SO"}
        with mock.patch.dict(os.environ, without, clear=True), \
                mock.patch.object(siljuvatt, "_places", lambda: [HERE / "none.so"]):
            self.assertRaisesRegex(OSError, "make-shared", siljuvatt.load)

    def test_library_by_argument(self):
        siljuvatt.load(os.environ.get("SILJUVATT_SO"))
        self.assertEqual(piece_count(Format.EXTENDED, 9), 2)
        self.assertRaises(OSError, siljuvatt.load, "none.so")
        self.assertEqual(piece_count(Format.EXTENDED, 9), 2)


if __name__ == "__main__":
    unittest.main()
