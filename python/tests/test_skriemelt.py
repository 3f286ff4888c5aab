"""Tests of the Python module: python3 -m unittest discover -s python/tests, with SKRIEMELT_LIBRARY set to the library's path."""
from __future__ import annotations

import array
import ast
import collections
import concurrent.futures
import copy
import ctypes
import dataclasses
import itertools
import math
import os
import pathlib
import pickle
import random
import re
import shutil
import subprocess
import sys
import tempfile
import tracemalloc
import typing
import unittest
from unittest import mock

HERE = pathlib.Path(__file__).resolve().parent
ROOT = HERE.parent.parent
VECTORS = ROOT / "crates" / "vectors"
sys.path.insert(0, str(HERE.parent))

import skriemelt  # noqa: E402
from skriemelt import (  # noqa: E402
    Bed, Before, CatalogueFrame, Content, Drop, Element, Field, ObjectClass, Programme, Record, Refusal, Refused, Salvaged, Source, Summary, Tables, Timing, Trim, TrimConfig, TrimMode, Update, Why, WhyStep, Zone)

SAMPLE = (ROOT / "samples" / "three-objects.oamd").read_bytes()


def entries(name):
    """The entries of a file of vectors: two bytes of length, the higher first, and as many bytes."""
    data, at, found = (VECTORS / "data" / name).read_bytes(), 0, []
    while at < len(data):
        length = int.from_bytes(data[at:at + 2], "big")
        found.append(data[at + 2:at + 2 + length])
        at += 2 + length
    return found


class Expected:
    """The lines of one vector."""

    def __init__(self, lines):
        self.lines = lines
        self.pairs = [line.split("=", 1) for line in lines]

    def one(self, key, default=None):
        """The value of a key that stands once."""
        return next((value for name, value in self.pairs if name == key), default)

    def number(self, key):
        return int(self.one(key, "0"))

    def rows(self, key):
        """The values of a key that stands often, split."""
        return [value.split(",") for name, value in self.pairs if name == key]

    def listing(self):
        """Those lines that the listing of a payload has."""
        beyond = ("vector=", "trim=", "written", "read back=")
        return "".join(line + "\n" for line in self.lines if not line.startswith(beyond))


def expectations():
    text = (VECTORS / "stdout").read_text(encoding="ascii")
    return [Expected(part.splitlines()) for part in re.split(r"^(?=vector=)", text, flags=re.M)[1:]]


PAYLOADS, WRITTEN, EXPECTED = entries("payloads"), entries("written"), expectations()


def answer_of(payload, frame=0, **rooms):
    """What a read gives, or the refusal that it raises."""
    try:
        return skriemelt.read(payload, frame, **rooms)
    except Refused as refused:
        return refused


def plain(answer):
    """An answer as a value that can be compared."""
    return answer.args if isinstance(answer, Refused) else answer


def small(objects=2, blocks=2):
    """Valid tables of active dynamic objects."""
    record = Record(active=1, class_=ObjectClass.DYNAMIC, gain=50, priority=32)
    updates = tuple(Update(32 * block, 0) for block in range(blocks))
    return Tables(Programme(objects, dynonly=1), Timing(updates), (record,) * (objects * blocks), Trim.none(objects))


def with_record(tables, index, **changes):
    records = list(tables.records)
    records[index] = dataclasses.replace(records[index], **changes)
    return dataclasses.replace(tables, records=tuple(records))


class Case(unittest.TestCase):
    """A test that compares tables."""

    def same(self, got, want):
        """Each answer is the one that is wanted. Only the number of the first other one is told: unittest would take minutes to show how large tables differ."""
        got, want = list(map(plain, got)), list(map(plain, want))
        self.assertEqual(len(got), len(want))
        other = next((index for index, pair in enumerate(zip(got, want)) if pair[0] != pair[1]), None)
        self.assertIsNone(other, "the number of the first answer that is another one")


class Vectors(Case):
    """Every vector, read and written."""

    def test_there_are_as_many_of_each(self):
        self.assertGreater(len(PAYLOADS), 200)
        self.assertEqual(len(PAYLOADS), len(EXPECTED))
        self.assertEqual(len(PAYLOADS), len(WRITTEN))
        self.assertEqual([expected.number("vector") for expected in EXPECTED], list(range(len(PAYLOADS))))

    def test_read(self):
        for number, (payload, expected) in enumerate(zip(PAYLOADS, EXPECTED)):
            with self.subTest(vector=number):
                answer = answer_of(payload)
                if expected.number("refusal"):
                    self.refused_as(answer, expected)
                else:
                    self.accepted_as(answer, expected)

    def refused_as(self, answer, expected):
        self.assertIsInstance(answer, Refused)
        self.assertEqual(answer.number, expected.number("refusal"))
        self.assertEqual(answer.place, expected.number("place"))
        self.assertEqual(answer.missing, expected.number("missing"))
        self.assertEqual(answer.refusal, answer.number)

    def accepted_as(self, answer, expected):
        self.assertIsInstance(answer, Tables)
        programme = answer.programme
        counts = [programme.objects, programme.bed_objects, programme.isf_objects, programme.dynamic_objects, answer.timing.blocks, answer.unknown]
        self.assertEqual(counts, [expected.number(key) for key in ("objects", "bed", "isf", "dynamic", "blocks", "unknown")])
        updates = [[str(block), str(update.start), str(update.ramp)] for block, update in enumerate(answer.timing.updates)]
        self.assertEqual(updates, expected.rows("block"))
        self.assertEqual(len(answer.records), answer.objects * answer.blocks)
        pairs = [(number, block) for number in range(answer.objects) for block in range(answer.blocks)]
        records = [[str(number), str(block), answer.record(number, block).raw.hex()] for number, block in pairs]
        self.same(records, expected.rows("record"))
        self.assertEqual(answer.trim_bytes.hex(), expected.one("trim", bytes(skriemelt.TRIM_FIXED + answer.objects).hex()))
        self.classes_as_counted(answer)

    def classes_as_counted(self, answer):
        programme = answer.programme
        classes = [ObjectClass.BED] * programme.bed_objects + [ObjectClass.ISF] * programme.isf_objects + [ObjectClass.DYNAMIC] * programme.dynamic_objects
        for block in range(answer.blocks):
            self.assertEqual([answer.record(number, block).object_class for number in range(answer.objects)], classes)

    def test_written(self):
        for number, (payload, form, expected) in enumerate(zip(PAYLOADS, WRITTEN, EXPECTED)):
            answer = answer_of(payload)
            with self.subTest(vector=number):
                if isinstance(answer, Refused):
                    self.assertEqual(form, b"")
                elif form:
                    self.assertEqual(skriemelt.write(answer).hex(), expected.one("written"))
                    self.assertEqual(skriemelt.write(answer, room=len(form)), form)
                    self.same([skriemelt.read(form)], [dataclasses.replace(answer, unknown=0)])
                else:
                    self.not_written(answer, expected)

    def not_written(self, tables, expected):
        with self.assertRaises(Refused) as caught:
            skriemelt.write(tables)
        if tables.programme.content_flags & Content.RESERVED:
            self.assertEqual((caught.exception.number, caught.exception.place), (Refusal.NOT_VALID, 0))
        else:
            self.assertEqual(f"{caught.exception.number} place={caught.exception.place}", expected.one("written refusal"))

    def test_every_bytes_type_gives_the_same(self):
        for payload in PAYLOADS:
            want = answer_of(payload)
            wide = b"\xa5" + payload + b"\xa5"
            for given in (bytearray(payload), memoryview(payload), memoryview(bytearray(wide))[1:-1], memoryview(payload).toreadonly()):
                self.same([answer_of(given)], [want])

    def test_raw_bytes_and_back(self):
        for answer in map(answer_of, PAYLOADS):
            if isinstance(answer, Tables):
                raw = answer.record_bytes
                step = skriemelt.RECORD_STRIDE
                self.same([Record.from_bytes(raw[at:at + step]) for at in range(0, len(raw), step)], answer.records)
                self.same([Trim.from_bytes(answer.trim_bytes)], [answer.trim])

    def test_listing(self):
        self.same([skriemelt.list_text(payload) for payload in PAYLOADS], [expected.listing() for expected in EXPECTED])

    def test_threads(self):
        want = list(map(answer_of, PAYLOADS))
        with concurrent.futures.ThreadPoolExecutor(8) as pool:
            for got in [pool.map(answer_of, PAYLOADS) for _ in range(8)]:
                self.same(got, want)


class Batch(Case):
    """Batches against single reads."""

    def test_as_single_reads(self):
        store, places = shelf()
        want = list(map(answer_of, PAYLOADS))
        for given in (store, bytearray(store), memoryview(store)):
            self.same(skriemelt.read_batch(given, places), want)
        self.same(skriemelt.read_batch(store, reversed(places)), want[::-1])

    def test_longer_than_one_call(self):
        places = [(0, len(SAMPLE)), (0, 3), (len(SAMPLE), 1)] * 400
        want = [skriemelt.read(SAMPLE), answer_of(SAMPLE[:3]), Refused(Refusal.OUTSIDE, len(SAMPLE))]
        self.same(skriemelt.read_batch(SAMPLE, places), want * 400)
        mixed = [(0, length % 46) for length in range(600)]
        self.same(skriemelt.read_batch(SAMPLE, mixed), [answer_of(SAMPLE[:length]) for _, length in mixed])

    def test_outside(self):
        most = (1 << 64) - 1
        places = [(0, 46), (46, 0), (45, 1), (most, most), (1, most), (most, 0)]
        got = skriemelt.read_batch(SAMPLE, places)
        self.assertEqual([(answer.number, answer.place) for answer in got], [(Refusal.OUTSIDE, start) for start, _ in places])
        empty = skriemelt.read_batch(SAMPLE, [(45, 0)])[0]
        self.assertEqual(plain(empty), plain(answer_of(b"")))

    def test_nothing(self):
        self.assertEqual(skriemelt.read_batch(b"", []), [])
        self.assertEqual(skriemelt.read_batch(SAMPLE, iter(())), [])

    def test_short_slots(self):
        self.assertEqual(plain(skriemelt.read_batch(SAMPLE, [(0, 45)], record_slot=191)[0])[:2], (Refusal.NO_ROOM, 192))
        self.assertEqual(plain(skriemelt.read_batch(SAMPLE, [(0, 45)], trim_slot=96)[0])[:2], (Refusal.NO_ROOM, 97))
        self.assertEqual(plain(skriemelt.read_batch(SAMPLE, [(0, 45)], record_slot=0, trim_slot=0)[0])[:2], (Refusal.NO_ROOM, 192))
        tight = skriemelt.read_batch(SAMPLE, [(0, 45)] * 3, record_slot=192, trim_slot=97)
        self.same(tight, [skriemelt.read(SAMPLE)] * 3)

    def test_entries_that_are_none(self):
        for bad in (1, "ab", (1,), (1, 2, 3), (1.0, 2), (0, None), ("0", "1")):
            with self.subTest(bad=bad), self.assertRaisesRegex(TypeError, r"entries\[1\]"):
                skriemelt.read_batch(SAMPLE, [(0, 1), bad])
        for bad in ((-1, 0), (0, -1), (1 << 64, 0), (0, 1 << 64)):
            with self.subTest(bad=bad), self.assertRaisesRegex(ValueError, r"entries\[1\]"):
                skriemelt.read_batch(SAMPLE, [(0, 1), bad])

    def test_lists_that_differ(self):
        library = skriemelt.default_library()
        two, three = (ctypes.c_uint64 * 2)(), (ctypes.c_uint64 * 3)()
        frames, answers = (ctypes.c_uint32 * 3)(), (skriemelt._ReadAnswer * 2)()
        for lists in ((two, 2, three, 3, frames, 2), (two, 2, two, 2, frames, 3), (two, 2, two, 2, None, 0)):
            answer = library._read_batch(b"", 0, *lists, 0, 0, None, 0, None, 0, answers, ctypes.sizeof(answers))
            self.assertEqual((answer.refusal, answer.place), (Refusal.LISTS, 2))
        slots = skriemelt._Shelf(1, 192, 97)
        with self.assertRaises(Refused) as caught:
            slots.read(library, SAMPLE, [(0, 45, 0)] * 2)
        self.assertEqual((caught.exception.number, caught.exception.place), (Refusal.LISTS, 2))


def shelf():
    """All vectors behind one another, with their places."""
    ends = list(itertools.accumulate(map(len, PAYLOADS)))
    return b"".join(PAYLOADS), [(end - len(payload), len(payload)) for end, payload in zip(ends, PAYLOADS)]


class Summaries(unittest.TestCase):
    """Summaries against the worked values, and against what is counted from single reads."""

    STORE = SAMPLE + bytes.fromhex("0107c100")
    ENTRIES = [(0, 45), (45, 3), (45, 4)]

    def counted(self, answers):
        """What answers hold together, counted one by one."""
        tables = [answer for answer in answers if isinstance(answer, Tables)]
        records = [record for each in tables for record in each.records]
        updates = [update for each in tables for update in each.timing.updates]

        def tally(values, most):
            found = collections.Counter(values)
            return tuple(found[value] for value in range(most))

        return Summary(
            len(records), tally((record.gain for record in records), 66), tally((record.zone for record in records), 6), tally((record.class_ for record in records), 3),
            tally((record.active for record in records), 2), sum(update.start > 1535 for update in updates), sum(update.ramp for update in updates),
            tally((answer.number if isinstance(answer, Refused) else 0 for answer in answers), 13),
        )

    def test_worked(self):
        got = skriemelt.summarise(self.STORE, self.ENTRIES)
        self.assertEqual((got.records, got.late, got.ramps, got.active, got.inactive), (6, 0, 0, 5, 1))
        self.assertEqual({gain: count for gain, count in got.gains_db.items() if count}, {-math.inf: 2, 0.0: 3, 12.0: 1})
        self.assertEqual(got.by_zone, {zone: 6 if zone is Zone.ALL else 0 for zone in Zone})
        self.assertEqual(got.by_class, {ObjectClass.BED: 2, ObjectClass.ISF: 0, ObjectClass.DYNAMIC: 4})
        self.assertEqual({refusal: count for refusal, count in got.by_refusal.items() if count}, {Refusal.ACCEPTED: 2, Refusal.PAST_PAYLOAD: 1})
        self.assertEqual((got.entries, got.accepted, got.refused), (3, 2, 1))
        self.assertEqual(got, self.counted(skriemelt.read_batch(self.STORE, self.ENTRIES)))

    def test_keys(self):
        self.assertEqual(list(Summary().gains_db), [-math.inf, *map(float, range(-49, 16))])
        self.assertEqual(list(Summary().by_zone), list(Zone))
        self.assertEqual(list(Summary().by_class), list(ObjectClass))
        self.assertEqual(list(Summary().by_refusal), list(Refusal)[:13])

    def test_vectors(self):
        store, places = shelf()
        want = self.counted(list(map(answer_of, PAYLOADS)))
        for given in (store, bytearray(store), memoryview(store)):
            self.assertEqual(skriemelt.summarise(given, places), want)
        self.assertEqual(skriemelt.summarise(store, reversed(places)), want)
        self.assertEqual((want.late > 0, want.ramps > 0, want.entries), (True, True, len(PAYLOADS)))
        for counts in (want.gains, want.zones, want.classes, want.activity):
            self.assertEqual(sum(counts), want.records)

    def test_parts_add_up(self):
        store, places = shelf()
        parts = [skriemelt.summarise(store, places[at:at + 50]) for at in range(0, len(places), 50)]
        self.assertEqual(sum(parts, Summary()), skriemelt.summarise(store, places))
        self.assertEqual(parts[0] + Summary(), parts[0])
        self.assertEqual(parts[0] + parts[1], parts[1] + parts[0])
        for other in (1, None, ()):
            self.assertRaises(TypeError, lambda: parts[0] + other)

    def test_more_than_32_bits_add_up(self):
        most = Summary(records=0xFFFFFFFF, gains=(0xFFFFFFFF,) * 66)
        self.assertEqual((most + most).records, 2 * 0xFFFFFFFF)
        self.assertEqual((most + most).gains[65], 2 * 0xFFFFFFFF)

    def test_nothing(self):
        self.assertEqual(skriemelt.summarise(b"", []), Summary())
        self.assertEqual(skriemelt.summarise(SAMPLE, iter(())), Summary())

    def test_outside(self):
        most = (1 << 64) - 1
        got = skriemelt.summarise(SAMPLE, [(0, 46), (46, 0), (most, most), (1, most), (45, 0)])
        self.assertEqual((got.by_refusal[Refusal.OUTSIDE], got.by_refusal[Refusal.PAST_PAYLOAD], got.records), (4, 1, 0))

    def test_limits(self):
        most = skriemelt.MOST_ENTRIES
        got = skriemelt.summarise(SAMPLE, [(0, 45)] * most)
        self.assertEqual((got.records, got.accepted, got.active), (6 * most, most, 5 * most))
        with self.assertRaises(Refused) as caught:
            skriemelt.summarise(SAMPLE, [(0, 45)] * (most + 1))
        self.assertEqual((caught.exception.refusal, caught.exception.place), (Refusal.TOO_MANY, 65537))

    def test_lists_that_differ(self):
        lists = (ctypes.c_uint64 * 65537)()
        for starts, lengths in ((3, 2), (0, 1), (65537, 65536)):
            answer = skriemelt.default_library()._summarise(b"", 0, lists, starts, lists, lengths)
            self.assertEqual((answer.refusal, answer.place, answer.records, sum(answer.payloads)), (Refusal.LISTS, starts, 0, 0))

    def test_entries_that_are_none(self):
        self.assertRaisesRegex(TypeError, r"entries\[1\]", skriemelt.summarise, SAMPLE, [(0, 1), 5])
        self.assertRaisesRegex(ValueError, r"entries\[1\]", skriemelt.summarise, SAMPLE, [(0, 1), (-1, 0)])

    def test_values(self):
        got = skriemelt.summarise(self.STORE, self.ENTRIES)
        self.assertEqual(pickle.loads(pickle.dumps(got)), got)
        self.assertEqual(len({got, skriemelt.summarise(self.STORE, self.ENTRIES), Summary()}), 2)
        with self.assertRaises(dataclasses.FrozenInstanceError):
            got.records = 7


KEYS = (
    "active class gain priority x y z distance width depth height zone elevation screen screen_factor screen_depth snap divergence divergence_mode divergence_value "
    "precise precise_x precise_y precise_z"
).split()
HIGHEST = (1, 2, 65, 32, 62, 62, 79, 17, 31, 31, 31, 5, 1, 1, 7, 3, 1, 1, 2, 63, 7, 3, 3, 3)  # of each of these fields; the lowest is 0, but 49 for z

# The records of the README's listing, bytes 7 to 23 of which are alike.
REST = (
    "distance=0,width=0,depth=0,height=0,zone=0,elevation=1,screen=0,screen_factor=0,screen_depth=0,snap=0,"
    "divergence=0,divergence_mode=0,divergence_value=0,precise=0,precise_x=0,precise_y=0,precise_z=0"
)
WORKED = [
    "frame=7,objects=3,blocks=2",
    "start=0,ramp=0",
    "object=0,active=1,class=0,gain=50,priority=2,x=31,y=31,z=64," + REST,  # 01 00 32 02 1f 1f 40
    "object=1,active=1,class=2,gain=50,priority=32,x=11,y=12,z=77," + REST,  # 01 02 32 20 0b 0c 4d
    "object=2,active=0,class=2,gain=0,priority=0,x=31,y=31,z=64," + REST,  # 00 02 00 00 1f 1f 40
    "start=32,ramp=0",
    "object=0,gain=62,priority=4",  # 3e 04
    "object=2,active=1,x=9,y=8,z=57",  # 01, 09 08 39; object 1 stays as it was
    "frame=8,refusal=2",
    "frame=9,objects=1,blocks=0",
]


def text_of(lines):
    return "".join(line + "\n" for line in lines)


def catalogue_of(frames):
    """The catalogue of frames, laid as its form is defined."""
    lines, rows = [], []
    for frame in frames:
        if frame.refusal:
            lines.append(f"frame={frame.frame},refusal={frame.refusal}")
            continue
        lines.append(f"frame={frame.frame},objects={frame.objects},blocks={frame.blocks}")
        for block, update in enumerate(frame.updates):
            lines.append(f"start={update.start},ramp={update.ramp}")
            now = [frame.record(number, block).raw[:24] for number in range(frame.objects)]
            for number, (row, was) in enumerate(zip(now, rows if len(rows) == len(now) else [[None] * 24] * len(now))):
                pairs = [f"{key}={value}" for key, value, other in zip(KEYS, row, was) if value != other]
                lines += [",".join([f"object={number}"] + pairs)] if pairs else []
            rows = now
    return text_of(lines)


def frame_of(answer, frame):
    """What a catalogue says of what a single read answers."""
    if isinstance(answer, Refused):
        return CatalogueFrame(frame, answer.number)
    return CatalogueFrame(frame, 0, answer.objects, answer.timing.updates, answer.record_bytes)


class Catalogues(Case):
    """Catalogues against the worked text, and against what single reads give."""

    STORE, ENTRIES = Summaries.STORE, Summaries.ENTRIES

    def bad(self, text):
        """The number of the line that a text is refused for, the same for a str and for bytes."""
        places = []
        for given in (text, text.encode("utf-8", "surrogatepass")) if isinstance(text, str) else (text,):
            with self.assertRaises(Refused) as caught:
                skriemelt.read_catalogue(given)
            self.assertEqual(caught.exception.number, Refusal.BAD_LINE)
            places.append(caught.exception.place)
        self.assertEqual(len(set(places)), 1)
        return places[0]

    def with_line(self, number, *lines):
        """The worked text with other lines for one."""
        return text_of(WORKED[:number - 1] + list(lines) + WORKED[number:])

    def test_worked(self):
        text = skriemelt.write_catalogue(self.STORE, self.ENTRIES, [7, 8, 9])
        self.assertIs(type(text), str)
        self.assertEqual(text.splitlines(), WORKED)
        self.assertEqual(text, text_of(WORKED))
        self.assertEqual(len(text), 936)
        self.assertEqual(skriemelt.write_catalogue(bytearray(self.STORE), iter(self.ENTRIES), frames=range(7, 10)), text)
        self.assertEqual(skriemelt.write_catalogue(memoryview(self.STORE), self.ENTRIES, iter((7, 8, 9))), text)

    def test_worked_back(self):
        first, second, third = skriemelt.read_catalogue(text_of(WORKED))
        self.assertEqual((first.frame, first.refusal, first.objects, first.blocks), (7, 0, 3, 2))
        self.assertEqual(first.updates, (Update(0, 0), Update(32, 0)))
        self.assertEqual([record.time for record in first.records], [10752, 10784] * 3)
        tables = skriemelt.read(SAMPLE, 7)
        self.assertEqual(first.records, tables.records)
        self.assertEqual(first.record_bytes, tables.record_bytes)
        self.assertEqual(first.record(1, 1), Record(1, ObjectClass.DYNAMIC, 50, 32, 11, 12, 77))
        self.assertEqual(first.record(2, 1), Record(1, ObjectClass.DYNAMIC, 0, 0, 9, 8, 57))
        self.assertEqual(first.record(0, 1).raw.hex(), "01003e041f1f400000000000010000000000000000000000202a000000000000")
        self.assertEqual(second, CatalogueFrame(8, Refusal.PAST_PAYLOAD))
        self.assertEqual((second.objects, second.blocks, second.updates, second.records), (0, 0, (), ()))
        self.assertEqual(third, CatalogueFrame(9, 0, 1))
        self.assertEqual((third.blocks, third.updates, third.records), (0, (), ()))

    def test_every_type_of_text_gives_the_same(self):
        class Text(str):
            def encode(self, *arguments):
                return b""

            def __len__(self):
                return 4000

        text = text_of(WORKED)
        data, want = text.encode("ascii"), skriemelt.read_catalogue(text)
        for given in (data, bytearray(data), memoryview(data), memoryview(b"\n" + data + b"\n")[1:-1], Text(text)):
            self.assertEqual(skriemelt.read_catalogue(given), want)
        for given in (None, 5, [text], text_of, array.array("B", data)):
            with self.assertRaisesRegex(TypeError, f"text must be str, bytes, bytearray or memoryview, not {type(given).__name__}"):
                skriemelt.read_catalogue(given)
        self.assertRaisesRegex(TypeError, "side by side", skriemelt.read_catalogue, memoryview(data)[::2])

    def test_frames(self):
        last = (1 << 32) - 1
        sample = (0, 45)
        text = skriemelt.write_catalogue(SAMPLE, [sample] * 3)
        self.assertEqual([frame.frame for frame in skriemelt.read_catalogue(text)], [0, 1, 2])
        self.assertEqual(text, skriemelt.write_catalogue(SAMPLE, [sample] * 3, [0, 1, 2]))
        frames = [last, 5, 5, 0]
        back = skriemelt.read_catalogue(skriemelt.write_catalogue(SAMPLE, [sample] * 4, frames))
        self.assertEqual(back, [frame_of(skriemelt.read(SAMPLE, frame), frame) for frame in frames])
        self.assertEqual(back[0].record(0, 1).time, last * 1536 + 32)
        for bad in (-1, 1 << 32):
            self.assertRaisesRegex(ValueError, r"frames\[1\] is", skriemelt.write_catalogue, SAMPLE, [sample] * 2, [0, bad])
        self.assertRaisesRegex(TypeError, r"frames\[0\] must be an integer", skriemelt.write_catalogue, SAMPLE, [sample], ["7"])

    def test_lists_that_differ(self):
        for frames in ([], [7], [7, 8, 9]):
            before = Before()
            with self.assertRaises(Refused) as caught:
                skriemelt.write_catalogue(SAMPLE, [(0, 45)] * 2, frames, before)
            self.assertEqual((caught.exception.refusal, caught.exception.place), (Refusal.LISTS, 2))
            self.assertIn("place 2 (the number of starts)", str(caught.exception))
            self.assertEqual(before, Before())
        self.assertRaisesRegex(TypeError, r"entries\[1\]", skriemelt.write_catalogue, SAMPLE, [(0, 1), 5])
        self.assertRaisesRegex(ValueError, r"entries\[1\]", skriemelt.write_catalogue, SAMPLE, [(0, 1), (-1, 0)])

    def test_rooms(self):
        library, lent, text = skriemelt.default_library(), (ctypes.c_uint8 * 3817)(), text_of(WORKED).encode("ascii")
        numbers, frames, out = (ctypes.c_uint64 * 3)(0, 45, 45), (ctypes.c_uint32 * 3)(7, 8, 9), (ctypes.c_uint8 * 936)()
        store, lists = (self.STORE, len(self.STORE)), (numbers, 3, (ctypes.c_uint64 * 3)(45, 3, 4), 3, frames, 3)
        for before_room, room, want in ((3817, 935, (18, 936, 0)), (3817, 0, (18, 936, 0)), (3816, 0, (9, 3817, 0)), (3817, 936, (0, 0, 936))):
            answer = library._write_catalogue(*store, *lists, lent, before_room, out, room)
            self.assertEqual((answer.refusal, answer.place, answer.length), want)
        self.assertEqual(bytes(out), text)
        lent, lines, records = (ctypes.c_uint8 * 3817)(), (skriemelt._CatalogueFrame * 3)(), (ctypes.c_uint8 * 192)()
        cases = ((3816, 0, 0, (9, 3817, 0, 0)), (3817, 0, 191, (9, 192, 0, 0)), (3817, 120, 0, (9, 192, 0, 0)), (3817, 119, 192, (9, 120, 0, 0)), (3817, 120, 192, (0, 0, 3, 192)))
        for before_room, line_room, record_room, want in cases:
            answer = library._read_catalogue(text, len(text), lent, before_room, lines, line_room, records, record_room)
            self.assertEqual((answer.refusal, answer.place, answer.frames, answer.bytes), want)

    def test_form(self):
        text = text_of(WORKED)
        self.assertEqual(self.bad(text[:-1]), 10)
        self.assertEqual(self.bad(text + "\n"), 11)
        self.assertEqual(self.bad("\n" + text), 1)
        self.assertEqual(self.bad(text.replace("\n", "\r\n", 1)), 1)
        self.assertEqual(self.bad(text.replace("\n", "\r\n")), 1)
        self.assertEqual(self.bad(text + "\0"), 11)
        self.assertEqual(self.bad("frame"), 1)
        cases = {
            1: ["frame=07,objects=3,blocks=2", " frame=7,objects=3,blocks=2", "frame=7, objects=3,blocks=2", "frame=7,objects=3", "frame=7,blocks=2,objects=3",
                "frame=+7,objects=3,blocks=2", "frame=7,objects=3,blocks=2,"],
            2: ["start=0", "start=0,ramp=", "start=,ramp=0", "start=0,ramp=0 ", "ramp=0,start=0", "start=0,ramp=00", "Start=0,ramp=0", "start=0,ramp=0,ramp=0"],
            3: [WORKED[2] + ",", WORKED[2] + ",precise_z=0", WORKED[2].replace(",snap=0", ""), WORKED[2].replace("class=0,", "class=0,class=0,")],
            7: ["object=0", "object=0,", "object=0,gain=062,priority=4", "object=0,priority=4,gain=62", "object=0,gain=62,gain=62,priority=4",
                "object=0,gain=0x3e", "object=0,volume=62", "gain=62,object=0"],
            9: ["frame=8", "frame=8,refusal=", "frame=8,refusal=2,place=18", "frame=8,objects=1,blocks=0,refusal=2", "# frame=8,refusal=2"],
        }
        for number, lines in cases.items():
            for line in lines:
                with self.subTest(line=line):
                    self.assertEqual(self.bad(self.with_line(number, line)), number)

    def test_place(self):
        self.assertEqual(self.bad(self.with_line(5)), 5)
        self.assertEqual(self.bad(self.with_line(4)), 4)
        self.assertEqual(self.bad(self.with_line(1)), 1)
        self.assertEqual(self.bad(self.with_line(2)), 2)
        self.assertEqual(self.bad(self.with_line(6)), 6)
        self.assertEqual(self.bad(self.with_line(6, "start=32,ramp=0", "start=32,ramp=0")), 7)
        self.assertEqual(self.bad(self.with_line(7, "object=2,active=1")), 8)
        self.assertEqual(self.bad(self.with_line(8, "object=0,x=9")), 8)
        self.assertEqual(self.bad(self.with_line(8, "object=3,x=9")), 8)
        self.assertEqual(self.bad(self.with_line(9, "start=0,ramp=0")), 9)
        self.assertEqual(self.bad(self.with_line(9, "frame=8,refusal=2", "start=0,ramp=0")), 10)
        self.assertEqual(self.bad(text_of(WORKED) + "start=0,ramp=0\n"), 11)
        self.assertEqual(self.bad(text_of(WORKED) + "object=0,gain=1\n"), 11)

    def test_lines_missing_at_the_end(self):
        for count in range(1, 6):
            self.assertEqual(self.bad(text_of(WORKED[:count])), count + 1)
        for count in range(6, 11):
            self.assertEqual(skriemelt.read_catalogue(text_of(WORKED[:count]))[0].updates, (Update(0, 0), Update(32, 0)))
        only = skriemelt.read_catalogue(text_of(WORKED[:6]))[0]
        self.assertEqual([only.record(number, 1) for number in range(3)], [only.record(number, 0) for number in range(3)])
        self.assertEqual([record.time for record in only.records], [10752, 10784] * 3)

    def test_no_change(self):
        self.assertEqual(self.bad(self.with_line(7, "object=0,gain=50,priority=4")), 7)
        self.assertEqual(self.bad(self.with_line(7, "object=0,gain=62,priority=2")), 7)
        self.assertEqual(self.bad(self.with_line(8, "object=1,precise_z=0")), 8)
        self.assertEqual(len(skriemelt.read_catalogue(self.with_line(7))), 3)
        self.assertEqual(self.bad(text_of(WORKED[:6] + WORKED[2:5])), 7)

    def test_values(self):
        for old, highest, above in (("frame=7", "frame=4294967295", "frame=4294967296"), ("objects=3", "objects=159", "objects=160"), ("blocks=2", "blocks=8", "blocks=9")):
            first = WORKED[0]
            self.assertEqual(self.bad(first.replace(old, highest) + "\n"), 2)
            self.assertEqual(self.bad(first.replace(old, above) + "\n"), 1)
        self.assertEqual(self.bad("frame=7,objects=0,blocks=0\n"), 1)
        self.assertEqual(self.bad("frame=18446744073709551623,objects=1,blocks=0\n"), 1)
        for refusal in range(20):
            text = f"frame=0,refusal={refusal}\n"
            if refusal in (1, 2, 3, 4, 5, 6, 7, 8, 12):
                self.assertEqual(skriemelt.read_catalogue(text), [CatalogueFrame(0, refusal)])
            else:
                self.assertEqual(self.bad(text), 1)
        self.assertEqual(skriemelt.read_catalogue(self.with_line(6, "start=2047,ramp=2048"))[0].updates[1], Update(2047, 2048))
        self.assertEqual(self.bad(self.with_line(6, "start=2048,ramp=0")), 6)
        self.assertEqual(self.bad(self.with_line(6, "start=0,ramp=2049")), 6)

    def test_values_of_fields(self):
        def one(values):
            pairs = [f"{key}={value}" for key, value in zip(KEYS, values)]
            return text_of(["frame=0,objects=1,blocks=1", "start=0,ramp=0", ",".join(["object=0"] + pairs)])

        lowest = [49 if key == "z" else 0 for key in KEYS]
        for values in (lowest, list(HIGHEST)):
            self.assertEqual(skriemelt.read_catalogue(one(values))[0].records[0].raw, bytes(values) + bytes(8))
        for at, key in enumerate(KEYS):
            with self.subTest(key=key):
                self.assertEqual(self.bad(one([value + (at == index) for index, value in enumerate(HIGHEST)])), 3)
                self.assertEqual(self.bad(one([value - (at == index) for index, value in enumerate(lowest)])), 3)
                self.assertEqual(self.bad(one([value + 256 * (at == index) for index, value in enumerate(HIGHEST)])), 3)

    def test_beyond_ascii(self):
        for strange in ("\u0662", "\uff12", "\xb2", "\x85", "\u2028", "\u2029", "\u010a", "\u0a0a", "\u200b", "\ud83d", "\U0001f50a", "\U000f0a0a", "\0", "\v", "\f", "\x1c", "?"):
            with self.subTest(strange=strange):
                for number, line in enumerate(WORKED, 1):
                    self.assertEqual(self.bad(self.with_line(number, line + strange)), number)
                    self.assertEqual(self.bad(self.with_line(number, line[:5] + strange * 3 + line[5:])), number)
                    self.assertEqual(self.bad(self.with_line(number, strange + line)), number)
                self.assertEqual(self.bad(text_of(WORKED) + strange), 11)
                self.assertEqual(self.bad(text_of(WORKED).replace("\n", strange)), 1)
        self.assertEqual(self.bad("\ufeff" + text_of(WORKED)), 1)
        for byte in (*range(0x80, 0x100), *range(10), *range(11, 32)):
            self.assertEqual(self.bad(self.with_line(9, "frame=8,refusal=2@").encode("ascii").replace(b"@", bytes([byte]))), 9)

    def test_message(self):
        with self.assertRaises(Refused) as caught:
            skriemelt.read_catalogue(self.with_line(7, "object=0,gain=66"))
        refused = caught.exception
        self.assertEqual((refused.number, refused.refusal, refused.place, refused.missing), (17, Refusal.BAD_LINE, 7, 0))
        for part in ("refusal 17: a line of the catalogue", "place 7 (the number of that line, from 1;"):
            self.assertIn(part, str(refused))

    def test_nothing(self):
        before = Before()
        self.assertEqual(skriemelt.write_catalogue(b"", []), "")
        self.assertEqual(skriemelt.write_catalogue(SAMPLE, iter(()), iter(()), before), "")
        for nothing in ("", b"", bytearray()):
            self.assertEqual(skriemelt.read_catalogue(nothing, before), [])
        self.assertEqual(before, Before())

    def test_outside(self):
        most = (1 << 64) - 1
        text = skriemelt.write_catalogue(SAMPLE, [(0, 46), (46, 0), (most, most), (1, most), (45, 0)])
        self.assertEqual(text, text_of([f"frame={frame},refusal={12 if frame < 4 else 2}" for frame in range(5)]))
        self.assertEqual([frame.refusal for frame in skriemelt.read_catalogue(text)], [Refusal.OUTSIDE] * 4 + [Refusal.PAST_PAYLOAD])

    def test_vectors(self):
        store, places = shelf()
        last = (1 << 32) - 1
        for numbers in (range(len(places)), range(last, last - len(places), -1)):
            answers = [answer_of(payload, number) for payload, number in zip(PAYLOADS, numbers)]
            for step in (1, -1):
                want = list(map(frame_of, answers[::step], numbers[::step]))
                text = skriemelt.write_catalogue(store, places[::step], numbers[::step])
                self.same(text.splitlines(), catalogue_of(want).splitlines())
                back = skriemelt.read_catalogue(text)
                self.same(back, want)
                self.same(skriemelt.read_catalogue(text.encode("ascii")), want)
                self.same([frame.records for frame in back], [() if isinstance(answer, Refused) else answer.records for answer in answers[::step]])

    def test_each_vector(self):
        for number, payload in enumerate(PAYLOADS):
            with self.subTest(vector=number):
                want = [frame_of(answer_of(payload, 1000), 1000)]
                text = skriemelt.write_catalogue(payload, [(0, len(payload))], [1000])
                self.same([text], [catalogue_of(want)])
                self.same(skriemelt.read_catalogue(text), want)
                self.assertLessEqual(len(text), skriemelt.MOST_FRAME_TEXT_BYTES)

    def test_no_second_spelling(self):
        """Damaged texts: what is taken all the same is the text of what it gives."""
        chance, taken = random.Random(13), 0
        for _ in range(4000):
            lines = [*WORKED, "frame=10,objects=3,blocks=1", "start=5,ramp=7", "object=1,gain=9,snap=1"]
            at = chance.randrange(len(lines))
            place = chance.randrange(len(lines[at]) + 1)
            lines[at] = lines[at][:place] + chance.choice(["", *"0123456789=,x\n\r \u0661"]) + lines[at][place + chance.randrange(3):]
            text = text_of(lines)
            try:
                frames = skriemelt.read_catalogue(text)
            except Refused as refused:
                self.assertEqual(refused.number, Refusal.BAD_LINE)
                self.assertGreater(refused.place, at)  # the lines before are as they were
            else:
                self.assertEqual(catalogue_of(frames), text)
                taken += 1
        self.assertGreater(taken, 100)

    def test_threads(self):
        store, places = shelf()
        want = skriemelt.write_catalogue(store, places)
        frames = skriemelt.read_catalogue(want)
        with concurrent.futures.ThreadPoolExecutor(8) as pool:
            texts = [pool.submit(skriemelt.write_catalogue, store, places) for _ in range(8)]
            backs = [pool.submit(skriemelt.read_catalogue, want) for _ in range(8)]
            self.assertEqual({text.result() for text in texts}, {want})
            for back in backs:
                self.same(back.result(), frames)

    def test_no_more_copies_than_needed(self):
        def most(call):
            tracemalloc.start()
            self.addCleanup(tracemalloc.stop)
            call()
            peak = tracemalloc.get_traced_memory()[1]
            tracemalloc.stop()
            return peak

        store, little = SAMPLE + bytes(1 << 22), 1 << 18
        text = "frame=0,refusal=2\n" * (1 << 17) + "frame"
        data = text.encode("ascii")
        self.assertLess(most(lambda: skriemelt.write_catalogue(store, [(0, 45)])), little)
        self.assertLess(most(lambda: self.assertRaises(Refused, skriemelt.read_catalogue, data)), little)
        self.assertLess(most(lambda: self.assertRaises(Refused, skriemelt.read_catalogue, text)), len(text) + little)
        head, every = ["frame=0,objects=159,blocks=8"], [f"object={number}," + WORKED[2].split(",", 1)[1] for number in range(159)]
        data = text_of(head + ["start=0,ramp=0"] + every + ["start=0,ramp=0"] * 7 + (head + ["start=0,ramp=0"] * 8) * 20).encode("ascii")
        self.assertLess(most(lambda: skriemelt.read_catalogue(data)), 2 * 32 * 159 * 8 * 21 + little)

    def test_the_given_bytes_stay(self):
        store, text = bytearray(SAMPLE), bytearray(text_of(WORKED), "ascii")
        skriemelt.write_catalogue(store, [(0, 45)])
        skriemelt.read_catalogue(text)
        self.assertEqual((store, text), (SAMPLE, text_of(WORKED).encode("ascii")))
        store.append(0)  # no view of them is held
        text.append(0)

    def test_frames_as_values(self):
        frame = skriemelt.read_catalogue(text_of(WORKED))[0]
        again = pickle.loads(pickle.dumps(frame))
        self.assertEqual((again, again.records), (frame, frame.records))
        self.assertIs(frame.records, frame.records)
        self.assertEqual(len({frame, again, CatalogueFrame(7)}), 2)
        self.assertEqual(CatalogueFrame(7), CatalogueFrame(7, 0, 0, (), b""))
        with self.assertRaises(dataclasses.FrozenInstanceError):
            frame.refusal = 2
        for pair in ((3, 0), (0, 2), (-1, 0), (0, -1)):
            self.assertRaises(IndexError, frame.record, *pair)
        self.assertRaisesRegex(IndexError, "object 0 of 0", CatalogueFrame(8, 2).record, 0, 0)
        tables = skriemelt.read(SAMPLE)
        made = dataclasses.replace(tables, timing=Timing(frame.updates), records=frame.records, frame=frame.frame)
        self.assertEqual(skriemelt.write(made), skriemelt.write(tables))


class Carried(Case):
    """Catalogues in pieces, with the update before carried over."""

    STORE, ENTRIES = Summaries.STORE, Summaries.ENTRIES

    def cut(self, text):
        """The text of each frame."""
        return re.findall(r"frame=.*\n(?:[so].*\n)*", text)

    def test_two_calls_against_one(self):
        one, frames = Before(), [7, 8, 9]
        want = skriemelt.write_catalogue(self.STORE, self.ENTRIES, frames, one)
        self.assertEqual(want, text_of(WORKED))
        for at in range(4):
            there, back = Before(), Before()
            parts = [skriemelt.write_catalogue(self.STORE, self.ENTRIES[part], frames[part], before=there) for part in (slice(0, at), slice(at, 3))]
            self.assertEqual("".join(parts), want)
            self.assertEqual(there, one)
            self.assertEqual([frame for part in parts for frame in skriemelt.read_catalogue(part, back)], skriemelt.read_catalogue(want))
            self.assertEqual(back, one)

    def test_what_is_carried(self):
        before = Before()
        first = skriemelt.write_catalogue(SAMPLE, [(0, 45)], [0], before)
        self.assertEqual(first, text_of(["frame=0,objects=3,blocks=2"] + WORKED[1:8]))
        # The next frame is the same payload: its first update takes back what its second has changed.
        want = text_of(["frame=1,objects=3,blocks=2", "start=0,ramp=0", "object=0,gain=50,priority=2", "object=2,active=0,x=31,y=31,z=64"] + WORKED[5:8])
        self.assertEqual(skriemelt.write_catalogue(SAMPLE, [(0, 45)], [1], before), want)
        self.assertEqual(skriemelt.write_catalogue(SAMPLE, [(0, 45)] * 2), first + want)
        back = Before()
        skriemelt.read_catalogue(first, back)
        self.assertEqual(back, before)
        self.assertEqual(skriemelt.read_catalogue(want, back), [frame_of(skriemelt.read(SAMPLE, 1), 1)])
        self.assertEqual(back, before)
        with self.assertRaises(Refused) as caught:
            skriemelt.read_catalogue(want)
        self.assertEqual((caught.exception.refusal, caught.exception.place), (Refusal.BAD_LINE, 3))
        with self.assertRaises(Refused) as caught:
            skriemelt.read_catalogue(first, back)
        self.assertEqual((caught.exception.refusal, caught.exception.place), (Refusal.BAD_LINE, 3))
        self.assertEqual(back, before)

    def test_vectors_in_pieces(self):
        store, places = shelf()
        frames, whole = range(100, 100 + len(places)), Before()
        want = skriemelt.write_catalogue(store, places, frames, whole)
        back = skriemelt.read_catalogue(want)
        for step in (1, 2, 7, 100):
            there, again, parts, read = Before(), Before(), [], []
            for at in range(0, len(places), step):
                parts.append(skriemelt.write_catalogue(store, places[at:at + step], frames[at:at + step], there))
                read += skriemelt.read_catalogue(parts[-1], again)
                self.assertEqual(there, again)
            self.same(["".join(parts)], [want])
            if step == 1:
                self.same(parts, self.cut(want))
            self.same(read, back)
            self.assertEqual(there, whole)

    def test_frames_without_updates_are_passed_over(self):
        before = Before()
        self.assertEqual(before.objects, 0)
        skriemelt.write_catalogue(self.STORE, self.ENTRIES[1:], before=before)
        self.assertEqual(before, Before())
        skriemelt.write_catalogue(self.STORE, self.ENTRIES, before=before)
        self.assertEqual(before.objects, 3)
        held = before.copy()
        skriemelt.read_catalogue("frame=1,refusal=12\nframe=2,objects=159,blocks=0\n", before)
        self.assertEqual((before, before.objects), (held, 3))

    def test_what_is_left_of_longer_updates_does_not_count(self):
        many, one = skriemelt.write(dataclasses.replace(small(20, 1), records=(Record(1, 2, 60, 32),) * 20)), skriemelt.write(small(1, 1))
        before, alone = Before(), Before()
        skriemelt.write_catalogue(many, [(0, len(many))], before=before)
        self.assertEqual(before.objects, 20)
        text = skriemelt.write_catalogue(one, [(0, len(one))], before=before)
        self.assertEqual(skriemelt.write_catalogue(one, [(0, len(one))], before=alone), text)
        self.assertEqual((before, before.objects), (alone, 1))

    def test_refused_calls_change_nothing(self):
        before = Before()
        skriemelt.write_catalogue(SAMPLE, [(0, 45)], before=before)
        held = before.copy()
        later = "frame=1,objects=1,blocks=1\nstart=0,ramp=0\n" + "object=0," + WORKED[2].split(",", 1)[1] + "\n"
        for text in (later + "\n", later + "frame=2,objects=1,blocks=1\n", later[:-1]):
            self.assertRaises(Refused, skriemelt.read_catalogue, text, before)
            self.assertEqual(before, held)
        self.assertRaises(Refused, skriemelt.write_catalogue, SAMPLE[:3], [(0, 3)], [], before)
        self.assertRaises(TypeError, skriemelt.write_catalogue, SAMPLE, [(0, 45), None], None, before)
        self.assertEqual(before, held)
        skriemelt.read_catalogue(later, before)
        self.assertEqual(before.objects, 1)
        self.assertNotEqual(before, held)

    def test_before_as_a_value(self):
        before = Before()
        skriemelt.read_catalogue(text_of(WORKED), before)
        for other in (before.copy(), copy.copy(before), copy.deepcopy(before), pickle.loads(pickle.dumps(before))):
            self.assertIsNot(other, before)
            self.assertEqual((other, other.objects), (before, 3))
            skriemelt.read_catalogue("frame=10,objects=3,blocks=1\nstart=0,ramp=0\nobject=1,gain=49\n", other)
            self.assertNotEqual(other, before)
        self.assertNotEqual(before, Before())
        self.assertNotEqual(Before(), b"\0")
        self.assertIn("objects 3", repr(before))
        self.assertRaises(TypeError, hash, before)
        for bad in (b"", bytes(3817), 0, "", [], Before):
            self.assertRaisesRegex(TypeError, "before must be a Before", skriemelt.read_catalogue, "", bad)
            self.assertRaisesRegex(TypeError, "before must be a Before", skriemelt.write_catalogue, b"", [], [], bad)


# Two dynamic objects in two blocks, with an extended element; the bits are counted by hand.
TWO = bytes.fromhex("03084200400129482a542058ea818ff80f081c4c0522d0d000")


def ended(number, block, value, field, bit):
    """A step that ends with a field."""
    return WhyStep(number, block, value, Source.FIELD, field, bit)


def led(number, block, value, source=Source.BLOCK):
    """A step that has no field."""
    return WhyStep(number, block, value, source)


class Whys(Case):
    """Where a byte of a record comes from."""

    WORKED = {
        (1, 1, "gain"): (led(1, 1, 44), led(1, 0, 44, Source.OBJECT), ended(0, 0, 44, Field.GAIN_BITS, 54)),
        (0, 1, "x"): (WhyStep(0, 1, 0, Source.BLOCK, Field.DIFF_X, 98, -3), ended(0, 0, 1, Field.X, 61)),
        (0, 1, "y"): (WhyStep(0, 1, 22, Source.BLOCK, Field.DIFF_Y, 101, 2), ended(0, 0, 20, Field.Y, 67)),
        (0, 1, "z"): (WhyStep(0, 1, 65, Source.BLOCK, Field.DIFF_Z, 104, -4), ended(0, 0, 69, Field.Z, 74)),
        (1, 0, "x"): (ended(1, 0, 62, Field.X, 119),),
        (0, 1, "zone"): (led(0, 1, 0), ended(0, 0, 0, Field.ZONE_IDX, 79)),
        (0, 1, "snap"): (ended(0, 1, 0, Field.SNAP, 108),),
        (0, 0, "class_"): (led(0, 0, 2, Source.PROGRAMME),),
        (0, 0, "divergence"): (ended(0, 0, 0, Field.DIVERGENCE, 175),),
        (0, 0, "divergence_mode"): (led(0, 0, 0, Source.NOTHING),),
        (0, 1, "divergence_value"): (ended(0, 1, 33, Field.DIV_CODE, 179),),
        (1, 0, "divergence_value"): (led(1, 0, 0, Source.NOTHING),),
    }

    def test_worked(self):
        for (number, block, name), steps in self.WORKED.items():
            with self.subTest(object=number, block=block, name=name):
                answer = skriemelt.why(TWO, number, block, name)
                self.assertEqual(answer, Why(name, steps))
                self.assertEqual((answer.value, answer.origin), (steps[0].value, steps[-1]))

    def test_defaults(self):
        self.assertEqual(skriemelt.why(SAMPLE, 2, 1, "gain").steps, (led(2, 1, 0), led(2, 0, 0, Source.BASIC_DEFAULT)))
        self.assertEqual(skriemelt.why(SAMPLE, 0, 1, "elevation").steps, (led(0, 1, 1, Source.RENDER_DEFAULT),))

    def test_names_and_numbers(self):
        for byte, name in enumerate(skriemelt._RECORD_NAMES):
            self.assertEqual(skriemelt.why(SAMPLE, 1, 1, byte), skriemelt.why(SAMPLE, 1, 1, name))
            self.assertEqual(skriemelt.why(SAMPLE, 1, 1, byte).name, name)
        self.assertEqual(skriemelt.why(SAMPLE, 1, 1, "class"), skriemelt.why(SAMPLE, object=1, block=1, byte="class_"))

    def test_every_byte_of_every_vector(self):
        """The first value is the record's, each step leads to the next, and values stay on the way unless they are moved."""
        for payload, expected in zip(PAYLOADS, EXPECTED):
            if expected.number("refusal") or not expected.rows("record") or len(expected.rows("record")) > 40:
                continue
            for number, block, digits in expected.rows("record"):
                raw = bytes.fromhex(digits)
                for byte in range(24):
                    self.one_byte(skriemelt.why(payload, int(number), int(block), byte), int(number), int(block), raw[byte])

    def one_byte(self, answer, number, block, value):
        self.assertEqual((answer.steps[0].object, answer.steps[0].block, answer.value), (number, block, value))
        self.assertLessEqual(len(answer.steps), number + block + 1)
        self.assertNotIn(answer.origin.source, (Source.BLOCK, Source.OBJECT))
        for step, behind in zip(answer.steps, answer.steps[1:]):
            back = {Source.BLOCK: (step.object, step.block - 1), Source.OBJECT: (step.object - 1, step.block)}
            self.assertEqual((behind.object, behind.block), back[step.source])
            least, most = (49, 79) if answer.name == "z" else (0, 62)
            self.assertEqual(step.value, behind.value if step.difference is None else max(least, min(most, behind.value + step.difference)))

    def test_refused(self):
        asked = {(2, 0, 0): 1, (0, 2, 24): 2, (0, 0, 24): 3, (2 ** 32 - 1,) * 3: 1, (256, 0, 0): 1, (0, 256, 0): 2, (0, 0, 256): 3}
        for question, place in asked.items():
            with self.subTest(question=question), self.assertRaises(Refused) as caught:
                skriemelt.why(TWO, *question)
            self.assertEqual((caught.exception.refusal, caught.exception.place, caught.exception.missing), (Refusal.NO_SUCH, place, 0))
            self.assertIn(f"no {('object', 'block', 'byte')[place - 1]} {question[place - 1]}", str(caught.exception))
        with self.assertRaises(Refused) as caught:
            skriemelt.why(bytes.fromhex("0107c100"), 0, 0, 0)
        self.assertEqual((caught.exception.number, caught.exception.place), (14, 2))

    def test_refused_as_in_reading(self):
        for payload, expected in zip(PAYLOADS, EXPECTED):
            if expected.number("refusal"):
                with self.assertRaises(Refused) as caught:
                    skriemelt.why(payload, 200, 9, 99)
                refused = caught.exception
                self.assertEqual((refused.number, refused.place, refused.missing), tuple(expected.number(key) for key in ("refusal", "place", "missing")))

    def test_questions_that_are_none(self):
        for wrong in (-1, 2 ** 32):
            self.assertRaisesRegex(ValueError, "object is", skriemelt.why, TWO, wrong, 0, 0)
            self.assertRaisesRegex(ValueError, "block is", skriemelt.why, TWO, 0, wrong, 0)
            self.assertRaisesRegex(ValueError, "byte is", skriemelt.why, TWO, 0, 0, wrong)
        for wrong in (None, 1.0, "1"):
            self.assertRaisesRegex(TypeError, "object must be an integer", skriemelt.why, TWO, wrong, 0, 0)
            self.assertRaisesRegex(TypeError, "block must be an integer", skriemelt.why, TWO, 0, wrong, 0)
        self.assertRaisesRegex(TypeError, "byte must be an integer", skriemelt.why, TWO, 0, 0, None)
        for wrong in ("gian", "", "Gain", "time", "2"):
            self.assertRaisesRegex(ValueError, "must be a number or one of active, class_, gain", skriemelt.why, TWO, 0, 0, wrong)

    def test_sentences(self):
        self.assertEqual(str(skriemelt.why(TWO, 1, 1, "gain")).splitlines(), [
            "gain of object 1 in block 1 is 44: that of the block before.",
            "gain of object 1 in block 0 is 44: that of the object before.",
            "gain of object 0 in block 0 is 44: object_gain_bits at bit 54.",
        ])
        self.assertEqual(str(skriemelt.why(TWO, 0, 1, "x")).splitlines()[0], "x of object 0 in block 1 is 0: that of the block before, moved by -3 (diff_pos3D_X_bits at bit 98).")
        self.assertEqual(str(skriemelt.why(TWO, 0, 0, "class")), "class of object 0 in block 0 is 2: the programme.")
        self.assertEqual(str(skriemelt.why(TWO, 0, 0, 18)), "divergence_mode of object 0 in block 0 is 0: nothing is carried for it.")
        self.assertEqual(str(skriemelt.why(SAMPLE, 2, 0, "gain")), "gain of object 2 in block 0 is 0: a default of Table 28.")
        self.assertEqual(str(skriemelt.why(SAMPLE, 0, 0, "y")), "y of object 0 in block 0 is 31: a default of Table 29.")

    def test_names_of_fields(self):
        """They are those of the header, in its order."""
        text = (ROOT / "include" / "skriemelt.h").read_text(encoding="ascii")
        names = re.findall(r'"([^"]+)"', text[text.index("*skriemelt_field_name("):text.index("*skriemelt_source_word(")])
        self.assertEqual([field.standard_name for field in Field], names)
        self.assertEqual((Field.NOT_ACTIVE.standard_name, Field.PRECISE_Z.standard_name), ("b_object_not_active", "ext_prec_pos3D_Z"))
        bytes_ = re.findall(r'"([^"]+)"', text[text.index("*skriemelt_byte_name("):text.index("*skriemelt_field_name(")])
        self.assertEqual(bytes_, [name.rstrip("_") for name in skriemelt._RECORD_NAMES])

    def test_as_values(self):
        answer = skriemelt.why(TWO, 1, 1, "gain")
        self.assertEqual(hash(answer), hash(skriemelt.why(bytearray(TWO), 1, 1, 2)))
        self.assertEqual(pickle.loads(pickle.dumps(answer)), answer)
        with self.assertRaises(dataclasses.FrozenInstanceError):
            answer.name = "x"
        with self.assertRaises(dataclasses.FrozenInstanceError):
            answer.steps[0].value = 0

    def test_threads(self):
        questions = list(itertools.product(range(2), range(2), range(24))) * 4
        alone = [skriemelt.why(TWO, *question) for question in questions]
        with concurrent.futures.ThreadPoolExecutor(8) as pool:
            self.assertEqual(list(pool.map(lambda question: skriemelt.why(TWO, *question), questions)), alone)


class Salvages(Case):
    """A damaged payload without the elements that are refused."""

    # payloads worked by hand: what is left of them, and the drops
    WORKED = {
        "010440c1": ("0102", ((24, 1, 5),)),
        "010c40c0a0002110c000": ("010484430000", ((24, 1, 5), (31, 5, 7))),
        "010840412000": ("01064000", ((31, 1, 8),)),
    }

    def test_worked(self):
        for payload, (left, drops) in self.WORKED.items():
            with self.subTest(payload=payload):
                salvaged = skriemelt.salvage(bytes.fromhex(payload))
                self.assertEqual(salvaged, Salvaged(bytes.fromhex(left), tuple(Drop(place, Element(id), Refusal(refusal)) for place, id, refusal in drops)))
                self.assertEqual(skriemelt.salvage(salvaged.payload), Salvaged(salvaged.payload, ()))
                skriemelt.read(salvaged.payload)

    def test_fifteen_to_fourteen(self):
        """Fifteen elements, the first refused, fourteen unknown of a byte: the count loses five bits."""
        bits = "00000001" "00" "111100000" + "00010000001100000" + 14 * "10010000001010101"
        salvaged = skriemelt.salvage(int(bits.ljust(280, "0"), 2).to_bytes(35, "big"))
        left = "00000001" "00" "1110" + 14 * "10010000001010101"
        self.assertEqual(salvaged, Salvaged(int(left.ljust(264, "0"), 2).to_bytes(33, "big"), (Drop(29, Element.OBJECT, Refusal.RESERVED_VALUE),)))

    def test_vectors(self):
        """An accepted payload comes back as it is; of a refused one the first drop is its refusal, or it is refused likewise, or ends early later."""
        seen = collections.Counter()
        for payload, expected in zip(PAYLOADS, EXPECTED):
            number, place = expected.number("refusal"), expected.number("place")
            try:
                salvaged = skriemelt.salvage(payload)
            except Refused as refused:
                likewise = (refused.number, refused.place, refused.missing) == (number, place, expected.number("missing"))
                self.assertTrue(likewise or number >= 5 and refused.refusal is Refusal.PAST_PAYLOAD and refused.place >= place)
                seen["refused"] += 1
                continue
            if number == 0:
                self.assertEqual(salvaged, Salvaged(payload, ()))
                seen["accepted"] += 1
                continue
            self.assertEqual((salvaged.drops[0].place, salvaged.drops[0].refusal), (place, number))
            self.assertLessEqual(len(salvaged.payload), len(payload))
            self.assertEqual(skriemelt.salvage(salvaged.payload), Salvaged(salvaged.payload, ()))
            skriemelt.read(salvaged.payload)
            seen["salvaged"] += 1
        self.assertEqual(len(seen), 3, seen)

    def refused(self, payload, number, place, missing=0, **how):
        with self.assertRaises(Refused) as caught:
            skriemelt.salvage(payload, **how)
        self.assertEqual((caught.exception.number, caught.exception.place, caught.exception.missing), (number, place, missing))

    def test_refused(self):
        self.refused(b"", 2, 0, 2)
        self.refused(bytes(4097), 1, 4097)
        self.refused(b"\x40", 3, 0)
        self.refused(b"\x00\x00", 4, 12)
        self.refused(b"\x00\x2c", 5, 12)
        self.refused(bytes.fromhex("010840c0"), 2, 31, 3)

    def test_room(self):
        damaged = bytes.fromhex("010c40c0a0002110c000")
        self.assertEqual(len(skriemelt.salvage(damaged, room=6).payload), 6)
        self.refused(damaged, 11, 6, room=5)
        self.refused(damaged, 11, 6, room=0)

    def test_as_values(self):
        damaged = bytes.fromhex("010440c1")
        salvaged = skriemelt.salvage(damaged)
        self.assertEqual(hash(salvaged), hash(skriemelt.salvage(bytearray(damaged))))
        self.assertEqual(pickle.loads(pickle.dumps(salvaged)), salvaged)
        self.assertEqual(salvaged.drops[0].meaning, Refused(5, 24).meaning)
        with self.assertRaises(dataclasses.FrozenInstanceError):
            salvaged.payload = b""
        with self.assertRaises(dataclasses.FrozenInstanceError):
            salvaged.drops[0].place = 0

    def test_threads(self):
        payloads = [bytes.fromhex(payload) for payload in self.WORKED] * 32
        alone = [skriemelt.salvage(payload) for payload in payloads]
        with concurrent.futures.ThreadPoolExecutor(8) as pool:
            self.assertEqual(list(pool.map(skriemelt.salvage, payloads)), alone)


class Frames(Case):
    """Frames, and the time of each record."""

    LAST = (1 << 32) - 1

    def written(self, frame, tables, records):
        """What the library answers to records in a frame."""
        programme, timing = skriemelt._c_programme(tables.programme), skriemelt._c_timing(tables.timing)
        payload, trim = (ctypes.c_uint8 * 4096)(), tables.trim_bytes
        answer = skriemelt.default_library()._write(programme, timing, frame, records, len(records), trim, len(trim), payload, len(payload))
        return answer.refusal, answer.place

    def test_sample(self):
        raw = "01003e041f1f4000000000000100000000000000000000002000000000000000"
        self.assertEqual(skriemelt.read(SAMPLE).record(0, 1).raw.hex(), raw)
        for frame, first in ((0, 0), (7, 10752), (self.LAST, 6597069765120)):
            tables = skriemelt.read(SAMPLE, frame)
            self.assertEqual(tables.frame, frame)
            self.assertEqual([record.time for record in tables.records], [first, first + 32] * 3)
        self.assertEqual(skriemelt.read(SAMPLE, frame=7).record(0, 1).raw.hex()[-16:], "202a000000000000")
        self.assertEqual(Record(time=self.LAST * 1536 + 2047).raw.hex()[-16:], "ff01000000060000")

    def test_every_vector(self):
        for payload, form in zip(PAYLOADS, WRITTEN):
            here, there = answer_of(payload), answer_of(payload, 1000)
            if isinstance(here, Refused):
                self.same([here], [there])
            else:
                self.same([dataclasses.replace(here, frame=1000)], [there])
                self.same([dataclasses.replace(here, frame=1000).record_bytes], [there.record_bytes])
                self.assertEqual(skriemelt.write(there) if form else b"", form)

    def test_equality(self):
        here, there = skriemelt.read(SAMPLE), skriemelt.read(SAMPLE, 7)
        self.assertNotEqual(here, there)
        self.assertEqual(here.records, there.records)
        self.assertEqual(here.record(1, 0), here.record(1, 1))
        self.assertNotEqual(here.record(0, 0), here.record(0, 1))

    def test_tables_by_hand(self):
        tables = dataclasses.replace(small(), frame=7)
        self.assertEqual([record.time for record in tables.records], [10752, 10784] * 2)
        self.assertEqual(skriemelt.read(skriemelt.write(tables), 7), tables)
        self.assertEqual(skriemelt.write(tables), skriemelt.write(small()))
        later = dataclasses.replace(tables, timing=Timing((Update(5), Update(2021))), frame=8)
        self.assertEqual([record.time for record in later.records], [12293, 14309] * 2)
        self.assertEqual(skriemelt.read(skriemelt.write(later), 8), later)
        moved = dataclasses.replace(tables, records=later.records[::-1])
        self.assertEqual(moved.record_bytes, tables.record_bytes)
        self.assertIsInstance(dataclasses.replace(tables, records=list(tables.records)).records, tuple)

    def test_no_blocks(self):
        for frame in (0, 7, self.LAST):
            tables = Tables(Programme(1, dynonly=1), Timing(), (), Trim.none(1), frame=frame)
            self.assertEqual(skriemelt.write(tables), b"\x01\x00")
            self.assertEqual(skriemelt.read(b"\x01\x00", frame), tables)

    def test_refused_times(self):
        tables = skriemelt.read(SAMPLE, 7)
        records = bytearray(tables.record_bytes)
        self.assertEqual(self.written(7, tables, bytes(records)), (0, 0))
        self.assertEqual(self.written(8, tables, bytes(records)), (Refusal.NOT_VALID, 1))
        records[32 + 24] ^= 1
        self.assertEqual(self.written(7, tables, bytes(records)), (Refusal.NOT_VALID, 2))
        self.assertEqual(self.written(7, tables, bytes(records[:191])), (Refusal.NOT_VALID, 0))

    def test_batch(self):
        store, places = SAMPLE * 2, [(0, 45), (0, 3), (45, 45)]
        want = [skriemelt.read(SAMPLE, 7), answer_of(SAMPLE[:3]), skriemelt.read(SAMPLE, self.LAST)]
        self.same(skriemelt.read_batch(store, places, [7, 8, self.LAST]), want)
        self.same(skriemelt.read_batch(store, places), [answer_of(payload) for payload in (SAMPLE, SAMPLE[:3], SAMPLE)])
        many = skriemelt.read_batch(SAMPLE, [(0, 45)] * 1000, frames=range(5, 1005))
        self.assertEqual([tables.frame for tables in many], list(range(5, 1005)))
        self.assertEqual([tables.record(2, 1).time for tables in many], [1536 * frame + 32 for frame in range(5, 1005)])

    def test_frames_that_are_none(self):
        for bad in (-1, 1 << 32):
            self.assertRaisesRegex(ValueError, f"frame is {bad}", skriemelt.read, SAMPLE, bad)
            self.assertRaisesRegex(ValueError, r"frames\[1\] is", skriemelt.read_batch, SAMPLE, [(0, 45)] * 2, [0, bad])
        for bad in ("7", 7.0, None):
            self.assertRaisesRegex(TypeError, "frame must be an integer", skriemelt.read, SAMPLE, bad)
        for count in (0, 1, 3):
            self.assertRaisesRegex(ValueError, f"there are {count} frames for 2 entries", skriemelt.read_batch, SAMPLE, [(0, 45)] * 2, [0] * count)

    def test_times_that_are_none(self):
        for bad in (-1, 1 << 64):
            self.assertRaisesRegex(ValueError, "record.time", lambda: Record(time=bad).raw)
        self.assertRaisesRegex(TypeError, "record.time must be an integer", lambda: Record(time=1.0).raw)


class Refusals(unittest.TestCase):
    """What a refusal says."""

    def raised(self, call, *arguments, **named):
        with self.assertRaises(Refused) as caught:
            call(*arguments, **named)
        return caught.exception

    def test_message(self):
        refused = self.raised(skriemelt.read, bytes.fromhex("0107c1"))
        self.assertEqual((refused.number, refused.place, refused.missing), (2, 18, 7))
        self.assertEqual(refused.meaning, "a field, or an element's declared size, passes the payload's end")
        for part in ("refusal 2", refused.meaning, "place 18", "first bit", "missing bits: 7"):
            self.assertIn(part, str(refused))

    def test_too_long(self):
        refused = self.raised(skriemelt.read, bytes(4097))
        self.assertEqual((refused.refusal, refused.place, refused.missing), (Refusal.TOO_LONG, 4097, 0))

    def test_every_number_has_a_meaning(self):
        for refusal in list(Refusal)[1:]:
            refused = Refused(refusal, 3)
            self.assertIs(refused.refusal, refusal)
            self.assertIn(refused.meaning, str(refused))
            self.assertIn(refused.place_means, str(refused))

    def test_number_without_a_name(self):
        refused = Refused(99, 7)
        self.assertIsNone(refused.refusal)
        self.assertIn("99", str(refused))

    def test_pickled(self):
        again = pickle.loads(pickle.dumps(Refused(10, 4, 0, "the trim table")))
        self.assertEqual((again.number, again.place, again.missing, again.detail), (10, 4, 0, "the trim table"))
        tables = skriemelt.read(SAMPLE)
        self.assertEqual(pickle.loads(pickle.dumps(tables)), tables)

    def test_no_room(self):
        self.assertEqual(self.raised(skriemelt.read, SAMPLE, record_room=191).args[:2], (Refusal.NO_ROOM, 192))
        self.assertEqual(self.raised(skriemelt.read, SAMPLE, trim_room=96).args[:2], (Refusal.NO_ROOM, 97))
        self.assertEqual(self.raised(skriemelt.read, SAMPLE, record_room=0, trim_room=0).args[:2], (Refusal.NO_ROOM, 192))
        self.assertEqual(skriemelt.read(SAMPLE, record_room=192, trim_room=97), skriemelt.read(SAMPLE))

    def test_bad_record(self):
        tables = small()
        self.assertEqual(skriemelt.read(skriemelt.write(tables)), tables)
        for index in range(4):
            refused = self.raised(skriemelt.write, with_record(tables, index, gain=66))
            self.assertEqual((refused.number, refused.place), (Refusal.NOT_VALID, 1 + index))
            self.assertIn(f"the record of object {index // 2}, block {index % 2}", str(refused))

    def test_bad_programme_timing_or_too_few_records(self):
        tables = small()
        cases = [
            dataclasses.replace(tables, programme=Programme(2, dynonly=2)),
            dataclasses.replace(tables, programme=Programme(0, dynonly=1)),
            dataclasses.replace(tables, timing=Timing((Update(0, 0), Update(2048, 0)))),
            dataclasses.replace(tables, records=tables.records[:3]),
            dataclasses.replace(tables, records=()),
        ]
        for case in cases:
            refused = self.raised(skriemelt.write, case)
            self.assertEqual((refused.number, refused.place), (Refusal.NOT_VALID, 0))
            self.assertIn("programme, timing or too few records", str(refused))

    def test_bad_trim(self):
        tables = small()
        for trim in (Trim(present=2, object_flags=(0, 0)), Trim.none(1), Trim(warp_mode=1, object_flags=(0, 0))):
            refused = self.raised(skriemelt.write, dataclasses.replace(tables, trim=trim))
            self.assertEqual((refused.number, refused.place), (Refusal.NOT_VALID, 5))
            self.assertIn("the trim table", str(refused))

    def test_no_fit(self):
        form = skriemelt.write(small())
        for room in (0, 1, len(form) - 1):
            self.assertEqual(self.raised(skriemelt.write, small(), room=room).args[:2], (Refusal.NO_FIT, len(form)))
        self.assertEqual(skriemelt.write(small(), room=len(form)), form)
        many = self.raised(skriemelt.write, small(159, 8), room=20000)
        self.assertEqual(many.number, Refusal.NO_FIT)
        self.assertGreater(many.place, skriemelt.MOST_PAYLOAD_BYTES)

    def test_more_than_is_needed_is_not_looked_at(self):
        tables = small()
        more = dataclasses.replace(tables, records=tables.records + (Record(gain=255),), trim=Trim.none(7))
        self.assertEqual(skriemelt.write(more), skriemelt.write(tables))


class Values(unittest.TestCase):
    """What the fields and properties say, and what cannot be handed on."""

    def test_sample(self):
        tables = skriemelt.read(SAMPLE)
        record = tables.record(1, 0)
        self.assertEqual((tables.objects, tables.blocks, tables.unknown), (3, 2, 0))
        self.assertEqual(tables.timing.updates, (Update(0, 0), Update(32, 0)))
        self.assertEqual((record.gain_db, record.priority_part), (0.0, 1.0))
        self.assertEqual(record.position, (11 / 62, 12 / 62, 13 / 15))
        self.assertIs(record.object_class, ObjectClass.DYNAMIC)
        self.assertIs(tables.record(0, 0).object_class, ObjectClass.BED)
        self.assertIs(record.zone_constraint, Zone.ALL)
        self.assertTrue(record.is_active)
        self.assertFalse(tables.record(2, 0).is_active)
        self.assertEqual(tables.trim, Trim.none(3))

    def test_properties(self):
        self.assertEqual(Record().gain_db, -math.inf)
        self.assertEqual([Record(gain=gain).gain_db for gain in (1, 50, 65)], [-49.0, 0.0, 15.0])
        self.assertEqual(Record().position, (0.5, 0.5, 0.0))
        self.assertEqual(Record(x=0, y=62, z=49).position, (0.0, 1.0, -1.0))
        self.assertEqual(Record(z=79).position[2], 1.0)
        self.assertEqual(Record(width=31, depth=0, height=31).size, (1.0, 0.0, 1.0))
        self.assertEqual([(Record(distance=d).distance_infinite, Record(distance=d).distance_index) for d in (0, 1, 2, 17)],
                         [(False, None), (True, None), (False, 0), (False, 15)])
        self.assertEqual(Record(precise=5, precise_x=1, precise_z=3).precise_codes, (1, None, 3))
        self.assertEqual(Record(precise=2, precise_y=0).precise_codes, (None, 0, None))

    def test_counts_of_a_programme_that_is_not_valid(self):
        self.assertEqual([Programme(9, content=Content.ISF, isf=isf).isf_objects for isf in (5, 6, 255)], [30, 0, 0])
        self.assertEqual(Bed(assignment=0x1FFFF, standard=1).objects, 17)

    def test_enums_refuse_what_they_have_not(self):
        for call in (lambda: Record(class_=3).object_class, lambda: Record(zone=6).zone_constraint, lambda: Trim(global_mode=3).mode):
            self.assertRaises(ValueError, call)

    def test_trim(self):
        config = TrimConfig(carried=skriemelt.TrimCarried.CENTRE | skriemelt.TrimCarried.LIS, centre=7, sign_lis=1, amount_lis=9)
        configs = (TrimConfig(default=1), config) + (TrimConfig(disable=1),) * 7
        trim = Trim(1, 1, TrimMode.CUSTOM, configs, 1, (1, 0))
        again = skriemelt.read(skriemelt.write(dataclasses.replace(small(), trim=trim))).trim
        self.assertEqual(again, trim)
        self.assertIs(again.mode, TrimMode.CUSTOM)
        self.assertEqual(again.configs[1].carried_flags, skriemelt.TrimCarried.CENTRE | skriemelt.TrimCarried.LIS)
        self.assertEqual(len(again.raw), skriemelt.TRIM_FIXED + 2)
        self.assertRaisesRegex(ValueError, "9 configurations, not 1", lambda: Trim(configs=(config,)).raw)

    def test_frozen(self):
        tables = skriemelt.read(SAMPLE)
        for thing, name in ((tables, "unknown"), (tables.programme, "objects"), (tables.records[0], "gain"), (tables.trim, "present"), (tables.timing, "updates")):
            with self.assertRaises(dataclasses.FrozenInstanceError):
                setattr(thing, name, 1)
        self.assertEqual(len({tables, skriemelt.read(SAMPLE)}), 1)

    def test_indices(self):
        tables = skriemelt.read(SAMPLE)
        for pair in ((3, 0), (0, 2), (-1, 0), (0, -1)):
            self.assertRaises(IndexError, tables.record, *pair)

    def test_numbers_that_would_wrap(self):
        tables = small()
        cases = {
            "programme.objects": dataclasses.replace(tables, programme=Programme(258, dynonly=1)),
            "programme.lfe": dataclasses.replace(tables, programme=Programme(2, dynonly=1, lfe=-256)),
            "programme.beds[1].assignment": dataclasses.replace(tables, programme=Programme(2, beds=(Bed(), Bed(1 << 32)))),
            "programme.beds[0].standard": dataclasses.replace(tables, programme=Programme(2, beds=(Bed(0, 0, 256),))),
            "timing.updates[1].start": dataclasses.replace(tables, timing=Timing((Update(), Update(65536 + 32)))),
            "timing.updates[0].ramp": dataclasses.replace(tables, timing=Timing((Update(0, 65536), Update(32)))),
            "records[2].gain": with_record(tables, 2, gain=256 + 50),
            "records[0].z": with_record(tables, 0, z=-1),
            "trim.warp_mode": dataclasses.replace(tables, trim=Trim(1, 256, object_flags=(0, 0))),
            "trim.object_flags[1]": dataclasses.replace(tables, trim=Trim(object_flags=(0, 256))),
            "trim configuration.centre": dataclasses.replace(tables, trim=Trim(1, 0, 2, (TrimConfig(centre=300),) * 9, 0, (0, 0))),
            "9 beds": dataclasses.replace(tables, programme=Programme(2, beds=(Bed(),) * 10)),
            "frame is 4294967296": dataclasses.replace(tables, frame=1 << 32),
            "frame is -1": dataclasses.replace(tables, frame=-1),
            "8 updates": dataclasses.replace(tables, timing=Timing((Update(),) * 9)),
        }
        for name, case in cases.items():
            with self.subTest(name=name), self.assertRaisesRegex(ValueError, re.escape(name)):
                skriemelt.write(case)

    def test_values_that_are_no_numbers(self):
        tables = small()
        for case in (with_record(tables, 0, gain=50.0), with_record(tables, 0, gain=None), dataclasses.replace(tables, frame="7"), dataclasses.replace(tables, programme=Programme("2")),
                     dataclasses.replace(tables, timing=Timing((Update("0"), Update(32))))):
            self.assertRaisesRegex(TypeError, "must be an integer", skriemelt.write, case)

    def test_rooms_that_are_none(self):
        for room in (-1, 1 << 64):
            self.assertRaises(ValueError, skriemelt.read, SAMPLE, record_room=room)
            self.assertRaises(ValueError, skriemelt.write, small(), room=room)
        self.assertRaises(TypeError, skriemelt.read, SAMPLE, trim_room="97")


class NoBytes(unittest.TestCase):
    """Bytes that are no bytes."""

    def test_other_types(self):
        for given in ("01", None, 5, 1.5, [1, 2], (1, 2), {1}, object(), array.array("B", [1, 2]), range(3), (ctypes.c_uint8 * 3)()):
            name = re.escape(type(given).__name__)
            lists = [lambda store, call=call: call(store, []) for call in (skriemelt.read_batch, skriemelt.summarise, skriemelt.write_catalogue)]
            for call in (skriemelt.read, skriemelt.list_text, skriemelt.salvage, lambda payload: skriemelt.why(payload, 0, 0, 0), *lists, Record.from_bytes, Trim.from_bytes):
                with self.subTest(given=given), self.assertRaisesRegex(TypeError, f"must be bytes, bytearray or memoryview, not {name}"):
                    call(given)

    def test_views_that_do_not_lie_side_by_side(self):
        for view in (memoryview(SAMPLE)[::2], memoryview(SAMPLE)[::-1], memoryview(bytearray(SAMPLE))[1::3]):
            lists = [lambda store, call=call: call(store, [(0, 1)]) for call in (skriemelt.read_batch, skriemelt.summarise, skriemelt.write_catalogue)]
            for call in (skriemelt.read, *lists):
                self.assertRaisesRegex(TypeError, "side by side", call, view)

    def test_views_of_other_items(self):
        for view in (memoryview(array.array("H", [1, 2])), memoryview(bytes(8)).cast("I"), memoryview(bytes(8)).cast("B", (2, 4)), memoryview(b"a").cast("B", ())):
            self.assertRaisesRegex(TypeError, "one row of bytes", skriemelt.read, view)

    def test_released_view(self):
        view = memoryview(SAMPLE)
        view.release()
        self.assertRaises(ValueError, skriemelt.read, view)

    def test_subclass_with_another_length(self):
        class Long(bytes):
            def __len__(self):
                return 4000

            def __bytes__(self):
                return b"\x41\x00"

        self.assertEqual(skriemelt.read(Long(SAMPLE)), skriemelt.read(SAMPLE))
        self.assertEqual(skriemelt.read_batch(Long(SAMPLE), [(0, 46)])[0].number, Refusal.OUTSIDE)

    def test_lengths_of_raw_bytes(self):
        for count in (0, 24, 31, 33):
            self.assertRaisesRegex(ValueError, f"not {count}", Record.from_bytes, bytes(count))
        self.assertRaisesRegex(ValueError, "not 93", Trim.from_bytes, bytes(93))
        self.assertEqual(Trim.from_bytes(bytes(94)), Trim())

    def test_the_given_bytes_stay(self):
        given = bytearray(SAMPLE)
        skriemelt.read(given)
        skriemelt.read_batch(given, [(0, 45)])
        skriemelt.summarise(given, [(0, 45)])
        self.assertEqual(given, SAMPLE)
        given.append(0)  # no view of it is held


class Interface(unittest.TestCase):
    """The module against the header, and its types."""

    def test_names_of_the_header(self):
        text = (ROOT / "include" / "skriemelt.h").read_text(encoding="ascii")
        defined = {name: int(value) for name, value in re.findall(r"^(?:#define |    )SKRIEMELT_(\w+)(?: =)? (\d+)\b", text, flags=re.M)}
        version = defined.pop("VERSION")
        self.assertEqual(version, 1000 * defined.pop("VERSION_MAJOR") + defined.pop("VERSION_MINOR"))
        enums = {"CLASS_": ObjectClass, "CONTENT_": Content, "TRIM_MODE_": TrimMode, "TRIM_CARRIED_": skriemelt.TrimCarried, "SOURCE_": Source, "FIELD_": Field, "ELEMENT_": Element}
        known = {prefix + member.name: member for prefix, kind in enums.items() for member in kind}
        known.update({member.name: member for member in Refusal}, FIELD_NONE=0)
        known.update({"RECORD_" + name.rstrip("_").upper(): at for at, name in enumerate(skriemelt._RECORD_NAMES)})
        known.update({"TRIM_CONFIG_" + name.upper(): at for at, name in enumerate(skriemelt._CONFIG_NAMES)})
        known.update({name: getattr(skriemelt, name) for name in dir(skriemelt) if re.fullmatch(r"(MOST|FRAME|RECORD|TRIM)_[A-Z_]+", name)})
        known.update({name: getattr(skriemelt, "_" + name) for name in ("GAINS", "ZONES", "CLASSES", "ACTIVITIES", "PAYLOAD_ANSWERS", "BEFORE_BYTES")})
        for name, value in defined.items():
            if name in known:
                self.assertEqual(known[name], value, name)
        self.assertEqual([name for name in defined if name not in known], [])
        self.assertLessEqual({member.name for member in Refusal}, set(defined))
        self.assertEqual(version // 1000, skriemelt.INTERFACE // 1000)
        self.assertGreaterEqual(version, skriemelt.INTERFACE)

    def test_layout(self):
        sizes = {"_Bed": 8, "_Programme": 84, "_Update": 4, "_Timing": 34, "_ReadAnswer": 136, "_WriteAnswer": 16, "_BatchAnswer": 16, "_Summary": 384,
                 "_CatalogueAnswer": 24, "_BackAnswer": 32, "_CatalogueFrame": 40, "_WhyStep": 12, "_WhyAnswer": 2008, "_Drop": 8, "_SalvageAnswer": 392}
        self.assertEqual({name: ctypes.sizeof(getattr(skriemelt, name)) for name in sizes}, sizes)
        answer = skriemelt._ReadAnswer
        self.assertEqual([getattr(answer, name).offset for name, _ in answer._fields_], [0, 8, 9, 12, 96, 132])
        summary = skriemelt._Summary
        self.assertEqual([getattr(summary, name).offset for name, _ in summary._fields_], [0, 8, 12, 16, 280, 304, 316, 324, 328, 332])
        line = skriemelt._CatalogueFrame
        self.assertEqual([getattr(line, name).offset for name, _ in line._fields_], [0, 4, 5, 6, 7, 8])
        step, reasons = skriemelt._WhyStep, skriemelt._WhyAnswer
        self.assertEqual([getattr(step, name).offset for name, _ in step._fields_], [0, 4, 5, 6, 7, 8, 9])
        self.assertEqual([getattr(reasons, name).offset for name, _ in reasons._fields_], [0, 8, 12, 13, 16])
        drop, salvaged = skriemelt._Drop, skriemelt._SalvageAnswer
        self.assertEqual([getattr(drop, name).offset for name, _ in drop._fields_], [0, 4, 5])
        self.assertEqual([getattr(salvaged, name).offset for name, _ in salvaged._fields_], [0, 8, 12, 16, 17, 20])
        self.assertEqual((skriemelt._CatalogueAnswer.refusal.offset, skriemelt._BackAnswer.refusal.offset, skriemelt._BEFORE_BYTES), (16, 24, 3817))
        self.assertEqual((skriemelt._Programme.beds.offset, skriemelt._Timing.updates.offset, skriemelt._WriteAnswer.refusal.offset), (12, 2, 12))

    def test_typed(self):
        for name in skriemelt.__all__:
            thing = getattr(skriemelt, name)
            if callable(thing) and not isinstance(thing, type):
                hints = typing.get_type_hints(thing)
                self.assertEqual(set(hints), set(thing.__code__.co_varnames[:thing.__code__.co_argcount + thing.__code__.co_kwonlyargcount]) | {"return"})
                self.assertTrue(thing.__doc__)

    def test_syntax_of_python_3_9(self):
        for path in (HERE.parent / "skriemelt.py", pathlib.Path(__file__)):
            ast.parse(path.read_text(encoding="utf-8"), feature_version=(3, 9))

    def test_all_of_it_is_named(self):
        tree = ast.parse((HERE.parent / "skriemelt.py").read_text(encoding="utf-8"))
        public = {node.name for node in tree.body if isinstance(node, (ast.FunctionDef, ast.ClassDef)) and not node.name.startswith("_")}
        self.assertLessEqual(public, set(skriemelt.__all__))


STUB = """
#include <stdint.h>
#include <stddef.h>
#include <string.h>
typedef struct { uint64_t place; uint32_t length; uint8_t refusal; } text_answer;
uint32_t skriemelt_version(void) { return VERSION; }
#ifndef ALONE
void skriemelt_read(void) {}
void skriemelt_write(void) {}
void skriemelt_read_batch(void) {}
void skriemelt_summarise(void) {}
void skriemelt_catalogue_write_on(void) {}
void skriemelt_catalogue_read_on(void) {}
void skriemelt_why(void) {}
void skriemelt_salvage(void) {}
text_answer skriemelt_list_text(const uint8_t *payload, size_t payload_bytes, uint8_t *text, size_t text_bytes)
{
    text_answer a = {0, 10, 0}, b = {10, 0, 18};
    (void)payload;
    (void)payload_bytes;
    if (text_bytes < 10)
        return b;
    memcpy(text, "refusal=0\\n", 10);
    return a;
}
#endif
"""


def compiler():
    return next((found for found in map(shutil.which, (os.environ.get("CC") or "cc", "gcc", "clang")) if found), None)


class Missing(unittest.TestCase):
    """No library."""

    def error(self, named):
        with mock.patch.dict(os.environ, {"SKRIEMELT_LIBRARY": named}), self.assertRaises(skriemelt.LibraryError) as caught:
            skriemelt.read(SAMPLE)
        return str(caught.exception)

    def test_named_and_not_there(self):
        says = self.error("/nowhere/libskriemelt.so.3")
        self.assertIn("SKRIEMELT_LIBRARY names", says)
        self.assertIn("/nowhere/libskriemelt.so.3", says)

    def test_named_and_no_library(self):
        self.assertIn(__file__, self.error(__file__))

    def test_not_named_and_not_there(self):
        with mock.patch.object(skriemelt, "_candidates", lambda: iter(["/nowhere/libskriemelt.so.3", "/nowhere/libskriemelt.so"])):
            skriemelt._opened.cache_clear()
            says = self.error("")
        for part in ("SKRIEMELT_LIBRARY is not set", "/nowhere/libskriemelt.so.3: ", "/nowhere/libskriemelt.so: "):
            self.assertIn(part, says)

    def test_where_it_is_looked_for(self):
        beside = str(HERE.parent / "libskriemelt.so")
        with mock.patch("ctypes.util.find_library", lambda name: f"lib{name}.so.9"):
            self.assertEqual(list(skriemelt._candidates()), [beside + ".3", beside, "libskriemelt.so.3", "libskriemelt.so.9"])
        with mock.patch("ctypes.util.find_library", lambda name: None):
            self.assertEqual(list(skriemelt._candidates()), [beside + ".3", beside, "libskriemelt.so.3"])

    def test_import_needs_no_library(self):
        environment = dict(os.environ, SKRIEMELT_LIBRARY="/nowhere/libskriemelt.so.3", PYTHONPATH=str(HERE.parent))
        subprocess.run([sys.executable, "-c", "import skriemelt; skriemelt.Record().raw"], env=environment, check=True)


@unittest.skipUnless(compiler(), "there is no C compiler")
class OtherVersion(unittest.TestCase):
    """Libraries of other versions, compiled here."""

    def setUp(self):
        self.folder = tempfile.TemporaryDirectory()
        self.addCleanup(self.folder.cleanup)

    def stub(self, *options):
        """A library made with these options."""
        folder = pathlib.Path(tempfile.mkdtemp(dir=self.folder.name))
        (folder / "stub.c").write_text(STUB, encoding="ascii")
        path = folder / "libskriemelt.so.3"
        subprocess.run([compiler(), "-shared", "-fPIC", *options, "-o", str(path), str(folder / "stub.c")], check=True)
        return str(path)

    def test_versions_that_do_not_fit(self):
        for version in (0, 1002, 2003, 2999, 3000, 3001, 3002, 3003, 4000, 13000):
            path = self.stub(f"-DVERSION={version}")
            with self.subTest(version=version), mock.patch.dict(os.environ, {"SKRIEMELT_LIBRARY": path}):
                with self.assertRaises(skriemelt.LibraryError) as caught:
                    skriemelt.read(SAMPLE)
                for part in (path, f"has version {version} ", "3004 to 3999"):
                    self.assertIn(part, str(caught.exception))

    def test_versions_that_fit(self):
        for version in (3004, 3005, 3999):
            library = skriemelt.Library(self.stub(f"-DVERSION={version}"))
            self.assertEqual(library.version, version)
            self.assertIn(str(version), repr(library))

    def test_listing(self):
        library = skriemelt.Library(self.stub("-DVERSION=3004"))
        self.assertEqual(skriemelt.list_text(SAMPLE, library=library), "refusal=0\n")
        with self.assertRaises(Refused) as caught:
            skriemelt.list_text(SAMPLE, room=9, library=library)
        self.assertEqual((caught.exception.refusal, caught.exception.place), (Refusal.SHORT_TEXT, 10))

    def test_functions_that_are_not_there(self):
        path = self.stub("-DVERSION=3004", "-DALONE")
        self.assertRaisesRegex(skriemelt.LibraryError, "no function skriemelt_read", skriemelt.Library, path)
        fewer = self.stub("-DVERSION=3004", "-Dskriemelt_catalogue_read_on=another_read_on")
        self.assertRaisesRegex(skriemelt.LibraryError, "no function skriemelt_catalogue_read_on", skriemelt.Library, fewer)
        other = self.stub("-DVERSION=3004", "-Dskriemelt_version=another_version")
        self.assertRaisesRegex(skriemelt.LibraryError, "no function skriemelt_version", skriemelt.Library, pathlib.Path(other))

    def test_the_first_that_loads_decides(self):
        old, fit = self.stub("-DVERSION=2003"), self.stub("-DVERSION=3004")
        with mock.patch.dict(os.environ, {"SKRIEMELT_LIBRARY": ""}):
            self.addCleanup(skriemelt._opened.cache_clear)
            with mock.patch.object(skriemelt, "_candidates", lambda: iter(["/nowhere/lib.so", fit, old])):
                skriemelt._opened.cache_clear()
                self.assertEqual(skriemelt.default_library().path, fit)
                self.assertIs(skriemelt.default_library(), skriemelt.default_library())
            with mock.patch.object(skriemelt, "_candidates", lambda: iter([old, fit])):
                skriemelt._opened.cache_clear()
                self.assertRaisesRegex(skriemelt.LibraryError, "has version 2003", skriemelt.default_library)


if __name__ == "__main__":
    unittest.main()
