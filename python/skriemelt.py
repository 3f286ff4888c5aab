"""Object audio metadata (OAMD, ETSI TS 103 420 V1.2.1), read and written by the Skriemelt library.

    import skriemelt
    try:
        tables = skriemelt.read(payload, frame=7)         # bytes, bytearray or memoryview; frame 0 if it is not given
    except skriemelt.Refused as refused:
        print(refused.number, refused.place, refused.meaning)
    for update in tables.timing.updates:
        print(update.start, update.ramp)                  # in samples
    record = tables.record(1, 0)                          # object 1, block 0
    print(record.gain_db, record.position, record.object_class, record.raw.hex())
    print(record.time)                                    # 7 * 1,536 + the start of block 0, in samples
    payload = skriemelt.write(tables)                     # the one form that the tables have
    answers = skriemelt.read_batch(store, [(0, 45), (45, 12)], frames=[7, 8])  # Tables or Refused, in order
    summary = skriemelt.summarise(store, [(0, 45), (45, 12)])  # counts over all of them
    print(summary.gains_db[0.0], summary.by_zone[skriemelt.Zone.ALL], summary.active, summary.refused)
    text = skriemelt.write_catalogue(store, [(0, 45), (45, 12)], frames=[7, 8])  # what changed from update to update, lines of key=value
    for frame in skriemelt.read_catalogue(text):          # and every record back
        print(frame.frame, frame.refusal, frame.updates, [record.time for record in frame.records])
    print(skriemelt.why(payload, 1, 0, "gain"))           # where the gain of object 1 in block 0 comes from, step by step, in sentences
    salvaged = skriemelt.salvage(damaged)                 # a payload without the elements that are refused, and these
    print(len(salvaged.payload), [(drop.place, drop.id, drop.refusal) for drop in salvaged.drops])

Fields hold the numbers of include/skriemelt.h under its names, so that nothing is lost between a read and a write; properties say what they mean. Objects
but Before are frozen: `dataclasses.replace` gives changed ones. What the library reads is proved; this module hands it bytes and names what it answers.

Tables have a frame, and each record in them the time of its block in that frame. Nobody needs to work times out: Tables give every record that is put into them its time, by their
frame and timing, so that they can be made by hand, moved to another frame or given another timing with `dataclasses.replace`, and written. The payload does not depend on the frame.

A catalogue has a line for each frame, with its refusal or its counts, under it one for each update, and under that one for each object that is not as it was in the update before, with the fields that changed; the first update,
and one with another number of objects than the update before, has every field of every object. A catalogue too long for one call is written, and read, in pieces that each begin with a frame: a `Before`, given to one call after the other,
carries the update before from piece to piece.

Why a byte of a record is what it is, `why` says: its steps lead from that byte back, over the block before and the object before, to the field, the programme or the default that gave the value.

Of a damaged payload `salvage` keeps what can be read: each known element that a read refuses is dropped, and what is left is accepted. An accepted payload comes back as the same bytes.

The library is looked for when the first call needs it. The environment variable SKRIEMELT_LIBRARY names it (a path, or a name for the loader); if that is
not set, it is looked for beside this file, as libskriemelt.so.3 where the loader looks, and by ctypes.util.find_library. Its version must have the major
number of INTERFACE and be INTERFACE at least; otherwise, and where there is none, LibraryError says what was looked for and found.

Calls may run at once in several threads: nothing is kept between them but the loaded library, and what a Before holds, which is given to one call at a time. Bytes are used in place; a bytearray or a memoryview
is copied first, so it may change during the call, and a str is encoded.
"""
from __future__ import annotations

import ctypes
import ctypes.util
import enum
import functools
import itertools
import operator
import os
from dataclasses import astuple, dataclass, field, fields, replace
from typing import Any, Dict, Iterable, Iterator, List, Optional, Sequence, Tuple, Union

__all__ = [
    "Bed", "Before", "CatalogueFrame", "Content", "Drop", "Element", "FRAME_SAMPLES", "Field", "INTERFACE", "Library", "LibraryError", "MOST_BEDS", "MOST_BLOCKS", "MOST_DROPS", "MOST_ENTRIES", "MOST_FRAME_TEXT_BYTES", "MOST_OBJECTS", "MOST_PAYLOAD_BYTES",
    "MOST_RECORD_BYTES", "MOST_STEPS", "MOST_TEXT_BYTES", "MOST_TRIM_BYTES", "MOST_UNKNOWN", "ObjectClass", "Programme", "RECORD_BYTES", "RECORD_STRIDE", "RECORD_TIME",
    "Record", "Refusal", "Refused", "Salvaged", "Source", "Summary", "TRIM_CONFIGS", "TRIM_CONFIG_STRIDE", "TRIM_FIXED", "Tables", "Timing", "Trim", "TrimCarried", "TrimConfig", "TrimMode", "Update", "Why", "WhyStep", "Zone",
    "default_library", "list_text", "read", "read_batch", "read_catalogue", "salvage", "summarise", "why", "write", "write_catalogue",
]

INTERFACE = 3004  # the version of the C interface that is needed: a thousand times the major number, plus the minor

MOST_PAYLOAD_BYTES = 4096
MOST_RECORD_BYTES = 40960
MOST_TRIM_BYTES = 253
MOST_OBJECTS = 159
MOST_BLOCKS = 8
MOST_BEDS = 9
MOST_UNKNOWN = 46
MOST_TEXT_BYTES = 100000  # the listing of every payload fits
MOST_ENTRIES = 65536  # payloads of a summary
MOST_FRAME_TEXT_BYTES = 338558  # all lines of a frame in a catalogue fit
MOST_STEPS = 166  # of an answer why
MOST_DROPS = 46  # of a salvage: all elements that a payload can have
FRAME_SAMPLES = 1536  # samples of a frame
RECORD_STRIDE = 32  # bytes of a record: those that the payload gives, and its time
RECORD_BYTES = 24
RECORD_TIME = 24  # where the time begins
TRIM_PRESENT = 0
TRIM_WARP_MODE = 1
TRIM_GLOBAL_MODE = 2
TRIM_CONFIG = 3
TRIM_PER_OBJECT = 93
TRIM_FIXED = 94
TRIM_CONFIGS = 9
TRIM_CONFIG_STRIDE = 10

_MOST_FRAME = (1 << 32) - 1
_MOST_ASKED = (1 << 32) - 1  # object, block and byte
_MOST_TIME = (1 << 64) - 1
_BATCH_ROOM = 1 << 23  # bytes that a batch borrows at once; longer lists are read in several calls

BytesLike = Union[bytes, bytearray, memoryview]


# ---- names for numbers


class Refusal(enum.IntEnum):
    """Why a call was refused, by number."""

    ACCEPTED = 0
    TOO_LONG = 1
    PAST_PAYLOAD = 2
    OTHER_VERSION = 3
    COUNTS_DISAGREE = 4
    RESERVED_VALUE = 5
    SECOND_ELEMENT = 6
    EXTENDED_EARLY = 7
    PAST_ELEMENT = 8
    NO_ROOM = 9
    NOT_VALID = 10
    NO_FIT = 11
    OUTSIDE = 12
    LISTS = 13
    NO_SUCH = 14
    TOO_MANY = 16
    BAD_LINE = 17
    SHORT_TEXT = 18


class ObjectClass(enum.IntEnum):
    """What sort of object a record is of."""

    BED = 0
    ISF = 1
    DYNAMIC = 2


class Zone(enum.IntEnum):
    """zone_constraints_idx (Table 20): which horizontal zones are left in or out; 6 and 7 are reserved."""

    ALL = 0
    NO_BACK = 1
    NO_SIDE = 2
    CENTRE_AND_BACK_ONLY = 3
    SCREEN_ONLY = 4
    SURROUND_ONLY = 5


class Content(enum.IntFlag):
    """The bits of content_description."""

    BED = 1
    ISF = 2
    DYNAMIC = 4
    RESERVED = 8


class TrimMode(enum.IntEnum):
    """global_trim_mode."""

    DEFAULT = 0
    DISABLE = 1
    CUSTOM = 2


class TrimCarried(enum.IntFlag):
    """The bits of trim_balance_presence[]."""

    CENTRE = 1
    SURROUND = 2
    HEIGHT = 4
    TB = 8
    LIS = 16


class Element(enum.IntEnum):
    """The known elements, by their id."""

    OBJECT = 1
    TRIM = 2
    EXTENDED = 5


class Source(enum.IntEnum):
    """Where a byte of a record comes from. BLOCK and OBJECT lead to another step, all others end the chain."""

    FIELD = 1  # a field, the last one that was read for it
    PROGRAMME = 2
    BASIC_DEFAULT = 3  # a default of Table 28
    RENDER_DEFAULT = 4  # a default of Table 29
    NOTHING = 5  # nothing is carried for it
    BLOCK = 6  # the block before; with a difference, moved by it
    OBJECT = 7  # the object before


class Field(enum.IntEnum):
    """The fields that a byte of a record can come from, in the order in which they are sent; standard_name is what the standard calls them."""

    NOT_ACTIVE = 1
    GAIN_IDX = 2
    GAIN_BITS = 3
    DEFAULT_PRIORITY = 4
    PRIORITY_BITS = 5
    DIFF_X = 6
    DIFF_Y = 7
    DIFF_Z = 8
    X = 9
    Y = 10
    Z = 11
    DISTANCE_SPECIFIED = 12
    AT_INFINITY = 13
    DISTANCE_IDX = 14
    ZONE_IDX = 15
    ELEVATION = 16
    SIZE_IDX = 17
    SIZE_BITS = 18
    WIDTH = 19
    DEPTH = 20
    HEIGHT = 21
    SCREEN_REF = 22
    SCREEN_FACTOR = 23
    DEPTH_IDX = 24
    SNAP = 25
    DIVERGENCE = 26
    DIV_MODE = 27
    DIV_TABLE = 28
    DIV_CODE = 29
    PRESENCE = 30
    PRECISE_X = 31
    PRECISE_Y = 32
    PRECISE_Z = 33

    @property
    def standard_name(self) -> str:
        """The field's name in the standard."""
        return _FIELD_NAMES[self - 1]


_FIELD_NAMES = (
    "b_object_not_active", "object_gain_idx", "object_gain_bits", "b_default_object_priority", "object_priority_bits", "diff_pos3D_X_bits", "diff_pos3D_Y_bits", "diff_pos3D_Z_bits", "pos3D_X_bits",
    "pos3D_Y_bits", "pos3D_Z_bits", "b_object_distance_specified", "b_object_at_infinity", "distance_factor_idx", "zone_constraints_idx", "b_enable_elevation", "object_size_idx", "object_size_bits",
    "object_width_bits", "object_depth_bits", "object_height_bits", "b_object_use_screen_ref", "screen_factor_bits", "depth_factor_idx", "b_object_snap", "b_object_divergence", "object_div_mode",
    "object_div_table", "object_div_code", "ext_prec_pos_presence[]", "ext_prec_pos3D_X", "ext_prec_pos3D_Y", "ext_prec_pos3D_Z",
)


# What each refusal is given for, and what its place counts.
_MEANINGS = {
    Refusal.TOO_LONG: ("the payload is longer than 4,096 bytes", "its length in bytes"),
    Refusal.PAST_PAYLOAD: ("a field, or an element's declared size, passes the payload's end", "the first bit of that field or size"),
    Refusal.OTHER_VERSION: ("the version is not 0", "always 0"),
    Refusal.COUNTS_DISAGREE: ("the object counts disagree", "the first bit behind the program assignment"),
    Refusal.RESERVED_VALUE: ("a field has a value that the standard marks reserved", "the first bit of that field"),
    Refusal.SECOND_ELEMENT: ("a known element comes a second time", "the first bit of its id"),
    Refusal.EXTENDED_EARLY: ("an extended object element comes before any object element", "the first bit of its id"),
    Refusal.PAST_ELEMENT: ("a field of a known element passes the end that the element declares", "the first bit of that field"),
    Refusal.NO_ROOM: ("the room for the records, or else for the trim table, is too short", "the bytes needed"),
    Refusal.NOT_VALID: ("the tables are not valid", "0 for programme, timing or too few records, 1 + the index of the first bad record, 1 + the number of records for trim"),
    Refusal.NO_FIT: ("the form, or what a salvage leaves, is longer than its room or than 4,096 bytes", "the bytes needed"),
    Refusal.OUTSIDE: ("start and length leave the store", "the start in bytes"),
    Refusal.LISTS: ("the lists differ in length, or the slots or answers of a batch do not fit", "the number of starts"),
    Refusal.NO_SUCH: ("there is no such object, block or byte", "1 the object, 2 the block, 3 the byte"),
    Refusal.TOO_MANY: ("there are more than 65,536 payloads", "their number"),
    Refusal.BAD_LINE: ("a line of the catalogue cannot stand where it does", "the number of that line, from 1; one past the last if lines are missing at the end"),
    Refusal.SHORT_TEXT: ("the text is longer than its room", "the bytes needed"),
}


class Refused(Exception):
    """A payload, tables, lists or a text that were refused.

    number: the refusal's number, see Refusal. place: where, see `place_means`. missing: with PAST_PAYLOAD the bits that were missing at the place, else 0.
    detail: what the place stands for, where the call knows more than the number says.
    """

    number: int
    place: int
    missing: int
    detail: str

    def __init__(self, number: int, place: int, missing: int = 0, detail: str = "") -> None:
        super().__init__(number, place, missing, detail)
        self.number = number
        self.place = place
        self.missing = missing
        self.detail = detail

    @property
    def refusal(self) -> Optional[Refusal]:
        """The number as a Refusal; None if this module has no name for it."""
        return Refusal(self.number) if self.number in _MEANINGS else None

    @property
    def meaning(self) -> str:
        """What the refusal is given for."""
        return _MEANINGS[Refusal(self.number)][0] if self.number in _MEANINGS else "a refusal that this module has no name for"

    @property
    def place_means(self) -> str:
        """What the place counts."""
        return _MEANINGS[Refusal(self.number)][1] if self.number in _MEANINGS else "unknown"

    def __str__(self) -> str:
        parts = [f"refusal {self.number}: {self.meaning}", f"place {self.place} ({self.detail or self.place_means})"]
        if self.missing:
            parts.append(f"missing bits: {self.missing}")
        return "; ".join(parts)


class LibraryError(OSError):
    """The library is not there, is another version than is needed, or is not this library."""


# ---- what is asked of values before they go into C, where they would wrap


def _number(value: Any, most: int, name: str) -> int:
    """An integer from 0 to the most, or TypeError or ValueError with its name."""
    try:
        number = operator.index(value)
    except TypeError:
        raise TypeError(f"{name} must be an integer, not {type(value).__name__}") from None
    if not 0 <= number <= most:
        raise ValueError(f"{name} is {number}, but must be from 0 to {most}")
    return number


def _packed(values: Tuple[Any, ...], names: Sequence[str], what: str) -> bytes:
    """Values of a byte each; an error names the one that is none."""
    return bytes([value if type(value) is int and 0 <= value <= 255 else _number(value, 255, f"{what}.{name}") for value, name in zip(values, names)])


def _bytes_of(value: Any, name: str, types: str = "bytes, bytearray or memoryview") -> bytes:
    """The bytes of what is given, in place if it is of type bytes, else a copy. A subclass may answer another length than it has, so it is copied too."""
    if type(value) is bytes:
        return value
    if not isinstance(value, (bytes, bytearray, memoryview)):
        raise TypeError(f"{name} must be {types}, not {type(value).__name__}")
    with memoryview(value) as view:
        if view.itemsize != 1 or view.ndim != 1:
            raise TypeError(f"{name} is a memoryview of {view.ndim} dimensions and items of {view.itemsize} bytes; one row of bytes is needed, see memoryview.cast")
        if not view.c_contiguous:
            raise TypeError(f"{name} is a memoryview whose bytes do not lie side by side (step {view.strides[0]}); bytes() of it makes a copy that does")
        return view.tobytes()


def _text_bytes(text: Any) -> bytes:
    """The bytes of a text, one for each character of a str. A character beyond ASCII becomes a question mark: neither stands in any catalogue, and neither ends a line, so the same line is bad."""
    return str.encode(text, "ascii", "replace") if isinstance(text, str) else _bytes_of(text, "text", "str, bytes, bytearray or memoryview")


# ---- tables


@dataclass(frozen=True)
class Bed:
    """One bed of the program assignment (5.5.3), as carried."""

    assignment: int = 0  # channel assignment flags, 10 bits (standard) or 17, index 0 the top bit; 0 for an LFE-only bed
    lfeonly: int = 0  # b_lfe_only
    standard: int = 0  # b_standard_chan_assign; 0 for an LFE-only bed

    @property
    def objects(self) -> int:
        """How many objects the bed has: one for each speaker label."""
        flags = [self.assignment >> bit & 1 for bit in range(17)]
        labels = sum(map(operator.mul, flags, _STANDARD_LABELS)) if self.standard else sum(flags)
        return labels + (1 if self.lfeonly else 0)


_STANDARD_LABELS = (2, 1, 1, 2, 2, 2, 2, 2, 2, 1)  # Table 12, from the lowest bit on
_ISF_OBJECTS = (4, 8, 10, 14, 15, 30)  # Table 11b


@dataclass(frozen=True)
class Programme:
    """The object count, and each field of the program assignment as carried; what is not carried is 0."""

    objects: int  # object count, 1 to 159
    dynonly: int = 0  # b_dyn_object_only_program
    lfe: int = 0  # b_lfe_present
    content: int = 0  # content_description, see content_flags
    distribute: int = 0  # b_bed_chan_distribute
    multiple: int = 0  # b_multiple_bed_instances_present
    instances: int = 0  # num_bed_instances_bits, 0 to 7
    isf: int = 0  # intermediate_spatial_format_idx, 0 to 5
    dynamics: int = 0  # num_dynamic_objects_bits with its extension added
    beds: Tuple[Bed, ...] = ()  # 0 to 9

    @property
    def bedcount(self) -> int:
        """The number of beds."""
        return len(self.beds)

    @property
    def content_flags(self) -> Content:
        """content_description as flags."""
        return Content(self.content)

    @property
    def bed_objects(self) -> int:
        """How many of the objects are of class BED. They come first."""
        return self.lfe if self.dynonly else sum(bed.objects for bed in self.beds)

    @property
    def isf_objects(self) -> int:
        """How many of the objects are of class ISF. They come behind those of beds."""
        return sum(_ISF_OBJECTS[self.isf:self.isf + 1]) if self.content & Content.ISF else 0  # as in the library, 0 past the table's end

    @property
    def dynamic_objects(self) -> int:
        """How many of the objects are of class DYNAMIC. They come last."""
        return self.objects - self.bed_objects - self.isf_objects


@dataclass(frozen=True)
class Update:
    """When an update starts, and how long it takes to take hold; both in samples."""

    start: int = 0  # 0 to 2,047
    ramp: int = 0  # 0 to 2,048


@dataclass(frozen=True)
class Timing:
    """The update of each block: 1 to 8 with a known object element, none without."""

    updates: Tuple[Update, ...] = ()

    @property
    def blocks(self) -> int:
        """The number of blocks."""
        return len(self.updates)


@dataclass(frozen=True)
class Record:
    """One object in one block: the 24 bytes that the payload gives by name, and its time. `Record()` is an inactive dynamic object.

    Records are equal whose 24 bytes are, at whatever time.
    """

    active: int = 0  # 1 active, 0 not
    class_: int = 2  # see object_class
    gain: int = 0  # gain in dB plus 50, 1 to 65; 0 is minus infinity
    priority: int = 0  # in 32nds, 0 to 32
    x: int = 31  # in 62nds, 0 to 62
    y: int = 31  # in 62nds, 0 to 62
    z: int = 64  # in 15ths with its sign, plus 64: 49 to 79
    distance: int = 0  # 0 not given, 1 infinity, else 2 + index of the standard's table
    width: int = 0  # in 31sts
    depth: int = 0  # in 31sts
    height: int = 0  # in 31sts
    zone: int = 0  # zone index, 0 to 5
    elevation: int = 1  # elevation flag
    screen: int = 0  # screen flag
    screen_factor: int = 0  # screen factor bits; 0 without the flag
    screen_depth: int = 0  # depth index; 0 without the flag
    snap: int = 0  # snap flag
    divergence: int = 0  # divergence flag
    divergence_mode: int = 0  # divergence mode
    divergence_value: int = 0  # the mode's table index or code
    precise: int = 0  # precise position: presence bits, as carried: 4 z, 2 y, 1 x
    precise_x: int = 0  # code of x
    precise_y: int = 0  # code of y
    precise_z: int = 0  # code of z
    time: int = field(default=0, compare=False)  # when its block starts, in samples from the start of frame 0; Tables set it

    @classmethod
    def from_bytes(cls, raw: BytesLike) -> Record:
        """The record of 32 bytes."""
        data = _bytes_of(raw, "raw")
        if len(data) != RECORD_STRIDE:
            raise ValueError(f"a record has {RECORD_STRIDE} bytes, not {len(data)}")
        return cls(*data[:RECORD_BYTES], time=int.from_bytes(data[RECORD_TIME:], "little"))

    @property
    def raw(self) -> bytes:
        """The record's 32 bytes."""
        return self._raw("record")

    def _raw(self, what: str) -> bytes:
        return _packed(_record_values(self), _RECORD_NAMES, what) + _number(self.time, _MOST_TIME, f"{what}.time").to_bytes(8, "little")

    @property
    def is_active(self) -> bool:
        """Whether the object is active in this block."""
        return self.active != 0

    @property
    def object_class(self) -> ObjectClass:
        """The class as an enum; ValueError if it is none."""
        return ObjectClass(self.class_)

    @property
    def gain_db(self) -> float:
        """The gain in dB, -49.0 to 15.0, or minus infinity."""
        return float(self.gain - 50) if self.gain else float("-inf")

    @property
    def priority_part(self) -> float:
        """The priority, 0.0 to 1.0."""
        return self.priority / 32

    @property
    def position(self) -> Tuple[float, float, float]:
        """x and y, 0.0 to 1.0, and z, -1.0 to 1.0. The codes of a precise position are not added in; they stand in precise_codes."""
        return self.x / 62, self.y / 62, (self.z - 64) / 15

    @property
    def precise_codes(self) -> Tuple[Optional[int], Optional[int], Optional[int]]:
        """The codes of the precise x, y and z; None where it is not carried."""
        return (self.precise_x if self.precise & 1 else None, self.precise_y if self.precise & 2 else None, self.precise_z if self.precise & 4 else None)

    @property
    def distance_infinite(self) -> bool:
        """Whether the distance is given as infinity."""
        return self.distance == 1

    @property
    def distance_index(self) -> Optional[int]:
        """The index of the distance factor in the standard's table; None if the distance is not given, or infinity."""
        return self.distance - 2 if self.distance > 1 else None

    @property
    def size(self) -> Tuple[float, float, float]:
        """Width, depth and height, 0.0 to 1.0."""
        return self.width / 31, self.depth / 31, self.height / 31

    @property
    def zone_constraint(self) -> Zone:
        """The zone as an enum; ValueError if it is none."""
        return Zone(self.zone)


_RECORD_NAMES = tuple(each.name for each in fields(Record))[:RECORD_BYTES]
_record_values = operator.attrgetter(*_RECORD_NAMES)


@dataclass(frozen=True)
class TrimConfig:
    """One configuration of the trim element (5.5.12), as carried; what is not carried is 0."""

    default: int = 0  # b_default_trim; if 1, all else is 0
    disable: int = 0  # b_disable_trim; if 1, all else is 0
    carried: int = 0  # trim_balance_presence[], see carried_flags
    centre: int = 0  # trim_centre, 0 to 15
    surround: int = 0  # trim_surround, 4 to 15
    height: int = 0  # trim_height, 4 to 15
    sign_tb: int = 0  # bal3D_Y_sign_tb_code
    amount_tb: int = 0  # bal3D_Y_amount_tb, 0 to 15
    sign_lis: int = 0  # bal3D_Y_sign_lis_code
    amount_lis: int = 0  # bal3D_Y_amount_lis, 0 to 15

    @property
    def raw(self) -> bytes:
        """The configuration's 10 bytes."""
        return _packed(astuple(self), _CONFIG_NAMES, "trim configuration")

    @property
    def carried_flags(self) -> TrimCarried:
        """trim_balance_presence[] as flags."""
        return TrimCarried(self.carried)


_CONFIG_NAMES = tuple(each.name for each in fields(TrimConfig))
_NO_CONFIGS = (TrimConfig(),) * TRIM_CONFIGS


@dataclass(frozen=True)
class Trim:
    """The trim table: one number for each field of the trim element (5.5.12) but the reserved bits. All 0 without a trim element."""

    present: int = 0  # 1 if there is a trim element
    warp_mode: int = 0  # warp_mode, 0 or 1
    global_mode: int = 0  # global_trim_mode, see mode
    configs: Tuple[TrimConfig, ...] = _NO_CONFIGS  # nine, all 0 unless the mode is CUSTOM
    per_object: int = 0  # b_disable_trim_per_obj: whether the objects' flags are carried
    object_flags: Tuple[int, ...] = ()  # b_disable_trim of each object

    @classmethod
    def none(cls, objects: int) -> Trim:
        """The table of so many objects without a trim element."""
        return cls(object_flags=(0,) * objects)

    @classmethod
    def from_bytes(cls, raw: BytesLike) -> Trim:
        """The table of 94 bytes and one for each object."""
        data = _bytes_of(raw, "raw")
        if len(data) < TRIM_FIXED:
            raise ValueError(f"a trim table has {TRIM_FIXED} bytes and one for each object, not {len(data)}")
        if not any(data):
            return cls.none(len(data) - TRIM_FIXED)
        starts = range(TRIM_CONFIG, TRIM_PER_OBJECT, TRIM_CONFIG_STRIDE)
        configs = tuple(TrimConfig(*data[start:start + TRIM_CONFIG_STRIDE]) for start in starts)
        return cls(data[TRIM_PRESENT], data[TRIM_WARP_MODE], data[TRIM_GLOBAL_MODE], configs, data[TRIM_PER_OBJECT], tuple(data[TRIM_FIXED:]))

    @property
    def raw(self) -> bytes:
        """The table's bytes."""
        if len(self.configs) != TRIM_CONFIGS:
            raise ValueError(f"a trim table has {TRIM_CONFIGS} configurations, not {len(self.configs)}")
        head = _packed((self.present, self.warp_mode, self.global_mode), ("present", "warp_mode", "global_mode"), "trim")
        configs = b"".join(config.raw for config in self.configs)
        flags = tuple(self.object_flags)
        return head + configs + _packed((self.per_object,), ("per_object",), "trim") + _packed(flags, [f"object_flags[{i}]" for i in range(len(flags))], "trim")

    @property
    def mode(self) -> TrimMode:
        """global_trim_mode as an enum; ValueError if it is none."""
        return TrimMode(self.global_mode)


@dataclass(frozen=True)
class Tables:
    """What an accepted payload says: its programme, the timing of each block, a record for each object and block, and the trim table.

    The records get the time of their block in the frame, whatever time they had.
    """

    programme: Programme
    timing: Timing
    records: Tuple[Record, ...]  # objects outermost: object o and block b at o * blocks + b
    trim: Trim
    unknown: int = 0  # number of unknown elements, 0 to 46; a write does not look at it
    frame: int = 0  # the number of the frame, 0 to 4,294,967,295

    def __post_init__(self) -> None:
        times = _times(self.frame, self.timing)
        if times:
            timed = [record if record.time == time else replace(record, time=time) for record, time in zip(self.records, itertools.cycle(times))]
            object.__setattr__(self, "records", tuple(timed))

    @property
    def objects(self) -> int:
        """The number of objects."""
        return self.programme.objects

    @property
    def blocks(self) -> int:
        """The number of blocks."""
        return self.timing.blocks

    @property
    def record_bytes(self) -> bytes:
        """The bytes of all records, as they lie in the library's buffer."""
        return b"".join(record._raw(f"records[{index}]") for index, record in enumerate(self.records))

    @property
    def trim_bytes(self) -> bytes:
        """The bytes of the trim table."""
        return self.trim.raw

    def record(self, number: int, block: int) -> Record:
        """The record of an object and a block; IndexError if there is none."""
        return self.records[_record_index(number, self.objects, block, self.blocks)]


def _record_index(number: int, objects: int, block: int, blocks: int) -> int:
    """Where the record of an object and a block stands."""
    if not 0 <= number < objects:
        raise IndexError(f"object {number} of {objects}")
    if not 0 <= block < blocks:
        raise IndexError(f"block {block} of {blocks}")
    return number * blocks + block


def _records_of(raw: bytes) -> Tuple[Record, ...]:
    """The records of the library's bytes, with the library's own times."""
    return tuple(Record.from_bytes(raw[at:at + RECORD_STRIDE]) for at in range(0, len(raw), RECORD_STRIDE))


def _times(frame: Any, timing: Timing) -> Tuple[int, ...]:
    """The time of each block in a frame; none if one of the numbers is no integer, which a write says by name."""
    numbers = [frame, *[update.start for update in timing.updates]]
    if not all(hasattr(number, "__index__") for number in numbers):
        return ()
    first, *starts = map(operator.index, numbers)
    return tuple(FRAME_SAMPLES * first + start for start in starts)


# ---- summaries

_GAINS, _ZONES, _CLASSES, _ACTIVITIES, _PAYLOAD_ANSWERS = 66, len(Zone), len(ObjectClass), 2, Refusal.OUTSIDE + 1


@dataclass(frozen=True)
class Summary:
    """What payloads hold together. All but `payloads` counts over the accepted ones alone.

    Every record counts once among the gains, zones, classes and activities, an inactive one with its defaults (gain 0, zone 0), one of a bed or ISF object with zone 0, so each of these adds
    up to `records`. A block counts once among the late ones and the ramps, however many objects there are. `Summary()` is that of no payload; summaries of parts are added up with `+`.
    """

    records: int = 0  # objects * blocks of each payload
    gains: Tuple[int, ...] = (0,) * _GAINS  # records by Record.gain, 0 to 65, see gains_db
    zones: Tuple[int, ...] = (0,) * _ZONES  # records by Record.zone, see by_zone
    classes: Tuple[int, ...] = (0,) * _CLASSES  # records by Record.class_, see by_class
    activity: Tuple[int, ...] = (0,) * _ACTIVITIES  # records by Record.active, see active and inactive
    late: int = 0  # blocks that start past sample 1,535, the last of their frame
    ramps: int = 0  # the sum of the ramps of all blocks, in samples
    payloads: Tuple[int, ...] = (0,) * _PAYLOAD_ANSWERS  # payloads by refusal, 0 the accepted ones, see by_refusal

    def __add__(self, other: Summary) -> Summary:
        """What both hold together."""
        if not isinstance(other, Summary):
            return NotImplemented
        sums = {name: _sum(getattr(self, name), getattr(other, name)) for name in _SUMMARY_NAMES}
        return Summary(**sums)

    @property
    def gains_db(self) -> Dict[float, int]:
        """Records by gain in dB, minus infinity first, then -49.0 to 15.0, as in Record.gain_db."""
        return {Record(gain=gain).gain_db: count for gain, count in enumerate(self.gains)}

    @property
    def by_zone(self) -> Dict[Zone, int]:
        """Records by zone."""
        return {Zone(zone): count for zone, count in enumerate(self.zones)}

    @property
    def by_class(self) -> Dict[ObjectClass, int]:
        """Records by class."""
        return {ObjectClass(number): count for number, count in enumerate(self.classes)}

    @property
    def active(self) -> int:
        """Active records."""
        return self.activity[1]

    @property
    def inactive(self) -> int:
        """Records that are not active."""
        return self.activity[0]

    @property
    def by_refusal(self) -> Dict[Refusal, int]:
        """Payloads by refusal, the accepted ones first; NO_ROOM, NOT_VALID and NO_FIT are not given here, and 0."""
        return {Refusal(number): count for number, count in enumerate(self.payloads)}

    @property
    def entries(self) -> int:
        """All payloads."""
        return sum(self.payloads)

    @property
    def accepted(self) -> int:
        """Accepted payloads."""
        return self.payloads[Refusal.ACCEPTED]

    @property
    def refused(self) -> int:
        """Refused payloads."""
        return self.entries - self.accepted


_SUMMARY_NAMES = tuple(each.name for each in fields(Summary))


def _sum(a: Any, b: Any) -> Any:
    """The sum of two counters, or of each two of as many."""
    return tuple(map(operator.add, a, b)) if isinstance(a, tuple) else a + b


# ---- the catalogue

_BEFORE_BYTES = 1 + RECORD_BYTES * MOST_OBJECTS


@dataclass
class Before:
    """The update before, with which a catalogue's next update is compared. `Before()` is that of a catalogue's beginning: none.

    Made once and given to one call of write_catalogue after the other, or of read_catalogue, it joins their pieces to one catalogue. An accepted call puts its last update into it, if it has any; one that raises
    leaves it as it was. Two are equal that hold the same update, and `copy` gives one that goes its own way from there. What it holds is the library's, but for `objects`.
    """

    _held: bytes = field(default=b"\0", init=False)  # the number of objects, and the first 24 bytes of each one's record

    @property
    def objects(self) -> int:
        """The number of objects of the update before; 0 if there is none yet."""
        return self._held[0]

    def copy(self) -> Before:
        """Another one that holds the same."""
        other = Before()
        other._held = self._held
        return other

    def __repr__(self) -> str:
        return f"<skriemelt.Before, objects {self.objects}>"

    def _lent(self) -> Any:
        """The buffer that a call is lent."""
        return (ctypes.c_uint8 * _BEFORE_BYTES)(*self._held)

    def _keep(self, lent: Any) -> None:
        """What an accepted call has left in its buffer."""
        self._held = bytes(lent[:1 + RECORD_BYTES * lent[0]])


def _before_of(before: Optional[Before]) -> Before:
    if before is not None and not isinstance(before, Before):
        raise TypeError(f"before must be a Before, not {type(before).__name__}")
    return Before() if before is None else before


@dataclass(frozen=True)
class CatalogueFrame:
    """What a catalogue says of one frame. A refused frame has no objects and no blocks.

    The records are kept as bytes and made when they are first asked for, so that a long catalogue takes 32 bytes a record.
    """

    frame: int  # the number of the frame, 0 to 4,294,967,295
    refusal: int = 0  # see Refusal; its place is not in the catalogue
    objects: int = 0  # object count, 1 to 159; 0 if refused
    updates: Tuple[Update, ...] = ()  # one for each block
    record_bytes: bytes = b""  # the bytes of all records, as in Tables

    @property
    def blocks(self) -> int:
        """The number of blocks."""
        return len(self.updates)

    @functools.cached_property
    def records(self) -> Tuple[Record, ...]:
        """The records, each with its time, objects outermost as in Tables: object o and block b at o * blocks + b."""
        return _records_of(self.record_bytes)

    def record(self, number: int, block: int) -> Record:
        """The record of an object and a block; IndexError if there is none."""
        return self.records[_record_index(number, self.objects, block, self.blocks)]


# ---- reasons


@dataclass(frozen=True)
class WhyStep:
    """The byte in a block of an object, and where it comes from."""

    object: int
    block: int
    value: int  # the byte of their record
    source: Source
    field: Optional[Field] = None  # with FIELD, and with BLOCK if the value is moved
    bit: Optional[int] = None  # the field's first bit, counted from 0 at the top bit of the payload's first byte
    difference: Optional[int] = None  # with BLOCK, if the value is moved: by how much, -4 to 3, before it is held within its range

    @property
    def reason(self) -> str:
        """Where the value comes from, in words."""
        named = f"{self.field.standard_name} at bit {self.bit}" if self.field is not None else ""
        if self.difference is not None:
            return f"that of the block before, moved by {self.difference:+d} ({named})"
        return named or _REASONS[self.source]


_REASONS = {
    Source.FIELD: "a field",
    Source.PROGRAMME: "the programme",
    Source.BASIC_DEFAULT: "a default of Table 28",
    Source.RENDER_DEFAULT: "a default of Table 29",
    Source.NOTHING: "nothing is carried for it",
    Source.BLOCK: "that of the block before",
    Source.OBJECT: "that of the object before",
}


@dataclass(frozen=True)
class Why:
    """Why a byte of a record is what it is: the steps from it back to the value that it stems from. As a str, a sentence for each."""

    name: str  # of the byte, as in Record
    steps: Tuple[WhyStep, ...]  # 1 to MOST_STEPS; each leads to the next, by BLOCK or OBJECT, and the last does not

    @property
    def value(self) -> int:
        """The byte that was asked for."""
        return self.steps[0].value

    @property
    def origin(self) -> WhyStep:
        """The last step: what gave the value, differences on the way aside."""
        return self.steps[-1]

    def __str__(self) -> str:
        name = self.name.rstrip("_")
        return "\n".join(f"{name} of object {step.object} in block {step.block} is {step.value}: {step.reason}." for step in self.steps)


def _byte_number(byte: Union[int, str]) -> int:
    """The number of a byte that is given by its number or its name; 'class' is class_, too."""
    if not isinstance(byte, str):
        return _number(byte, _MOST_ASKED, "byte")
    if byte in _RECORD_NAMES:
        return _RECORD_NAMES.index(byte)
    if byte == "class":
        return _RECORD_NAMES.index("class_")
    raise ValueError(f"byte is {byte!r}, but must be a number or one of {', '.join(_RECORD_NAMES)}")


# ---- salvage


@dataclass(frozen=True)
class Drop:
    """An element that a salvage has dropped."""

    place: int  # what the refusal says, in the payload as it came, see `place_means` of Refused
    id: Element
    refusal: Refusal  # RESERVED_VALUE, SECOND_ELEMENT, EXTENDED_EARLY or PAST_ELEMENT

    @property
    def meaning(self) -> str:
        """What the refusal is given for."""
        return _MEANINGS[self.refusal][0]


@dataclass(frozen=True)
class Salvaged:
    """What a salvage has left, and what it has dropped."""

    payload: bytes  # it is accepted, and not longer than the payload that was given
    drops: Tuple[Drop, ...]  # in their order in that payload, MOST_DROPS at the most; none: it was accepted as it is


# ---- the C interface


class _Bed(ctypes.Structure):
    _fields_ = [("assignment", ctypes.c_uint32), ("lfeonly", ctypes.c_uint8), ("standard", ctypes.c_uint8)]


_PROGRAMME_NAMES = ("objects", "dynonly", "lfe", "content", "distribute", "multiple", "instances", "bedcount", "isf", "dynamics")


class _Programme(ctypes.Structure):
    _fields_ = [(name, ctypes.c_uint8) for name in _PROGRAMME_NAMES] + [("beds", _Bed * MOST_BEDS)]


class _Update(ctypes.Structure):
    _fields_ = [("start", ctypes.c_uint16), ("ramp", ctypes.c_uint16)]


class _Timing(ctypes.Structure):
    _fields_ = [("blocks", ctypes.c_uint8), ("updates", _Update * MOST_BLOCKS)]


class _ReadAnswer(ctypes.Structure):
    _fields_ = [
        ("place", ctypes.c_uint64),
        ("refusal", ctypes.c_uint8),
        ("unknown", ctypes.c_uint8),
        ("programme", _Programme),
        ("timing", _Timing),
        ("missing", ctypes.c_uint32),
    ]


class _WriteAnswer(ctypes.Structure):
    """Also what a call that lays a text answers."""

    _fields_ = [("place", ctypes.c_uint64), ("length", ctypes.c_uint32), ("refusal", ctypes.c_uint8)]


class _BatchAnswer(ctypes.Structure):
    _fields_ = [("place", ctypes.c_uint64), ("refusal", ctypes.c_uint8)]


class _Summary(ctypes.Structure):
    _fields_ = [
        ("place", ctypes.c_uint64),
        ("refusal", ctypes.c_uint8),
        ("records", ctypes.c_uint32),
        ("gains", ctypes.c_uint32 * _GAINS),
        ("zones", ctypes.c_uint32 * _ZONES),
        ("classes", ctypes.c_uint32 * _CLASSES),
        ("activity", ctypes.c_uint32 * _ACTIVITIES),
        ("late", ctypes.c_uint32),
        ("ramps", ctypes.c_uint32),
        ("payloads", ctypes.c_uint32 * _PAYLOAD_ANSWERS),
    ]


class _CatalogueAnswer(ctypes.Structure):
    _fields_ = [("place", ctypes.c_uint64), ("length", ctypes.c_uint64), ("refusal", ctypes.c_uint8)]


class _BackAnswer(ctypes.Structure):
    _fields_ = [("place", ctypes.c_uint64), ("frames", ctypes.c_uint64), ("bytes", ctypes.c_uint64), ("refusal", ctypes.c_uint8)]


class _CatalogueFrame(ctypes.Structure):
    _fields_ = [
        ("frame", ctypes.c_uint32),
        ("refusal", ctypes.c_uint8),
        ("objects", ctypes.c_uint8),
        ("blocks", ctypes.c_uint8),
        ("zero", ctypes.c_uint8),
        ("updates", _Update * MOST_BLOCKS),
    ]


class _WhyStep(ctypes.Structure):
    _fields_ = [("bit", ctypes.c_uint32)] + [(name, ctypes.c_uint8) for name in ("object", "block", "value", "source", "field", "difference")]


class _WhyAnswer(ctypes.Structure):
    _fields_ = [
        ("place", ctypes.c_uint64),
        ("missing", ctypes.c_uint32),
        ("refusal", ctypes.c_uint8),
        ("count", ctypes.c_uint8),
        ("steps", _WhyStep * MOST_STEPS),
    ]


class _Drop(ctypes.Structure):
    _fields_ = [("place", ctypes.c_uint32), ("id", ctypes.c_uint8), ("refusal", ctypes.c_uint8)]


class _SalvageAnswer(ctypes.Structure):
    _fields_ = [
        ("place", ctypes.c_uint64),
        ("missing", ctypes.c_uint32),
        ("length", ctypes.c_uint32),
        ("refusal", ctypes.c_uint8),
        ("drops", ctypes.c_uint8),
        ("dropped", _Drop * MOST_DROPS),
    ]


_SLICE = [ctypes.c_void_p, ctypes.c_size_t]
_READ = (_ReadAnswer, _SLICE + [ctypes.c_uint32] + _SLICE * 2)
_WRITE = (_WriteAnswer, [_Programme, _Timing, ctypes.c_uint32] + _SLICE * 3)
_READ_BATCH = (_BatchAnswer, _SLICE * 4 + [ctypes.c_size_t] * 2 + _SLICE * 3)
_SUMMARISE = (_Summary, _SLICE * 3)
_LIST_TEXT = (_WriteAnswer, _SLICE * 2)
_WRITE_CATALOGUE = (_CatalogueAnswer, _SLICE * 6)
_READ_CATALOGUE = (_BackAnswer, _SLICE * 4)
_WHY = (_WhyAnswer, _SLICE + [ctypes.c_uint32] * 3)
_SALVAGE = (_SalvageAnswer, _SLICE * 2)
_SONAME = f"libskriemelt.so.{INTERFACE // 1000}"


class Library:
    """The loaded library. It holds no more than the library's functions, and may be shared by threads.

    path: a path, or a name for the loader. OSError if it cannot be loaded, LibraryError if it is not this library or has not the version that is needed.
    """

    path: str
    version: int

    def __init__(self, path: Union[str, os.PathLike[str]]) -> None:
        self.path = os.fspath(path)
        self._handle = ctypes.CDLL(self.path)
        self.version = self._function("skriemelt_version", ctypes.c_uint32, [])()
        if self.version // 1000 != INTERFACE // 1000 or self.version < INTERFACE:
            fitting = f"{INTERFACE} to {INTERFACE // 1000}999"
            raise LibraryError(f"{self.path} has version {self.version} of the interface; this module needs one from {fitting}")
        self._read = self._function("skriemelt_read", *_READ)
        self._write = self._function("skriemelt_write", *_WRITE)
        self._read_batch = self._function("skriemelt_read_batch", *_READ_BATCH)
        self._summarise = self._function("skriemelt_summarise", *_SUMMARISE)
        self._list_text = self._function("skriemelt_list_text", *_LIST_TEXT)
        self._write_catalogue = self._function("skriemelt_catalogue_write_on", *_WRITE_CATALOGUE)
        self._read_catalogue = self._function("skriemelt_catalogue_read_on", *_READ_CATALOGUE)
        self._why = self._function("skriemelt_why", *_WHY)
        self._salvage = self._function("skriemelt_salvage", *_SALVAGE)

    def _function(self, name: str, result: Any, arguments: List[Any]) -> Any:
        try:
            function = getattr(self._handle, name)
        except AttributeError:
            raise LibraryError(f"{self.path} has no function {name}: it is not the library of Skriemelt, or not all of it") from None
        function.restype = result
        function.argtypes = arguments
        return function

    def __repr__(self) -> str:
        return f"<skriemelt.Library {self.path!r}, version {self.version}>"


def _candidates() -> Iterator[str]:
    """Where the library is looked for, in this order, without SKRIEMELT_LIBRARY."""
    here = os.path.dirname(os.path.abspath(__file__))
    yield os.path.join(here, _SONAME)
    yield os.path.join(here, "libskriemelt.so")
    yield _SONAME
    found = ctypes.util.find_library("skriemelt")
    if found is not None and found != _SONAME:
        yield found


@functools.lru_cache(maxsize=None)
def _opened(named: str) -> Library:
    """The library that is named, or without a name the first that can be loaded. Kept, so that it is opened once; a failure is not kept."""
    tried = []
    for path in [named] if named else _candidates():
        try:
            return Library(path)
        except LibraryError:
            raise
        except OSError as error:
            tried.append(f"  {path}: {error}")
    source = "SKRIEMELT_LIBRARY names" if named else "SKRIEMELT_LIBRARY is not set; looked for"
    raise LibraryError("\n".join([f"the library of Skriemelt cannot be loaded. {source}:"] + tried))


def default_library() -> Library:
    """The library that calls use unless they are given one; LibraryError if there is none, or none that fits."""
    return _opened(os.environ.get("SKRIEMELT_LIBRARY", ""))


def _room(count: int, name: str) -> int:
    return _number(count, (1 << 63) - 1, name)


def _buffer(count: int) -> Any:
    return (ctypes.c_uint8 * count)()


def _tables_of(answer: Any, frame: int, records_at: int, trim_at: int) -> Tables:
    """The tables of an accepted answer in a frame, and of the buffers at two addresses."""
    given, timing = answer.programme, answer.timing
    beds = tuple(Bed(bed.assignment, bed.lfeonly, bed.standard) for bed in given.beds[:given.bedcount])
    numbers = {name: getattr(given, name) for name in _PROGRAMME_NAMES if name != "bedcount"}
    updates = tuple(Update(update.start, update.ramp) for update in timing.updates[:timing.blocks])
    records = _records_of(ctypes.string_at(records_at, RECORD_STRIDE * given.objects * timing.blocks))
    trim = Trim.from_bytes(ctypes.string_at(trim_at, TRIM_FIXED + given.objects))
    tables = Tables(Programme(beds=beds, **numbers), Timing(updates), (), trim, answer.unknown, frame)
    object.__setattr__(tables, "records", records)  # as they are: their times are the library's own
    return tables


def read(
    payload: BytesLike,
    frame: int = 0,
    *,
    record_room: int = MOST_RECORD_BYTES,
    trim_room: int = MOST_TRIM_BYTES,
    library: Optional[Library] = None,
) -> Tables:
    """The tables of one payload, already taken out of its EMDF container, of the frame with this number, 0 to 4,294,967,295.

    Refused (1 to 9) if the payload is. Every payload's tables fit unless less room is given, in bytes; then NO_ROOM says how much is needed.
    """
    data = _bytes_of(payload, "payload")
    number = _number(frame, _MOST_FRAME, "frame")
    lib = library or default_library()
    records, trim = _buffer(_room(record_room, "record_room")), _buffer(_room(trim_room, "trim_room"))
    answer = lib._read(data, len(data), number, records, len(records), trim, len(trim))
    if answer.refusal:
        raise Refused(answer.refusal, answer.place, answer.missing)
    return _tables_of(answer, number, ctypes.addressof(records), ctypes.addressof(trim))


_Entry = Tuple[int, int, int]  # start, length and frame


def _listed(entries: Iterable[Tuple[int, int]]) -> List[Tuple[int, int]]:
    """The entries of a batch, each a start and a length that fit 64 bits."""
    most, listed = (1 << 64) - 1, []
    for index, entry in enumerate(entries):
        try:
            start, length = entry
        except (TypeError, ValueError):
            raise TypeError(f"entries[{index}] must be a start and a length") from None
        listed.append((_number(start, most, f"the start of entries[{index}]"), _number(length, most, f"the length of entries[{index}]")))
    return listed


def _frame_numbers(frames: Iterable[int]) -> List[int]:
    return [_number(frame, _MOST_FRAME, f"frames[{index}]") for index, frame in enumerate(frames)]


def _c_lists(entries: List[Tuple[int, int]]) -> Tuple[Any, int, Any, int]:
    """The starts and the lengths of entries, each with their number."""
    count = len(entries)
    starts, lengths = ((ctypes.c_uint64 * count)(*[entry[part] for entry in entries]) for part in (0, 1))
    return starts, count, lengths, count


def _framed(entries: List[Tuple[int, int]], frames: Optional[Iterable[int]]) -> List[_Entry]:
    """The entries of a batch, each with its frame; 0 where none are given."""
    numbers = [0] * len(entries) if frames is None else _frame_numbers(frames)
    if len(numbers) != len(entries):
        raise ValueError(f"there are {len(numbers)} frames for {len(entries)} entries")
    return [(start, length, frame) for (start, length), frame in zip(entries, numbers)]


class _Shelf:
    """The buffers of a batch of so many entries at the most."""

    def __init__(self, count: int, record_slot: int, trim_slot: int) -> None:
        self.record_slot, self.trim_slot = record_slot, trim_slot
        self.records, self.trims = _buffer(count * record_slot), _buffer(count * trim_slot)
        self.answers = (_ReadAnswer * count)()

    def read(self, lib: Library, data: bytes, entries: Sequence[_Entry]) -> List[Union[Tables, Refused]]:
        """What each entry is answered."""
        count = len(entries)
        starts, lengths, frames = zip(*entries) if entries else ((), (), ())
        lists = ((ctypes.c_uint64 * count)(*starts), count, (ctypes.c_uint64 * count)(*lengths), count, (ctypes.c_uint32 * count)(*frames), count)
        slots = (self.record_slot, self.trim_slot, self.records, len(self.records), self.trims, len(self.trims))
        answer = lib._read_batch(data, len(data), *lists, *slots, self.answers, ctypes.sizeof(self.answers))
        if answer.refusal:
            raise Refused(answer.refusal, answer.place)
        return [self.answered(index, frame) for index, frame in enumerate(frames)]

    def answered(self, index: int, frame: int) -> Union[Tables, Refused]:
        answer = self.answers[index]
        if answer.refusal:
            return Refused(answer.refusal, answer.place, answer.missing)
        return _tables_of(answer, frame, ctypes.addressof(self.records) + index * self.record_slot, ctypes.addressof(self.trims) + index * self.trim_slot)


def read_batch(
    store: BytesLike,
    entries: Iterable[Tuple[int, int]],
    frames: Optional[Iterable[int]] = None,
    *,
    record_slot: int = MOST_RECORD_BYTES,
    trim_slot: int = MOST_TRIM_BYTES,
    library: Optional[Library] = None,
) -> List[Union[Tables, Refused]]:
    """Reads many payloads, each a start and a length within one store, in bytes, and each of a frame: `range(7, 10)` for three that follow one another.

    Without frames every payload is read with frame 0. ValueError if there are not as many frames as entries. The list has for each entry, in order, its Tables or the Refused that `read` would raise for that part of the store; OUTSIDE if start and length leave it.
    A slot is the room of one entry. Payloads may overlap and repeat.
    """
    data = _bytes_of(store, "store")
    listed = _framed(_listed(entries), frames)
    lib = library or default_library()
    record_room, trim_room = _room(record_slot, "record_slot"), _room(trim_slot, "trim_slot")
    step = max(1, min(len(listed), _BATCH_ROOM // (record_room + trim_room + ctypes.sizeof(_ReadAnswer))))
    shelf = _Shelf(step, record_room, trim_room)
    return [answer for at in range(0, len(listed), step) for answer in shelf.read(lib, data, listed[at:at + step])]


def summarise(store: BytesLike, entries: Iterable[Tuple[int, int]], *, library: Optional[Library] = None) -> Summary:
    """Counts over payloads, each a start and a length within one store, in bytes, as in `read_batch`; a start and length that leave it count as OUTSIDE.

    Refused with TOO_MANY for more than MOST_ENTRIES of them. Longer lists are summarised in parts, and the summaries added up: `sum(parts, Summary())`.
    """
    data, listed = _bytes_of(store, "store"), _listed(entries)
    lib = library or default_library()
    answer = lib._summarise(data, len(data), *_c_lists(listed))
    if answer.refusal:
        raise Refused(answer.refusal, answer.place)
    values = {name: getattr(answer, name) for name in _SUMMARY_NAMES}
    return Summary(**{name: value if isinstance(value, int) else tuple(value) for name, value in values.items()})


def _c_programme(programme: Programme) -> _Programme:
    beds = programme.beds
    if len(beds) > MOST_BEDS:
        raise ValueError(f"a programme has {MOST_BEDS} beds at the most, not {len(beds)}")
    numbers = [_number(getattr(programme, name), 255, f"programme.{name}") for name in _PROGRAMME_NAMES]
    return _Programme(*numbers, (_Bed * MOST_BEDS)(*[_c_bed(bed, f"programme.beds[{index}]") for index, bed in enumerate(beds)]))


def _c_bed(bed: Bed, name: str) -> _Bed:
    return _Bed(_number(bed.assignment, 0xFFFFFFFF, f"{name}.assignment"), _number(bed.lfeonly, 255, f"{name}.lfeonly"), _number(bed.standard, 255, f"{name}.standard"))


def _c_timing(timing: Timing) -> _Timing:
    updates = timing.updates
    if len(updates) > MOST_BLOCKS:
        raise ValueError(f"a timing has {MOST_BLOCKS} updates at the most, not {len(updates)}")
    return _Timing(len(updates), (_Update * MOST_BLOCKS)(*[_c_update(update, f"timing.updates[{index}]") for index, update in enumerate(updates)]))


def _c_update(update: Update, name: str) -> _Update:
    return _Update(_number(update.start, 0xFFFF, f"{name}.start"), _number(update.ramp, 0xFFFF, f"{name}.ramp"))


def _not_valid_detail(tables: Tables, place: int) -> str:
    """What the place of NOT_VALID stands for."""
    if place == 0:
        return "programme, timing or too few records"
    if place > tables.objects * tables.blocks:
        return "the trim table"
    return "the record of object {}, block {}".format(*divmod(place - 1, tables.blocks))


def write(tables: Tables, *, room: int = MOST_PAYLOAD_BYTES, library: Optional[Library] = None) -> bytes:
    """The payload of tables, in the one form that they have; read with their frame, it gives the same tables and no unknown element.

    Refused with NOT_VALID if no payload gives these tables, and with NO_FIT if their form is longer than the room or 4,096 bytes. ValueError for a number that
    its field in C cannot hold. Records behind the last that is needed are not looked at, as little as flags behind that of the trim table's last object.
    """
    programme, timing, frame = _c_programme(tables.programme), _c_timing(tables.timing), _number(tables.frame, _MOST_FRAME, "frame")
    records, trim = tables.record_bytes, tables.trim_bytes
    payload = _buffer(_room(room, "room"))
    lib = library or default_library()
    answer = lib._write(programme, timing, frame, records, len(records), trim, len(trim), payload, len(payload))
    if answer.refusal:
        raise Refused(answer.refusal, answer.place, 0, _not_valid_detail(tables, answer.place) if answer.refusal == Refusal.NOT_VALID else "")
    return ctypes.string_at(payload, answer.length)


def list_text(payload: BytesLike, *, room: int = MOST_TEXT_BYTES, library: Optional[Library] = None) -> str:
    """The listing of a payload, lines `key=value`, a refused one too, read with frame 0."""
    data = _bytes_of(payload, "payload")
    lib = library or default_library()
    text = _buffer(_room(room, "room"))
    answer = lib._list_text(data, len(data), text, len(text))
    if answer.refusal:
        raise Refused(answer.refusal, answer.place)
    return ctypes.string_at(text, answer.length).decode("ascii")


def write_catalogue(
    store: BytesLike,
    entries: Iterable[Tuple[int, int]],
    frames: Optional[Iterable[int]] = None,
    before: Optional[Before] = None,
    *,
    library: Optional[Library] = None,
) -> str:
    """The catalogue of payloads, each a start and a length within one store, in bytes, as in `read_batch`, and each of a frame: without frames those from 0 on, in every call.

    Refused with LISTS if there are not as many frames as entries. A refused payload has its line, too; OUTSIDE if start and length leave the store. Lines end in a line feed, the last too, so the texts of
    parts of the lists, written with the same `before`, one behind the other are the text of the whole.
    """
    data, listed = _bytes_of(store, "store"), _listed(entries)
    numbers, carried = _frame_numbers(range(len(listed)) if frames is None else frames), _before_of(before)
    lib, lent = library or default_library(), carried._lent()
    c_frames = (ctypes.c_uint32 * len(numbers))(*numbers)
    call = functools.partial(lib._write_catalogue, data, len(data), *_c_lists(listed), c_frames, len(c_frames), lent, len(lent))
    text = _buffer(0)
    answer = call(text, 0)
    if answer.refusal == Refusal.SHORT_TEXT:
        text = _buffer(answer.place)
        answer = call(text, len(text))
    if answer.refusal:
        raise Refused(answer.refusal, answer.place)
    written = str(text, "ascii")
    carried._keep(lent)
    return written


def read_catalogue(text: Union[str, BytesLike], before: Optional[Before] = None, *, library: Optional[Library] = None) -> List[CatalogueFrame]:
    """What the text of a catalogue says of each frame, in the order of its lines.

    Refused with BAD_LINE if a line is not of the form that a catalogue has, or cannot stand where it does; the place is the number of the first such line, from 1. Of a str, a line with characters beyond ASCII is such a line.
    A catalogue has one spelling. A carriage return, too, makes a line bad; text mode would hide it, so a file is opened with mode "rb".
    A long text is read in pieces, each from the beginning of a frame's line to that of another, with the same `before`; lines are counted in each piece anew.
    """
    data, carried = _text_bytes(text), _before_of(before)
    lib, lent = library or default_library(), carried._lent()
    call = functools.partial(lib._read_catalogue, data, len(data), lent, len(lent))
    lines, records = (_CatalogueFrame * 0)(), _buffer(0)
    answer = call(lines, 0, records, 0)
    if answer.refusal == Refusal.NO_ROOM:  # for the records, unless there are none: then for the lines already, and this room is not used
        records = _buffer(answer.place)
        answer = call(lines, 0, records, len(records))
    if answer.refusal == Refusal.NO_ROOM:
        lines = (_CatalogueFrame * (answer.place // ctypes.sizeof(_CatalogueFrame)))()
        answer = call(lines, ctypes.sizeof(lines), records, len(records))
    if answer.refusal:
        raise Refused(answer.refusal, answer.place)
    frames, at = [], ctypes.addressof(records)
    for line in lines:
        updates = tuple(Update(update.start, update.ramp) for update in line.updates[:line.blocks])
        raw = ctypes.string_at(at, RECORD_STRIDE * line.objects * line.blocks)
        frames.append(CatalogueFrame(line.frame, line.refusal, line.objects, updates, raw))
        at += len(raw)
    carried._keep(lent)
    return frames


def _step_of(step: Any) -> WhyStep:
    """A step of the library's answer."""
    source, named = Source(step.source), Field(step.field) if step.field else None
    if named is None:
        return WhyStep(step.object, step.block, step.value, source)
    difference = (step.difference ^ 4) - 4 if source is Source.BLOCK else None  # two's complement of 3 bits
    return WhyStep(step.object, step.block, step.value, source, named, step.bit, difference)


def why(payload: BytesLike, object: int, block: int, byte: Union[int, str], *, library: Optional[Library] = None) -> Why:
    """Why a byte of the record of an object and a block is what it is. Objects and blocks are counted from 0; the byte is a number, 0 to 23, or a name of Record.

    Refused as in `read` (1 to 8) if the payload is, then with NO_SUCH: there is no such object (place 1), block (2) or byte (3). ValueError for a number that 32 bits cannot hold, and for a name that Record has not; its
    time is not asked about. The payload is gone through anew with each call: for many questions about one payload that is slow.
    """
    data = _bytes_of(payload, "payload")
    asked = (_number(object, _MOST_ASKED, "object"), _number(block, _MOST_ASKED, "block"), _byte_number(byte))
    lib = library or default_library()
    answer = lib._why(data, len(data), *asked)
    if answer.refusal:
        missing = f"no {('object', 'block', 'byte')[answer.place - 1]} {asked[answer.place - 1]}" if answer.refusal == Refusal.NO_SUCH else ""
        raise Refused(answer.refusal, answer.place, answer.missing, missing)
    return Why(_RECORD_NAMES[asked[2]], tuple(_step_of(step) for step in answer.steps[:answer.count]))


def salvage(payload: BytesLike, *, room: int = MOST_PAYLOAD_BYTES, library: Optional[Library] = None) -> Salvaged:
    """A damaged payload without the known elements that a read refuses with 5 to 8, and these elements. What is left is accepted; its element count is new, and every other bit stays.

    Refused as in `read` with TOO_LONG, PAST_PAYLOAD, OTHER_VERSION and COUNTS_DISAGREE, with RESERVED_VALUE in the program assignment, which is no element, and with PAST_PAYLOAD too where the payload ends early behind an element
    that is dropped; then with NO_FIT if what is left is longer than the room.
    """
    data = _bytes_of(payload, "payload")
    out = _buffer(_room(room, "room"))
    lib = library or default_library()
    answer = lib._salvage(data, len(data), out, len(out))
    if answer.refusal:
        raise Refused(answer.refusal, answer.place, answer.missing)
    drops = tuple(Drop(drop.place, Element(drop.id), Refusal(drop.refusal)) for drop in answer.dropped[:answer.drops])
    return Salvaged(ctypes.string_at(out, answer.length), drops)
