"""Group 3: timing (5.5.6, 5.5.7, Tables 22 to 25), the reserved bits of 5.5.5, refusals 5 and 8 in an object element.

One dynamic object, one element, size of one group, sample offset code 0, one block with ramp code 0, positions:
discard 23, sample_offset_code 24-25, num_obj_info_blocks_bits 26-28, factor 29-34, ramp code 35-36,
b_reserved_data_not_present 37, b_object_not_active 38, gain idx 39-40, priority flag 41, x 42-47, y 48-53, sign 54,
z 55-58, distance flag 59, zone 60-62, elevation 63, size idx 64-65, screen flag 66, snap 67, additional flag 68,
end of the fields 69.  An element of n bytes ends at 23 + 8 n: 31, 39, 47, 55, 63, 71.
"""
from helpers import *

OFF_RECORD = "000200001f1f400000000000010000000000000000000000"        # an inactive dynamic record (Tables 28, 29)
PLAIN = render(xyz(31, 31, 0, 0))             # x 31, y 31, z -0: the record's bytes 4 to 16 are those of Table 29


def off(blocks):
    """Records of object 0, inactive in every block."""
    return ["record=0,%d,%s" % (b, OFF_RECORD) for b in range(blocks)]


def one(body, **k):
    return [dyn_header(1, 1), element(1, body, **k)]


# ------------------------------------------------------------------------------- starts

# The time of a record, frame 0: its block's start in eight bytes, least first.  1,520 = 5 x 256 + 240: f0 05; 344 = 256 + 88: 58 01; 1,920 = 7 x 256 + 128: 80 07.
# All literal.  Record: active 01, class 02, gain 0 dB = 50 = 32, priority 1 = 32/32 = 20, x 31 = 1f, y 31 = 1f, z 64 = 40,
# distance 00, sizes 00 00 00, zone 00, elevation 01, screen 00 00 00, snap 00, seven times 00.
vector("plain", "one active object, one block, everything plain", "each byte by the requirements: 0 dB is 50 (32 hex), default priority 32 (20)",
       one([timing(OFF0, [ramp(0, 0)]), block0(gain(0), PRIO_DEFAULT, PLAIN)]),
       lines("refusal=0 place=0 objects=1 bed=0 isf=0 dynamic=1 blocks=1 unknown=0 block=0,0,0",
             "record=0,0,010232201f1f400000000000010000000000000000000000"))
vector("offset-idx-0", "sample offset index 0", "Table 23: 8; 8 + 32 x 0 = 8",
       one([timing(off_idx(0), [ramp(0, 0)]), inactive()]),
       lines("refusal=0 place=0 objects=1 bed=0 isf=0 dynamic=1 blocks=1 unknown=0 block=0,8,0", off(1)))
vector("offset-idx-1", "sample offset index 1, factor 47", "Table 23: 16; 16 + 32 x 47 = 1520",
       one([timing(off_idx(1), [ramp(47, 0)]), inactive()]),
       lines("refusal=0 place=0 objects=1 bed=0 isf=0 dynamic=1 blocks=1 unknown=0 block=0,1520,0", off(1)),
       times=["f005000000000000"])
vector("offset-idx-2", "sample offset index 2, factor 0 (example of the requirements)", "printed in the requirements: 18",
       one([timing(off_idx(2), [ramp(0, 0)]), inactive()]),
       lines("refusal=0 place=0 objects=1 bed=0 isf=0 dynamic=1 blocks=1 unknown=0 block=0,18,0", off(1)))
vector("offset-idx-3", "sample offset index 3, two blocks", "Table 23: 24; 24 + 32 x 0 = 24, 24 + 32 x 10 = 344",
       one([timing(off_idx(3), [ramp(0, 0), ramp(10, 0)]), [inactive()] * 2]),
       lines("refusal=0 place=0 objects=1 bed=0 isf=0 dynamic=1 blocks=2 unknown=0 block=0,24,0 block=1,344,0", off(2)),
       times=["1800000000000000", "5801000000000000"])
vector("offset-31-factor-63", "5-bit offset 31 with factor 63", "printed in the requirements: 31 + 32 x 63 = 2,047",
       one([timing(off_bits(31), [ramp(63, 0)]), inactive()]),
       lines("refusal=0 place=0 objects=1 bed=0 isf=0 dynamic=1 blocks=1 unknown=0 block=0,2047,0", off(1)),
       times=["ff07000000000000"])
vector("offset-bits-0", "5-bit offset 0 and factor 1", "0 + 32 x 1 = 32",
       one([timing(off_bits(0), [ramp(1, 0)]), inactive()]),
       lines("refusal=0 place=0 objects=1 bed=0 isf=0 dynamic=1 blocks=1 unknown=0 block=0,32,0", off(1)))
vector("factor-48", "factor 48: kept, though past the frame (misreading 2)", "printed in the requirements: 32 x 48 = 1,536",
       one([timing(OFF0, [ramp(48, 0)]), inactive()]),
       lines("refusal=0 place=0 objects=1 bed=0 isf=0 dynamic=1 blocks=1 unknown=0 block=0,1536,0", off(1)),
       times=["0006000000000000"])
vector("starts-out-of-order", "starts out of order and equal", "factors 5, 3, 60, 3: 160, 96, 1920, 96, kept as carried",
       one([timing(OFF0, [ramp(5, 0), ramp(3, 0), ramp(60, 0), ramp(3, 0)]), [inactive()] * 4]),
       lines("refusal=0 place=0 objects=1 bed=0 isf=0 dynamic=1 blocks=4 unknown=0",
             "block=0,160,0 block=1,96,0 block=2,1920,0 block=3,96,0", off(4)),
       times=["a000000000000000", "6000000000000000", "8007000000000000", "6000000000000000"])

# ------------------------------------------------------------------------------- ramps

vector("ramp-codes", "ramp codes 0, 1, 2 in three blocks", "Table 24: 0, 512, 1536",
       one([timing(OFF0, [ramp(0, 0), ramp(1, 1), ramp(2, 2)]), [inactive()] * 3]),
       lines("refusal=0 place=0 objects=1 bed=0 isf=0 dynamic=1 blocks=3 unknown=0",
             "block=0,0,0 block=1,32,512 block=2,64,1536", off(3)))
vector("ramp-idx-0-to-7", "ramp indices 0 to 7", "Table 25, first half; starts 32 x 0 to 32 x 7",
       one([timing(OFF0, [ramp_idx(i, i) for i in range(8)]), [inactive()] * 8]),
       lines("refusal=0 place=0 objects=1 bed=0 isf=0 dynamic=1 blocks=8 unknown=0",
             "block=0,0,32 block=1,32,64 block=2,64,128 block=3,96,256 block=4,128,320 block=5,160,480",
             "block=6,192,1000 block=7,224,1001", off(8)))
vector("ramp-idx-8-to-15", "ramp indices 8 to 15", "Table 25, second half; starts 32 x 8 to 32 x 15",
       one([timing(OFF0, [ramp_idx(i, i) for i in range(8, 16)]), [inactive()] * 8]),
       lines("refusal=0 place=0 objects=1 bed=0 isf=0 dynamic=1 blocks=8 unknown=0",
             "block=0,256,1024 block=1,288,1600 block=2,320,1601 block=3,352,1602 block=4,384,1920 block=5,416,2000",
             "block=6,448,2002 block=7,480,2048", off(8)))
vector("ramp-bits", "11 ramp bits: 0, 1, 1024, 2047, beside an index and a code", "the number as sent",
       one([timing(OFF0, [ramp_bits(0, 0), ramp_bits(1, 1), ramp_bits(2, 1024), ramp_bits(3, 2047), ramp_idx(4, 15),
                          ramp(5, 2)]), [inactive()] * 6]),
       lines("refusal=0 place=0 objects=1 bed=0 isf=0 dynamic=1 blocks=6 unknown=0",
             "block=0,0,0 block=1,32,1 block=2,64,1024 block=3,96,2047 block=4,128,2048 block=5,160,1536", off(6)))

# ------------------------------------------------------------------------------- reserved bits of 5.5.5

vector("reserved-bits-0", "the 5 reserved bits present, all 0, before an active object",
       "flag 0 means present (open point 5); the record is that of `plain`",
       one([timing(OFF0, [ramp(0, 0)], with_reserved(0)), block0(gain(0), PRIO_DEFAULT, PLAIN)]),
       lines("refusal=0 place=0 objects=1 bed=0 isf=0 dynamic=1 blocks=1 unknown=0 block=0,0,0",
             "record=0,0,010232201f1f400000000000010000000000000000000000"))
vector("reserved-bits-31", "the 5 reserved bits present, all 1", "passed over; the record is that of `plain`",
       one([timing(OFF0, [ramp(0, 0)], with_reserved(31)), block0(gain(0), PRIO_DEFAULT, PLAIN)]),
       lines("refusal=0 place=0 objects=1 bed=0 isf=0 dynamic=1 blocks=1 unknown=0 block=0,0,0",
             "record=0,0,010232201f1f400000000000010000000000000000000000"))

# ------------------------------------------------------------------------------- refusal 5

vector("offset-code-3", "reserved sample offset code 3", "14 + 4 + 5 + 1 = 24",
       one([HERE, ("sample_offset_code", 2, 3), ("padding", 40, 0)]), refused(5, 24))
# 24 + 2+3+6+2+1 = 38; 38 + 1+2+1 = 42; 42 + 6+6+1+4+1 = 60.
vector("zone-6", "reserved zone index 6", "24+2+3+6+2+1 = 38, +1+2+1 = 42, +17+1 = 60",
       one([plain_timing(1), block0(gain(0), PRIO_DEFAULT, render(xyz(31, 31, 0, 0), zones=[HERE, zone(6)]))]),
       refused(5, 60))
# Two blocks: 24 + 2+3+8+8+1 = 46; block 0 takes 1+3+17+1+4+2+1+1+1 = 31 bits: 77; block 1: not active 77,
# basic status 78-79, render status 80-81, obj_render_info 82-85, zone 86.
vector("zone-7-mixed", "reserved zone index 7 in a mixed block",
       "24+2+3+8+8+1 = 46, +31 (block 0) = 77, +1+2+2+4 = 86",
       one([plain_timing(2), block0(gain(0), PRIO_DEFAULT, PLAIN),
            block(2, [], 3, mixed_render(0, zones=[HERE, zone(7)]))]), refused(5, 86))
vector("size-idx-3", "reserved object_size_idx 3", "60 + 3 + 1 = 64",
       one([plain_timing(1), block0(gain(0), PRIO_DEFAULT,
            render(xyz(31, 31, 0, 0), size=[HERE, ("object_size_idx", 2, 3)]))]), refused(5, 64))

# ------------------------------------------------------------------------------- refusal 8

vector("passes-factor", "refusal 8 at a plain field; many payload bits follow",
       "element of 1 byte: bits 23-30; 24+2+3 = 29 is block_offset_factor_bits, 6 bits",
       one([OFF0, ("num_obj_info_blocks_bits", 3, 0), HERE, ramp(0, 0), NO_RESERVED, inactive()], bytes_=1),
       refused(8, 29), extra=b"\x00" * 20)
# 5.1 bed: header 31, id 31-34, size 35-39, element 40-47 = the payload's end: discard 40, code 41-42, blocks 43-45.
vector("passes-both-ends", "a field that passes the element's end and the payload's: 8, not 2",
       "31+4+5 = 40, +1+2+3 = 46 is the factor; the element and the payload end at 48",
       [version(), count_(5), content(bed=1), one_bed(std_bed(0b0000001111)), tail(1),
        element(1, [OFF0, ("num_obj_info_blocks_bits", 3, 0), HERE, ("block_offset_factor_bits", 6, 0)], bytes_=1)],
       refused(8, 46), cut=6)
# alternate id 23-26, discard 27, code 28-29, sample_offset_bits 30-34; end 31.
vector("passes-offset-bits", "refusal 8 at a conditional field: sample_offset_bits, with an alternate id",
       "23 + 4 + 1 + 2 = 30; the element ends at 31",
       [dyn_header(1, 1, alt=1), element(1, [("sample_offset_code", 2, 2), HERE, ("sample_offset_bits", 5, 9),
        ("padding", 20, 0)], alt=0, bytes_=1)], refused(8, 30))
# factor 29-34, ramp code 35-36, flag 37, bits 38-48; end of 3 bytes 47.
vector("passes-ramp-bits", "refusal 8 at ramp_duration_bits", "24+2+3+6+2+1 = 38, 11 bits; the element ends at 47",
       one([OFF0, ("num_obj_info_blocks_bits", 3, 0), ramp(0, 3), ("b_use_ramp_duration_idx", 1, 0), HERE,
            ("ramp_duration_bits", 11, 5), NO_RESERVED, inactive()], bytes_=3), refused(8, 38))
# flag 37 is 0, reserved 38-42; end of 2 bytes 39.
vector("passes-reserved", "refusal 8 at the 5 reserved bits", "24+2+3+6+2+1 = 38; the element ends at 39",
       one([OFF0, ("num_obj_info_blocks_bits", 3, 0), ramp(0, 0), ("b_reserved_data_not_present", 1, 0), HERE,
            ("reserved", 5, 0), inactive()], bytes_=2), refused(8, 38))
# index: 2 bits more: not active 40, gain idx 41-42, gain bits 43-48; end of 3 bytes 47.
vector("passes-gain-bits", "refusal 8 at object_gain_bits", "24+4+3+6+2+1 = 40, +1+2 = 43; the element ends at 47",
       one([timing(off_idx(1), [ramp(0, 0)]), ("b_object_not_active", 1, 0), ("object_gain_idx", 2, 2), HERE,
            ("object_gain_bits", 6, 0), PRIO_DEFAULT, PLAIN, NO_ADD], bytes_=3), refused(8, 43))
# index: x 44-49 ... zone 62-64; end of 5 bytes 63.
vector("passes-zone-7", "a reserved zone index that passes the end: 8 before 5",
       "24+4+3+6+2+1+1+2+1+17+1 = 62; the element ends at 63",
       one([timing(off_idx(1), [ramp(0, 0)]), block0(gain(0), PRIO_DEFAULT,
            render(xyz(0, 0, 0, 0), zones=[HERE, zone(7)]))], bytes_=5), refused(8, 62))
# inactive: not active 38, additional flag 39; end of 2 bytes 39.
vector("passes-additional-flag", "refusal 8 at b_additional_table_data_exists, one bit too few",
       "38 + 1 = 39 = the element's end",
       one([plain_timing(1), ("b_object_not_active", 1, 1), HERE, NO_ADD], bytes_=2), refused(8, 39))
# offset bits: 5 more: not active 43, additional flag 44, size bits 45-48; end of 3 bytes 47.
vector("passes-additional-size", "refusal 8 at additional_table_data_size_bits", "38 + 5 + 1 + 1 = 45; the end is 47",
       one([timing(off_bits(1), [ramp(0, 0)]), ("b_object_not_active", 1, 1), ("b_additional_table_data_exists", 1, 1),
            HERE, ("additional_table_data_size_bits", 4, 0), ("additional_table_data", 8, 0)], bytes_=3),
       refused(8, 45))
# additional flag 39, size bits 40-43, run 44-51; end of 3 bytes 47.
vector("passes-additional-run", "refusal 8 at an additional-data run", "38 + 1 + 1 + 4 = 44, 8 bits; the end is 47",
       one([plain_timing(1), ("b_object_not_active", 1, 1), ("b_additional_table_data_exists", 1, 1),
            ("additional_table_data_size_bits", 4, 0), HERE, ("additional_table_data", 8, 0)], bytes_=3),
       refused(8, 44))
# The second of two objects: first inactive 38-39; the second's not active 40, gain idx 41-42, flag 43 ... x 44-49; end 47.
vector("passes-second-object", "refusal 8 inside the second object", "38 + 2 + 1 + 2 + 1 = 44 is x; the element ends at 47",
       [dyn_header(2, 1), element(1, [plain_timing(1), inactive(), ("b_object_not_active", 1, 0), gain(0), PRIO_DEFAULT,
        HERE, PLAIN, NO_ADD], bytes_=3)], refused(8, 44))
# Exactly 69 - 23 = 46 bits of fields in 6 bytes (to 71); with 5 bytes (63) the elevation flag at 63 is the first outside.
vector("passes-elevation", "refusal 8 at the first bit after the element's end", "60 + 3 = 63 = the element's end",
       one([plain_timing(1), block0(gain(0), PRIO_DEFAULT, [xyz(31, 31, 0, 0), NO_DIST,
            ("zone_constraints_idx", 3, 0), HERE, ("b_enable_elevation", 1, 1), SIZE0, NO_SCREEN, snap(0)])], bytes_=5),
       refused(8, 63))
