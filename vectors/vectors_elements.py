"""Group 2: elements: ids, sizes, alternate ids, unknown elements, refusals 6 and 7 (5.5.1, 5.5.4).

Header of dynamic objects only (14 bits): first id at 14-17, first size group at 18-21, its flag at 22, and with one
group the element begins at 23 (alternate id 23-26 and discard flag 27, or discard flag 23).
"""
from helpers import *

# The smallest object element of one object: code 2 + blocks 3 + factor 6 + ramp 2 + reserved flag 1 + not active 1 +
# additional 1 = 16 bits; with the discard flag 17 bits, so 3 bytes; with id 4 and size 5 it takes 33 bits.
# With an alternate id 21 bits, still 3 bytes and 33 bits.
OBJ = [plain_timing(1), inactive()]
# Its tables: one block, start 0, ramp 0; the inactive dynamic record: byte 1 = 2, x = y = 31 (1f), z = 64 (40),
# elevation (byte 12) 1, all else 0.
OBJ_LINES = "block=0,0,0 record=0,0,000200001f1f400000000000010000000000000000000000"
EXT = [NO_DIV_BLOCK, NO_PREC_BLOCK]          # 2 bits, with the discard flag 3: one byte

# ------------------------------------------------------------------------------- sizes

# ISF index 0: 12 + 3 + 5 = 20 bits of header, id 20-23, size at 24.
ISF_HEADER = [version(), count_(3), content(isf=1), isf_(0), tail(1)]
vector("size-group-cut", "refusal 2 at the first size group", "header 12+3+5 = 20, id to 24 = the payload's end",
       [ISF_HEADER, ("oa_element_id_idx", 4, 2), HERE], refused(2, 24, "size read"))
# Two beds of LFE only: 12 + 5 + 2 + 5 = 24 bits of header, id 24-27, group 28-31, flag 32.
vector("size-flag-cut", "refusal 2 at the flag after the first size group",
       "header 12+5+2+5 = 24, id 4, group 4: 32 = the payload's end",
       [version(), count_(1), content(bed=1), many_beds([LFE_ONLY] * 2), tail(1), ("oa_element_id_idx", 4, 2),
        ("size read", 4, 0), HERE], refused(2, 32, "size b_read_more"))
# 14 + 4 + 5 = 23: second group at 23-26 of 24.
vector("size-second-group-cut", "refusal 2 at the second size group", "14 + 4 + 5 = 23; 24 bits are there",
       [dyn_header(1, 1), ("oa_element_id_idx", 4, 2), groups((0, 1)), HERE, ("size read", 4, 0)],
       refused(2, 23), cut=3)
# groups at 18, 23, 28, 33, 38; the fifth is at 38-41 of 40.
vector("size-fifth-group-cut", "refusal 2 at the fifth size group", "18 + 4 x 5 = 38; 40 bits are there",
       [dyn_header(1, 1), ("oa_element_id_idx", 4, 2), groups((0, 1), (0, 1), (0, 1), (0, 1)), HERE,
        ("size read", 4, 0), ("size b_read_more", 1, 0)], refused(2, 38), cut=5)
# ISF header: groups at 24, 29, 34, 39, 44-47; the flag after the fifth at 48.
vector("size-fifth-flag-cut", "refusal 2 at the flag after a fifth group",
       "size at 24; 24 + 4 x 5 + 4 = 48 = the payload's end",
       [ISF_HEADER, ("oa_element_id_idx", 4, 2), groups((0, 1), (0, 1), (0, 1), (0, 1)), ("size read", 4, 0), HERE],
       refused(2, 48, "size b_read_more"))
# Five zeros are 69,904, +1 bytes.  The flag after the fifth (bit 42) is 1 and ignored; padding ones would make a
# sixth group 43-46, flag 47 and a seventh group that passes the end at 48.
vector("size-five-groups", "five groups, the flag after the fifth set: ignored; the size does not fit",
       "69,904 + 1 bytes pass the end: refusal 2 at the first group, 14 + 4 = 18",
       [dyn_header(1, 1), ("oa_element_id_idx", 4, 2), HERE, groups((0, 1), (0, 1), (0, 1), (0, 1), (0, 1))],
       refused(2, 18), pad=1)
# Four zeros: ((0 x 16 + 16) x 16 + 16) x 16 + 16 = 4,368, +1 bytes.
vector("size-four-groups", "four groups in 4,096 bytes: too large", "4,368 + 1 bytes: refusal 2 at 18",
       [dyn_header(1, 1), ("oa_element_id_idx", 4, 2), HERE, groups((0, 1), (0, 1), (0, 1), (0, 0))],
       refused(2, 18), extra=b"\x00" * 4091)
# Second element: 14 + 17 = 31; id 31-34; size 35; element from 40; 48 needed, 40 there.
vector("size-second-element", "a declared size of a second element does not fit",
       "14 + (4+5+8) = 31, id 4: size at 35; the element takes bits 40-47 of 40",
       [dyn_header(1, 2), unknown(4), ("oa_element_id_idx", 4, 3), HERE, groups((0, 0)), ("padding", 8, 0)],
       refused(2, 35), cut=5)
# The third id: 31 is the second; here the second id itself is cut: 31-34 of 32.
vector("id-second-element-cut", "refusal 2 at the id of a second element", "14 + 17 = 31; 32 bits are there",
       [dyn_header(1, 2), unknown(4), HERE, ("oa_element_id_idx", 4, 3)], refused(2, 31), cut=4)
# 5.1 bed: header 26 + 5 = 31, id 31-34, size 35-39, element 40-47: 6 bytes.
BED_HEADER = [version(), count_(5), content(bed=1), one_bed(std_bed(0b0000001111)), tail(1)]
vector("size-just-reached", "a declared end that is the payload's end (counted from the discard flag)",
       "header 31, id 4, size 5: the element is bits 40-47 of 48",
       [BED_HEADER, unknown(6, 1, fill=1)],
       lines("refusal=0 place=0 objects=6 bed=6 isf=0 dynamic=0 blocks=0 unknown=1"))
vector("size-one-byte-over", "the same, declared one byte longer", "bits 40-55 of 48: refusal 2 at the size, 35",
       [BED_HEADER, ("oa_element_id_idx", 4, 6), HERE, groups((1, 0)), ("padding", 8, 255)], refused(2, 35))

# 0,1,0,0 is 0 x 16 + 16 + 0 = 16: 17 bytes.  The object element behind it is read only if the end is right.
vector("size-17-bytes", "two groups 0,1,0,0 (16): an unknown element of 17 bytes, then an object element",
       "16 + 1 bytes are passed over; tables of the object element",
       [dyn_header(1, 2), unknown(3, 17, fill=1, sizes=groups((0, 1), (0, 0))), element(1, OBJ)],
       lines("refusal=0 place=0 objects=1 bed=0 isf=0 dynamic=1 blocks=1 unknown=1", OBJ_LINES))
vector("size-272-bytes", "two groups F,1,F,0 (271): an unknown element of 272 bytes, then an object element",
       "15 x 16 + 16 + 15 = 271, +1 bytes",
       [dyn_header(1, 2), unknown(0, 272, fill=1, sizes=groups((15, 1), (15, 0))), element(1, OBJ)],
       lines("refusal=0 place=0 objects=1 bed=0 isf=0 dynamic=1 blocks=1 unknown=1", OBJ_LINES))
vector("size-273-bytes", "three groups of zeros (272): an unknown element of 273 bytes, then an object element",
       "(0 x 16 + 16) x 16 + 16 = 272, +1 bytes",
       [dyn_header(1, 2), unknown(15, 273, sizes=groups((0, 1), (0, 1), (0, 0))), element(1, OBJ)],
       lines("refusal=0 place=0 objects=1 bed=0 isf=0 dynamic=1 blocks=1 unknown=1", OBJ_LINES))
# E,1,E,1,A,0: (14 x 16 + 16 + 14) x 16 + 16 + 10 = 254 x 16 + 26 = 4,090, +1 bytes from bit 18 + 15 = 33:
# 33 + 8 x 4,091 = 32,761 of 32,768.
vector("size-4091-bytes", "three groups, the longest element that fits 4,096 bytes here",
       "(14x16+16+14)x16+16+10 = 4,090, +1 bytes from 33: ends at 32,761 of 32,768",
       [dyn_header(1, 1), unknown(9, 4091, fill=1, sizes=groups((14, 1), (14, 1), (10, 0)))],
       lines("refusal=0 place=0 objects=1 bed=0 isf=0 dynamic=1 blocks=0 unknown=1"))
vector("size-4092-bytes", "three groups, one byte too many in 4,096 bytes",
       "4,091 + 1 bytes from 33 end at 32,769, 32,768 are there: refusal 2 at 18",
       [dyn_header(1, 1), ("oa_element_id_idx", 4, 9), HERE, groups((14, 1), (14, 1), (11, 0)),
        ("padding", 32735, 0)], refused(2, 18))

# ------------------------------------------------------------------------------- unknown elements

vector("unknown-all-ids", "the 13 unknown ids, contents all ones",
       "ids 0, 3, 4, 6 to 15: 13 elements, all passed over",
       [dyn_header(1, 13), [unknown(i, 1, discard=i % 2, fill=1) for i in (0, 3, 4, 6, 7, 8, 9, 10, 11, 12, 13, 14, 15)]],
       lines("refusal=0 place=0 objects=1 bed=0 isf=0 dynamic=1 blocks=0 unknown=13"))
vector("unknown-before-between-after", "unknown elements before, between and after the known ones",
       "ids 4, 1, 3, 5, 15: 3 unknown; the extended element carries nothing",
       [dyn_header(1, 5), unknown(4, 2, fill=1), element(1, OBJ), unknown(3, 1, fill=1), element(5, EXT),
        unknown(15, 3, fill=1)],
       lines("refusal=0 place=0 objects=1 bed=0 isf=0 dynamic=1 blocks=1 unknown=3", OBJ_LINES))
vector("elements-15", "15 elements: count extension 0", "15 + 0 elements, all unknown",
       [version(), count_(0), dyn_only(), tail(15, ext=0), [unknown(7, 1)] * 15],
       lines("refusal=0 place=0 objects=1 bed=0 isf=0 dynamic=1 blocks=0 unknown=15"))
# 44 unknown, object element 21st, extended element last.
vector("elements-46", "46 elements: count extension 31", "15 + 31 elements: 44 unknown, one object, one extended",
       [version(), count_(0), dyn_only(), tail(15, ext=31), [unknown(4, 2, fill=1)] * 20, element(1, OBJ),
        [unknown(8, 1)] * 24, element(5, EXT)],
       lines("refusal=0 place=0 objects=1 bed=0 isf=0 dynamic=1 blocks=1 unknown=44", OBJ_LINES))
# One element fewer than announced: 45 x 17 = 765 bits after a header of 19: 784 = 98 bytes; the 46th id at 784.
vector("elements-46-one-missing", "46 elements announced, 45 there", "19 + 45 x 17 = 784 = the payload's end",
       [version(), count_(0), dyn_only(), tail(15, ext=31), [unknown(4, 1)] * 45, HERE],
       refused(2, 784, "oa_element_id_idx"))

# ------------------------------------------------------------------------------- alternate ids

vector("alternate-0", "alternate flag with alternate id 0: known, an object and an extended element",
       "alternate id 0 leaves ids 1 and 5 known",
       [dyn_header(1, 2, alt=1), element(1, OBJ, alt=0), element(5, EXT, alt=0)],
       lines("refusal=0 place=0 objects=1 bed=0 isf=0 dynamic=1 blocks=1 unknown=0", OBJ_LINES))
vector("alternate-unknown", "an id-1 element with alternate id 3 alone", "unknown: no blocks",
       [dyn_header(1, 1, alt=1), unknown(1, 2, alt=3, fill=1)],
       lines("refusal=0 place=0 objects=1 bed=0 isf=0 dynamic=1 blocks=0 unknown=1"))
vector("alternate-mixed", "refusal 7: id 5 alternate 1 first, then id 1 alternate 8, 0 and 15, id 5 alternate 0 and 2",
       "the extended element is known whatever its alternate id (open point 16); its id is at 14",
       [dyn_header(1, 6, alt=1), HERE, element(5, EXT, alt=1), unknown(1, 1, alt=8, fill=1), element(1, OBJ, alt=0),
        element(5, EXT, alt=0), unknown(1, 17, alt=15, fill=1), element(5, EXT, alt=2)], refused(7, 14))
vector("alternate-unknown-id", "an unknown id with alternate ids 0 and 5", "unknown whatever the alternate id",
       [dyn_header(1, 3, alt=1), unknown(3, 1, alt=0, fill=1), unknown(3, 1, alt=5), element(1, OBJ, alt=0)],
       lines("refusal=0 place=0 objects=1 bed=0 isf=0 dynamic=1 blocks=1 unknown=2", OBJ_LINES))

# ------------------------------------------------------------------------------- refusal 6

# 14 + 33 = 47.
vector("second-object", "refusal 6: a second object element", "14 + (4 + 5 + 24) = 47",
       [dyn_header(1, 2), element(1, OBJ), HERE, element(1, OBJ)], refused(6, 47))
vector("second-object-alternate", "refusal 6: alternate flag, size of two groups (17 bytes)",
       "14 + (4 + 5 + 24) = 47; the fields are read to 47 + 4 + 10 + 5 = 66 before",
       [dyn_header(1, 2, alt=1), element(1, OBJ, alt=0), HERE, element(1, OBJ, alt=0, bytes_=17)], refused(6, 47))
# 47 + unknown 17 = 64; the second object element's body would be refused with 5 (code 3) at once.
vector("second-object-bad-body", "refusal 6 comes before the fields of the second element",
       "14 + 33 + 17 = 64; its sample_offset_code 3 is not reached",
       [dyn_header(1, 3), element(1, OBJ), unknown(4, 1), HERE, element(1, [("sample_offset_code", 2, 3)])],
       refused(6, 64))
# id 47-50, size at 51, element from 56: 8 bits needed, 56 there.
vector("second-object-no-fit", "a second object element whose size does not fit: 2 before 6",
       "47 + 4 = 51; the element takes bits 56-63 of 56",
       [dyn_header(1, 2), element(1, OBJ), ("oa_element_id_idx", 4, 1), HERE, groups((0, 0)), ("padding", 8, 0)],
       refused(2, 51), cut=7)
# object 14 -> 47, extended: 4 + 5 + 8 = 17 -> 64, unknown 17 -> 81.
vector("second-extended", "refusal 6: a second extended element", "14 + 33 + 17 + 17 = 81",
       [dyn_header(1, 4), element(1, OBJ), element(5, EXT), unknown(0, 1), HERE, element(5, EXT)], refused(6, 81))
# object with alternate id 14 -> 47; extended: 4 + 5 + 8 (4 + 1 + 2 bits) -> 64.
vector("second-extended-alternate", "refusal 6: second extended element, alternate flag, size of two groups",
       "14 + 33 + 17 = 64",
       [dyn_header(1, 3, alt=1), element(1, OBJ, alt=0), element(5, EXT, alt=0), HERE,
        element(5, EXT, alt=0, bytes_=20)], refused(6, 64))

# ------------------------------------------------------------------------------- refusal 7

vector("extended-first", "refusal 7: an extended element before the object element", "its id is at 14",
       [dyn_header(1, 2), HERE, element(5, EXT), element(1, OBJ)], refused(7, 14))
# unknown id 1 with alternate 3: 4 + 5 + 8 = 17 -> 31.
vector("extended-after-alternate-object", "refusal 7: only an id-1 element of another alternate id stands before",
       "14 + 17 = 31; size of two groups",
       [dyn_header(1, 2, alt=1), unknown(1, 1, alt=3), HERE, element(5, EXT, alt=0, bytes_=18)], refused(7, 31))
vector("extended-first-no-fit", "an extended element first whose size does not fit: 2 before 7",
       "14 + 4 = 18: 2 bytes from bit 23 pass 32",
       [dyn_header(1, 1), ("oa_element_id_idx", 4, 5), HERE, groups((1, 0)), ("padding", 9, 0)], refused(2, 18))

# ------------------------------------------------------------------------------- ends and padding

vector("padding-ones", "element padding of ones in both known elements, discard flags set, payload padding of ones",
       "padding of every value; object element declared with 9 bytes for 17 bits",
       [dyn_header(1, 2), element(1, OBJ, bytes_=9, pad=1, discard=1), element(5, EXT, bytes_=17, pad=1, discard=1)],
       lines("refusal=0 place=0 objects=1 bed=0 isf=0 dynamic=1 blocks=1 unknown=0", OBJ_LINES), pad=1, extra=b"\xff\xff")
# discard 1 + code 2 + idx 2 + blocks 3 + factor 6 + ramp 2 + flag 1 + reserved 5 + not active 1 + additional 1 = 24.
EXACT = [timing(off_idx(0), [ramp(0, 0)], with_reserved(21)), inactive()]
vector("end-just-reached", "the fields of an object element end at its declared end, no padding",
       "1+2+2+3+6+2+1+5+1+1 = 24 bits = 3 bytes; sample offset index 0 is 8; reserved bits passed over",
       [dyn_header(1, 1), element(1, EXACT)],
       lines("refusal=0 place=0 objects=1 bed=0 isf=0 dynamic=1 blocks=1 unknown=0 block=0,8,0",
             "record=0,0,000200001f1f400000000000010000000000000000000000"))
# 2 bytes declared: bits 23-38.  23 discard, 24-25 code, 26-27 idx, 28-30 blocks, 31-36 factor, 37-38 ramp, 39 flag.
vector("end-passed", "the same declared with 2 bytes: refusal 8 at the flag that no longer fits",
       "end = 23 + 16 = 39; 23+1+2+2+3+6+2 = 39 is b_reserved_data_not_present",
       [dyn_header(1, 1), element(1, [timing(off_idx(0), [ramp(0, 0)], [HERE, with_reserved(21)]), inactive()],
                                  bytes_=2)], refused(8, 39))
# 6 bed objects: discard 1 + code 2 + bits 5 + blocks 3 + factor 6 + ramp 2 + flag 1 + 6 x 2 = 32 bits from 40.
vector("end-of-both", "the fields end at the element's end which is the payload's end",
       "31 + 4 + 5 + 32 = 72 bits = 9 bytes; offset 3 + 32 x 1 = 35, ramp code 1 is 512; six inactive bed records",
       [BED_HEADER, element(1, [timing(off_bits(3), [ramp(1, 1)]), [inactive()] * 6])],
       lines("refusal=0 place=0 objects=6 bed=6 isf=0 dynamic=0 blocks=1 unknown=0 block=0,35,512",
             ["record=%d,0,000000001f1f400000000000010000000000000000000000" % o for o in range(6)]))
