"""Group 1: the payload header and the program assignment (5.5.2, 5.5.3) and the examples of the requirements.

Bit positions used below: version 0-1, object_count_bits 2-6, b_dyn_object_only_program 7; then either
b_lfe_present 8, alternate flag 9, element count 10-13 (header of 14 bits), or content_description 8-11 and the
program from bit 12 on.  An object count extension (7-13) moves all that by 7.
"""
from helpers import *

EXAMPLE = bytes.fromhex("0107C100")
# Its fields: the header, and an unknown element of one byte with the id 15.
WHOLE = flat([dyn_header(1, 1), unknown(15, discard=1)])
assert pack(WHOLE, 0)[0] == EXAMPLE
ONE_DYNAMIC = "refusal=0 place=0 objects=1 bed=0 isf=0 dynamic=1 blocks=0 unknown="

# ------------------------------------------------------------------------------- examples of the requirements

vector("example", "the worked example of the requirements", "printed in the requirements",
       EXAMPLE,
       lines("refusal=0 place=0 objects=1 bed=0 isf=0 dynamic=1 blocks=0 unknown=1"))

# The element's size group is at 18, its flag at 22, so the element takes bits 23-30 of 24 bits.
vector("example-3-bytes", "declared size does not fit (refusal 2 at the size)", "printed in the requirements",
       EXAMPLE[:3], refused(2, 18), whole=WHOLE)
# The id is at 14-17 of 16 bits.
vector("example-2-bytes", "element id passes the end", "printed in the requirements", EXAMPLE[:2], refused(2, 14), whole=WHOLE)
# b_lfe_present is at 8 of 8 bits.
vector("example-1-byte", "b_lfe_present passes the end", "printed in the requirements", EXAMPLE[:1], refused(2, 8), whole=WHOLE)
vector("example-0-bytes", "the empty payload", "printed in the requirements", b"", refused(2, 0), whole=WHOLE)

vector("version-1", "version 1 (41 00)", "printed in the requirements", bytes.fromhex("4100"), refused(3, 0))

# The example and 4,092 bytes more: all bits after the element (31 on) are padding.
vector("4096-bytes", "4,096 bytes accepted, the rest being padding of ones",
       "the example; bits after the last element are padding of every value and length",
       EXAMPLE, lines("refusal=0 place=0 objects=1 bed=0 isf=0 dynamic=1 blocks=0 unknown=1"), extra=b"\xff" * 4092)
vector("4097-bytes", "4,097 bytes refused with 1", "refusal 1; its place is the length in bytes, 4097",
       EXAMPLE, refused(1, 4097), extra=b"\x00" * 4093)

# ------------------------------------------------------------------------------- version

vector("4097-bytes-version-1", "refusal 1 comes before refusal 3",
       "order of the requirements: 1 first; place is the length 4097",
       bytes.fromhex("4100"), refused(1, 4097), extra=b"\x00" * 4095)
vector("version-2", "version 2", "bits 10 are version 2: refusal 3, place 0 always",
       [version(2), count_(0), dyn_only(), tail(0)], refused(3, 0))
vector("version-1-one-byte", "version refused before anything after it is read",
       "01 00000 0: version 1; the missing bits from 8 on are never read",
       b"\x40", refused(3, 0))
vector("version-3-ext-0", "version 3 with extension 0",
       "version 3 + 0 = 3, not 0: refusal 3 at place 0, not at the extension (bit 2)",
       [version(3), ("oa_md_version_bits_ext", 3, 0), count_(0), dyn_only(), tail(0)], refused(3, 0))
vector("version-3-ext-5", "version 3 with extension 5 (the sum is 8, 0 in its last 3 bits), one byte only",
       "11 101 111: version 3 + 5 = 8, not 0; the object count that passes the end is never reached",
       b"\xef", refused(3, 0))

# ------------------------------------------------------------------------------- object count

vector("count-31", "object_count_bits 30 has no extension", "30 + 1 = 31 objects, dynamic only, no element",
       [version(), count_(30), dyn_only(), tail(0)],
       lines("refusal=0 place=0 objects=31 bed=0 isf=0 dynamic=31 blocks=0 unknown=0"))
vector("count-32", "object count extension 0", "31 + 0 + 1 = 32 objects",
       [version(), count_(31, 0), dyn_only(), tail(0)],
       lines("refusal=0 place=0 objects=32 bed=0 isf=0 dynamic=32 blocks=0 unknown=0"))
vector("count-159", "object count extension 127, with the LFE object",
       "31 + 127 + 1 = 159 objects; the LFE object is a bed object, 158 are dynamic",
       [version(), count_(31, 127), dyn_only(lfe=1), tail(0)],
       lines("refusal=0 place=0 objects=159 bed=1 isf=0 dynamic=158 blocks=0 unknown=0"))
# 2 + 5 = 7: the extension is at 7-13 of 8 bits.
vector("count-ext-cut", "refusal 2 at the object count extension", "2 + 5 = 7 is its first bit; 8 bits are there",
       [version(), ("object_count_bits", 5, 31), HERE, ("object_count_bits_ext", 7, 64)], refused(2, 7), cut=1)

# ------------------------------------------------------------------------------- dynamic only

vector("dyn-only", "dynamic objects only, no LFE", "object_count_bits 4: 5 objects, all dynamic",
       [version(), count_(4), dyn_only(lfe=0), tail(0)],
       lines("refusal=0 place=0 objects=5 bed=0 isf=0 dynamic=5 blocks=0 unknown=0"))
vector("dyn-only-lfe", "dynamic objects only, with LFE", "5 objects: the LFE is a bed object, 4 dynamic",
       [version(), count_(4), dyn_only(lfe=1), tail(0)],
       lines("refusal=0 place=0 objects=5 bed=1 isf=0 dynamic=4 blocks=0 unknown=0"))
vector("dyn-only-lfe-alone", "one object which is the LFE", "1 object, the LFE: 1 bed, 0 dynamic",
       [version(), count_(0), dyn_only(lfe=1), tail(0)],
       lines("refusal=0 place=0 objects=1 bed=1 isf=0 dynamic=0 blocks=0 unknown=0"))

# ------------------------------------------------------------------------------- beds

vector("bed-lfe-only", "content flag bed alone; a bed of one LFE; distribute flag set",
       "content_description 0001 (bed is sent last); b_lfe_only: one object",
       [version(), count_(0), content(bed=1), one_bed(LFE_ONLY, distribute=1), tail(0)],
       lines("refusal=0 place=0 objects=1 bed=1 isf=0 dynamic=0 blocks=0 unknown=0"))
# Indices 9 (L/R 2), 8 (C 1), 7 (LFE 1), 6 (LS/RS 2) are the last four flags sent: 0x00F, 6 objects.
vector("bed-standard-5.1", "standard bed L/R, C, LFE, LS/RS",
       "Table 12, index 0 first: last four flags set, 2+1+1+2 = 6 objects",
       [version(), count_(5), content(bed=1), one_bed(std_bed(0b0000001111)), tail(0)],
       lines("refusal=0 place=0 objects=6 bed=6 isf=0 dynamic=0 blocks=0 unknown=0"))
vector("bed-standard-all", "standard bed with all ten flags",
       "Table 12: 2+1+1+2+2+2+2+2+2+1 = 17 objects (object_count_bits 16)",
       [version(), count_(16), content(bed=1), one_bed(std_bed(0b1111111111)), tail(0)],
       lines("refusal=0 place=0 objects=17 bed=17 isf=0 dynamic=0 blocks=0 unknown=0"))
vector("bed-nonstandard-all", "non-standard bed with all 17 flags", "Table 13: 17 labels, 17 objects",
       [version(), count_(16), content(bed=1), one_bed(nonstd_bed(ones(17))), tail(0)],
       lines("refusal=0 place=0 objects=17 bed=17 isf=0 dynamic=0 blocks=0 unknown=0"))
# One label each in Table 13, whatever the index: indices 0, 8, 15, 16 -> 4 objects.
vector("bed-nonstandard-4", "non-standard bed with flags 0, 8, 15 and 16",
       "Table 13: one object each, 4 objects",
       [version(), count_(3), content(bed=1), one_bed(nonstd_bed(0b10000000100000011)), tail(0)],
       lines("refusal=0 place=0 objects=4 bed=4 isf=0 dynamic=0 blocks=0 unknown=0"))
vector("bed-single-flag-first", "standard bed with only the flag sent first", "index 0 is LFE2: 1 object",
       [version(), count_(0), content(bed=1), one_bed(std_bed(0b1000000000)), tail(0)],
       lines("refusal=0 place=0 objects=1 bed=1 isf=0 dynamic=0 blocks=0 unknown=0"))
vector("bed-single-flag-last", "standard bed with only the flag sent last", "index 9 is L/R: 2 objects",
       [version(), count_(1), content(bed=1), one_bed(std_bed(0b0000000001)), tail(0)],
       lines("refusal=0 place=0 objects=2 bed=2 isf=0 dynamic=0 blocks=0 unknown=0"))
# Flags 0 to 4 (LFE2 1, LW/RW 2, TBL/TBR 2, TSL/TSR 2, TFL/TFR 2) are the first five sent; were index 0 sent
# last, the same bits would be L/R 2, C 1, LFE 1, LS/RS 2, LB/RB 2 = 8, and the other way round for flags 5 to 9.
vector("beds-flags-0-to-4", "five beds, each with one of the standard flags 0 to 4",
       "Table 12: 1+2+2+2+2 = 9 objects; num_bed_instances_bits 3 means 5 beds",
       [version(), count_(8), content(bed=1), many_beds([std_bed(b) for b in (0b1000000000, 0b0100000000, 0b0010000000,
        0b0001000000, 0b0000100000)]), tail(0)],
       lines("refusal=0 place=0 objects=9 bed=9 isf=0 dynamic=0 blocks=0 unknown=0"))
vector("beds-flags-5-to-9", "five beds, each with one of the standard flags 5 to 9",
       "Table 12: LB/RB 2 + LS/RS 2 + LFE 1 + C 1 + L/R 2 = 8 objects",
       [version(), count_(7), content(bed=1), many_beds([std_bed(b) for b in (0b0000010000, 0b0000001000, 0b0000000100,
        0b0000000010, 0b0000000001)]), tail(0)],
       lines("refusal=0 place=0 objects=8 bed=8 isf=0 dynamic=0 blocks=0 unknown=0"))
vector("beds-9", "nine beds (num_bed_instances_bits 7), all LFE only", "7 + 2 = 9 beds of one object",
       [version(), count_(8), content(bed=1), many_beds([LFE_ONLY] * 9, distribute=1), tail(0)],
       lines("refusal=0 place=0 objects=9 bed=9 isf=0 dynamic=0 blocks=0 unknown=0"))
# nonstd 3 flags = 3; standard C + L/R = 3; lfe = 1: 7 objects
vector("beds-three-kinds", "three beds: non-standard, standard, LFE only",
       "3 labels of Table 13, 2+1 of Table 12 (L/R and C), 1: 7 objects",
       [version(), count_(6), content(bed=1),
        many_beds([nonstd_bed(0b11100000000000000), std_bed(0b0000000011), LFE_ONLY]), tail(0)],
       lines("refusal=0 place=0 objects=7 bed=7 isf=0 dynamic=0 blocks=0 unknown=0"))
vector("bed-empty-standard", "a standard bed with all flags 0, beside one dynamic object",
       "a bed of no object (open point 17): 0 + 1 = 1 object",
       [version(), count_(0), content(bed=1, dynamic=1), one_bed(std_bed(0)), dyn_(0), tail(0)],
       lines("refusal=0 place=0 objects=1 bed=0 isf=0 dynamic=1 blocks=0 unknown=0"))
vector("bed-empty-nonstandard", "two beds: non-standard with all flags 0, LFE only",
       "0 + 1 = 1 bed object",
       [version(), count_(0), content(bed=1), many_beds([nonstd_bed(0), LFE_ONLY]), tail(0)],
       lines("refusal=0 place=0 objects=1 bed=1 isf=0 dynamic=0 blocks=0 unknown=0"))
# The empty bed alone: 0 objects against 1.  2+5+1+4+1+1+1+1+10 = 26.
vector("bed-empty-alone", "a bed of no object as the only content",
       "0 bed objects against an object count of 1 (the least there is): refusal 4 after 2+5+1+4+2+1+1+10 = 26 bits",
       [version(), count_(0), content(bed=1), one_bed(std_bed(0)), HERE, tail(0)], refused(4, 26))

# ------------------------------------------------------------------------------- ISF (Table 11b)

for idx, n in ((0, 4), (1, 8), (2, 10), (3, 14), (4, 15), (5, 30)):     # number of objects printed in Table 11b
    vector("isf-%d" % idx, "content flag ISF alone, index %d" % idx, "Table 11b: %d objects" % n,
           [version(), count_(n - 1), content(isf=1), isf_(idx), tail(0)],
           lines("refusal=0 place=0 objects=%d bed=0 isf=%d dynamic=0 blocks=0 unknown=0" % (n, n)))
# 2+5+1+4 = 12.
vector("isf-6", "reserved ISF index 6", "Table 11b: reserved; the index is at 2+5+1+4 = 12",
       [version(), count_(3), content(isf=1), HERE, isf_(6), tail(0)], refused(5, 12))
# Bed of one LFE before it: 12 + 1 + 1 + 1 = 15.
vector("isf-7-after-bed", "reserved ISF index 7 after a bed, counts that disagree too",
       "12 + distribute 1 + multiple 1 + b_lfe_only 1 = 15; refusal 5 is met before the counts are compared",
       [version(), count_(30), content(isf=1, bed=1), one_bed(LFE_ONLY), HERE, isf_(7), tail(0)], refused(5, 15))
vector("isf-7-cut", "an ISF index that passes the end: 2 before 5",
       "the index is at 15-17, 16 bits are there: refusal 2 at 15",
       [version(), count_(30), content(isf=1, bed=1), one_bed(LFE_ONLY), HERE, isf_(7), tail(0)],
       refused(2, 15), cut=2)

# ------------------------------------------------------------------------------- dynamic objects

vector("dynamic-1", "content flag dynamic alone", "content_description 0100; num_dynamic_objects_bits 0: 1 object",
       [version(), count_(0), content(dynamic=1), dyn_(0), tail(0)],
       lines("refusal=0 place=0 objects=1 bed=0 isf=0 dynamic=1 blocks=0 unknown=0"))
vector("dynamic-32", "dynamic count extension 0", "31 + 0 + 1 = 32 dynamic objects, 32 objects",
       [version(), count_(31, 0), content(dynamic=1), dyn_(31, 0), tail(0)],
       lines("refusal=0 place=0 objects=32 bed=0 isf=0 dynamic=32 blocks=0 unknown=0"))
vector("dynamic-159", "dynamic count extension 127", "31 + 127 + 1 = 159",
       [version(), count_(31, 127), content(dynamic=1), dyn_(31, 127), tail(0)],
       lines("refusal=0 place=0 objects=159 bed=0 isf=0 dynamic=159 blocks=0 unknown=0"))
# bed 5.1 6 + ISF index 1 8 + dynamic 3 = 17
vector("bed-isf-dynamic", "the three kinds of content together", "6 (5.1 bed) + 8 (ISF 1) + 3 = 17 objects",
       [version(), count_(16), content(bed=1, isf=1, dynamic=1), one_bed(std_bed(0b0000001111)), isf_(1), dyn_(2),
        tail(0)],
       lines("refusal=0 place=0 objects=17 bed=6 isf=8 dynamic=3 blocks=0 unknown=0"))

# ------------------------------------------------------------------------------- reserved content

vector("reserved-leftover", "reserved content with left-over objects",
       "2 dynamic objects sent, 5 in all: 3 are left over and count as dynamic",
       [version(), count_(4), content(reserved=1, dynamic=1), dyn_(1), reserved_content(0, 0xA5), tail(0)],
       lines("refusal=0 place=0 objects=5 bed=0 isf=0 dynamic=5 blocks=0 unknown=0"))
vector("reserved-alone", "reserved content alone, 16 bytes of it, all ones",
       "content_description 1000; size bits 15 are 16 bytes; all 3 objects are left over: dynamic",
       [version(), count_(2), content(reserved=1), reserved_content(15, ones(128)), tail(0)],
       lines("refusal=0 place=0 objects=3 bed=0 isf=0 dynamic=3 blocks=0 unknown=0"))
vector("reserved-bed-leftover", "reserved content beside a bed and ISF, one object left over",
       "1 (LFE) + 4 (ISF 0) = 5 of 6 objects; 1 is left over: dynamic",
       [version(), count_(5), content(reserved=1, isf=1, bed=1), one_bed(LFE_ONLY), isf_(0), reserved_content(1, 0x1234),
        tail(0)],
       lines("refusal=0 place=0 objects=6 bed=1 isf=4 dynamic=1 blocks=0 unknown=0"))
vector("reserved-equal", "reserved content, counts equal", "2 dynamic objects of 2: none left over",
       [version(), count_(1), content(reserved=1, dynamic=1), dyn_(1), reserved_content(0, 0), tail(0)],
       lines("refusal=0 place=0 objects=2 bed=0 isf=0 dynamic=2 blocks=0 unknown=0"))
# 2+5+1+4 = 12, dynamic 5 -> 17, size bits 4 -> 21, one run of 16 bits -> 37.
vector("reserved-exceeds", "reserved content, counts exceed: refusal 4 after the run",
       "3 dynamic objects against 2; 12 + 5 + 4 + 16 = 37 is the bit after the run",
       [version(), count_(1), content(reserved=1, dynamic=1), dyn_(2), reserved_content(1, 0xFFFF), HERE, tail(0)],
       refused(4, 37))
# The same cut inside the run: the run is at 21-36.
vector("reserved-run-cut", "refusal 2 in a reserved run, before refusal 4",
       "12 + 5 + 4 = 21 is the first bit of the run; it ends at 37, 32 bits are there",
       [version(), count_(1), content(reserved=1, dynamic=1), dyn_(2), ("reserved_data_size_bits", 4, 1), HERE,
        ("reserved_data", 16, 0)], refused(2, 21), cut=4)
# content 1000: size bits at 12-15, run of 8 x 16 = 128 bits at 16 with nothing there.
vector("reserved-run-none", "refusal 2 at a reserved run of which no bit is there",
       "the size bits end at 16 = 2 bytes; the run begins there",
       [version(), count_(2), content(reserved=1), ("reserved_data_size_bits", 4, 15), HERE],
       refused(2, 16, ("reserved_data", 8 * (15 + 1))))
# bed LFE only: 15 bits; ISF 3 -> 18; dynamic 5 -> 23; size bits at 23-26 of 24 bits.
vector("reserved-size-cut", "refusal 2 at reserved_data_size_bits",
       "12 + 3 (bed of LFE) + 3 (ISF) + 5 (dynamic) = 23; 24 bits are there",
       [version(), count_(5), content(1, 1, 1, 1), one_bed(LFE_ONLY), isf_(0), dyn_(0), HERE,
        reserved_content(0, 0), tail(0)], refused(2, 23), cut=3)

# ------------------------------------------------------------------------------- counts that disagree

vector("content-none", "content_description 0", "no object of any kind against 1: refusal 4 at 2+5+1+4 = 12",
       [version(), count_(0), content(), HERE, tail(0)], refused(4, 12))
vector("counts-more", "more objects described than counted", "6 bed objects against 5; 12 + 2 + 2 + 10 = 26",
       [version(), count_(4), content(bed=1), one_bed(std_bed(0b0000001111)), HERE, tail(0)], refused(4, 26))
vector("counts-fewer", "fewer objects described than counted, no reserved content",
       "1 + 4 + 1 = 6 objects against 7; 12 + 3 (bed) + 3 (ISF) + 5 (dynamic) = 23",
       [version(), count_(6), content(bed=1, isf=1, dynamic=1), one_bed(LFE_ONLY), isf_(0), dyn_(0), HERE, tail(0)],
       refused(4, 23))
# Two LFE beds: 12 + 1 + 1 + 3 + 1 + 1 = 19, dynamic 5 -> 24 = 3 bytes.
vector("counts-at-end", "refusal 4 where the alternate flag is not there",
       "2 + 1 = 3 objects against 4; the assignment ends at 12 + 5 + 2 + 5 = 24 = the payload's end",
       [version(), count_(3), content(bed=1, dynamic=1), many_beds([LFE_ONLY] * 2), dyn_(0), HERE], refused(4, 24))
vector("alternate-flag-cut", "the same with counts that agree: refusal 2 at the alternate flag",
       "2 + 1 = 3 objects of 3; the flag would be at 24 = the payload's end",
       [version(), count_(2), content(bed=1, dynamic=1), many_beds([LFE_ONLY] * 2), dyn_(0), HERE],
       refused(2, 24, "b_alternate_object_data_present"))

# ------------------------------------------------------------------------------- cut inside the header

vector("cut-content", "refusal 2 at content_description", "2+5+1 = 8 = the payload's end",
       [version(), count_(0), ("b_dyn_object_only_program", 1, 0), HERE],
       refused(2, 8, "content_description[]"))
# 12 + 1 + 1 = 14: num_bed_instances_bits at 14-16 of 16.
vector("cut-bed-instances", "refusal 2 at num_bed_instances_bits", "12 + 2 = 14; 16 bits are there",
       [version(), count_(1), content(bed=1), ("b_bed_chan_distribute", 1, 0),
        ("b_multiple_bed_instances_present", 1, 1), HERE, ("num_bed_instances_bits", 3, 0)], refused(2, 14), cut=2)
vector("cut-standard-bed", "refusal 2 at bed_channel_assignment", "12 + 2 + 2 = 16; 24 bits are there, 26 needed",
       [version(), count_(5), content(bed=1), ("b_bed_chan_distribute", 1, 0),
        ("b_multiple_bed_instances_present", 1, 0), ("b_lfe_only", 1, 0), ("b_standard_chan_assign", 1, 1), HERE,
        ("bed_channel_assignment[]", 10, 15)], refused(2, 16), cut=3)
# Second of two beds: 12 + 5 = 17; bed 0 LFE only -> 18; bed 1: flags at 18, 19; array at 20-36 of 32.
vector("cut-nonstandard-bed", "refusal 2 at the nonstd_bed_channel_assignment of a second bed",
       "12 + 5 + 1 + 2 = 20; 32 bits are there, 37 needed",
       [version(), count_(5), content(bed=1), ("b_bed_chan_distribute", 1, 0),
        ("b_multiple_bed_instances_present", 1, 1), ("num_bed_instances_bits", 3, 0), LFE_ONLY, ("b_lfe_only", 1, 0),
        ("b_standard_chan_assign", 1, 0), HERE, ("nonstd_bed_channel_assignment[]", 17, 31)], refused(2, 20), cut=4)
vector("cut-dynamic", "refusal 2 at num_dynamic_objects_bits", "2+5+1+4 = 12; 16 bits are there, 17 needed",
       [version(), count_(0), content(dynamic=1), HERE, dyn_(0)], refused(2, 12), cut=2)
# 12 + 5 = 17: extension at 17-23 of ... 24 would fit; with ISF before it: 12 + 3 + 5 = 20-26 of 24.
vector("cut-dynamic-ext", "refusal 2 at num_dynamic_objects_bits_ext", "12 + 3 (ISF) + 5 = 20; 24 bits, 27 needed",
       [version(), count_(30), content(isf=1, dynamic=1), isf_(0), ("num_dynamic_objects_bits", 5, 31), HERE,
        ("num_dynamic_objects_bits_ext", 7, 0)], refused(2, 20), cut=3)
# content ISF: 12 + 3 + alternate flag 1 = 16: element count at 16.
vector("cut-element-count", "refusal 2 at oa_element_count_bits", "12 + 3 + 1 = 16 = the payload's end",
       [version(), count_(3), content(isf=1), isf_(0), ("b_alternate_object_data_present", 1, 1), HERE],
       refused(2, 16, "oa_element_count_bits"))
# dynamic only: count at 10-13, extension at 14-18 of 16.
vector("cut-element-count-ext", "refusal 2 at oa_element_count_bits_ext", "2+5+1+1+1+4 = 14; 16 bits are there",
       [version(), count_(0), dyn_only(), ("b_alternate_object_data_present", 1, 0), ("oa_element_count_bits", 4, 15),
        HERE, ("oa_element_count_bits_ext", 5, 0)], refused(2, 14), cut=2)
vector("no-element-padding", "no element, alternate flag set, padding of ones and 9 bytes more of it",
       "bits from 14 on are padding",
       [version(), count_(0), dyn_only(), tail(0, alt=1)],
       lines("refusal=0 place=0 objects=1 bed=0 isf=0 dynamic=1 blocks=0 unknown=0"), pad=1, extra=b"\xff\x00\xaa" * 3)
