"""Group 6: the extended object element (5.5.13 to 5.5.15), and large payloads.

One dynamic object with one plain active block: the object element's fields take 46 bits with the discard flag, 6 bytes,
bits 23-70.  The extended element: id 71-74, size 75-79, discard 80, b_obj_div_block 81, and with it
b_object_divergence 82, object_div_mode 83-84, object_div_table 85-86 or object_div_code 85-90.  One byte ends at 88.
"""
from helpers import *
from vectors_object import PLAIN

ACTIVE = block0(gain(0), PRIO_DEFAULT, PLAIN)          # 31 bits: 1 + 2 + 1 + 17 + 1 + 4 + 2 + 1 + 1 + 1
P = dict(gain=50, prio=32)                              # its bytes that differ from the defaults of Tables 28, 29


def both(n, object_body, extended_body, blocks=1, **k):
    """n dynamic objects, an object element and an extended element."""
    return [dyn_header(n, 2), element(1, [plain_timing(blocks), object_body]), element(5, extended_body, **k)]


# ------------------------------------------------------------------------------- divergence

vector("divergence", "divergence absent, mode 0 with tables 0 to 3, mode 1, mode 2 with codes 1 and 63; no precise block",
       "bytes 17, 18, 19: flag, mode, table or code as sent; mode 1 is kept as (1, 1, 0)",
       both(8, [ACTIVE] * 8, [DIV_BLOCK, NO_DIV, div_table(0), div_table(1), div_table(2), div_table(3), DIV_REUSE,
                              div_code(1), div_code(63), NO_PREC_BLOCK]),
       lines("refusal=0 place=0 objects=8 bed=0 isf=0 dynamic=8 blocks=1 unknown=0 block=0,0,0",
             R(0, 0, 1, 2, **P), R(1, 0, 1, 2, **P, div=1, mode=0, dval=0), R(2, 0, 1, 2, **P, div=1, mode=0, dval=1),
             R(3, 0, 1, 2, **P, div=1, mode=0, dval=2), R(4, 0, 1, 2, **P, div=1, mode=0, dval=3),
             R(5, 0, 1, 2, **P, div=1, mode=1, dval=0), R(6, 0, 1, 2, **P, div=1, mode=2, dval=1),
             R(7, 0, 1, 2, **P, div=1, mode=2, dval=63)))
vector("divergence-mode-3", "reserved divergence mode 3, in an element too short for a code after it",
       "71 + 4 + 5 + 1 + 1 + 1 = 83; refused when the mode is read",
       both(1, ACTIVE, [DIV_BLOCK, ("b_object_divergence", 1, 1), HERE, ("object_div_mode", 2, 3)]), refused(5, 83))
vector("divergence-code-0", "reserved divergence code 0", "83 + 2 = 85",
       both(1, ACTIVE, [DIV_BLOCK, ("b_object_divergence", 1, 1), ("object_div_mode", 2, 2), HERE,
                        ("object_div_code", 6, 0), NO_PREC_BLOCK]), refused(5, 85))
vector("divergence-code-passes", "a reserved divergence code that passes the element's end: 8 before 5",
       "the code is at 85-90, the element of 1 byte ends at 88",
       both(1, ACTIVE, [DIV_BLOCK, ("b_object_divergence", 1, 1), ("object_div_mode", 2, 2), HERE,
                        ("object_div_code", 6, 0), NO_PREC_BLOCK], bytes_=1), refused(8, 85))

# ------------------------------------------------------------------------------- precise positions

# presence sent z, y, x: as a number 4 z + 2 y + x; codes follow x, y, z.
vector("precise", "precise positions with each of the eight presences, and absent; no divergence block",
       "byte 20 is the array as a number (z 4, y 2, x 1), bytes 21-23 the codes of x, y, z; presence 0 reads as all 0",
       both(9, [ACTIVE] * 9, [NO_DIV_BLOCK, PREC_BLOCK, prec(), prec(x=1), prec(y=2), prec(x=1, y=2), prec(z=3),
                              prec(x=2, z=1), prec(y=3, z=0), prec(x=0, y=1, z=2), NO_PREC]),
       lines("refusal=0 place=0 objects=9 bed=0 isf=0 dynamic=9 blocks=1 unknown=0 block=0,0,0",
             R(0, 0, 1, 2, **P), R(1, 0, 1, 2, **P, pres=1, ex=1), R(2, 0, 1, 2, **P, pres=2, ey=2),
             R(3, 0, 1, 2, **P, pres=3, ex=1, ey=2), R(4, 0, 1, 2, **P, pres=4, ez=3),
             R(5, 0, 1, 2, **P, pres=5, ex=2, ez=1), R(6, 0, 1, 2, **P, pres=6, ey=3, ez=0),
             R(7, 0, 1, 2, **P, pres=7, ex=0, ey=1, ez=2), R(8, 0, 1, 2, **P)))
# div 0 at 81, prec flag 82, b_ext_prec_pos 83, presence 84-86, x 87-88; end 88.
vector("precise-code-passes", "refusal 8 at ext_prec_pos3D_X", "81 + 1 + 1 + 1 + 3 = 87, 2 bits; the element ends at 88",
       both(1, ACTIVE, [NO_DIV_BLOCK, PREC_BLOCK, ("b_ext_prec_pos", 1, 1), ("ext_prec_pos_presence[]", 3, 1), HERE,
                        ("ext_prec_pos3D_X", 2, 3)], bytes_=1), refused(8, 87))
# Two objects: 1 + 14 + 62 = 77 bits, 10 bytes, 23-102; id 103-106, size 107-111, discard 112, div 113,
# object 0: 114, 115-116, 117-118; object 1: 119; b_ext_prec_pos_block 120 = the end.
vector("precise-flag-passes", "refusal 8 at b_ext_prec_pos_block, the first bit after the end",
       "23 + 80 = 103, +4+5+1+1 = 114, +5 +1 = 120 = 112 + 8",
       both(2, [ACTIVE] * 2, [DIV_BLOCK, div_table(1), NO_DIV, HERE, NO_PREC_BLOCK], bytes_=1), refused(8, 120))

# ------------------------------------------------------------------------------- both blocks, order, who is read

# Two objects, two blocks.  Divergence in the order (0,0) (0,1) (1,0) (1,1), then precise positions in the same order.
# Object 0: x 62, y 0, z +15 in block 0; block 1 reuse.  The precise codes are not added in.
vector("both-blocks-order", "both blocks of the extended element, two objects of two blocks each",
       "objects outermost in each; mode 1 in block 1 keeps (1, 1, 0); bytes 4-6 do not change by the codes",
       both(2, [block0(gain(0), PRIO_DEFAULT, render(xyz(62, 0, 1, 15))), block(2, [], 2), ACTIVE, block(2, [], 2)],
            [DIV_BLOCK, div_code(40), DIV_REUSE, div_table(2), NO_DIV,
             PREC_BLOCK, prec(x=1, z=1), NO_PREC, prec(y=3), prec(x=2, y=2, z=2)], blocks=2),
       lines("refusal=0 place=0 objects=2 bed=0 isf=0 dynamic=2 blocks=2 unknown=0 block=0,0,0 block=1,32,0",
             R(0, 0, 1, 2, **P, x=62, y=0, z=79, div=1, mode=2, dval=40, pres=5, ex=1, ez=1),
             R(0, 1, 1, 2, **P, x=62, y=0, z=79, div=1, mode=1, dval=0),
             R(1, 0, 1, 2, **P, div=1, mode=0, dval=2, pres=2, ey=3),
             R(1, 1, 1, 2, **P, pres=7, ex=2, ey=2, ez=2)))
# Bed LFE, ISF 0 (4 objects), 3 dynamic; two blocks.  Object 0: active, active.  1: active, inactive.  2, 3, 4: inactive twice.
# 5 dynamic: inactive, then active reuse.  6: active, inactive.  7: inactive twice.
# Read in each block of the extended element: only (5,1) and (6,0).
vector("classes-in-extended", "bed, ISF and inactive records inside an extended element: nothing is read for them",
       "only the active dynamic records (5,1) and (6,0) carry fields, in that order",
       [version(), count_(7), content(bed=1, isf=1, dynamic=1), one_bed(LFE_ONLY), isf_(0), dyn_(2), tail(2),
        element(1, [plain_timing(2), block0(gain(0), PRIO_DEFAULT), block(2, []), block0(gain(0), prio(1)), inactive(),
                    [inactive()] * 6, inactive(), block(2, [], 2), ACTIVE, inactive(), inactive(), inactive()]),
        element(5, [DIV_BLOCK, div_code(2), div_table(3), PREC_BLOCK, prec(z=1), prec(x=3)])],
       lines("refusal=0 place=0 objects=8 bed=1 isf=4 dynamic=3 blocks=2 unknown=0 block=0,0,0 block=1,32,0",
             R(0, 0, 1, 0, gain=50, prio=32), R(0, 1, 1, 0, gain=50, prio=32), R(1, 0, 1, 1, gain=50, prio=1), R(1, 1, 0, 1),
             R(2, 0, 0, 1), R(2, 1, 0, 1), R(3, 0, 0, 1), R(3, 1, 0, 1), R(4, 0, 0, 1), R(4, 1, 0, 1),
             R(5, 0, 0, 2), R(5, 1, 1, 2, div=1, mode=2, dval=2, pres=4, ez=1),
             R(6, 0, 1, 2, **P, div=1, mode=0, dval=3, pres=1, ex=3), R(6, 1, 0, 2), R(7, 0, 0, 2), R(7, 1, 0, 2)))
# No active dynamic object: each block of the extended element is its flag alone.
vector("extended-nobody", "both flags set where no record carries anything", "an LFE object alone, active: 2 bits are read",
       [dyn_header(1, 2, lfe=1), element(1, [plain_timing(1), block0(gain(1), prio(30))]),
        element(5, [DIV_BLOCK, PREC_BLOCK], pad=1)],
       lines("refusal=0 place=0 objects=1 bed=1 isf=0 dynamic=0 blocks=1 unknown=0 block=0,0,0",
             R(0, 0, 1, 0, gain=0, prio=30)))
# Status default in block 1 is active: fields are read for it.  Unknown element between, alternate ids 0, size of two groups.
vector("extended-default-status", "an active block of status default carries extended fields; alternate ids, an element between",
       "activity decides, not the status; block 1 has the defaults of Tables 28 and 29 and its own bytes 17-23",
       [dyn_header(1, 3, alt=1), element(1, [plain_timing(2), ACTIVE, block(0, [], 0)], alt=0), unknown(1, 2, alt=9, fill=1),
        element(5, [DIV_BLOCK, NO_DIV, div_code(33), PREC_BLOCK, NO_PREC, prec(y=0)], alt=0, discard=1, bytes_=17, pad=1)],
       lines("refusal=0 place=0 objects=1 bed=0 isf=0 dynamic=1 blocks=2 unknown=1 block=0,0,0 block=1,32,0",
             R(0, 0, 1, 2, **P), R(0, 1, 1, 2, div=1, mode=2, dval=33, pres=2)))
# Reserved content: object 1 is left over, dynamic: its fields are read.
vector("leftover-extended", "a left-over object of reserved content in the extended element",
       "dynamic in every respect (open point 23)",
       [version(), count_(1), content(reserved=1, dynamic=1), dyn_(0), reserved_content(0, 0), tail(2),
        element(1, [plain_timing(1), ACTIVE, ACTIVE]),
        element(5, [DIV_BLOCK, NO_DIV, div_table(1), NO_PREC_BLOCK])],
       lines("refusal=0 place=0 objects=2 bed=0 isf=0 dynamic=2 blocks=1 unknown=0 block=0,0,0",
             R(0, 0, 1, 2, **P), R(1, 0, 1, 2, **P, div=1, mode=0, dval=1)))

# ------------------------------------------------------------------------------- large

# Bed of 17 (non-standard, all flags), ISF 5 (30 objects), 112 dynamic (31 + 80 + 1): 159 objects, eight blocks.
# Rule: object o is active only if o is a multiple of 10, and then only in block o mod 8, with full status there (block 0: not
# sent; else statuses 1 and, if dynamic, 1).  Gain 0 dB (50), priority o mod 32; dynamic ones also x = o mod 63, y = the block,
# z = +(o mod 16) and snap 1.  All other records are inactive ones of the object's class.


def big_block(o, b):
    if o % 10 or b != o % 8:
        return inactive()
    basic = [gain(0), prio(o % 32)]
    where = xyz(o % 63, b, 1, o % 16)
    if o < 47:
        return block0(*basic) if b == 0 else block(1, basic)
    if b == 0:
        return block0(*basic, render(where, snaps=1))
    return block(1, basic, 1, render([("b_differential_position_specified", 1, 0), where], snaps=1))


def big_line(o, b):
    class_ = 0 if o < 17 else 1 if o < 47 else 2
    if o % 10 or b != o % 8:
        return R(o, b, 0, class_)
    if o < 47:
        return R(o, b, 1, class_, gain=50, prio=o % 32)
    return R(o, b, 1, 2, gain=50, prio=o % 32, x=o % 63, y=b, z=64 + o % 16, snap=1)


vector("159-by-8", "159 objects of all classes with 8 blocks, mostly inactive",
       "17 + 30 + 112 objects; records by the rule stated at the vector in vectors_extended.py",
       [version(), count_(31, 127), content(bed=1, isf=1, dynamic=1), one_bed(nonstd_bed(ones(17))), isf_(5), dyn_(31, 80),
        tail(1), element(1, [plain_timing(8), [big_block(o, b) for o in range(159) for b in range(8)]])],
       lines("refusal=0 place=0 objects=159 bed=17 isf=30 dynamic=112 blocks=8 unknown=0",
             "block=0,0,0 block=1,32,0 block=2,64,0 block=3,96,0 block=4,128,0 block=5,160,0 block=6,192,0 block=7,224,0",
             [big_line(o, b) for o in range(159) for b in range(8)]))

# 159 dynamic objects, eight blocks, all active.  Object 0: gain +15 (65) in block 0, mixed with gain bits 63 (-49: 1) in block 4,
# else reuse.  All others: gain index 3 in block 0 (65) and, mixed, in block 4 (1), else reuse.  Priority default 32.
# x = o mod 63, y = 62 - x, z +0 = 64, block 0 absolute, then reuse.  Size of three groups.
vector("159-by-8-active", "159 dynamic objects with 8 blocks, all active; gain index 3 handed on through all; three size groups",
       "gain 65 in blocks 0-3 and 1 in blocks 4-7 for every object; x = o mod 63, y = 62 - x",
       [version(), count_(31, 127), dyn_only(), tail(1),
        element(1, [plain_timing(8), [[
            block0(gain(2, 0) if o == 0 else gain(3), PRIO_DEFAULT, render(xyz(o % 63, 62 - o % 63, 1, 0))),
            [block(2, [], 2)] * 3, block(3, mixed_basic(gain_=gain(2, 63) if o == 0 else gain(3)), 2),
            [block(2, [], 2)] * 3] for o in range(159)]])],
       lines("refusal=0 place=0 objects=159 bed=0 isf=0 dynamic=159 blocks=8 unknown=0",
             "block=0,0,0 block=1,32,0 block=2,64,0 block=3,96,0 block=4,128,0 block=5,160,0 block=6,192,0 block=7,224,0",
             [R(o, b, 1, 2, gain=65 if b < 4 else 1, prio=32, x=o % 63, y=62 - o % 63) for o in range(159) for b in range(8)]))

# 30 objects, 8 blocks, all inactive with 16 bytes of additional data (1 + 1 + 4 + 128 = 134 bits): 70 + 240 x 134 = 32,230 bits
# and the discard flag; declared as 4,091 bytes = 32,728 bits from bit 33, to 32,761; 7 bits to 4,096 bytes.
vector("4096-bytes-object", "4,096 bytes: an object element that fills the payload, with 240 runs of additional data",
       "all 240 records inactive; padding and runs of ones",
       [dyn_header(30, 1), element(1, [plain_timing(8), [inactive(add_data(15, ones(128)))] * 240], bytes_=4091, pad=1)],
       lines("refusal=0 place=0 objects=30 bed=0 isf=0 dynamic=30 blocks=8 unknown=0",
             "block=0,0,0 block=1,32,0 block=2,64,0 block=3,96,0 block=4,128,0 block=5,160,0 block=6,192,0 block=7,224,0",
             ["record=%d,%d,000200001f1f400000000000010000000000000000000000" % (o, b) for o in range(30) for b in range(8)]),
       pad=1)
