"""Group 8: alternate ids of the extended and of the trim element, which are read and ignored (5.6.4.4, Table 27; docs/DECISIONS.md, point 16).

Header of dynamic objects only (14 bits) with the alternate flag set: id 14-17, size 18-22, alternate id 23-26, discard flag 27, fields
from 28 on.  Elements with their ids and sizes: OBJ 4 + 5 + 24 = 33 bits (21 used), EXT 4 + 5 + 8 = 17 (7 used), TRIM 4 + 5 + 16 = 25
(12 used), an unknown one of one byte 17.  The object element of a plain active block: 4 + 1 + 14 + 31 = 50 bits, 7 bytes, 65 with id and
size: 79 is behind it.  There the extended element: id 79-82, size 83-87, alternate id 88-91, discard flag 92, b_obj_div_block 93,
b_object_divergence 94, object_div_mode 95-96.
"""
from helpers import *
from vectors_elements import EXT, OBJ
from vectors_extended import ACTIVE, P
from vectors_trim import NO_FLAGS, OBJECT, ONE, THREE, TRIM

MODE_3 = [("b_object_divergence", 1, 1), HERE, ("object_div_mode", 2, 3)]


def both(extended_body, alt, **k):
    """One dynamic object with a plain active block, and an extended element with an alternate id."""
    return [dyn_header(1, 2, alt=1), element(1, [plain_timing(1), ACTIVE], alt=0), element(5, extended_body, alt=alt, **k)]


# ------------------------------------------------------------------------------- the extended element

vector("alternate-divergence", "a divergence block behind alternate id 9", "ignored: bytes 17 to 19 are 1, 2, 40; no unknown element",
       both([DIV_BLOCK, div_code(40), NO_PREC_BLOCK], 9),
       lines(OBJECT % 0, "block=0,0,0", R(0, 0, 1, 2, **P, div=1, mode=2, dval=40)))
vector("alternate-precise", "both blocks behind alternate id 15, two objects; discard flag, size of two groups, padding of ones",
       "objects outermost in each block: divergence 1, 1, 0 for object 1; presence 4 + 1 and codes x 1, z 2 for object 0",
       [dyn_header(2, 2, alt=1), element(1, [plain_timing(1), ACTIVE, ACTIVE], alt=0),
        element(5, [DIV_BLOCK, NO_DIV, DIV_REUSE, PREC_BLOCK, prec(x=1, z=2), NO_PREC], alt=15, discard=1, bytes_=17, pad=1)],
       lines("refusal=0 place=0 objects=2 bed=0 isf=0 dynamic=2 blocks=1 unknown=0 block=0,0,0",
             R(0, 0, 1, 2, **P, pres=5, ex=1, ez=2), R(1, 0, 1, 2, **P, div=1, mode=1)))
vector("alternate-divergence-mode-3", "reserved divergence mode 3 behind alternate id 9", "79 + 9 + 4 + 1 + 1 + 1 = 95",
       both([DIV_BLOCK, MODE_3], 9), refused(5, 95))
vector("alternate-divergence-passes", "the same in an element of 1 byte: 8 before 5", "95 and 96; the element ends at 96",
       both([DIV_BLOCK, MODE_3], 9, bytes_=1), refused(8, 95))
vector("alternate-second-extended", "refusal 6: a second extended element of another alternate id, 1 and 2", "14 + 33 + 17 = 64",
       [dyn_header(1, 3, alt=1), element(1, OBJ, alt=0), element(5, EXT, alt=1), HERE, element(5, EXT, alt=2)], refused(6, 64))
vector("alternate-second-extended-0", "refusal 6: alternate ids 0 and 15, an id-1 element of alternate id 15 between",
       "14 + 33 + 17 + 17 = 81; size of two groups",
       [dyn_header(1, 4, alt=1), element(1, OBJ, alt=0), element(5, EXT, alt=0), unknown(1, 1, alt=15), HERE,
        element(5, EXT, alt=15, bytes_=20)], refused(6, 81))
vector("alternate-extended-first", "refusal 7: an extended element of alternate id 4 before the object element", "its id is at 14",
       [dyn_header(1, 2, alt=1), HERE, element(5, EXT, alt=4), element(1, OBJ, alt=0)], refused(7, 14))
vector("alternate-extended-after-alternate-object", "refusal 7: alternate id 3, behind an id-1 element of alternate id 3 alone",
       "that one is unknown: 14 + 17 = 31; size of two groups",
       [dyn_header(1, 3, alt=1), unknown(1, 1, alt=3, fill=1), HERE, element(5, EXT, alt=3, bytes_=18), element(1, OBJ, alt=0)],
       refused(7, 31))

# ------------------------------------------------------------------------------- the trim element

vector("alternate-trim", "a trim element of alternate id 5, discard flag set", "ignored: 4 + 1 + 6 + 4 = 15 bits",
       [dyn_header(3, 1, alt=1), element(2, [modes(1, 1), object_trims([0, 1, 1])], alt=5, discard=1, pad=1)],
       lines(THREE), trim=T(3, 1, 1, flags=[0, 1, 1]))
vector("alternate-trim-custom", "configurations behind alternate id 15", "4 + 1 + 6 + 8 + 7 + 4 + 5 + 1 = 36 bits; presence 16 + 1",
       [dyn_header(1, 1, alt=1), element(2, [modes(0, 2), [DEFAULT_TRIM] * 8, config(centre=3, lis=(1, 2)), NO_FLAGS], alt=15)],
       lines(ONE), trim=T(1, 0, 2, [C(default=1)] * 8 + [C(pres=17, centre=3, lis=(1, 2))]))
vector("alternate-trim-passes", "refusal 8 at the reserved bits behind alternate id 11", "30 and 31; the element of 1 byte ends at 31",
       [dyn_header(1, 1, alt=1), element(2, [("warp_mode", 2, 1), HERE, ("reserved of trim", 2, 0), ("global_trim_mode", 2, 0),
                                             NO_FLAGS], alt=11, bytes_=1)], refused(8, 30))
vector("alternate-second-trim", "refusal 6: a second trim element of another alternate id, 1 and 2", "14 + 25 = 39",
       [dyn_header(1, 2, alt=1), element(2, TRIM, alt=1), HERE, element(2, TRIM, alt=2)], refused(6, 39))
vector("alternate-second-trim-0", "refusal 6: alternate ids 0 and 15, an id-1 element of alternate id 15 between",
       "14 + 25 + 17 = 56; its warp mode 3 is not reached",
       [dyn_header(1, 3, alt=1), element(2, TRIM, alt=0), unknown(1, 1, alt=15), HERE, element(2, [modes(3, 0), NO_FLAGS], alt=15)],
       refused(6, 56))

# ------------------------------------------------------------------------------- the object element beside them

# The last id-1 element has the fields of an object element.
vector("alternate-object-unknown", "id-1 elements of alternate ids 8, 15 and 1 before, between and after known ones of alternate ids 12, 0 and 2",
       "unknown are these three and the one of id 3; they count neither for 6 nor for 7",
       [dyn_header(1, 7, alt=1), unknown(1, 1, alt=8, fill=1), element(2, [modes(0, 1), NO_FLAGS], alt=12),
        element(1, [plain_timing(1), ACTIVE], alt=0), unknown(1, 17, alt=15, fill=1),
        element(5, [DIV_BLOCK, div_table(3), NO_PREC_BLOCK], alt=2), unknown(3, 1, alt=2, fill=1), element(1, OBJ, alt=1)],
       lines(OBJECT % 4, "block=0,0,0", R(0, 0, 1, 2, **P, div=1, mode=0, dval=3)), trim=T(1, 0, 1))
