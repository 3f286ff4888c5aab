"""Group 7: the trim element (5.5.12, 5.6.5; docs/DECISIONS.md, "The trim element").

Header of dynamic objects only (14 bits): id 14-17, size 18-22, discard flag 23, warp_mode 24-25, reserved 26-27, global_trim_mode
28-29; then b_disable_trim_per_obj 30 and the objects' flags from 31 on, or in mode 2 the first configuration: b_default_trim 30,
b_disable_trim 31, trim_balance_presence[] 32-36 and its values from 37 on.  An element of n bytes ends at 23 + 8 n.
The trim table: byte 0 is 1, byte 1 warp_mode, byte 2 global_trim_mode; nine configurations of ten bytes from byte 3 on; byte 93
b_disable_trim_per_obj, then the objects' flags.
"""
from helpers import *
from vectors_elements import BED_HEADER, EXT, OBJ, OBJ_LINES
from vectors_extended import ACTIVE, P

ONE = "refusal=0 place=0 objects=1 bed=0 isf=0 dynamic=1 blocks=0 unknown=0"
THREE = "refusal=0 place=0 objects=3 bed=0 isf=0 dynamic=3 blocks=0 unknown=0"
NO_FLAGS = object_trims(None)
# The smallest trim element: discard 1 + warp 2 + reserved 2 + mode 2 + flag 1 = 8 bits; with id 4 and size 5 it takes 17 bits.
TRIM = [modes(0, 0), NO_FLAGS]


def trim_alone(n, body, **k):
    """n dynamic objects and a trim element."""
    return [dyn_header(n, 1), element(2, body, **k)]


def custom(configs, flags=NO_FLAGS, warp=0):
    return [modes(warp, 2), configs, flags]


# ------------------------------------------------------------------------------- modes

vector("trim-default", "a trim element alone: warp mode 0, global mode 0, nothing more", "1 + 2 + 2 + 2 + 1 = 8 bits; bytes 1 to 94 are 0",
       trim_alone(1, TRIM), lines(ONE), trim=T(1, 0, 0))
vector("trim-disable", "warp mode 1, global mode 1; reserved bits and discard flag set", "both are passed over, and written as 0",
       trim_alone(1, [modes(1, 1, reserved=3), NO_FLAGS], discard=1), lines(ONE), trim=T(1, 1, 1))
vector("trim-reserved-1", "warp mode 0, global mode 1, reserved bits 01", "bytes 1 and 2 are 0 and 1",
       trim_alone(1, [modes(0, 1, reserved=1), NO_FLAGS]), lines(ONE), trim=T(1, 0, 1))
vector("trim-reserved-2", "warp mode 1, global mode 0, reserved bits 10", "bytes 1 and 2 are 1 and 0",
       trim_alone(1, [modes(1, 0, reserved=2), NO_FLAGS]), lines(ONE), trim=T(1, 1, 0))

# ------------------------------------------------------------------------------- configurations

vector("trim-custom-default", "global mode 2, nine default configurations", "1 + 6 + 9 + 1 = 17 bits; the first byte of each is 1",
       trim_alone(1, custom([DEFAULT_TRIM] * 9)), lines(ONE), trim=T(1, 0, 2, [C(default=1)] * 9))
vector("trim-custom-disable", "global mode 2, nine disabled configurations", "1 + 6 + 18 + 1 = 26 bits; the second byte of each is 1",
       trim_alone(1, custom([DISABLE_TRIM] * 9, warp=1)), lines(ONE), trim=T(1, 1, 2, [C(disable=1)] * 9))
vector("trim-custom-nothing", "nine configurations that carry nothing", "1 + 6 + 9 x 7 + 1 = 71 bits; their bytes are all 0",
       trim_alone(1, custom([config()] * 9)), lines(ONE), trim=T(1, 0, 2, [C()] * 9))
vector("trim-each", "default, disabled, nothing, each value alone, all of them; flags of three objects",
       "presence sent lis, tb, height, surround, centre: as a number 16, 8, 4, 2, 1; values follow centre, surround, height, tb, lis",
       trim_alone(3, custom([DEFAULT_TRIM, DISABLE_TRIM, config(), config(centre=14), config(surround=4), config(height=15),
                             config(tb=(1, 9)), config(lis=(0, 3)),
                             config(centre=0, surround=5, height=6, tb=(0, 15), lis=(1, 0))], object_trims([1, 0, 1]), warp=1)),
       lines(THREE),
       trim=T(3, 1, 2, [C(default=1), C(disable=1), C(), C(pres=1, centre=14), C(pres=2, surround=4), C(pres=4, height=15),
                        C(pres=8, tb=(1, 9)), C(pres=16, lis=(0, 3)),
                        C(pres=31, centre=0, surround=5, height=6, tb=(0, 15), lis=(1, 0))], [1, 0, 1]))
vector("trim-centre-0-to-8", "trim_centre 0 to 8", "Table 35 marks no value reserved; the codes as sent",
       trim_alone(1, custom([config(centre=c) for c in range(9)])), lines(ONE),
       trim=T(1, 0, 2, [C(pres=1, centre=c) for c in range(9)]))
vector("trim-centre-9-to-15", "trim_centre 9 to 15, then a disabled and a default configuration", "the codes as sent",
       trim_alone(1, custom([config(centre=c) for c in range(9, 16)] + [DISABLE_TRIM, DEFAULT_TRIM])), lines(ONE),
       trim=T(1, 0, 2, [C(pres=1, centre=c) for c in range(9, 16)] + [C(disable=1), C(default=1)]))
vector("trim-surround-height", "trim_surround 4 to 12 with trim_height 15 down to 7", "Tables 36, 37: 4 to 15 are not reserved; presence 4 + 2",
       trim_alone(1, custom([config(surround=4 + i, height=15 - i) for i in range(9)])), lines(ONE),
       trim=T(1, 0, 2, [C(pres=6, surround=4 + i, height=15 - i) for i in range(9)]))
vector("trim-surround-height-rest", "trim_surround 13 to 15, trim_height 4 to 6, each alone", "the codes as sent; presence 2, then 4",
       trim_alone(1, custom([config(surround=13), config(surround=14), config(surround=15), config(height=4), config(height=5),
                             config(height=6), DEFAULT_TRIM, DEFAULT_TRIM, DEFAULT_TRIM])), lines(ONE),
       trim=T(1, 0, 2, [C(pres=2, surround=13), C(pres=2, surround=14), C(pres=2, surround=15), C(pres=4, height=4),
                        C(pres=4, height=5), C(pres=4, height=6), C(default=1), C(default=1), C(default=1)]))
SIGNS_AMOUNTS = [(0, 0), (1, 0), (0, 15), (1, 15), (0, 1), (1, 2), (0, 4), (1, 8), (1, 7)]
vector("trim-tb", "sign and amount of the top and bottom planes", "bytes 6 and 7 of a configuration; presence 8",
       trim_alone(1, custom([config(tb=b) for b in SIGNS_AMOUNTS])), lines(ONE),
       trim=T(1, 0, 2, [C(pres=8, tb=b) for b in SIGNS_AMOUNTS]))
vector("trim-lis", "sign and amount of the listener plane", "bytes 8 and 9 of a configuration; presence 16",
       trim_alone(1, custom([config(lis=b) for b in SIGNS_AMOUNTS])), lines(ONE),
       trim=T(1, 0, 2, [C(pres=16, lis=b) for b in SIGNS_AMOUNTS]))

# Rule of the next four: presence p carries centre p mod 16, surround 4 + p mod 12, height 15 - p mod 12, tb with sign p mod 2 and
# amount p mod 16, lis with sign 1 - p mod 2 and amount 15 - p mod 16, each if its bit is set.


def by_presence(p):
    values = dict(centre=p % 16, surround=4 + p % 12, height=15 - p % 12, tb=(p % 2, p % 16), lis=(1 - p % 2, 15 - p % 16))
    return {name: v for bit, (name, v) in enumerate(values.items()) if p >> bit & 1}


for first in (0, 9, 18, 27):
    here = range(first, min(first + 9, 32))
    rest = 9 - len(here)
    vector("trim-presence-%d-to-%d" % (here[0], here[-1]), "trim_balance_presence[] %d to %d" % (here[0], here[-1]),
           "values by the rule stated in vectors_trim.py" + ("; four default configurations behind" if rest else ""),
           trim_alone(1, custom([config(**by_presence(p)) for p in here] + [DEFAULT_TRIM] * rest)), lines(ONE),
           trim=T(1, 0, 2, [C(pres=p, **by_presence(p)) for p in here] + [C(default=1)] * rest))

# ------------------------------------------------------------------------------- objects' flags

vector("trim-objects", "b_disable_trim of five objects", "byte 93 is 1, bytes 94 to 98 the flags",
       trim_alone(5, [modes(0, 0), object_trims([1, 0, 0, 1, 1])]),
       lines("refusal=0 place=0 objects=5 bed=0 isf=0 dynamic=5 blocks=0 unknown=0"), trim=T(5, 0, 0, flags=[1, 0, 0, 1, 1]))
vector("trim-objects-all-0", "b_disable_trim_per_obj set, every flag clear", "byte 93 is 1 and stays so in the form",
       trim_alone(3, [modes(0, 1), object_trims([0, 0, 0])]), lines(THREE), trim=T(3, 0, 1, flags=[0, 0, 0]))
# LFE, ISF 0 (4 objects), 2 dynamic: 7 objects.
vector("trim-classes", "flags of bed, ISF and dynamic objects", "1 + 4 + 2 objects; the flags in their order",
       [version(), count_(6), content(bed=1, isf=1, dynamic=1), one_bed(LFE_ONLY), isf_(0), dyn_(1), tail(1),
        element(2, [modes(1, 0), object_trims([1, 0, 1, 1, 0, 0, 1])])],
       lines("refusal=0 place=0 objects=7 bed=1 isf=4 dynamic=2 blocks=0 unknown=0"), trim=T(7, 1, 0, flags=[1, 0, 1, 1, 0, 0, 1]))
# 1 + 6 + 9 x 29 + 1 + 159 = 428 bits: 54 bytes, size 53 = 16 + 37: groups 2, 5.
FULL = dict(centre=15, surround=15, height=15, tb=(1, 15), lis=(1, 15))
vector("trim-159", "159 objects, every field of the trim element sent, all ones but the modes", "1 + 6 + 9 x 29 + 160 = 428 bits, 54 bytes",
       [version(), count_(31, 127), dyn_only(), tail(1), element(2, custom([config(**FULL)] * 9, object_trims([1] * 159), warp=1))],
       lines("refusal=0 place=0 objects=159 bed=0 isf=0 dynamic=159 blocks=0 unknown=0"),
       trim=T(159, 1, 2, [C(pres=31, **FULL)] * 9, [1] * 159))

# ------------------------------------------------------------------------------- where it stands

OBJECT = "refusal=0 place=0 objects=1 bed=0 isf=0 dynamic=1 blocks=1 unknown=%d"
vector("trim-first", "a trim element before the object element, an unknown one behind it", "it may stand anywhere; the form has it last",
       [dyn_header(1, 4), element(2, [modes(1, 0), object_trims([1])]), unknown(3, fill=1), element(1, OBJ), element(5, EXT)],
       lines(OBJECT % 1, OBJ_LINES), trim=T(1, 1, 0, flags=[1]))
# The object element's record: P, and divergence mode 1: bytes 17, 18 are 1.
vector("trim-between", "a trim element between the object and the extended element", "the form has object, extended, trim",
       [dyn_header(1, 3), element(1, [plain_timing(1), ACTIVE]), element(2, [modes(0, 1), object_trims([1])]),
        element(5, [DIV_BLOCK, DIV_REUSE, NO_PREC_BLOCK])],
       lines(OBJECT % 0, "block=0,0,0", R(0, 0, 1, 2, **P, div=1, mode=1)), trim=T(1, 0, 1, flags=[1]))
vector("trim-last", "a trim element behind all, unknown ones around it", "2 unknown",
       [dyn_header(1, 5), element(1, OBJ), element(5, EXT), unknown(0, 2, fill=1), element(2, TRIM), unknown(15, fill=1)],
       lines(OBJECT % 2, OBJ_LINES), trim=T(1, 0, 0))
vector("trim-padding", "padding of ones in a trim element of 17 bytes, the payload's padding of ones",
       "padding of every value; the size 16 takes two groups",
       trim_alone(1, [modes(1, 1), object_trims([0])], bytes_=17, pad=1, discard=1), lines(ONE), pad=1, extra=b"\xff",
       trim=T(1, 1, 1, flags=[0]))
vector("trim-end-of-both", "the fields end at the element's end which is the payload's end", "31 + 4 + 5 + 8 = 48 bits; six bed objects",
       [BED_HEADER, element(2, TRIM)], lines("refusal=0 place=0 objects=6 bed=6 isf=0 dynamic=0 blocks=0 unknown=0"), trim=T(6, 0, 0))
vector("trim-alternate-0", "alternate flag with alternate id 0: known", "4 + 1 + 6 + 1 = 12 bits",
       [dyn_header(1, 1, alt=1), element(2, [modes(1, 1), NO_FLAGS], alt=0)], lines(ONE), trim=T(1, 1, 1))
vector("trim-alternate-1", "id 2 with alternate id 1 alone, reserved warp mode 3, padding of ones",
       "known whatever its alternate id: refusal 5 at 14 + 4 + 5 + 4 + 1 = 28",
       [dyn_header(1, 1, alt=1), element(2, [HERE, ("warp_mode", 2, 3)], alt=1, pad=1)], refused(5, 28))
vector("trim-alternate-mixed", "id 2 with alternate ids 1, 0 and 15, the first with warp mode 3", "refused at the first, before refusal 6: 28",
       [dyn_header(1, 3, alt=1), element(2, [HERE, modes(3, 3, reserved=3), ("b_disable_trim_per_obj", 1, 1)], alt=1, bytes_=2, pad=1),
        element(2, [modes(0, 1), NO_FLAGS], alt=0), element(2, [], alt=15)], refused(5, 28))
vector("trim-reserved-content", "a trim element in a programme with reserved content", "3 objects, 2 of them left over; no form",
       [version(), count_(2), content(reserved=1, dynamic=1), dyn_(0), reserved_content(0, 255), tail(1),
        element(2, [modes(0, 0), object_trims([0, 1, 1])])], lines(THREE), trim=T(3, 0, 0, flags=[0, 1, 1]))

# ------------------------------------------------------------------------------- refusal 5

vector("trim-warp-2", "reserved warp mode 2", "Table 32; 14 + 4 + 5 + 1 = 24",
       trim_alone(1, [HERE, modes(2, 0), NO_FLAGS]), refused(5, 24))
vector("trim-warp-3", "reserved warp mode 3 before a reserved global mode", "refused when the warp mode is read",
       trim_alone(1, [HERE, modes(3, 3), NO_FLAGS]), refused(5, 24))
vector("trim-warp-2-alternate", "reserved warp mode behind an alternate id", "14 + 4 + 5 + 4 + 1 = 28",
       [dyn_header(1, 1, alt=1), element(2, [HERE, modes(2, 0), NO_FLAGS], alt=0)], refused(5, 28))
vector("trim-mode-3", "reserved global mode 3", "Table 33; 24 + 2 + 2 = 28",
       trim_alone(1, [("warp_mode", 2, 1), ("reserved of trim", 2, 3), HERE, ("global_trim_mode", 2, 3), NO_FLAGS]), refused(5, 28))
for v in range(4):
    vector("trim-surround-%d" % v, "reserved trim_surround %d" % v, "Table 36; 30 + 1 + 1 + 5 = 37",
           trim_alone(1, custom([given_trim(2), HERE, ("trim_surround", 4, v), [DEFAULT_TRIM] * 8])), refused(5, 37))
    vector("trim-height-%d" % v, "reserved trim_height %d" % v, "Table 37; 30 + 1 + 1 + 5 = 37",
           trim_alone(1, custom([given_trim(4), HERE, ("trim_height", 4, v), [DEFAULT_TRIM] * 8])), refused(5, 37))
vector("trim-height-behind-surround", "reserved trim_height behind a trim_surround", "37 + 4 = 41",
       trim_alone(1, custom([given_trim(6), ("trim_surround", 4, 4), HERE, ("trim_height", 4, 3), [DEFAULT_TRIM] * 8])), refused(5, 41))
vector("trim-surround-last", "reserved trim_surround in the last configuration", "30 + 8 + 7 + 4 (centre) = 49",
       trim_alone(1, custom([[DEFAULT_TRIM] * 8, given_trim(3), ("trim_centre", 4, 0), HERE, ("trim_surround", 4, 2)])), refused(5, 49))

# ------------------------------------------------------------------------------- refusals 2, 6 and 7

vector("second-trim", "refusal 6: a second trim element", "14 + (4 + 5 + 8) = 31",
       [dyn_header(1, 2), element(2, TRIM), HERE, element(2, TRIM)], refused(6, 31))
vector("second-trim-bad-body", "refusal 6 comes before the fields of the second element, an object element between",
       "14 + 17 + 33 = 64; its warp mode 3 is not reached",
       [dyn_header(1, 3), element(2, TRIM), element(1, OBJ), HERE, element(2, [modes(3, 0), NO_FLAGS])], refused(6, 64))
# With alternate ids the element has 12 bits, so 2 bytes: 4 + 5 + 16 = 25.
vector("second-trim-alternate", "refusal 6: alternate flag, size of two groups", "14 + 25 = 39",
       [dyn_header(1, 2, alt=1), element(2, TRIM, alt=0), HERE, element(2, TRIM, alt=0, bytes_=17)], refused(6, 39))
vector("second-trim-no-fit", "a second trim element whose size does not fit: 2 before 6", "31 + 4 = 35; the element takes bits 40-47 of 40",
       [dyn_header(1, 2), element(2, TRIM), ("oa_element_id_idx", 4, 2), HERE, groups((0, 0)), ("padding", 8, 0)],
       refused(2, 35), cut=5)
vector("trim-no-fit", "a trim element whose size does not fit: 2 before 5", "14 + 4 = 18: 2 bytes from bit 23 pass 32; warp mode 3",
       [dyn_header(1, 1), ("oa_element_id_idx", 4, 2), HERE, groups((1, 0)), ("b_discard_unknown_element", 1, 0), modes(3, 0)],
       refused(2, 18))
vector("trim-then-extended", "refusal 7: a trim element is no object element", "14 + 17 = 31",
       [dyn_header(1, 3), element(2, TRIM), HERE, element(5, EXT), element(1, OBJ)], refused(7, 31))

# ------------------------------------------------------------------------------- refusal 8

# With an alternate id: 23-26, discard 27, warp 28-29, reserved 30-31; one byte ends at 31.
vector("trim-reserved-passes", "refusal 8 at the reserved bits, alternate flag", "30 and 31; the element of 1 byte ends at 31",
       [dyn_header(1, 1, alt=1), element(2, [("warp_mode", 2, 1), HERE, ("reserved of trim", 2, 0), ("global_trim_mode", 2, 0),
                                             NO_FLAGS], alt=0, bytes_=1)], refused(8, 30))
vector("trim-default-passes", "refusal 8 at b_default_trim of the second configuration", "30 + 1 = 31; the element of 1 byte ends there",
       trim_alone(1, custom([DEFAULT_TRIM, HERE, [DEFAULT_TRIM] * 8]), bytes_=1), refused(8, 31))
vector("trim-disable-passes", "refusal 8 at b_disable_trim of the first configuration", "30 + 1 = 31; the element of 1 byte ends there",
       trim_alone(1, custom([("b_default_trim", 1, 0), HERE, ("b_disable_trim", 1, 1), [DEFAULT_TRIM] * 8]), bytes_=1), refused(8, 31))
vector("trim-presence-passes", "refusal 8 at trim_balance_presence[]", "30 + 4 + 2 = 36, 5 bits; the element of 2 bytes ends at 39",
       trim_alone(1, custom([[DEFAULT_TRIM] * 4, ("b_default_trim", 1, 0), ("b_disable_trim", 1, 0), HERE,
                             ("trim_balance_presence[]", 5, 0), [DEFAULT_TRIM] * 4]), bytes_=2), refused(8, 36))
vector("trim-centre-passes", "refusal 8 at trim_centre", "37, 4 bits; the element of 2 bytes ends at 39",
       trim_alone(1, custom([given_trim(1), HERE, ("trim_centre", 4, 0), [DEFAULT_TRIM] * 8]), bytes_=2), refused(8, 37))
vector("trim-surround-passes", "a reserved trim_surround that passes the element's end: 8 before 5", "37, 4 bits; the element ends at 39",
       trim_alone(1, custom([given_trim(2), HERE, ("trim_surround", 4, 0), [DEFAULT_TRIM] * 8]), bytes_=2), refused(8, 37))
vector("trim-height-passes", "a reserved trim_height that passes the element's end: 8 before 5", "37, 4 bits; the element ends at 39",
       trim_alone(1, custom([given_trim(4), HERE, ("trim_height", 4, 3), [DEFAULT_TRIM] * 8]), bytes_=2), refused(8, 37))
for bit, plane in ((8, "tb"), (16, "lis")):
    sign, amount = balance(plane, 1, 15)
    vector("trim-%s-sign-passes" % plane, "refusal 8 at bal3D_Y_sign_%s_code" % plane, "30 + 2 + 7 = 39; the element of 2 bytes ends there",
           trim_alone(1, custom([[DEFAULT_TRIM] * 2, given_trim(bit), HERE, sign, amount, [DEFAULT_TRIM] * 6]), bytes_=2), refused(8, 39))
    vector("trim-%s-amount-passes" % plane, "refusal 8 at bal3D_Y_amount_%s" % plane, "30 + 7 + 1 = 38, 4 bits; the element ends at 39",
           trim_alone(1, custom([given_trim(bit), sign, HERE, amount, [DEFAULT_TRIM] * 8]), bytes_=2), refused(8, 38))
vector("trim-per-object-passes", "refusal 8 at b_disable_trim_per_obj", "30 + 9 = 39; the element of 2 bytes ends there",
       trim_alone(1, custom([[DEFAULT_TRIM] * 9, HERE]), bytes_=2), refused(8, 39))
vector("trim-object-passes", "refusal 8 at the flag of the first object", "30 + 1 = 31; the element of 1 byte ends there",
       trim_alone(1, [modes(0, 0), ("b_disable_trim_per_obj", 1, 1), HERE, ("b_disable_trim", 1, 0)], bytes_=1), refused(8, 31))
vector("trim-ninth-object-passes", "refusal 8 at the flag of the ninth object", "31 + 8 = 39; the element of 2 bytes ends there",
       trim_alone(9, [modes(0, 0), object_trims([1] * 8), HERE, ("b_disable_trim", 1, 0)], bytes_=2), refused(8, 39))
