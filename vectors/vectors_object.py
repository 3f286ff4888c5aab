"""Group 4: the values of one block (gain, priority, position, distance, zone, size, screen, snap) and additional data."""
from helpers import *

PLAIN = render(xyz(31, 31, 0, 0))             # x 31, y 31, z -0: the record's bytes 4 to 16 are those of Table 29


def objects(n, body, blocks=1):
    """n dynamic objects (up to 31), one object element, blocks at 0, 32, 64, ... with ramp 0."""
    return [dyn_header(n, 1), element(1, [plain_timing(blocks), body])]


# ------------------------------------------------------------------------------- gain

# 0 dB 50; minus infinity 0; bits 0: +15 -> 65; 14: +1 -> 51; 15: -1 -> 49; 63: -49 -> 1; idx 3: the object before, 1.
vector("gain-each", "gain index 0, 1, 2 with bits 0, 14, 15, 63, then index 3 twice",
       "the requirements: +15, +1, -1, -49 for the bits; byte = dB + 50; index 3 repeats the object before (1)",
       objects(8, [block0(g, PRIO_DEFAULT, PLAIN) for g in (gain(0), gain(1), gain(2, 0), gain(2, 14), gain(2, 15),
                                                          gain(2, 63), gain(3), gain(3))]),
       lines("refusal=0 place=0 objects=8 bed=0 isf=0 dynamic=8 blocks=1 unknown=0 block=0,0,0",
             R(0, 0, 1, 2, gain=50, prio=32), R(1, 0, 1, 2, gain=0, prio=32), R(2, 0, 1, 2, gain=65, prio=32),
             R(3, 0, 1, 2, gain=51, prio=32), R(4, 0, 1, 2, gain=49, prio=32), R(5, 0, 1, 2, gain=1, prio=32),
             R(6, 0, 1, 2, gain=1, prio=32), R(7, 0, 1, 2, gain=1, prio=32)))
# obj 0: first object, 0 dB 50; 1: bits 5 -> +10 -> 60; 2: 60; 3 inactive: 0; 4: 0; 5: minus infinity 0; 6: 0; 7: 0 dB; 8: 50.
vector("gain-3", "gain index 3: first object, over active, over inactive, over minus infinity, over 0 dB",
       "first object 50; else byte 2 of the object before: 60, inactive 0, minus infinity 0, 50",
       objects(9, [block0(gain(3), PRIO_DEFAULT, PLAIN), block0(gain(2, 5), PRIO_DEFAULT, PLAIN),
                   block0(gain(3), PRIO_DEFAULT, PLAIN), inactive(), block0(gain(3), PRIO_DEFAULT, PLAIN),
                   block0(gain(1), PRIO_DEFAULT, PLAIN), block0(gain(3), PRIO_DEFAULT, PLAIN),
                   block0(gain(0), PRIO_DEFAULT, PLAIN), block0(gain(3), PRIO_DEFAULT, PLAIN)]),
       lines("refusal=0 place=0 objects=9 bed=0 isf=0 dynamic=9 blocks=1 unknown=0 block=0,0,0",
             R(0, 0, 1, 2, gain=50, prio=32), R(1, 0, 1, 2, gain=60, prio=32), R(2, 0, 1, 2, gain=60, prio=32),
             R(3, 0, 0, 2), R(4, 0, 1, 2, gain=0, prio=32), R(5, 0, 1, 2, gain=0, prio=32),
             R(6, 0, 1, 2, gain=0, prio=32), R(7, 0, 1, 2, gain=50, prio=32), R(8, 0, 1, 2, gain=50, prio=32)))
# Object 0: block 0 +15 (65), block 1 -1 (49, mixed, gain only).  Object 1: block 0 minus infinity (0), block 1 index 3:
# 49, not 0 (block before) and not 65.  Render: reuse of PLAIN.
vector("gain-3-block-1", "gain index 3 in block 1, where block 0 differs (misreading 1)",
       "object 0 has 49 in block 1, so object 1 has 49 there; its own block 0 is 0",
       objects(2, [block0(gain(2, 0), PRIO_DEFAULT, PLAIN), block(3, mixed_basic(gain_=gain(2, 15)), 2),
                   block0(gain(1), PRIO_DEFAULT, PLAIN), block(3, mixed_basic(gain_=gain(3)), 2)], blocks=2),
       lines("refusal=0 place=0 objects=2 bed=0 isf=0 dynamic=2 blocks=2 unknown=0 block=0,0,0 block=1,32,0",
             R(0, 0, 1, 2, gain=65, prio=32), R(0, 1, 1, 2, gain=49, prio=32),
             R(1, 0, 1, 2, gain=0, prio=32), R(1, 1, 1, 2, gain=49, prio=32)))
# Object 0 itself, index 3 in block 1: first object, so 0 dB (50), not its block before (65).
# Block 2: full status, index 3 again: 50.
vector("gain-3-first-object-block-1", "gain index 3 of the first object in blocks 1 and 2",
       "0 dB for the first object in any block: 65, 50, 50",
       objects(1, [block0(gain(2, 0), PRIO_DEFAULT, PLAIN), block(3, mixed_basic(gain_=gain(3)), 2),
                   block(1, [gain(3), prio(9)], 2)], blocks=3),
       lines("refusal=0 place=0 objects=1 bed=0 isf=0 dynamic=1 blocks=3 unknown=0",
             "block=0,0,0 block=1,32,0 block=2,64,0",
             R(0, 0, 1, 2, gain=65, prio=32), R(0, 1, 1, 2, gain=50, prio=32), R(0, 2, 1, 2, gain=50, prio=9)))
# Object 0: +15; block 1 reuse (65); block 2 default status (0); block 3 inactive (0); block 4 full -6 (44).
# Object 1: 0 dB, then index 3 in each block: 65, 0, 0, 44.
vector("gain-3-resolved", "gain index 3 over an object that reuses, is default, is inactive, is full in that block",
       "the resolved gain of object 0 in the same block: 65, 0, 0, 44 (bits 20: 14 - 20 = -6)",
       objects(2, [block0(gain(2, 0), PRIO_DEFAULT, PLAIN), block(2, [], 2), block(0, [], 0), inactive(),
                   block(1, [gain(2, 20), prio(1)], 0),
                   block0(gain(0), PRIO_DEFAULT, PLAIN), [block(3, mixed_basic(gain_=gain(3)), 2)] * 4], blocks=5),
       lines("refusal=0 place=0 objects=2 bed=0 isf=0 dynamic=2 blocks=5 unknown=0",
             "block=0,0,0 block=1,32,0 block=2,64,0 block=3,96,0 block=4,128,0",
             R(0, 0, 1, 2, gain=65, prio=32), R(0, 1, 1, 2, gain=65, prio=32), R(0, 2, 1, 2), R(0, 3, 0, 2),
             R(0, 4, 1, 2, gain=44, prio=1),
             R(1, 0, 1, 2, gain=50, prio=32), R(1, 1, 1, 2, gain=65, prio=32), R(1, 2, 1, 2, gain=0, prio=32),
             R(1, 3, 1, 2, gain=0, prio=32), R(1, 4, 1, 2, gain=44, prio=32)))
# Bed LFE -6 dB (44); ISF 0 (4 objects): index 3 44; inactive 0; index 3 0; +1 51; dynamic: index 3 51.
# Bed and ISF blocks: not active 1, gain, priority, additional: no render fields.
vector("gain-3-classes", "bed, ISF and dynamic objects in one element; gain index 3 across the classes",
       "objects 0 bed, 1-4 ISF, 5 dynamic; 44, 44, inactive 0, 0, 51, 51; bed and ISF have the defaults of Table 29",
       [version(), count_(5), content(bed=1, isf=1, dynamic=1), one_bed(LFE_ONLY), isf_(0), dyn_(0), tail(1),
        element(1, [plain_timing(1), block0(gain(2, 20), prio(7)), block0(gain(3), PRIO_DEFAULT), inactive(),
                    block0(gain(3), prio(0)), block0(gain(2, 14), prio(3)),
                    block0(gain(3), PRIO_DEFAULT, render(xyz(1, 2, 1, 3), zones=zone(5, 0), snaps=1))])],
       lines("refusal=0 place=0 objects=6 bed=1 isf=4 dynamic=1 blocks=1 unknown=0 block=0,0,0",
             R(0, 0, 1, 0, gain=44, prio=7), R(1, 0, 1, 1, gain=44, prio=32), R(2, 0, 0, 1), R(3, 0, 1, 1, gain=0, prio=0),
             R(4, 0, 1, 1, gain=51, prio=3), R(5, 0, 1, 2, gain=51, prio=32, x=1, y=2, z=67, zone=5, elev=0, snap=1)))

# ------------------------------------------------------------------------------- priority

vector("priority", "default priority, coded priority 0, 1 and 31", "default 1,0 = 32/32; coded bits/32: 0, 1, 31",
       objects(4, [block0(gain(0), p, PLAIN) for p in (PRIO_DEFAULT, prio(0), prio(1), prio(31))]),
       lines("refusal=0 place=0 objects=4 bed=0 isf=0 dynamic=4 blocks=1 unknown=0 block=0,0,0",
             R(0, 0, 1, 2, gain=50, prio=32), R(1, 0, 1, 2, gain=50, prio=0), R(2, 0, 1, 2, gain=50, prio=1),
             R(3, 0, 1, 2, gain=50, prio=31)))

# ------------------------------------------------------------------------------- position

# x, y: min(1, 63/62) = 62/62.  z: sign 0 minus, 1 plus; byte 64 + z.
vector("position-ends", "x, y bits 63, 62, 0; z sign 0 and 1 with 0 and 15",
       "63 gives 62; z byte: -0 64, +0 64, -15 49, +15 79",
       objects(4, [block0(gain(0), PRIO_DEFAULT, render(p)) for p in (xyz(63, 63, 0, 0), xyz(0, 0, 1, 0),
                                                                  xyz(62, 0, 0, 15), xyz(0, 62, 1, 15))]),
       lines("refusal=0 place=0 objects=4 bed=0 isf=0 dynamic=4 blocks=1 unknown=0 block=0,0,0",
             R(0, 0, 1, 2, gain=50, prio=32, x=62, y=62, z=64), R(1, 0, 1, 2, gain=50, prio=32, x=0, y=0, z=64),
             R(2, 0, 1, 2, gain=50, prio=32, x=62, y=0, z=49), R(3, 0, 1, 2, gain=50, prio=32, x=0, y=62, z=79)))
# literal: 01 02 32 20 | 05 09 | -3: 61 = 3d
vector("position-literal", "x 5, y 9, z -3 and all other parts, written as hex by hand",
       "gain bits 10: +5 = 55 (37); priority 17 (11); z 64 - 3 = 61 (3d); distance index 8: 10 (0a); sizes 4, 5, 6; zone 1; elevation 0; screen 1, 4, 3; snap 1",
       objects(1, block0(gain(2, 10), prio(17), render(xyz(5, 9, 0, 3), dist(8), zone(1, 0), size2(4, 5, 6), screen(4, 3), 1))),
       lines("refusal=0 place=0 objects=1 bed=0 isf=0 dynamic=1 blocks=1 unknown=0 block=0,0,0",
             "record=0,0,0102371105093d0a04050601000104030100000000000000"))
vector("distance", "distance absent, infinity, index 0, index 15", "0, 1, 2 + 0 = 2, 2 + 15 = 17",
       objects(4, [block0(gain(0), PRIO_DEFAULT, render(xyz(31, 31, 1, 0), d)) for d in (NO_DIST, INFINITY, dist(0), dist(15))]),
       lines("refusal=0 place=0 objects=4 bed=0 isf=0 dynamic=4 blocks=1 unknown=0 block=0,0,0",
             R(0, 0, 1, 2, gain=50, prio=32, dist=0), R(1, 0, 1, 2, gain=50, prio=32, dist=1),
             R(2, 0, 1, 2, gain=50, prio=32, dist=2), R(3, 0, 1, 2, gain=50, prio=32, dist=17)))

# ------------------------------------------------------------------------------- zone, size, screen, snap

vector("zones", "zone indices 0 to 5, elevation 0 and 1 by turns", "Table 20: 0 to 5 are not reserved; kept as sent",
       objects(6, [block0(gain(0), PRIO_DEFAULT, render(xyz(31, 31, 0, 0), zones=zone(i, i % 2))) for i in range(6)]),
       lines("refusal=0 place=0 objects=6 bed=0 isf=0 dynamic=6 blocks=1 unknown=0 block=0,0,0",
             R(0, 0, 1, 2, gain=50, prio=32, zone=0, elev=0), R(1, 0, 1, 2, gain=50, prio=32, zone=1, elev=1),
             R(2, 0, 1, 2, gain=50, prio=32, zone=2, elev=0), R(3, 0, 1, 2, gain=50, prio=32, zone=3, elev=1),
             R(4, 0, 1, 2, gain=50, prio=32, zone=4, elev=0), R(5, 0, 1, 2, gain=50, prio=32, zone=5, elev=1)))
vector("sizes", "size index 0, 1 (bits 0, 31) and 2 (width 31, depth 0, height 16)", "Table 17: 31sts as sent",
       objects(4, [block0(gain(0), PRIO_DEFAULT, render(xyz(31, 31, 0, 0), size=s)) for s in (SIZE0, size1(0), size1(31),
                                                                                       size2(31, 0, 16))]),
       lines("refusal=0 place=0 objects=4 bed=0 isf=0 dynamic=4 blocks=1 unknown=0 block=0,0,0",
             R(0, 0, 1, 2, gain=50, prio=32, w=0, d=0, h=0), R(1, 0, 1, 2, gain=50, prio=32, w=0, d=0, h=0),
             R(2, 0, 1, 2, gain=50, prio=32, w=31, d=31, h=31), R(3, 0, 1, 2, gain=50, prio=32, w=31, d=0, h=16)))
vector("screen-snap", "screen flag with factor/depth 0/0, 7/3, 5/1 and without; snap set and clear",
       "flag, bits and index as sent; both 0 without the flag",
       objects(5, [block0(gain(0), PRIO_DEFAULT, render(xyz(31, 31, 0, 0), scr=s, snaps=n)) for s, n in (
           (NO_SCREEN, 0), (screen(0, 0), 0), (screen(7, 3), 1), (screen(5, 1), 0), (NO_SCREEN, 1))]),
       lines("refusal=0 place=0 objects=5 bed=0 isf=0 dynamic=5 blocks=1 unknown=0 block=0,0,0",
             R(0, 0, 1, 2, gain=50, prio=32), R(1, 0, 1, 2, gain=50, prio=32, scr=1, sf=0, df=0),
             R(2, 0, 1, 2, gain=50, prio=32, scr=1, sf=7, df=3, snap=1),
             R(3, 0, 1, 2, gain=50, prio=32, scr=1, sf=5, df=1), R(4, 0, 1, 2, gain=50, prio=32, snap=1)))

# ------------------------------------------------------------------------------- additional data

# The LFE bed, an active dynamic object and an inactive one, two blocks each; runs of 1, 2, 3, 16 bytes.
vector("additional-data", "additional data in active, inactive and bed blocks, 1 to 16 bytes, all ones",
       "passed over; the values after each run are read right",
       [dyn_header(3, 1, lfe=1),
        element(1, [plain_timing(2),
                    block0(gain(0), prio(2), add=add_data(0, 0xFF)), block(1, [gain(2, 3), prio(4)], add=add_data(2, ones(24))),
                    block0(gain(0), PRIO_DEFAULT, render(xyz(11, 12, 1, 13)), add=add_data(1, ones(16))),
                    block(2, [], 2, add=add_data(0, 0)),
                    inactive(add_data(15, ones(128))), block(2, [], 1, render(at(9, 8, 0, 7)))])],
       # LFE: block 1 gain bits 3: +12 -> 62.  Object 2, block 1: active, basic reuse of an inactive block: 0, 0.
       lines("refusal=0 place=0 objects=3 bed=1 isf=0 dynamic=2 blocks=2 unknown=0 block=0,0,0 block=1,32,0",
             R(0, 0, 1, 0, gain=50, prio=2), R(0, 1, 1, 0, gain=62, prio=4),
             R(1, 0, 1, 2, gain=50, prio=32, x=11, y=12, z=77), R(1, 1, 1, 2, gain=50, prio=32, x=11, y=12, z=77),
             R(2, 0, 0, 2), R(2, 1, 1, 2, gain=0, prio=0, x=9, y=8, z=57)))
# Reserved content: object 0 described as dynamic, objects 1 and 2 left over: their blocks carry render fields.
vector("leftover-dynamic", "left-over objects of reserved content are dynamic in the object element too",
       "3 objects, 1 described; the render fields of all three are read",
       [version(), count_(2), content(reserved=1, dynamic=1), dyn_(0), reserved_content(0, 0x55), tail(1),
        element(1, [plain_timing(1), [block0(gain(0), PRIO_DEFAULT, render(xyz(x, 0, 1, 1))) for x in (7, 8, 9)]])],
       lines("refusal=0 place=0 objects=3 bed=0 isf=0 dynamic=3 blocks=1 unknown=0 block=0,0,0",
             R(0, 0, 1, 2, gain=50, prio=32, x=7, y=0, z=65), R(1, 0, 1, 2, gain=50, prio=32, x=8, y=0, z=65),
             R(2, 0, 1, 2, gain=50, prio=32, x=9, y=0, z=65)))
