"""Group 5: statuses block by block (5.5.9, Tables 28 and 29), mixed parts (Tables 30, 31), moved positions, inactivity."""
from helpers import *
from vectors_object import objects, PLAIN

# Block 0 with no value at its default: gain bits 0: +15 = 65; priority 5; x 10, y 20, z +7 = 71; distance index 3 = 5;
# zone 4, elevation 0; sizes 1, 2, 3; screen flag 1, factor 6, depth 2; snap 1.
RICH0 = block0(gain(2, 0), prio(5), render(xyz(10, 20, 1, 7), dist(3), zone(4, 0), size2(1, 2, 3), screen(6, 2), 1))
RICH_B = dict(gain=65, prio=5)
RICH_R = dict(x=10, y=20, z=71, dist=5, w=1, d=2, h=3, zone=4, elev=0, scr=1, sf=6, df=2, snap=1)
RICH = dict(RICH_B, **RICH_R)
# A full update: gain bits 20: 14 - 20 = -6 = 44; default priority 32; x 50, y 40, z -9 = 55; infinity 1; zone 2,
# elevation 1; size bits 30: 30, 30, 30; screen flag 1, factor 1, depth 3; snap 0.
NEW_BASIC = [gain(2, 20), PRIO_DEFAULT]
NEW_RENDER = render(at(50, 40, 0, 9), INFINITY, zone(2, 1), size1(30), screen(1, 3), 0)
NEW_B = dict(gain=44, prio=32)
NEW_R = dict(x=50, y=40, z=55, dist=1, w=30, d=30, h=30, zone=2, elev=1, scr=1, sf=1, df=3, snap=0)
# Mixed: basic priority only (31; the gain stays); render zone only (5, elevation 1; snap 0; the rest stays).
MIX_BASIC = mixed_basic(priority=prio(31))
MIX_RENDER = mixed_render(0, zones=zone(5, 1))
MIX_B = dict(gain=65, prio=31)
MIX_R = dict(RICH_R, zone=5, elev=1, snap=0)

BASIC = {0: ([], {}), 1: (NEW_BASIC, NEW_B), 2: ([], RICH_B), 3: (MIX_BASIC, MIX_B)}
RENDER = {0: ([], {}), 1: (NEW_RENDER, NEW_R), 2: ([], RICH_R), 3: (MIX_RENDER, MIX_R)}
NAMES = ("default", "full", "reuse", "mixed")

# ------------------------------------------------------------------------------- the sixteen pairs in a second block

# Rule: objects 0 to 3 all have block 0 = RICH; in block 1 they have the named basic status and render status 0, 1, 2, 3.
# Expected: bytes 2, 3 by the basic status, bytes 4 to 16 by the render status, each on its own: default {} (Tables 28, 29),
# full NEW, reuse RICH, mixed MIX.
for s in range(4):
    vector("status-%s" % NAMES[s], "basic status %s beside render status default, full, reuse, mixed in block 1" % NAMES[s],
           "bytes 2-3 by the basic status, 4-16 by the render status: default tables, new values, those of block 0, or only the sent part new",
           objects(4, [[RICH0, block(s, BASIC[s][0], r, RENDER[r][0])] for r in range(4)], blocks=2),
           lines("refusal=0 place=0 objects=4 bed=0 isf=0 dynamic=4 blocks=2 unknown=0 block=0,0,0 block=1,32,0",
                 R(0, 0, 1, 2, **RICH), R(0, 1, 1, 2, **BASIC[s][1], **RENDER[0][1]),
                 R(1, 0, 1, 2, **RICH), R(1, 1, 1, 2, **BASIC[s][1], **RENDER[1][1]),
                 R(2, 0, 1, 2, **RICH), R(2, 1, 1, 2, **BASIC[s][1], **RENDER[2][1]),
                 R(3, 0, 1, 2, **RICH), R(3, 1, 1, 2, **BASIC[s][1], **RENDER[3][1])))
# A bed object (the LFE): only the basic status is sent.  +15 (65), priority 5; reuse; mixed gain 0 dB (50); default (0, 0);
# mixed priority 6 over the default (gain 0); full -6 (44), default priority 32.  Bytes 4 to 16 are those of Table 29 always.
vector("status-bed", "basic statuses of a bed object over six blocks, no render status sent",
       "65/5, reuse 65/5, mixed gain 50/5, default 0/0, mixed priority 0/6, full 44/32; render values stay default",
       [dyn_header(1, 1, lfe=1),
        element(1, [plain_timing(6), block0(gain(2, 0), prio(5)), block(2, []), block(3, mixed_basic(gain_=gain(0))),
                    block(0, []), block(3, mixed_basic(priority=prio(6))), block(1, NEW_BASIC)])],
       lines("refusal=0 place=0 objects=1 bed=1 isf=0 dynamic=0 blocks=6 unknown=0",
             "block=0,0,0 block=1,32,0 block=2,64,0 block=3,96,0 block=4,128,0 block=5,160,0",
             R(0, 0, 1, 0, gain=65, prio=5), R(0, 1, 1, 0, gain=65, prio=5), R(0, 2, 1, 0, gain=50, prio=5),
             R(0, 3, 1, 0, gain=0, prio=0), R(0, 4, 1, 0, gain=0, prio=6), R(0, 5, 1, 0, gain=44, prio=32)))

# ------------------------------------------------------------------------------- mixed: single part flags

# object_basic_info[] sent priority, gain: 00, 01, 10, 11.
vector("mixed-basic", "mixed basic status with no part, gain, priority, both",
       "flags 00: 65/5; 01 (gain -6): 44/5; 10 (priority 31): 65/31; 11: gain before priority, 44/32",
       objects(4, [[RICH0, block(3, m, 2)] for m in (mixed_basic(), mixed_basic(gain_=gain(2, 20)),
                                                     mixed_basic(priority=prio(31)),
                                                     mixed_basic(priority=PRIO_DEFAULT, gain_=gain(2, 20)))], blocks=2),
       lines("refusal=0 place=0 objects=4 bed=0 isf=0 dynamic=4 blocks=2 unknown=0 block=0,0,0 block=1,32,0",
             R(0, 0, 1, 2, **RICH), R(0, 1, 1, 2, **RICH_R, gain=65, prio=5),
             R(1, 0, 1, 2, **RICH), R(1, 1, 1, 2, **RICH_R, gain=44, prio=5),
             R(2, 0, 1, 2, **RICH), R(2, 1, 1, 2, **RICH_R, gain=65, prio=31),
             R(3, 0, 1, 2, **RICH), R(3, 1, 1, 2, **RICH_R, gain=44, prio=32)))
# obj_render_info[] sent screen, size, zone, position.  Snap is always sent (0 here, 1 in block 0; 1 for the last object).
vector("mixed-render", "mixed render status with no part, position, zone, size, screen, all",
       "flags 0000, 0001, 0010, 0100, 1000, 1111: only the sent group is new; snap is always sent; a position group without distance gives distance 0",
       objects(6, [[RICH0, block(2, [], 3, m)] for m in (
           mixed_render(0),
           mixed_render(0, position=[at(50, 40, 0, 9), NO_DIST]),
           mixed_render(0, zones=zone(2, 1)),
           mixed_render(0, size=size1(30)),
           mixed_render(0, scr=NO_SCREEN),
           mixed_render(1, position=[at(50, 40, 0, 9), INFINITY], zones=zone(2, 1), size=SIZE0, scr=screen(1, 3)))], blocks=2),
       lines("refusal=0 place=0 objects=6 bed=0 isf=0 dynamic=6 blocks=2 unknown=0 block=0,0,0 block=1,32,0",
             R(0, 0, 1, 2, **RICH),
             R(0, 1, 1, 2, **RICH_B, x=10, y=20, z=71, dist=5, w=1, d=2, h=3, zone=4, elev=0, scr=1, sf=6, df=2, snap=0),
             R(1, 0, 1, 2, **RICH),
             R(1, 1, 1, 2, **RICH_B, x=50, y=40, z=55, dist=0, w=1, d=2, h=3, zone=4, elev=0, scr=1, sf=6, df=2, snap=0),
             R(2, 0, 1, 2, **RICH),
             R(2, 1, 1, 2, **RICH_B, x=10, y=20, z=71, dist=5, w=1, d=2, h=3, zone=2, elev=1, scr=1, sf=6, df=2, snap=0),
             R(3, 0, 1, 2, **RICH),
             R(3, 1, 1, 2, **RICH_B, x=10, y=20, z=71, dist=5, w=30, d=30, h=30, zone=4, elev=0, scr=1, sf=6, df=2, snap=0),
             R(4, 0, 1, 2, **RICH),
             R(4, 1, 1, 2, **RICH_B, x=10, y=20, z=71, dist=5, w=1, d=2, h=3, zone=4, elev=0, scr=0, sf=0, df=0, snap=0),
             R(5, 0, 1, 2, **RICH),
             R(5, 1, 1, 2, **RICH_B, x=50, y=40, z=55, dist=1, w=0, d=0, h=0, zone=2, elev=1, scr=1, sf=1, df=3, snap=1)))
# Reuse over several blocks after a mixed one: block 1 mixed size (7,7,7) and snap 0; block 2 reuse; block 3 mixed zone 1/1, snap 1.
vector("reuse-after-mixed", "reuse after a mixed block, then mixed again: the block before, not block 0",
       "block 1 sizes 7, snap 0; block 2 the same; block 3 zone 1, elevation 1, snap 1, sizes still 7",
       objects(1, [RICH0, block(2, [], 3, mixed_render(0, size=size1(7))), block(2, [], 2),
                   block(2, [], 3, mixed_render(1, zones=zone(1, 1)))], blocks=4),
       lines("refusal=0 place=0 objects=1 bed=0 isf=0 dynamic=1 blocks=4 unknown=0",
             "block=0,0,0 block=1,32,0 block=2,64,0 block=3,96,0",
             R(0, 0, 1, 2, **RICH),
             R(0, 1, 1, 2, **RICH_B, x=10, y=20, z=71, dist=5, w=7, d=7, h=7, zone=4, elev=0, scr=1, sf=6, df=2, snap=0),
             R(0, 2, 1, 2, **RICH_B, x=10, y=20, z=71, dist=5, w=7, d=7, h=7, zone=4, elev=0, scr=1, sf=6, df=2, snap=0),
             R(0, 3, 1, 2, **RICH_B, x=10, y=20, z=71, dist=5, w=7, d=7, h=7, zone=1, elev=1, scr=1, sf=6, df=2, snap=1)))

# ------------------------------------------------------------------------------- moved positions


def moved(start, steps):
    """One object: block 0 at `start`, then moved by `steps` (mixed render, position only), gain 0 dB, priority default."""
    return [block0(gain(0), PRIO_DEFAULT, render(start)),
            [block(2, [], 3, mixed_render(0, position=[move(*s), NO_DIST])) for s in steps]]


# x 61+3 = 64 -> 62, y 30+1, z 5-1 = 4 -> 68 | x 2-3 = -1 -> 0, y 29, z 6 -> 70 | x 31, y 60+3 -> 62, z -5-1 = -6 -> 58 |
# x 29, y 1-2 -> 0, z -5+1 = -4 -> 60 | z 14+3 = 17 -> 15 -> 79 | z -13-4 = -17 -> -15 -> 49.
vector("moved-past-ends", "a moved position past each end of x, y and z, one end per object",
       "previous + difference, kept within 0..62, 0..62, -15..15",
       objects(6, [moved(xyz(61, 30, 1, 5), [(3, 1, -1)]), moved(xyz(2, 30, 1, 5), [(-3, -1, 1)]),
                   moved(xyz(30, 60, 0, 5), [(1, 3, -1)]), moved(xyz(30, 1, 0, 5), [(-1, -2, 1)]),
                   moved(xyz(30, 30, 1, 14), [(0, 0, 3)]), moved(xyz(30, 30, 0, 13), [(0, 0, -4)])], blocks=2),
       lines("refusal=0 place=0 objects=6 bed=0 isf=0 dynamic=6 blocks=2 unknown=0 block=0,0,0 block=1,32,0",
             R(0, 0, 1, 2, gain=50, prio=32, x=61, y=30, z=69), R(0, 1, 1, 2, gain=50, prio=32, x=62, y=31, z=68),
             R(1, 0, 1, 2, gain=50, prio=32, x=2, y=30, z=69), R(1, 1, 1, 2, gain=50, prio=32, x=0, y=29, z=70),
             R(2, 0, 1, 2, gain=50, prio=32, x=30, y=60, z=59), R(2, 1, 1, 2, gain=50, prio=32, x=31, y=62, z=58),
             R(3, 0, 1, 2, gain=50, prio=32, x=30, y=1, z=59), R(3, 1, 1, 2, gain=50, prio=32, x=29, y=0, z=60),
             R(4, 0, 1, 2, gain=50, prio=32, x=30, y=30, z=78), R(4, 1, 1, 2, gain=50, prio=32, x=30, y=30, z=79),
             R(5, 0, 1, 2, gain=50, prio=32, x=30, y=30, z=51), R(5, 1, 1, 2, gain=50, prio=32, x=30, y=30, z=49)))
# x from 20: +3 23, -1 22, +2 24, 0 24, -4 20, +1 21, -3 18.  y from 40: -4 36, -3 33, -2 31, -1 30, 0 30, +1 31, +2 33.
# z from -2: +3 1, -4 -3, -2 -5, +2 -3, +1 -2, 0 -2, -1 -3; byte 64 + z.
vector("moved-after-moved", "seven moves in a row, z through 0 both ways (misreading 4)",
       "each difference is added to the block before: x 20 23 22 24 24 20 21 18, y 40 36 33 31 30 30 31 33, z -2 1 -3 -5 -3 -2 -2 -3",
       objects(1, moved(xyz(20, 40, 0, 2), [(3, -4, 3), (-1, -3, -4), (2, -2, -2), (0, -1, 2), (-4, 0, 1), (1, 1, 0),
                                          (-3, 2, -1)]), blocks=8),
       lines("refusal=0 place=0 objects=1 bed=0 isf=0 dynamic=1 blocks=8 unknown=0",
             "block=0,0,0 block=1,32,0 block=2,64,0 block=3,96,0 block=4,128,0 block=5,160,0 block=6,192,0 block=7,224,0",
             R(0, 0, 1, 2, gain=50, prio=32, x=20, y=40, z=62), R(0, 1, 1, 2, gain=50, prio=32, x=23, y=36, z=65),
             R(0, 2, 1, 2, gain=50, prio=32, x=22, y=33, z=61), R(0, 3, 1, 2, gain=50, prio=32, x=24, y=31, z=59),
             R(0, 4, 1, 2, gain=50, prio=32, x=24, y=30, z=61), R(0, 5, 1, 2, gain=50, prio=32, x=20, y=30, z=62),
             R(0, 6, 1, 2, gain=50, prio=32, x=21, y=31, z=62), R(0, 7, 1, 2, gain=50, prio=32, x=18, y=33, z=61)))
# Block 0: bits 63 -> 62; y 0; z +15.  Block 1 (-1,-1,+1): 61, -1 -> 0, 16 -> 15.  Block 2 (+3,+2,-3): 64 -> 62, 2, 12.
# Block 3 (-2,-4,-1): 60, -2 -> 0, 11.
vector("moved-from-end", "moves from x bits 63 and from values that stopped at an end",
       "the start is the record's byte (62, not 63; 0 and 15 where a move stopped): x 62 61 62 60, y 0 0 2 0, z 15 15 12 11",
       objects(1, moved(xyz(63, 0, 1, 15), [(-1, -1, 1), (3, 2, -3), (-2, -4, -1)]), blocks=4),
       lines("refusal=0 place=0 objects=1 bed=0 isf=0 dynamic=1 blocks=4 unknown=0",
             "block=0,0,0 block=1,32,0 block=2,64,0 block=3,96,0",
             R(0, 0, 1, 2, gain=50, prio=32, x=62, y=0, z=79), R(0, 1, 1, 2, gain=50, prio=32, x=61, y=0, z=79),
             R(0, 2, 1, 2, gain=50, prio=32, x=62, y=2, z=76), R(0, 3, 1, 2, gain=50, prio=32, x=60, y=0, z=75)))
# Block 1 full status, moved (-2, +2, -4) from 10, 20, +7: 8, 22, 3; distance index 15 = 17; zone 0/1, size 0, no screen, snap 0.
# Block 2 reuse.  Block 3 mixed, moved (+1,+1,+1): 9, 23, 4 with infinity (1).  Block 4 absolute 0, 63 -> 62, -15; no distance.
vector("moved-full", "a moved position in full status, after reuse, with distances; then absolute again",
       "from 10, 20, 7: 8, 22, 3; reuse; 9, 23, 4; absolute 0, 62, -15",
       objects(1, [RICH0, block(1, [gain(0), prio(1)], 1, render(move(-2, 2, -4), dist(15))), block(2, [], 2),
                   block(2, [], 3, mixed_render(0, position=[move(1, 1, 1), INFINITY])),
                   block(2, [], 3, mixed_render(1, position=[at(0, 63, 0, 15), NO_DIST]))], blocks=5),
       lines("refusal=0 place=0 objects=1 bed=0 isf=0 dynamic=1 blocks=5 unknown=0",
             "block=0,0,0 block=1,32,0 block=2,64,0 block=3,96,0 block=4,128,0",
             R(0, 0, 1, 2, **RICH),
             R(0, 1, 1, 2, gain=50, prio=1, x=8, y=22, z=67, dist=17), R(0, 2, 1, 2, gain=50, prio=1, x=8, y=22, z=67, dist=17),
             R(0, 3, 1, 2, gain=50, prio=1, x=9, y=23, z=68, dist=1),
             R(0, 4, 1, 2, gain=50, prio=1, x=0, y=62, z=49, dist=0, snap=1)))

# ------------------------------------------------------------------------------- inactive and default

vector("inactive-then-reuse", "an inactive block after an active one, then reuse of it, then full",
       "an inactive block takes the defaults of both tables; reuse after it keeps them, now active; then the new values",
       objects(1, [RICH0, inactive(), block(2, [], 2), block(1, NEW_BASIC, 1, NEW_RENDER)], blocks=4),
       lines("refusal=0 place=0 objects=1 bed=0 isf=0 dynamic=1 blocks=4 unknown=0",
             "block=0,0,0 block=1,32,0 block=2,64,0 block=3,96,0",
             R(0, 0, 1, 2, **RICH),
             "record=0,1,000200001f1f400000000000010000000000000000000000",
             "record=0,2,010200001f1f400000000000010000000000000000000000",
             R(0, 3, 1, 2, **NEW_B, **NEW_R)))
# Mixed after inactive: gain 0 dB 50, priority 0 of the inactive block; size 2, snap 1, the rest default.
vector("inactive-then-mixed", "mixed after an inactive block",
       "the sent parts (gain 0 dB, size 2, snap 1) over the inactive block's defaults",
       objects(1, [RICH0, inactive(), block(3, mixed_basic(gain_=gain(0)), 3, mixed_render(1, size=size1(2)))], blocks=3),
       lines("refusal=0 place=0 objects=1 bed=0 isf=0 dynamic=1 blocks=3 unknown=0",
             "block=0,0,0 block=1,32,0 block=2,64,0",
             R(0, 0, 1, 2, **RICH), R(0, 1, 0, 2), R(0, 2, 1, 2, gain=50, prio=0, w=2, d=2, h=2, snap=1)))
# Moved after inactive: from 31, 31, 0 by (+3, -4, +1): 34, 27, 1 -> 65.
vector("inactive-then-moved", "moved after an inactive block",
       "from the defaults 31, 31, 0: 34, 27, +1 = 65; the distance of block 0 is gone",
       objects(1, [RICH0, inactive(), block(0, [], 3, mixed_render(0, position=[move(3, -4, 1), NO_DIST]))], blocks=3),
       lines("refusal=0 place=0 objects=1 bed=0 isf=0 dynamic=1 blocks=3 unknown=0",
             "block=0,0,0 block=1,32,0 block=2,64,0",
             R(0, 0, 1, 2, **RICH), R(0, 1, 0, 2), R(0, 2, 1, 2, x=34, y=27, z=65)))
# Inactive in block 0: block 1 sends both statuses although it is the first active one; full with a moved position
# (-4, -4, -4) from 31, 31, 0: 27, 27, -4 = 60; distance index 1 = 3; gain bits 49: 14 - 49 = -35 = 15; priority 8.
vector("inactive-block-0", "inactive in block 0; block 1 sends its statuses, full with a moved position",
       "from the defaults of block 0: 27, 27, -4 = 60; gain 14 - 49 = -35 = 15",
       objects(2, [inactive(), block(1, [gain(2, 49), prio(8)], 1, render(move(-4, -4, -4), dist(1))), RICH0, inactive()],
               blocks=2),
       lines("refusal=0 place=0 objects=2 bed=0 isf=0 dynamic=2 blocks=2 unknown=0 block=0,0,0 block=1,32,0",
             R(0, 0, 0, 2), R(0, 1, 1, 2, gain=15, prio=8, x=27, y=27, z=60, dist=3),
             R(1, 0, 1, 2, **RICH), R(1, 1, 0, 2)))
# Active default status: byte 0 is 1, all else as inactive.  Then moved (+1, 0, -1) from 31, 31, 0: 32, 31, 63.
vector("default-then-moved", "an active block of status default, then moved from it, then basic reuse",
       "active 1 with the defaults of both tables; then 32, 31, -1 = 63",
       objects(1, [RICH0, block(0, [], 0), block(2, [], 3, mixed_render(0, position=[move(1, 0, -1), dist(0)]))], blocks=3),
       lines("refusal=0 place=0 objects=1 bed=0 isf=0 dynamic=1 blocks=3 unknown=0",
             "block=0,0,0 block=1,32,0 block=2,64,0",
             R(0, 0, 1, 2, **RICH), "record=0,1,010200001f1f400000000000010000000000000000000000",
             R(0, 2, 1, 2, gain=0, prio=0, x=32, y=31, z=63, dist=2)))
# Two objects, three blocks: reuse looks at the same object's block before, not at the object before.
vector("reuse-own-object", "reuse in object 1 takes its own block before, not the last record read",
       "object 1 block 1 equals object 1 block 0 (PLAIN with 0 dB), object 0 is RICH in all blocks",
       objects(2, [RICH0, block(2, [], 2), block(2, [], 2), block0(gain(0), PRIO_DEFAULT, PLAIN), block(2, [], 2), inactive()],
               blocks=3),
       lines("refusal=0 place=0 objects=2 bed=0 isf=0 dynamic=2 blocks=3 unknown=0",
             "block=0,0,0 block=1,32,0 block=2,64,0",
             R(0, 0, 1, 2, **RICH), R(0, 1, 1, 2, **RICH), R(0, 2, 1, 2, **RICH),
             R(1, 0, 1, 2, gain=50, prio=32), R(1, 1, 1, 2, gain=50, prio=32), R(1, 2, 0, 2)))

# ------------------------------------------------------------------------------- refusal 8 at arrays and statuses

# Two blocks, index offset none: fields to 46; block 0 inactive 46-47; block 1: not active 48, basic status 49-50,
# object_basic_info[] 51-52; element of 4 bytes ends at 55, of 3 bytes at 47.
# not active 46 is the last bit inside 3 bytes; the additional flag at 47 passes.  With 4 bytes:
# 51-52 flags 01, gain idx 53-54, render status 55-56 passes 55.
vector("passes-render-status", "refusal 8 at object_render_info_status_idx",
       "24+2+3+8+8+1 = 46, +2 = 48, +1+2+2+2 = 55 = the element's end",
       [dyn_header(1, 1), element(1, [plain_timing(2), inactive(), ("b_object_not_active", 1, 0),
        ("object_basic_info_status_idx", 2, 3), mixed_basic(gain_=gain(0)), HERE, ("object_render_info_status_idx", 2, 2),
        NO_ADD], bytes_=4)], refused(8, 55))
# block 1: not active 48, basic status 2 49-50, render status 3 51-52, obj_render_info[] 53-56 passes 55.
vector("passes-render-info", "refusal 8 at the array obj_render_info[]", "48 + 1 + 2 + 2 = 53, 4 bits; the element ends at 55",
       [dyn_header(1, 1), element(1, [plain_timing(2), inactive(), ("b_object_not_active", 1, 0),
        ("object_basic_info_status_idx", 2, 2), ("object_render_info_status_idx", 2, 3), HERE, mixed_render(0), NO_ADD],
        bytes_=4)], refused(8, 53))
