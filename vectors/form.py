"""The one form of docs/DECISIONS.md, "The written form": tables to the fields of a payload, from the requirements and clause 5.5.

Tables: a programme (class Programme), the timing as a list of (start, ramp) for each block, the records as a list of
32 bytes each, objects outermost, blocks within, and the bytes of the trim table.  The time in a record's last eight bytes
follows from the timing and the frame number, so nothing of it is written.  `form` gives the fields of the payload,
`pack` of helpers.py its bytes.  Nothing in here reads a payload.
"""
from helpers import *


class Programme:
    """The object count and every field of the program assignment (5.5.3) as carried; what is not carried is 0."""
    objects = dyn_only = lfe = content = distribute = multiple = instances = isf = dynamics = 0
    beds = ()                                    # for each bed: b_lfe_only, b_standard_chan_assign, the array


def programme_of(fields):
    """The programme of a payload that was composed of these fields."""
    q, sent, beds = Programme(), {}, []
    for name, _, value in fields:
        if name == "b_alternate_object_data_present":
            break
        if name == "b_lfe_only":
            beds.append([value, 0, 0])
        elif name == "b_standard_chan_assign":
            beds[-1][1] = value
        elif name.endswith("bed_channel_assignment[]"):
            beds[-1][2] = value
        else:
            sent[name] = value
    get = lambda name: sent.get(name, 0)
    q.objects = get("object_count_bits") + get("object_count_bits_ext") + 1
    q.dyn_only, q.lfe, q.content = get("b_dyn_object_only_program"), get("b_lfe_present"), get("content_description[]")
    q.distribute, q.multiple = get("b_bed_chan_distribute"), get("b_multiple_bed_instances_present")
    q.instances, q.beds = get("num_bed_instances_bits"), beds
    q.isf = get("intermediate_spatial_format_idx")
    q.dynamics = get("num_dynamic_objects_bits") + get("num_dynamic_objects_bits_ext")
    return q


def tables_of(fields, expected, trim):
    """Programme from the fields composed; timing and records from the expected text; trim all 0 if there is none."""
    timing_ = [tuple(map(int, x.split(",")[1:])) for x in expected if x.startswith("block=")]
    records = [bytes.fromhex(x.split(",")[2]) for x in expected if x.startswith("record=")]
    q = programme_of(fields)
    return q, timing_, records, trim or bytes(94 + q.objects)


# ---------------------------------------------------------------- header (5.5.2, 5.5.3)

def counted(make, n):
    """5 bits to 30, else 31 and an extension of 7 bits."""
    return make(n) if n < 31 else make(31, n - 31)


def bed_(lfe_only, standard, flags):
    return LFE_ONLY if lfe_only else std_bed(flags) if standard else nonstd_bed(flags)


def assignment(q):
    if q.dyn_only:
        return dyn_only(q.lfe)
    assert q.content < 8, "reserved content has no form"
    r = [("b_dyn_object_only_program", 1, 0), ("content_description[]", 4, q.content)]
    if q.content & 1:
        r += [("b_bed_chan_distribute", 1, q.distribute), ("b_multiple_bed_instances_present", 1, q.multiple)]
        r += [("num_bed_instances_bits", 3, q.instances)] if q.multiple else []
        r += [bed_(*b) for b in q.beds]
    r += isf_(q.isf) if q.content & 2 else []
    return r + (counted(dyn_, q.dynamics) if q.content & 4 else [])


# ---------------------------------------------------------------- object element (5.5.5 to 5.5.11)

def offset_(n):
    return OFF0 if n == 0 else off_bits(n)                       # never by code 1


def update_(start, ramp_):
    factor = start // 32
    if ramp_ in (0, 512, 1536):
        return ramp(factor, (0, 512, 1536).index(ramp_))
    return ramp_bits(factor, ramp_) if ramp_ < 2048 else ramp_idx(factor, 15)


def gain_(b):
    """Byte 2: dB + 50, or 0.  Never by index 3."""
    db = b - 50
    if b == 0 or db == 0:
        return gain(1 if b == 0 else 0)
    return gain(2, 15 - db if db > 0 else 14 - db)


def priority_(b):
    return PRIO_DEFAULT if b == 32 else prio(b)                  # 32 of 32 is the default of 1,0


def position_(x, y, z):
    return xyz(x, y, 1 if z > 64 else 0, abs(z - 64))            # z = 0: the smaller number is the sign bit 0


def distance_(b):
    return NO_DIST if b == 0 else INFINITY if b == 1 else dist(b - 2)


def extent_(w, d, h):
    if w == d == h:
        return SIZE0 if w == 0 else size1(w)
    return size2(w, d, h)


def basic_(r):
    return [gain_(r[2]), priority_(r[3])]


def render_(r, later):
    where = position_(r[4], r[5], r[6])
    return render(([("b_differential_position_specified", 1, 0)] if later else []) + where, distance_(r[7]),
                  zone(r[11], r[12]), extent_(*r[8:11]), screen(r[14], r[15]) if r[13] else NO_SCREEN, r[16])


def record_(r, blk):
    """Full status in each active block; it is sent in the blocks after block 0."""
    dynamic = r[1] == 2
    if r[0] == 0:
        return inactive()
    if blk == 0:
        return block0(basic_(r), [], render_(r, False) if dynamic else None)
    return block(1, basic_(r), 1, render_(r, True)) if dynamic else block(1, basic_(r))


def object_element(timing_, records):
    blocks = len(timing_)
    head = timing(offset_(timing_[0][0] % 32), [update_(*u) for u in timing_])
    return element(1, [head, [record_(r, i % blocks) for i, r in enumerate(records)]])


# ---------------------------------------------------------------- extended object element (5.5.13 to 5.5.15)

def divergence_(used, mode, value):
    if not used:
        return NO_DIV
    return div_table(value) if mode == 0 else DIV_REUSE if mode == 1 else div_code(value)


def precise_(presence, x, y, z):
    if presence == 0:
        return NO_PREC
    return prec(x if presence & 1 else None, y if presence & 2 else None, z if presence & 4 else None)


def extended_element(records):
    """Each of the two groups only if some record needs it; in a group, fields for the active dynamic records alone."""
    who = [r for r in records if r[0] == 1 and r[1] == 2]
    body = []
    body += [DIV_BLOCK, [divergence_(*r[17:20]) for r in who]] if any(any(r[17:20]) for r in who) else NO_DIV_BLOCK
    body += [PREC_BLOCK, [precise_(*r[20:24]) for r in who]] if any(any(r[20:24]) for r in who) else NO_PREC_BLOCK
    return element(5, body)


# ---------------------------------------------------------------- trim element (5.5.12)

def config_(default, disable, presence, centre, surround, height, *balances):
    if default or disable:
        return DEFAULT_TRIM if default else DISABLE_TRIM
    has = lambda bit, value: value if presence & bit else None
    return config(has(1, centre), has(2, surround), has(4, height), has(8, balances[:2]), has(16, balances[2:]))


def trim_element(trim):
    """Nothing is left to choose but the reserved bits: 0.  Configurations are sent in mode 2 alone."""
    configs = [config_(*trim[i:i + 10]) for i in range(3, 93, 10)] if trim[2] == 2 else []
    return element(2, [modes(trim[1], trim[2]), configs, object_trims(trim[94:] if trim[93] else None)])


def form(q, timing_, records, trim):
    elements = [object_element(timing_, records)] if timing_ else []
    if any(any(r[17:24]) for r in records):
        elements.append(extended_element(records))
    if trim[0]:
        elements.append(trim_element(trim))
    return flat([version(), counted(count_, q.objects - 1), assignment(q), tail(len(elements)), elements])
