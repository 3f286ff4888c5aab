"""Helpers for the OAMD test vectors.  Nothing in here reads a payload.

A payload is written as a (nested) list of tuples (field name of ETSI TS 103 420 clause 5.5, width, value).
Every helper below returns such a list.  HERE marks the bit at which a refusal is expected; the place printed
in the expected text is a literal counted by hand, and `vector` only compares it with the mark (second count).
"""

HERE = ("<HERE>", 0, 0)

# Widths as printed in clause 5.5 (a second entry of each width: `vector` compares every tuple with this table).
WIDTHS = {
    # 5.5.1
    "size read": 4, "size b_read_more": 1,
    # 5.5.2
    "oa_md_version_bits": 2, "oa_md_version_bits_ext": 3, "object_count_bits": 5, "object_count_bits_ext": 7,
    "b_alternate_object_data_present": 1, "oa_element_count_bits": 4, "oa_element_count_bits_ext": 5,
    # 5.5.3
    "b_dyn_object_only_program": 1, "b_lfe_present": 1, "content_description[]": 4, "b_bed_chan_distribute": 1,
    "b_multiple_bed_instances_present": 1, "num_bed_instances_bits": 3, "b_lfe_only": 1,
    "b_standard_chan_assign": 1, "bed_channel_assignment[]": 10, "nonstd_bed_channel_assignment[]": 17,
    "intermediate_spatial_format_idx": 3, "num_dynamic_objects_bits": 5, "num_dynamic_objects_bits_ext": 7,
    "reserved_data_size_bits": 4,
    # 5.5.4
    "oa_element_id_idx": 4, "alternate_object_data_id_idx": 4, "b_discard_unknown_element": 1,
    # 5.5.5
    "b_reserved_data_not_present": 1, "reserved": 5,
    # 5.5.6, 5.5.7
    "sample_offset_code": 2, "sample_offset_idx": 2, "sample_offset_bits": 5, "num_obj_info_blocks_bits": 3,
    "block_offset_factor_bits": 6, "ramp_duration_code": 2, "b_use_ramp_duration_idx": 1, "ramp_duration_idx": 4,
    "ramp_duration_bits": 11,
    # 5.5.9
    "b_object_not_active": 1, "object_basic_info_status_idx": 2, "object_render_info_status_idx": 2,
    "b_additional_table_data_exists": 1, "additional_table_data_size_bits": 4,
    # 5.5.10
    "object_basic_info[]": 2, "object_gain_idx": 2, "object_gain_bits": 6, "b_default_object_priority": 1,
    "object_priority_bits": 5,
    # 5.5.11
    "obj_render_info[]": 4, "b_differential_position_specified": 1, "diff_pos3D_X_bits": 3, "diff_pos3D_Y_bits": 3,
    "diff_pos3D_Z_bits": 3, "pos3D_X_bits": 6, "pos3D_Y_bits": 6, "pos3D_Z_sign_bits": 1, "pos3D_Z_bits": 4,
    "b_object_distance_specified": 1, "b_object_at_infinity": 1, "distance_factor_idx": 4,
    "zone_constraints_idx": 3, "b_enable_elevation": 1, "object_size_idx": 2, "object_size_bits": 5,
    "object_width_bits": 5, "object_depth_bits": 5, "object_height_bits": 5, "b_object_use_screen_ref": 1,
    "screen_factor_bits": 3, "depth_factor_idx": 2, "b_object_snap": 1,
    # 5.5.12; the reserved bits have the name of those of 5.5.5 there
    "warp_mode": 2, "reserved of trim": 2, "global_trim_mode": 2, "b_default_trim": 1, "b_disable_trim": 1,
    "trim_balance_presence[]": 5, "trim_centre": 4, "trim_surround": 4, "trim_height": 4, "bal3D_Y_sign_tb_code": 1,
    "bal3D_Y_amount_tb": 4, "bal3D_Y_sign_lis_code": 1, "bal3D_Y_amount_lis": 4, "b_disable_trim_per_obj": 1,
    # 5.5.13 to 5.5.15
    "b_obj_div_block": 1, "b_object_divergence": 1, "object_div_mode": 2, "object_div_table": 2,
    "object_div_code": 6, "b_ext_prec_pos_block": 1, "b_ext_prec_pos": 1, "ext_prec_pos_presence[]": 3,
    "ext_prec_pos3D_X": 2, "ext_prec_pos3D_Y": 2, "ext_prec_pos3D_Z": 2,
}
# Of any width: runs of reserved or additional data, padding, the inside of unknown elements.
FREE = {"reserved_data", "additional_table_data", "padding", "inside of unknown element", "<HERE>"}


def flat(items):
    """Nested lists of tuples to one list of tuples."""
    out = []
    for it in items:
        if isinstance(it, tuple):
            out.append(it)
        else:
            out.extend(flat(it))
    return out


def width(items):
    return sum(w for _, w, _ in flat(items))


def ones(n):
    return (1 << n) - 1


# ---------------------------------------------------------------- header and program assignment (5.5.2, 5.5.3)

def version(v=0):
    return [("oa_md_version_bits", 2, v)]


def count_(bits, ext=None):
    """object_count_bits as sent (objects - 1), with its extension if given."""
    r = [("object_count_bits", 5, bits)]
    if ext is not None:
        r.append(("object_count_bits_ext", 7, ext))
    return r


def dyn_only(lfe=0):
    return [("b_dyn_object_only_program", 1, 1), ("b_lfe_present", 1, lfe)]


def content(reserved=0, dynamic=0, isf=0, bed=0):
    """b_dyn_object_only_program = 0 and content_description, sent index 0 (reserved) first, index 3 (bed) last."""
    return [("b_dyn_object_only_program", 1, 0),
            ("content_description[]", 4, 8 * reserved + 4 * dynamic + 2 * isf + bed)]


LFE_ONLY = [("b_lfe_only", 1, 1)]


def std_bed(flags):
    return [("b_lfe_only", 1, 0), ("b_standard_chan_assign", 1, 1), ("bed_channel_assignment[]", 10, flags)]


def nonstd_bed(flags):
    return [("b_lfe_only", 1, 0), ("b_standard_chan_assign", 1, 0), ("nonstd_bed_channel_assignment[]", 17, flags)]


def one_bed(bed, distribute=0):
    return [("b_bed_chan_distribute", 1, distribute), ("b_multiple_bed_instances_present", 1, 0), bed]


def many_beds(beds, distribute=0):
    """num_bed_instances_bits is the number of beds minus 2."""
    return [("b_bed_chan_distribute", 1, distribute), ("b_multiple_bed_instances_present", 1, 1),
            ("num_bed_instances_bits", 3, len(beds) - 2), beds]


def isf_(idx):
    return [("intermediate_spatial_format_idx", 3, idx)]


def dyn_(bits, ext=None):
    """num_dynamic_objects_bits as sent (dynamic objects - 1)."""
    r = [("num_dynamic_objects_bits", 5, bits)]
    if ext is not None:
        r.append(("num_dynamic_objects_bits_ext", 7, ext))
    return r


def reserved_content(size_bits, value=0):
    n = 8 * (size_bits + 1)
    return [("reserved_data_size_bits", 4, size_bits), ("reserved_data", n, value)]


def tail(elements, alt=0, ext=None):
    """alternate flag and oa_element_count_bits as sent."""
    r = [("b_alternate_object_data_present", 1, alt), ("oa_element_count_bits", 4, elements)]
    if ext is not None:
        r.append(("oa_element_count_bits_ext", 5, ext))
    return r


def dyn_header(objects, elements, lfe=0, alt=0):
    """Header of a program of dynamic objects only, up to 31 objects and 14 elements: 2+5+1+1+1+4 = 14 bits."""
    assert 1 <= objects <= 31 and 0 <= elements <= 14
    return [version(), count_(objects - 1), dyn_only(lfe), tail(elements, alt)]


# ---------------------------------------------------------------- elements (5.5.1, 5.5.4)

def groups(*pairs):
    """Size groups written out: (digit, flag for more) each."""
    r = []
    for digit, more in pairs:
        r += [("size read", 4, digit), ("size b_read_more", 1, more)]
    return r


def size_groups(v):
    """Size groups of a value: one group to 15, two to 271 (offset 16), three to 4,367 (offset 272), four from there
    (offset 4,368)."""
    if v < 16:
        return groups((v, 0))
    if v < 272:
        v -= 16
        return groups((v >> 4, 1), (v & 15, 0))
    if v < 4368:
        v -= 272
        return groups((v >> 8, 1), (v >> 4 & 15, 1), (v & 15, 0))
    assert v < 69904
    v -= 4368
    return groups((v >> 12, 1), (v >> 8 & 15, 1), (v >> 4 & 15, 1), (v & 15, 0))


def element(id_, body, alt=None, discard=0, bytes_=None, pad=0, sizes=None):
    """One element.  The declared size counts from the alternate id (or the discard flag).
    bytes_ None: the fewest bytes that hold the body; else declared as given (a body that is longer is kept in
    place and runs past the declared end).  pad: value of every padding bit.  sizes: size groups written out."""
    front = [("alternate_object_data_id_idx", 4, alt)] if alt is not None else []
    front.append(("b_discard_unknown_element", 1, discard))
    used = width(front) + width(body)
    if bytes_ is None:
        bytes_ = (used + 7) // 8
    r = [("oa_element_id_idx", 4, id_), sizes if sizes is not None else size_groups(bytes_ - 1), front, body]
    left = 8 * bytes_ - used
    if left > 0:
        r.append(("padding", left, ones(left) if pad else 0))
    return r


def unknown(id_, bytes_=1, alt=None, discard=0, fill=0, sizes=None):
    """An element that is passed over; fill 0 or 1 is the value of every bit after the discard flag."""
    n = 8 * bytes_ - 1 - (4 if alt is not None else 0)
    return element(id_, [("inside of unknown element", n, ones(n) if fill else 0)],
                   alt=alt, discard=discard, bytes_=bytes_, sizes=sizes)


# ---------------------------------------------------------------- object element (5.5.5 to 5.5.11)

OFF0 = [("sample_offset_code", 2, 0)]


def off_idx(i):
    return [("sample_offset_code", 2, 1), ("sample_offset_idx", 2, i)]


def off_bits(n):
    return [("sample_offset_code", 2, 2), ("sample_offset_bits", 5, n)]


def ramp(factor, code):
    return [("block_offset_factor_bits", 6, factor), ("ramp_duration_code", 2, code)]


def ramp_idx(factor, idx):
    return [ramp(factor, 3), ("b_use_ramp_duration_idx", 1, 1), ("ramp_duration_idx", 4, idx)]


def ramp_bits(factor, bits):
    return [ramp(factor, 3), ("b_use_ramp_duration_idx", 1, 0), ("ramp_duration_bits", 11, bits)]


NO_RESERVED = [("b_reserved_data_not_present", 1, 1)]


def with_reserved(v):
    return [("b_reserved_data_not_present", 1, 0), ("reserved", 5, v)]


def timing(offset, blocks, reserved=NO_RESERVED):
    return [offset, ("num_obj_info_blocks_bits", 3, len(blocks) - 1), blocks, reserved]


# Timing of n blocks with sample offset 0, factors 0 to n-1 and ramp code 0: starts 0, 32, 64, ... and ramps 0.
def plain_timing(n):
    return timing(OFF0, [ramp(i, 0) for i in range(n)])


NO_ADD = [("b_additional_table_data_exists", 1, 0)]


def add_data(size_bits, value):
    return [("b_additional_table_data_exists", 1, 1), ("additional_table_data_size_bits", 4, size_bits),
            ("additional_table_data", 8 * (size_bits + 1), value)]


def inactive(add=NO_ADD):
    return [("b_object_not_active", 1, 1), add]


def gain(idx, bits=None):
    r = [("object_gain_idx", 2, idx)]
    if bits is not None:
        r.append(("object_gain_bits", 6, bits))
    return r


PRIO_DEFAULT = [("b_default_object_priority", 1, 1)]


def prio(bits):
    return [("b_default_object_priority", 1, 0), ("object_priority_bits", 5, bits)]


NO_DIST = [("b_object_distance_specified", 1, 0)]
INFINITY = [("b_object_distance_specified", 1, 1), ("b_object_at_infinity", 1, 1)]


def dist(idx):
    return [("b_object_distance_specified", 1, 1), ("b_object_at_infinity", 1, 0), ("distance_factor_idx", 4, idx)]


def xyz(x, y, sign, z):
    return [("pos3D_X_bits", 6, x), ("pos3D_Y_bits", 6, y), ("pos3D_Z_sign_bits", 1, sign), ("pos3D_Z_bits", 4, z)]


def at(x, y, sign, z):
    """Position of a block after block 0, absolute: the flag b_differential_position_specified is sent (0)."""
    return [("b_differential_position_specified", 1, 0), xyz(x, y, sign, z)]


def move(dx, dy, dz):
    """Position of a block after block 0, moved: two's complement of 3 bits, -4 to 3."""
    assert all(-4 <= d <= 3 for d in (dx, dy, dz))
    return [("b_differential_position_specified", 1, 1), ("diff_pos3D_X_bits", 3, dx % 8),
            ("diff_pos3D_Y_bits", 3, dy % 8), ("diff_pos3D_Z_bits", 3, dz % 8)]


def zone(idx, elevation=1):
    return [("zone_constraints_idx", 3, idx), ("b_enable_elevation", 1, elevation)]


SIZE0 = [("object_size_idx", 2, 0)]


def size1(bits):
    return [("object_size_idx", 2, 1), ("object_size_bits", 5, bits)]


def size2(w, d, h):
    return [("object_size_idx", 2, 2), ("object_width_bits", 5, w), ("object_depth_bits", 5, d),
            ("object_height_bits", 5, h)]


NO_SCREEN = [("b_object_use_screen_ref", 1, 0)]


def screen(factor, depth):
    return [("b_object_use_screen_ref", 1, 1), ("screen_factor_bits", 3, factor), ("depth_factor_idx", 2, depth)]


def snap(b):
    return [("b_object_snap", 1, b)]


def render(position, distance=NO_DIST, zones=None, size=SIZE0, scr=NO_SCREEN, snaps=0):
    """The fields of object_render_info of full status, in the order of 5.5.11."""
    return [position, distance, zones if zones is not None else zone(0, 1), size, scr, snap(snaps)]


def block0(gain_, prio_, render_=None, add=NO_ADD):
    """Active block 0: both statuses are full and not sent.  render_ None for bed and ISF objects."""
    return [("b_object_not_active", 1, 0), gain_, prio_, render_ if render_ is not None else [], add]


def block(basic_status, basic, render_status=None, render_=(), add=NO_ADD):
    """Active block after block 0.  render_status None for bed and ISF objects (not sent)."""
    r = [("b_object_not_active", 1, 0), ("object_basic_info_status_idx", 2, basic_status), list(basic)]
    if render_status is not None:
        r += [("object_render_info_status_idx", 2, render_status), list(render_)]
    return r + [add]


def mixed_basic(priority=None, gain_=None):
    """object_basic_info[] sent priority (index 0), gain (index 1); then gain before priority (5.5.10)."""
    return [("object_basic_info[]", 2, 2 * (priority is not None) + (gain_ is not None)),
            gain_ if gain_ is not None else [], priority if priority is not None else []]


def mixed_render(snaps, position=None, zones=None, size=None, scr=None):
    """obj_render_info[] sent screen (0), size (1), zone (2), position (3); groups follow in the order position
    (with its distance), zone, size, screen; snap is always sent."""
    flags = 8 * (scr is not None) + 4 * (size is not None) + 2 * (zones is not None) + (position is not None)
    return [("obj_render_info[]", 4, flags), position or [], zones or [], size or [], scr or [], snap(snaps)]


# ---------------------------------------------------------------- extended object element (5.5.13 to 5.5.15)

DIV_BLOCK = [("b_obj_div_block", 1, 1)]
NO_DIV_BLOCK = [("b_obj_div_block", 1, 0)]
PREC_BLOCK = [("b_ext_prec_pos_block", 1, 1)]
NO_PREC_BLOCK = [("b_ext_prec_pos_block", 1, 0)]
NO_DIV = [("b_object_divergence", 1, 0)]
NO_PREC = [("b_ext_prec_pos", 1, 0)]


def div_table(t):
    return [("b_object_divergence", 1, 1), ("object_div_mode", 2, 0), ("object_div_table", 2, t)]


DIV_REUSE = [("b_object_divergence", 1, 1), ("object_div_mode", 2, 1)]


def div_code(c):
    return [("b_object_divergence", 1, 1), ("object_div_mode", 2, 2), ("object_div_code", 6, c)]


def prec(x=None, y=None, z=None):
    """ext_prec_pos_presence[] sent z (0), y (1), x (2); the codes follow in the order x, y, z."""
    r = [("b_ext_prec_pos", 1, 1),
         ("ext_prec_pos_presence[]", 3, 4 * (z is not None) + 2 * (y is not None) + (x is not None))]
    for name, v in (("X", x), ("Y", y), ("Z", z)):
        if v is not None:
            r.append(("ext_prec_pos3D_" + name, 2, v))
    return r


# ---------------------------------------------------------------- trim element (5.5.12)

def modes(warp, global_, reserved=0):
    return [("warp_mode", 2, warp), ("reserved of trim", 2, reserved), ("global_trim_mode", 2, global_)]


DEFAULT_TRIM = [("b_default_trim", 1, 1)]
DISABLE_TRIM = [("b_default_trim", 1, 0), ("b_disable_trim", 1, 1)]


def given_trim(presence):
    """The start of a configuration that is neither default nor disabled."""
    return [("b_default_trim", 1, 0), ("b_disable_trim", 1, 0), ("trim_balance_presence[]", 5, presence)]


def balance(plane, sign, amount):
    return [("bal3D_Y_sign_%s_code" % plane, 1, sign), ("bal3D_Y_amount_%s" % plane, 4, amount)]


def config(centre=None, surround=None, height=None, tb=None, lis=None):
    """trim_balance_presence[] sent lis (0), tb (1), height (2), surround (3), centre (4); the values follow in the order centre,
    surround, height, tb, lis.  tb and lis are pairs of sign code and amount."""
    r = given_trim(16 * (lis is not None) + 8 * (tb is not None) + 4 * (height is not None) + 2 * (surround is not None)
                   + (centre is not None))
    r += [("trim_centre", 4, centre)] if centre is not None else []
    r += [("trim_surround", 4, surround)] if surround is not None else []
    r += [("trim_height", 4, height)] if height is not None else []
    r += balance("tb", *tb) if tb is not None else []
    return r + (balance("lis", *lis) if lis is not None else [])


def object_trims(flags):
    """b_disable_trim_per_obj, and the flags of the objects if they are sent."""
    if flags is None:
        return [("b_disable_trim_per_obj", 1, 0)]
    return [("b_disable_trim_per_obj", 1, 1)] + [("b_disable_trim", 1, f) for f in flags]


# ---------------------------------------------------------------- expected text

def rec(active, class_, gain=0, prio=0, x=31, y=31, z=64, dist=0, w=0, d=0, h=0, zone=0, elev=1,
        scr=0, sf=0, df=0, snap=0, div=0, mode=0, dval=0, pres=0, ex=0, ey=0, ez=0):
    """The 24 bytes that a payload gives a record as 48 hex digits, byte values as they stand in the record (gain: dB + 50,
    z: numerator + 64, dist: 0, 1 or 2 + index).  The time is not among them: `timed`.  The keyword defaults are those of Tables 28 and 29:
    gain minus infinity (0), priority 0, x = y = 0,5 (31 of 62), z = 0 (64), no distance, sizes 0, zone 0,
    elevation true, no screen, no snap; and 0 for what is not carried (bytes 17 to 23)."""
    return bytes([active, class_, gain, prio, x, y, z, dist, w, d, h, zone, elev, scr, sf, df, snap,
                  div, mode, dval, pres, ex, ey, ez]).hex()


def R(obj, blk, *a, **k):
    return "record=%d,%d,%s" % (obj, blk, rec(*a, **k))


def C(default=0, disable=0, pres=0, centre=0, surround=0, height=0, tb=(0, 0), lis=(0, 0)):
    """The ten bytes of a configuration as they stand in the trim table; what is not carried is 0."""
    return [default, disable, pres, centre, surround, height, *tb, *lis]


def T(objects, warp, mode, configs=(), flags=None):
    """the trim table where there is a trim element: 94 + objects bytes.  configs: nine C(), or none if they are
    not carried; flags: those of the objects, None if they are not carried."""
    assert len(configs) in (0, 9) and (flags is None or len(flags) == objects)
    rows = [b for c in configs for b in c] or [0] * 90
    return bytes([1, warp, mode] + rows + ([0] * (1 + objects) if flags is None else [1] + list(flags)))


def lines(*parts):
    """Expected text: each word of each part is one line of the listing."""
    return [word for p in parts for word in (p.split() if isinstance(p, str) else p)]


def timed(expected):
    """The expected text with the time of each record behind its 48 digits: bytes 24 to 31 hold 1,536 times the frame number,
    which is 0 here, plus the start of the record's block, least byte first."""
    starts = [int(line.split(",")[1]) for line in expected if line.startswith("block=")]
    return [line + starts[int(line.split(",")[1])].to_bytes(8, "little").hex() if line.startswith("record=") else line
            for line in expected]


class refused(list):
    """The lines of a refusal, but for the missing bits.  field: of a payload that ends right before a field, the name of that
    field; a run of data has its width too."""

    def __init__(self, no, place, field=None):
        super().__init__(["refusal=%d" % no, "place=%d" % place])
        self.field = (field, WIDTHS[field]) if isinstance(field, str) else field


def size_at(fields, i):
    """The value of the size whose first group is field i, and the number of its bits (5.5.1)."""
    value, groups_ = fields[i][2], 1
    while groups_ < 5 and fields[i + 2 * groups_ - 1][2]:
        value = value * 16 + 16 + fields[i + 2 * groups_][2]
        groups_ += 1
    return value, 5 * groups_


def missing(fields, place, end, field=None):
    """How many bits the field at a place lacks; of a size that is there, how many its declared bytes lack, which begin behind it."""
    if field is not None:
        return place + field[1] - end
    fields, pos = [f for f in fields if f[1]], 0
    for i, (name, w, _) in enumerate(fields):
        if pos == place:
            if name == "size read" and place + w <= end:
                value, used = size_at(fields, i)
                return place + used + 8 * (value + 1) - end
            return place + w - end
        pos += w
    raise AssertionError(("no field begins there", place))


# ---------------------------------------------------------------- the list of vectors

VECTORS = []


class Vector:
    pass


def pack(fields, padbit):
    bits = ""
    for name, w, v in fields:
        assert name in FREE or WIDTHS.get(name) == w, ("width", name, w)
        assert w >= 0 and 0 <= v < (1 << w) or (w == 0 and v == 0), ("value", name, w, v)
        bits += format(v, "0%db" % w) if w else ""
    n = len(bits)
    bits += ("1" if padbit else "0") * (-n % 8)
    return bytes(int(bits[i:i + 8], 2) for i in range(0, len(bits), 8)), n


def vector(name, exercises, how, payload, expected, pad=0, extra=b"", cut=None, trim=None, whole=None, times=None):
    """payload: bytes, or a list of tuples, filled up to a byte with bits of value `pad`, then `extra` bytes,
    then only the first `cut` bytes of it if cut is given.  trim: the trim table, None if there is no trim element.  whole: the
    fields of the payload from which bytes were cut.  times: of one object, the digits of each record's time, by hand."""
    v = Vector()
    v.name, v.exercises, v.how, v.expected, v.trim = name, exercises, how, expected, trim
    assert all(name != o.name for o in VECTORS), ("name twice", name)
    if isinstance(payload, bytes):
        v.fields, v.bytes, v.used = None, payload, None
    else:
        v.fields = flat(payload)
        v.bytes, v.used = pack(v.fields, pad)
    v.bytes += extra
    v.whole = len(v.bytes)
    if cut is not None:
        assert cut < len(v.bytes), ("cut", name)
        v.bytes = v.bytes[:cut]
    check(v)
    if expected[0] == "refusal=2":
        lacks = missing(v.fields or whole, int(expected[1].removeprefix("place=")), 8 * len(v.bytes), expected.field)
        assert lacks >= 1, ("missing", name, lacks)
        v.expected = expected + ["missing=%d" % lacks]
    if expected[0] == "refusal=0":
        v.expected = timed(expected)
    if times is not None:
        assert [line[-16:] for line in v.expected if line.startswith("record=")] == times, ("times", name)
    VECTORS.append(v)


def check(v):
    """Slips in the expected text: order and number of lines, sums, and the hand-counted place against HERE."""
    e, n = v.expected, v.name
    assert len(v.bytes) <= 4097, n
    no, place = int(e[0].removeprefix("refusal=")), int(e[1].removeprefix("place="))
    if v.fields is not None:
        marks, pos = [], 0
        for name, w, _ in v.fields:
            if name == "<HERE>":
                marks.append(pos)
            pos += w
        v.marks = marks
        if no in (2, 4, 5, 6, 7, 8):
            assert marks == [place], ("place", n, marks, place)
        else:
            assert marks == [], n
    if no:
        assert len(e) == 2 and no in (1, 2, 3, 4, 5, 6, 7, 8) and v.trim is None, n
        assert no != 3 or place == 0
        assert no != 1 or place == len(v.bytes)
        return
    keys = ["refusal", "place", "objects", "bed", "isf", "dynamic", "blocks", "unknown"]
    assert [x.split("=")[0] for x in e[:8]] == keys and place == 0, n
    o, b, i, d, k, u = (int(x.split("=")[1]) for x in e[2:8])
    assert o == b + i + d and 1 <= o <= 159 and 0 <= k <= 8 and 0 <= u <= 46, n
    assert v.trim is None or len(v.trim) == 94 + o and v.trim[0] == 1, n
    assert len(e) == 8 + k + o * k, (n, len(e))
    for j in range(k):
        assert e[8 + j].startswith("block=%d," % j) and e[8 + j].count(",") == 2, n
        start, rmp = map(int, e[8 + j].split(",")[1:])
        assert 0 <= start <= 2047 and 0 <= rmp <= 2048, n
    at_ = 8 + k
    for oo in range(o):
        cls = 0 if oo < b else 1 if oo < b + i else 2
        for kk in range(k):
            head, hexa = e[at_].rsplit(",", 1)
            assert head == "record=%d,%d" % (oo, kk), (n, e[at_])
            assert len(hexa) == 48 and set(hexa) <= set("0123456789abcdef"), n
            assert int(hexa[2:4], 16) == cls, ("class", n, e[at_])
            at_ += 1
