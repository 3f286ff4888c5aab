"""Written forms derived by hand, bit by bit, from the tables of a vector and docs/DECISIONS.md, "The written form"; and trim tables
derived by hand, byte by byte, from the fields of a vector and docs/DECISIONS.md, "The trim element".

`hand` takes the vector's name, what its form shows, the fields in the order of clause 5.5 (a line for each part, `N x` before
a part that stands N times), and the bytes.  The bits were all derived by hand; the bytes of the forms above 17 bytes were
packed from those bits.  `check_hand` holds them against each other and against form.py.  `hand_table` takes the vector's name and a
line for each part of the table: its bytes, and the fields that give them; `check_tables` holds them against the vector.
"""
from helpers import *

HAND = []
TABLES = []


def hand(name, shows, text, hexa):
    HAND.append((name, shows, [x.strip() for x in text.strip().split("\n")], "".join(hexa.split())))


def hand_table(name, text):
    TABLES.append((name, [x.strip() for x in text.strip().split("\n")]))


def check_tables(trim_of):
    """trim_of: name of a vector to its trim table."""
    for name, lines_ in TABLES:
        hexa = "".join(line.split(": ", 1)[1].split("; ")[0] for line in lines_)
        assert bytes.fromhex(hexa) == trim_of(name), ("trim table", name)


def bits_of(lines_):
    """The fields of the lines as (name, bits)."""
    out = []
    for line in lines_:
        label, text = line.split(": ", 1)
        times = int(label.split(" x ")[0]) if " x " in label else 1
        out += [tuple(f.rsplit(" ", 1)) for f in text.split(", ")] * times
    return out


def check_hand(form_of):
    """form_of: name of a vector to the fields that form.py gives."""
    for name, _, lines_, hexa in HAND:
        mine = bits_of(lines_)
        bits = "".join(b for _, b in mine)
        assert len(bits) % 8 == 0 and len(bits) // 4 == len(hexa) and int(bits, 2) == int(hexa, 16), ("bytes", name)
        theirs = [(n, format(v, "0%db" % w)) for n, w, v in form_of(name)]
        total = sum(len(b) for _, b in theirs)
        theirs += [("padding of the payload", "0" * (-total % 8))] if total % 8 else []
        assert mine == theirs, ("form", name, [p for p in zip(mine, theirs) if p[0] != p[1]][:1])


# Parts that stand in several forms below.  One header: dynamic objects only, 14 bits; count, LFE flag and elements vary.
def header(count, lfe, elements):
    return ("header: oa_md_version_bits 00, object_count_bits %s, b_dyn_object_only_program 1, b_lfe_present %s, "
            "b_alternate_object_data_present 0, oa_element_count_bits %s" % (count, lfe, elements))


# One block that starts at 0 with ramp 0: 2 + 3 + 6 + 2 + 1 = 14 bits.
TIMING1 = ("timing: sample_offset_code 00, num_obj_info_blocks_bits 000, block_offset_factor_bits 000000, ramp_duration_code 00, "
           "b_reserved_data_not_present 1")
INACTIVE = "b_object_not_active 1, b_additional_table_data_exists 0"
# Basic info of 0 dB and default priority (3 bits), position 31, 31, 0 (17 bits), then everything plain to the end of the block.
ZERO_DB = "b_object_not_active 0, object_gain_idx 00, b_default_object_priority 1"
CENTRE = "pos3D_X_bits 011111, pos3D_Y_bits 011111, pos3D_Z_sign_bits 0, pos3D_Z_bits 0000"
NO_DISTANCE = "b_object_distance_specified 0"
ZONE0 = "zone_constraints_idx 000, b_enable_elevation 1"
END = "b_object_use_screen_ref 0, b_object_snap 0, b_additional_table_data_exists 0"
PLAIN = ", ".join([ZERO_DB, CENTRE, NO_DISTANCE, ZONE0, "object_size_idx 00", END])          # 31 bits
# The same in a block after block 0: both statuses full (01), and the position is not a difference: 36 bits.
LATER = "b_object_not_active 0, object_basic_info_status_idx 01"
FULL = "object_render_info_status_idx 01, b_differential_position_specified 0"

# ------------------------------------------------------------------------------- header

hand("example", "no blocks: no element at all; the unknown element is not written; two padding bits of the payload",
     header("00000", "0", "0000") + "\nend: padding of the payload 00", "0100")
hand("count-32", "object count 31 + 0 + 1 with its extension", """
     header: oa_md_version_bits 00, object_count_bits 11111, object_count_bits_ext 0000000, b_dyn_object_only_program 1, b_lfe_present 0, b_alternate_object_data_present 0, oa_element_count_bits 0000
     end: padding of the payload 000""", "3e0200")
hand("bed-lfe-only", "a bed of the LFE alone: no assignment; the distribute flag as carried", """
     header: oa_md_version_bits 00, object_count_bits 00000
     programme: b_dyn_object_only_program 0, content_description[] 0001, b_bed_chan_distribute 1, b_multiple_bed_instances_present 0, b_lfe_only 1
     elements: b_alternate_object_data_present 0, oa_element_count_bits 0000
     end: padding of the payload 0000""", "001a00")
hand("beds-three-kinds", "three beds: non-standard, standard, LFE only", """
     header: oa_md_version_bits 00, object_count_bits 00110
     programme: b_dyn_object_only_program 0, content_description[] 0001, b_bed_chan_distribute 0, b_multiple_bed_instances_present 1, num_bed_instances_bits 001
     bed 0: b_lfe_only 0, b_standard_chan_assign 0, nonstd_bed_channel_assignment[] 11100000000000000
     bed 1: b_lfe_only 0, b_standard_chan_assign 1, bed_channel_assignment[] 0000000011
     bed 2: b_lfe_only 1
     elements: b_alternate_object_data_present 0, oa_element_count_bits 0000
     end: padding of the payload 00""", "0c149c00040380")
hand("bed-isf-dynamic", "a standard bed, ISF and dynamic objects in one programme", """
     header: oa_md_version_bits 00, object_count_bits 10000
     programme: b_dyn_object_only_program 0, content_description[] 0111, b_bed_chan_distribute 0, b_multiple_bed_instances_present 0
     bed 0: b_lfe_only 0, b_standard_chan_assign 1, bed_channel_assignment[] 0000001111
     others: intermediate_spatial_format_idx 001, num_dynamic_objects_bits 00010
     elements: b_alternate_object_data_present 0, oa_element_count_bits 0000
     end: padding of the payload 0""", "207103c880")
hand("dynamic-32", "dynamic count 31 + 0 + 1 with its extension", """
     header: oa_md_version_bits 00, object_count_bits 11111, object_count_bits_ext 0000000
     programme: b_dyn_object_only_program 0, content_description[] 0100, num_dynamic_objects_bits 11111, num_dynamic_objects_bits_ext 0000000
     elements: b_alternate_object_data_present 0, oa_element_count_bits 0000
     end: padding of the payload 0000""", "3e009f0000")

# ------------------------------------------------------------------------------- timing

# 1 + 14 + 2 = 17 bits: 3 bytes, size 2.
hand("padding-ones", "padding of zeros where ones were read; discard flags clear; the extended element absent; an inactive object",
     header("00000", "0", "0001") + """
     element: oa_element_id_idx 0001, size read 0010, size b_read_more 0, b_discard_unknown_element 0
     """ + TIMING1 + """
     object 0: """ + INACTIVE + """
     end: padding 0000000, padding of the payload 0""", "010448000600")
# Starts 24 and 24 + 32 x 10: offset 24 = 11000.  1 + 2 + 5 + 3 + 2 x 8 + 1 + 2 x 2 = 32 bits: 4 bytes, size 3.
hand("offset-idx-3", "sample offset 24 by code 2, though it was read by code 1; two blocks; no padding in the element",
     header("00000", "0", "0001") + """
     element: oa_element_id_idx 0001, size read 0011, size b_read_more 0, b_discard_unknown_element 0
     timing: sample_offset_code 10, sample_offset_bits 11000, num_obj_info_blocks_bits 001
     block 0: block_offset_factor_bits 000000, ramp_duration_code 00
     block 1: block_offset_factor_bits 001010, ramp_duration_code 00
     timing: b_reserved_data_not_present 1
     2 x object 0: """ + INACTIVE + """
     end: padding of the payload 0""", "01044cb0400a34")
hand("offset-bits-0", "sample offset 0 by code 0, though it was read by code 2",
     header("00000", "0", "0001") + """
     element: oa_element_id_idx 0001, size read 0010, size b_read_more 0, b_discard_unknown_element 0
     timing: sample_offset_code 00, num_obj_info_blocks_bits 000, block_offset_factor_bits 000001, ramp_duration_code 00, b_reserved_data_not_present 1
     object 0: """ + INACTIVE + """
     end: padding 0000000, padding of the payload 0""", "010448002600")
# 1 + 2 + 3 + 3 x 8 + 1 + 3 x 2 = 37 bits: 5 bytes, size 4.
hand("ramp-codes", "ramps 0, 512, 1536 by codes 0, 1, 2",
     header("00000", "0", "0001") + """
     element: oa_element_id_idx 0001, size read 0100, size b_read_more 0, b_discard_unknown_element 0
     timing: sample_offset_code 00, num_obj_info_blocks_bits 010
     block 0: block_offset_factor_bits 000000, ramp_duration_code 00
     block 1: block_offset_factor_bits 000001, ramp_duration_code 01
     block 2: block_offset_factor_bits 000010, ramp_duration_code 10
     timing: b_reserved_data_not_present 1
     3 x object 0: """ + INACTIVE + """
     end: padding 000, padding of the payload 0""", "01045010002856a0")
# 1 + 2 + 3 + 8 + 3 x 20 + 13 + 8 + 1 + 6 x 2 = 108 bits: 14 bytes, size 13.
hand("ramp-bits", "ramp 0 by code 0, though it was read from 11 bits; 1, 1024, 2047 by 11 bits; 2048 by index 15; 1536 by code 2",
     header("00000", "0", "0001") + """
     element: oa_element_id_idx 0001, size read 1101, size b_read_more 0, b_discard_unknown_element 0
     timing: sample_offset_code 00, num_obj_info_blocks_bits 101
     block 0: block_offset_factor_bits 000000, ramp_duration_code 00
     block 1: block_offset_factor_bits 000001, ramp_duration_code 11, b_use_ramp_duration_idx 0, ramp_duration_bits 00000000001
     block 2: block_offset_factor_bits 000010, ramp_duration_code 11, b_use_ramp_duration_idx 0, ramp_duration_bits 10000000000
     block 3: block_offset_factor_bits 000011, ramp_duration_code 11, b_use_ramp_duration_idx 0, ramp_duration_bits 11111111111
     block 4: block_offset_factor_bits 000100, ramp_duration_code 11, b_use_ramp_duration_idx 1, ramp_duration_idx 1111
     block 5: block_offset_factor_bits 000101, ramp_duration_code 10
     timing: b_reserved_data_not_present 1
     6 x object 0: """ + INACTIVE + """
     end: padding 0000, padding of the payload 0""", "01047428003800 85a0007bff89fc5b5540")
# 1 + 2 + 3 + 7 x 20 + 13 + 1 + 8 x 2 = 176 bits: 22 bytes, size 21 = 16 + 5: groups 0, 5.
hand("ramp-idx-8-to-15", "ramps of the table by 11 bits, though an index would be shorter; 2048 alone by its index; two size groups",
     header("00000", "0", "0001") + """
     element: oa_element_id_idx 0001, size read 0000, size b_read_more 1, size read 0101, size b_read_more 0, b_discard_unknown_element 0
     timing: sample_offset_code 00, num_obj_info_blocks_bits 111
     block 0: block_offset_factor_bits 001000, ramp_duration_code 11, b_use_ramp_duration_idx 0, ramp_duration_bits 10000000000
     block 1: block_offset_factor_bits 001001, ramp_duration_code 11, b_use_ramp_duration_idx 0, ramp_duration_bits 11001000000
     block 2: block_offset_factor_bits 001010, ramp_duration_code 11, b_use_ramp_duration_idx 0, ramp_duration_bits 11001000001
     block 3: block_offset_factor_bits 001011, ramp_duration_code 11, b_use_ramp_duration_idx 0, ramp_duration_bits 11001000010
     block 4: block_offset_factor_bits 001100, ramp_duration_code 11, b_use_ramp_duration_idx 0, ramp_duration_bits 11110000000
     block 5: block_offset_factor_bits 001101, ramp_duration_code 11, b_use_ramp_duration_idx 0, ramp_duration_bits 11111010000
     block 6: block_offset_factor_bits 001110, ramp_duration_code 11, b_use_ramp_duration_idx 0, ramp_duration_bits 11111010010
     block 7: block_offset_factor_bits 001111, ramp_duration_code 11, b_use_ramp_duration_idx 1, ramp_duration_idx 1111
     timing: b_reserved_data_not_present 1
     8 x object 0: """ + INACTIVE + """
     end: padding of the payload 0000""", "010442a1c8d0009d900ad904bd908cde00ddf40edf48fffaaaa0")

# ------------------------------------------------------------------------------- objects

# 1 + 14 + 31 = 46 bits: 6 bytes, size 5.
hand("plain", "gain index 0, default priority, no distance, size index 0, no screen; z = 0 with the sign bit 0; one size group",
     header("00000", "0", "0001") + """
     element: oa_element_id_idx 0001, size read 0101, size b_read_more 0, b_discard_unknown_element 0
     """ + TIMING1 + """
     object 0: """ + PLAIN + """
     end: padding 00, padding of the payload 0""", "01045400045f7c0100")
# Gains 44 = -6 dB: bits 20; 51 = +1 dB: bits 14.  1 + 14 + 16 + 11 + 2 + 10 + 16 + 37 = 107 bits: 14 bytes, size 13.
hand("gain-3-classes", "gain by index 2 with its bits and by index 1 where index 3 was read; priorities coded and default; bed, ISF, inactive and dynamic objects", """
     header: oa_md_version_bits 00, object_count_bits 00101
     programme: b_dyn_object_only_program 0, content_description[] 0111, b_bed_chan_distribute 0, b_multiple_bed_instances_present 0, b_lfe_only 1, intermediate_spatial_format_idx 000, num_dynamic_objects_bits 00000
     elements: b_alternate_object_data_present 0, oa_element_count_bits 0001
     element: oa_element_id_idx 0001, size read 1101, size b_read_more 0, b_discard_unknown_element 0
     """ + TIMING1 + """
     object 0: b_object_not_active 0, object_gain_idx 10, object_gain_bits 010100, b_default_object_priority 0, object_priority_bits 00111, b_additional_table_data_exists 0
     object 1: b_object_not_active 0, object_gain_idx 10, object_gain_bits 010100, b_default_object_priority 1, b_additional_table_data_exists 0
     object 2: """ + INACTIVE + """
     object 3: b_object_not_active 0, object_gain_idx 01, b_default_object_priority 0, object_priority_bits 00000, b_additional_table_data_exists 0
     object 4: b_object_not_active 0, object_gain_idx 10, object_gain_bits 001110, b_default_object_priority 0, object_priority_bits 00011, b_additional_table_data_exists 0
     object 5: b_object_not_active 0, object_gain_idx 10, object_gain_bits 001110, b_default_object_priority 1, pos3D_X_bits 000001, pos3D_Y_bits 000010, pos3D_Z_sign_bits 1, pos3D_Z_bits 0011, b_object_distance_specified 0, zone_constraints_idx 101, b_enable_elevation 0, object_size_idx 00, b_object_use_screen_ref 0, b_object_snap 1, b_additional_table_data_exists 0
     end: padding 00000, padding of the payload 000""", "0a720011d00014a0e4a51008e0c8e8214d4200")
# Gain 55 = +5 dB: bits 10; z -3; distance 10 - 2 = 8.  1 + 14 + 67 = 82 bits: 11 bytes, size 10.
hand("position-literal", "every part sent: gain bits, priority bits, negative z, distance index, size index 2, screen reference, snap",
     header("00000", "0", "0001") + """
     element: oa_element_id_idx 0001, size read 1010, size b_read_more 0, b_discard_unknown_element 0
     """ + TIMING1 + """
     object 0: b_object_not_active 0, object_gain_idx 10, object_gain_bits 001010, b_default_object_priority 0, object_priority_bits 10001, pos3D_X_bits 000101, pos3D_Y_bits 001001, pos3D_Z_sign_bits 0, pos3D_Z_bits 0011, b_object_distance_specified 1, b_object_at_infinity 0, distance_factor_idx 1000, zone_constraints_idx 001, b_enable_elevation 0, object_size_idx 10, object_width_bits 00100, object_depth_bits 00101, object_height_bits 00110, b_object_use_screen_ref 1, screen_factor_bits 100, depth_factor_idx 11, b_object_snap 1, b_additional_table_data_exists 0
     end: padding 000000, padding of the payload 0""", "01046800051488a48e8288536700")
# 1 + 14 + 4 x 31 = 139 bits: 18 bytes, size 17 = 16 + 1: groups 0, 1.
hand("position-ends", "x and y 62 as 62, where 63 was read; z = 0 with the sign bit 0, where 1 was read too; z -15 and +15; two size groups",
     header("00011", "0", "0001") + """
     element: oa_element_id_idx 0001, size read 0000, size b_read_more 1, size read 0001, size b_read_more 0, b_discard_unknown_element 0
     """ + TIMING1 + """
     object 0: """ + ZERO_DB + """, pos3D_X_bits 111110, pos3D_Y_bits 111110, pos3D_Z_sign_bits 0, pos3D_Z_bits 0000, """ + ", ".join([NO_DISTANCE, ZONE0, "object_size_idx 00", END]) + """
     object 1: """ + ZERO_DB + """, pos3D_X_bits 000000, pos3D_Y_bits 000000, pos3D_Z_sign_bits 0, pos3D_Z_bits 0000, """ + ", ".join([NO_DISTANCE, ZONE0, "object_size_idx 00", END]) + """
     object 2: """ + ZERO_DB + """, pos3D_X_bits 111110, pos3D_Y_bits 000000, pos3D_Z_sign_bits 0, pos3D_Z_bits 1111, """ + ", ".join([NO_DISTANCE, ZONE0, "object_size_idx 00", END]) + """
     object 3: """ + ZERO_DB + """, pos3D_X_bits 000000, pos3D_Y_bits 111110, pos3D_Z_sign_bits 1, pos3D_Z_bits 1111, """ + ", ".join([NO_DISTANCE, ZONE0, "object_size_idx 00", END]) + """
     end: padding 00000, padding of the payload 0000""", "070442200023f7c008040000100fc03c20103ef84000")
# 1 + 14 + 31 + 32 + 36 + 36 = 150 bits: 19 bytes, size 18 = 16 + 2: groups 0, 2.
hand("distance", "distance not given, infinite, index 0 and index 15",
     header("00011", "0", "0001") + """
     element: oa_element_id_idx 0001, size read 0000, size b_read_more 1, size read 0010, size b_read_more 0, b_discard_unknown_element 0
     """ + TIMING1 + """
     object 0: """ + PLAIN + """
     object 1: """ + ZERO_DB + ", " + CENTRE + ", b_object_distance_specified 1, b_object_at_infinity 1, " + ZONE0 + ", object_size_idx 00, " + END + """
     object 2: """ + ZERO_DB + ", " + CENTRE + ", b_object_distance_specified 1, b_object_at_infinity 0, distance_factor_idx 0000, " + ZONE0 + ", object_size_idx 00, " + END + """
     object 3: """ + ZERO_DB + ", " + CENTRE + ", b_object_distance_specified 1, b_object_at_infinity 0, distance_factor_idx 1111, " + ZONE0 + ", object_size_idx 00, " + END + """
     end: padding 00, padding of the payload 0000""", "070442400022fbe00805f7c18805f7c100805f7c178800")
# 1 + 14 + 31 + 31 + 36 + 46 = 159 bits: 20 bytes, size 19 = 16 + 3: groups 0, 3.
hand("sizes", "size 0 by index 0, where index 1 was read too; three equal sizes by index 1; unequal ones by index 2",
     header("00011", "0", "0001") + """
     element: oa_element_id_idx 0001, size read 0000, size b_read_more 1, size read 0011, size b_read_more 0, b_discard_unknown_element 0
     """ + TIMING1 + """
     2 x objects 0 and 1: """ + PLAIN + """
     object 2: """ + ZERO_DB + ", " + CENTRE + ", " + NO_DISTANCE + ", " + ZONE0 + ", object_size_idx 01, object_size_bits 11111, " + END + """
     object 3: """ + ZERO_DB + ", " + CENTRE + ", " + NO_DISTANCE + ", " + ZONE0 + ", object_size_idx 10, object_width_bits 11111, object_depth_bits 00000, object_height_bits 10000, " + END + """
     end: padding 0, padding of the payload 0000""", "070442600022fbe00805f7c0100bef802fc0bef8037c1000")

# ------------------------------------------------------------------------------- several blocks

# 1 + 2 + 3 + 6 x 8 + 1 + 16 + 18 + 12 + 12 + 12 + 13 = 138 bits: 18 bytes, size 17 = 16 + 1: groups 0, 1.
hand("status-bed", "six blocks of a bed object, read by all statuses: full each time; no render status for a bed object",
     header("00000", "1", "0001") + """
     element: oa_element_id_idx 0001, size read 0000, size b_read_more 1, size read 0001, size b_read_more 0, b_discard_unknown_element 0
     timing: sample_offset_code 00, num_obj_info_blocks_bits 101, block_offset_factor_bits 000000, ramp_duration_code 00, block_offset_factor_bits 000001, ramp_duration_code 00, block_offset_factor_bits 000010, ramp_duration_code 00, block_offset_factor_bits 000011, ramp_duration_code 00, block_offset_factor_bits 000100, ramp_duration_code 00, block_offset_factor_bits 000101, ramp_duration_code 00, b_reserved_data_not_present 1
     block 0: b_object_not_active 0, object_gain_idx 10, object_gain_bits 000000, b_default_object_priority 0, object_priority_bits 00101, b_additional_table_data_exists 0
     block 1: b_object_not_active 0, object_basic_info_status_idx 01, object_gain_idx 10, object_gain_bits 000000, b_default_object_priority 0, object_priority_bits 00101, b_additional_table_data_exists 0
     block 2: b_object_not_active 0, object_basic_info_status_idx 01, object_gain_idx 00, b_default_object_priority 0, object_priority_bits 00101, b_additional_table_data_exists 0
     block 3: b_object_not_active 0, object_basic_info_status_idx 01, object_gain_idx 01, b_default_object_priority 0, object_priority_bits 00000, b_additional_table_data_exists 0
     block 4: b_object_not_active 0, object_basic_info_status_idx 01, object_gain_idx 01, b_default_object_priority 0, object_priority_bits 00110, b_additional_table_data_exists 0
     block 5: b_object_not_active 0, object_basic_info_status_idx 01, object_gain_idx 10, object_gain_bits 010100, b_default_object_priority 1, b_additional_table_data_exists 0
     end: padding 000000, padding of the payload 0000""", "01844221400102030405280146005105140146194800")
# 1 + 2 + 3 + 4 x 8 + 1 + 67 + 2 + 41 + 53 = 202 bits: 26 bytes, size 25 = 16 + 9: groups 0, 9.
hand("inactive-then-reuse", "four blocks of a dynamic object: full status and an absolute position in each active block, an inactive one between",
     header("00000", "0", "0001") + """
     element: oa_element_id_idx 0001, size read 0000, size b_read_more 1, size read 1001, size b_read_more 0, b_discard_unknown_element 0
     timing: sample_offset_code 00, num_obj_info_blocks_bits 011, block_offset_factor_bits 000000, ramp_duration_code 00, block_offset_factor_bits 000001, ramp_duration_code 00, block_offset_factor_bits 000010, ramp_duration_code 00, block_offset_factor_bits 000011, ramp_duration_code 00, b_reserved_data_not_present 1
     block 0: b_object_not_active 0, object_gain_idx 10, object_gain_bits 000000, b_default_object_priority 0, object_priority_bits 00101, pos3D_X_bits 001010, pos3D_Y_bits 010100, pos3D_Z_sign_bits 1, pos3D_Z_bits 0111, b_object_distance_specified 1, b_object_at_infinity 0, distance_factor_idx 0011, zone_constraints_idx 100, b_enable_elevation 0, object_size_idx 10, object_width_bits 00001, object_depth_bits 00010, object_height_bits 00011, b_object_use_screen_ref 1, screen_factor_bits 110, depth_factor_idx 10, b_object_snap 1, b_additional_table_data_exists 0
     block 1: """ + INACTIVE + """
     block 2: """ + LATER + """, object_gain_idx 01, b_default_object_priority 0, object_priority_bits 00000, """ + FULL + ", " + CENTRE + ", " + NO_DISTANCE + ", " + ZONE0 + ", object_size_idx 00, " + END + """
     block 3: """ + LATER + """, object_gain_idx 10, object_gain_bits 010100, b_default_object_priority 1, """ + FULL + """, pos3D_X_bits 110010, pos3D_Y_bits 101000, pos3D_Z_sign_bits 0, pos3D_Z_bits 1001, b_object_distance_specified 1, b_object_at_infinity 1, zone_constraints_idx 010, b_enable_elevation 1, object_size_idx 01, object_size_bits 11110, b_object_use_screen_ref 1, screen_factor_bits 001, depth_factor_idx 11, b_object_snap 0, b_additional_table_data_exists 0
     end: padding 000000, padding of the payload 0000""", "01044320c001020328014a52f1c4110faa2809f7c010194aca84eafa7000")

# ------------------------------------------------------------------------------- extended element

# 1 + 14 + 10 = 25 bits: 4 bytes, size 3.
hand("extended-nobody", "no extended element, as all of bytes 17 to 23 are 0, though one was read; LFE flag; gain index 1; priority 30",
     header("00000", "1", "0001") + """
     element: oa_element_id_idx 0001, size read 0011, size b_read_more 0, b_discard_unknown_element 0
     """ + TIMING1 + """
     object 0: b_object_not_active 0, object_gain_idx 01, b_default_object_priority 0, object_priority_bits 11110, b_additional_table_data_exists 0
     end: padding 0000000, padding of the payload 0""", "01844c0004bc00")
# Object element 1 + 14 + 8 x 31 = 263 bits: 33 bytes, size 32 = 16 + 16: groups 1, 0.
# Extended element 1 + 1 + 1 + 4 x 5 + 3 + 2 x 9 + 1 = 45 bits: 6 bytes, size 5.
hand("divergence", "an extended element with the divergence group only: none, modes 0, 1, 2",
     header("00111", "0", "0010") + """
     element: oa_element_id_idx 0001, size read 0001, size b_read_more 1, size read 0000, size b_read_more 0, b_discard_unknown_element 0
     """ + TIMING1 + """
     8 x objects 0 to 7: """ + PLAIN + """
     end: padding 0
     element: oa_element_id_idx 0101, size read 0101, size b_read_more 0, b_discard_unknown_element 0
     divergence: b_obj_div_block 1
     object 0: b_object_divergence 0
     object 1: b_object_divergence 1, object_div_mode 00, object_div_table 00
     object 2: b_object_divergence 1, object_div_mode 00, object_div_table 01
     object 3: b_object_divergence 1, object_div_mode 00, object_div_table 10
     object 4: b_object_divergence 1, object_div_mode 00, object_div_table 11
     object 5: b_object_divergence 1, object_div_mode 01
     object 6: b_object_divergence 1, object_div_mode 10, object_div_code 000001
     object 7: b_object_divergence 1, object_div_mode 10, object_div_code 111111
     precise: b_ext_prec_pos_block 0
     end: padding 000, padding of the payload 000""", "0f0846000022fbe00805f7c0100bef802017df00402fbe00805f7c0100bef802017df004055284653b81df80")
# Object element 1 + 14 + 9 x 31 = 294 bits: 37 bytes, size 36 = 16 + 20: groups 1, 4.
# Extended element 3 + 1 + 6 + 6 + 8 + 6 + 8 + 8 + 10 + 1 = 57 bits: 8 bytes, size 7.
hand("precise", "an extended element with the precise group only; a presence of no coordinate by the flag 0, though the flag 1 was read",
     header("01000", "0", "0010") + """
     element: oa_element_id_idx 0001, size read 0001, size b_read_more 1, size read 0100, size b_read_more 0, b_discard_unknown_element 0
     """ + TIMING1 + """
     9 x objects 0 to 8: """ + PLAIN + """
     end: padding 00
     element: oa_element_id_idx 0101, size read 0111, size b_read_more 0, b_discard_unknown_element 0
     divergence: b_obj_div_block 0
     precise: b_ext_prec_pos_block 1
     object 0: b_ext_prec_pos 0
     object 1: b_ext_prec_pos 1, ext_prec_pos_presence[] 001, ext_prec_pos3D_X 01
     object 2: b_ext_prec_pos 1, ext_prec_pos_presence[] 010, ext_prec_pos3D_Y 10
     object 3: b_ext_prec_pos 1, ext_prec_pos_presence[] 011, ext_prec_pos3D_X 01, ext_prec_pos3D_Y 10
     object 4: b_ext_prec_pos 1, ext_prec_pos_presence[] 100, ext_prec_pos3D_Z 11
     object 5: b_ext_prec_pos 1, ext_prec_pos_presence[] 101, ext_prec_pos3D_X 10, ext_prec_pos3D_Z 01
     object 6: b_ext_prec_pos 1, ext_prec_pos_presence[] 110, ext_prec_pos3D_Y 11, ext_prec_pos3D_Z 00
     object 7: b_ext_prec_pos 1, ext_prec_pos_presence[] 111, ext_prec_pos3D_X 00, ext_prec_pos3D_Y 01, ext_prec_pos3D_Z 10
     object 8: b_ext_prec_pos 0
     end: padding 0000000, padding of the payload 000""", "110846800022fbe00805f7c0100bef802017df00402fbe00805f7c0100bef802017df00402fbe00805714b55b67b3d9e3000")
# Object element 1 + 2 + 3 + 16 + 1 + 31 + 36 + 31 + 36 = 157 bits: 20 bytes, size 19 = 16 + 3: groups 0, 3.
# Extended element 1 + 1 + 9 + 3 + 5 + 1 + 1 + 8 + 1 + 6 + 10 = 46 bits: 6 bytes, size 5.
hand("both-blocks-order", "both groups of the extended element, two objects of two blocks each; reused blocks written in full",
     header("00001", "0", "0010") + """
     element: oa_element_id_idx 0001, size read 0000, size b_read_more 1, size read 0011, size b_read_more 0, b_discard_unknown_element 0
     timing: sample_offset_code 00, num_obj_info_blocks_bits 001, block_offset_factor_bits 000000, ramp_duration_code 00, block_offset_factor_bits 000001, ramp_duration_code 00, b_reserved_data_not_present 1
     object 0 block 0: """ + ZERO_DB + ", pos3D_X_bits 111110, pos3D_Y_bits 000000, pos3D_Z_sign_bits 1, pos3D_Z_bits 1111, " + NO_DISTANCE + ", " + ZONE0 + ", object_size_idx 00, " + END + """
     object 0 block 1: """ + LATER + ", object_gain_idx 00, b_default_object_priority 1, " + FULL + ", pos3D_X_bits 111110, pos3D_Y_bits 000000, pos3D_Z_sign_bits 1, pos3D_Z_bits 1111, " + NO_DISTANCE + ", " + ZONE0 + ", object_size_idx 00, " + END + """
     object 1 block 0: """ + PLAIN + """
     object 1 block 1: """ + LATER + ", object_gain_idx 00, b_default_object_priority 1, " + FULL + ", " + CENTRE + ", " + NO_DISTANCE + ", " + ZONE0 + ", object_size_idx 00, " + END + """
     end: padding 000
     element: oa_element_id_idx 0101, size read 0101, size b_read_more 0, b_discard_unknown_element 0
     divergence: b_obj_div_block 1
     object 0: b_object_divergence 1, object_div_mode 10, object_div_code 101000, b_object_divergence 1, object_div_mode 01
     object 1: b_object_divergence 1, object_div_mode 00, object_div_table 10, b_object_divergence 0
     precise: b_ext_prec_pos_block 1
     object 0: b_ext_prec_pos 1, ext_prec_pos_presence[] 101, ext_prec_pos3D_X 01, ext_prec_pos3D_Z 01, b_ext_prec_pos 0
     object 1: b_ext_prec_pos 1, ext_prec_pos_presence[] 010, ext_prec_pos3D_Y 11, b_ext_prec_pos 1, ext_prec_pos_presence[] 111, ext_prec_pos3D_X 10, ext_prec_pos3D_Y 10, ext_prec_pos3D_Z 10
     end: padding 00, padding of the payload 000""", "03084260400123f01f08095f01f0805f7c010129f7c0100553a8b27555fd40")

# ------------------------------------------------------------------------------- trim element

# 1 + 2 + 2 + 2 + 1 = 8 bits: 1 byte, size 0.
hand("trim-disable", "a trim element alone; reserved bits and discard flag 0, though they were read as ones",
     header("00000", "0", "0001") + """
     element: oa_element_id_idx 0010, size read 0000, size b_read_more 0, b_discard_unknown_element 0
     trim: warp_mode 01, reserved of trim 00, global_trim_mode 01, b_disable_trim_per_obj 0
     end: padding of the payload 0""", "01048044")
# 1 + 6 + 9 x 2 + 1 = 26 bits: 4 bytes, size 3.
hand("trim-custom-disable", "configurations that are disabled",
     header("00000", "0", "0001") + """
     element: oa_element_id_idx 0010, size read 0011, size b_read_more 0, b_discard_unknown_element 0
     trim: warp_mode 01, reserved of trim 00, global_trim_mode 10
     9 x configurations 0 to 8: b_default_trim 0, b_disable_trim 1
     trim: b_disable_trim_per_obj 0
     end: padding 000000, padding of the payload 0""", "01048c49555500")
# 1 + 6 + 1 + 2 + 7 + 3 x 11 + 2 x 12 + 29 + 1 + 3 = 107 bits: 14 bytes, size 13.
hand("trim-each", "every field: a default and a disabled configuration, one without values, each value alone, all together; objects' flags",
     header("00010", "0", "0001") + """
     element: oa_element_id_idx 0010, size read 1101, size b_read_more 0, b_discard_unknown_element 0
     trim: warp_mode 01, reserved of trim 00, global_trim_mode 10
     configuration 0: b_default_trim 1
     configuration 1: b_default_trim 0, b_disable_trim 1
     configuration 2: b_default_trim 0, b_disable_trim 0, trim_balance_presence[] 00000
     configuration 3: b_default_trim 0, b_disable_trim 0, trim_balance_presence[] 00001, trim_centre 1110
     configuration 4: b_default_trim 0, b_disable_trim 0, trim_balance_presence[] 00010, trim_surround 0100
     configuration 5: b_default_trim 0, b_disable_trim 0, trim_balance_presence[] 00100, trim_height 1111
     configuration 6: b_default_trim 0, b_disable_trim 0, trim_balance_presence[] 01000, bal3D_Y_sign_tb_code 1, bal3D_Y_amount_tb 1001
     configuration 7: b_default_trim 0, b_disable_trim 0, trim_balance_presence[] 10000, bal3D_Y_sign_lis_code 0, bal3D_Y_amount_lis 0011
     configuration 8: b_default_trim 0, b_disable_trim 0, trim_balance_presence[] 11111, trim_centre 0000, trim_surround 0101, trim_height 0110, bal3D_Y_sign_tb_code 0, bal3D_Y_amount_tb 1111, bal3D_Y_sign_lis_code 1, bal3D_Y_amount_lis 0000
     objects: b_disable_trim_per_obj 1, b_disable_trim 1, b_disable_trim 0, b_disable_trim 1
     end: padding 00000, padding of the payload 0""", "0504b44a8003c0902788c9019f0567c340")
# 1 + 6 + 1 + 3 = 11 bits: 2 bytes, size 1.
hand("trim-objects-all-0", "the flags of the objects are sent, though each is 0: b_disable_trim_per_obj is a byte of the table",
     header("00010", "0", "0001") + """
     element: oa_element_id_idx 0010, size read 0001, size b_read_more 0, b_discard_unknown_element 0
     trim: warp_mode 00, reserved of trim 00, global_trim_mode 01, b_disable_trim_per_obj 1, b_disable_trim 0, b_disable_trim 0, b_disable_trim 0
     end: padding 00000, padding of the payload 0""", "0504840600")
# Object element 1 + 14 + 31 = 46 bits: 6 bytes, size 5.  Extended 1 + 1 + 3 + 1 = 6 bits: 1 byte, size 0.
# Trim 1 + 6 + 1 + 1 = 9 bits: 2 bytes, size 1.
hand("trim-between", "the trim element behind the extended one, though it was read before it",
     header("00000", "0", "0011") + """
     element: oa_element_id_idx 0001, size read 0101, size b_read_more 0, b_discard_unknown_element 0
     """ + TIMING1 + """
     object 0: """ + PLAIN + """
     end: padding 00
     element: oa_element_id_idx 0101, size read 0000, size b_read_more 0, b_discard_unknown_element 0
     extended: b_obj_div_block 1, b_object_divergence 1, object_div_mode 01, b_ext_prec_pos_block 0
     end: padding 00
     element: oa_element_id_idx 0010, size read 0001, size b_read_more 0, b_discard_unknown_element 0
     trim: warp_mode 00, reserved of trim 00, global_trim_mode 01, b_disable_trim_per_obj 1, b_disable_trim 1
     end: padding 0000000, padding of the payload 0000000""", "010c5400045f7c0100a0682101c000")
# 1 + 6 + 9 x 29 + 1 + 159 = 428 bits: 54 bytes, size 53 = 16 + 37: groups 2, 5.
hand("trim-159", "the longest trim element; two size groups", """
     header: oa_md_version_bits 00, object_count_bits 11111, object_count_bits_ext 1111111, b_dyn_object_only_program 1, b_lfe_present 0, b_alternate_object_data_present 0, oa_element_count_bits 0001
     element: oa_element_id_idx 0010, size read 0010, size b_read_more 1, size read 0101, size b_read_more 0, b_discard_unknown_element 0
     trim: warp_mode 01, reserved of trim 00, global_trim_mode 10
     9 x configurations 0 to 8: b_default_trim 0, b_disable_trim 0, trim_balance_presence[] 11111, trim_centre 1111, trim_surround 1111, trim_height 1111, bal3D_Y_sign_tb_code 1, bal3D_Y_amount_tb 1111, bal3D_Y_sign_lis_code 1, bal3D_Y_amount_lis 1111
     objects: b_disable_trim_per_obj 1
     159 x objects 0 to 158: b_disable_trim 1
     end: padding 0000, padding of the payload 00000""", "3ffe0915448ffffffe7ffffff3ffffff9ffffffcffffffe7ffffff3ffffff9ffffffcffffffffffffffffffffffffffffffffffffffffffffffe00")

ZEROS = "00 00 00 00 00 00 00 00 00 00"
hand_table("trim-disable", """
     byte 0: 01; the element is there
     bytes 1 and 2: 01 01; warp_mode 01, global_trim_mode 01; the reserved bits 11 between them are left out
     configurations 0 to 8: """ + " ".join([ZEROS] * 9) + """; not carried: the mode is not 2
     byte 93: 00; b_disable_trim_per_obj 0
     object 0: 00; not carried""")
hand_table("trim-each", """
     byte 0: 01; the element is there
     bytes 1 and 2: 01 02; warp_mode 01, global_trim_mode 10
     configuration 0: 01 00 00 00 00 00 00 00 00 00; b_default_trim 1, nothing more is carried
     configuration 1: 00 01 00 00 00 00 00 00 00 00; b_default_trim 0, b_disable_trim 1, nothing more is carried
     configuration 2: 00 00 00 00 00 00 00 00 00 00; both flags 0, trim_balance_presence[] 00000
     configuration 3: 00 00 01 0e 00 00 00 00 00 00; trim_balance_presence[] 00001, index 4 is set: trim_centre 1110 = 14
     configuration 4: 00 00 02 00 04 00 00 00 00 00; trim_balance_presence[] 00010, index 3 is set: trim_surround 0100 = 4
     configuration 5: 00 00 04 00 00 0f 00 00 00 00; trim_balance_presence[] 00100, index 2 is set: trim_height 1111 = 15
     configuration 6: 00 00 08 00 00 00 01 09 00 00; trim_balance_presence[] 01000, index 1 is set: bal3D_Y_sign_tb_code 1, bal3D_Y_amount_tb 1001 = 9
     configuration 7: 00 00 10 00 00 00 00 00 00 03; trim_balance_presence[] 10000, index 0 is set: bal3D_Y_sign_lis_code 0, bal3D_Y_amount_lis 0011 = 3
     configuration 8: 00 00 1f 00 05 06 00 0f 01 00; trim_balance_presence[] 11111: trim_centre 0, trim_surround 5, trim_height 6, tb 0 and 15, lis 1 and 0
     byte 93: 01; b_disable_trim_per_obj 1
     objects 0 to 2: 01 00 01; b_disable_trim 1, 0, 1""")
hand_table("trim-objects", """
     byte 0: 01; the element is there
     bytes 1 and 2: 00 00; warp_mode 00, global_trim_mode 00
     configurations 0 to 8: """ + " ".join([ZEROS] * 9) + """; not carried: the mode is not 2
     byte 93: 01; b_disable_trim_per_obj 1
     objects 0 to 4: 01 00 00 01 01; b_disable_trim 1, 0, 0, 1, 1""")

# ------------------------------------------------------------------------------- alternate ids

# The object element as in plain: 6 bytes.  1 + 1 + 1 + 2 + 6 + 1 = 12 bits: 2 bytes, size 1.  14 + 57 + 25 = 96 bits.
hand("alternate-divergence", "no alternate ids, though they were read; the divergence that stood behind one; no padding of the payload",
     header("00000", "0", "0010") + """
     element: oa_element_id_idx 0001, size read 0101, size b_read_more 0, b_discard_unknown_element 0
     """ + TIMING1 + """
     object 0: """ + PLAIN + """
     end: padding 00
     element: oa_element_id_idx 0101, size read 0001, size b_read_more 0, b_discard_unknown_element 0
     extended: b_obj_div_block 1, b_object_divergence 1, object_div_mode 10, object_div_code 101000, b_ext_prec_pos_block 0
     end: padding 0000""", "01085400045f7c0100a27500")
hand_table("alternate-trim", """
     byte 0: 01; the element is there; its alternate id 0101 has no byte
     bytes 1 and 2: 01 01; warp_mode 01, global_trim_mode 01
     configurations 0 to 8: """ + " ".join([ZEROS] * 9) + """; not carried: the mode is not 2
     byte 93: 01; b_disable_trim_per_obj 1
     objects 0 to 2: 00 01 01; b_disable_trim 0, 1, 1""")

# ------------------------------------------------------------------------------- large

# Object o is active if o is a multiple of 10, in block o mod 8, which is record 8 o + o mod 8: 0, 82, 164, 246, 320, 402, 484, 566,
# 640, 722, 804, 886, 960, 1042, 1124, 1206 of 1272.  1 + 70 + 1256 x 2 + 2 x 10 + 3 x 12 + 2 x 36 + 9 x 41 = 3,080 bits: 385 bytes,
# size 384 = 272 + 112: groups 0, 7, 0.
LOOKS = "b_object_distance_specified 0, " + ZONE0 + ", object_size_idx 00, b_object_use_screen_ref 0, b_object_snap 1, b_additional_table_data_exists 0"
hand("159-by-8", "three size groups; 159 objects; object and dynamic counts with extensions; 1,256 inactive records", """
     header: oa_md_version_bits 00, object_count_bits 11111, object_count_bits_ext 1111111
     programme: b_dyn_object_only_program 0, content_description[] 0111, b_bed_chan_distribute 0, b_multiple_bed_instances_present 0
     bed 0: b_lfe_only 0, b_standard_chan_assign 0, nonstd_bed_channel_assignment[] 11111111111111111
     others: intermediate_spatial_format_idx 101, num_dynamic_objects_bits 11111, num_dynamic_objects_bits_ext 1010000
     elements: b_alternate_object_data_present 0, oa_element_count_bits 0001
     element: oa_element_id_idx 0001, size read 0000, size b_read_more 1, size read 0111, size b_read_more 1, size read 0000, size b_read_more 0, b_discard_unknown_element 0
     timing: sample_offset_code 00, num_obj_info_blocks_bits 111, block_offset_factor_bits 000000, ramp_duration_code 00, block_offset_factor_bits 000001, ramp_duration_code 00, block_offset_factor_bits 000010, ramp_duration_code 00, block_offset_factor_bits 000011, ramp_duration_code 00, block_offset_factor_bits 000100, ramp_duration_code 00, block_offset_factor_bits 000101, ramp_duration_code 00, block_offset_factor_bits 000110, ramp_duration_code 00, block_offset_factor_bits 000111, ramp_duration_code 00, b_reserved_data_not_present 1
     object 0 block 0: b_object_not_active 0, object_gain_idx 00, b_default_object_priority 0, object_priority_bits 00000, b_additional_table_data_exists 0
     81 x inactive: """ + INACTIVE + """
     object 10 block 2: b_object_not_active 0, object_basic_info_status_idx 01, object_gain_idx 00, b_default_object_priority 0, object_priority_bits 01010, b_additional_table_data_exists 0
     81 x inactive: """ + INACTIVE + """
     object 20 block 4: b_object_not_active 0, object_basic_info_status_idx 01, object_gain_idx 00, b_default_object_priority 0, object_priority_bits 10100, b_additional_table_data_exists 0
     81 x inactive: """ + INACTIVE + """
     object 30 block 6: b_object_not_active 0, object_basic_info_status_idx 01, object_gain_idx 00, b_default_object_priority 0, object_priority_bits 11110, b_additional_table_data_exists 0
     73 x inactive: """ + INACTIVE + """
     object 40 block 0: b_object_not_active 0, object_gain_idx 00, b_default_object_priority 0, object_priority_bits 01000, b_additional_table_data_exists 0
     81 x inactive: """ + INACTIVE + """
     object 50 block 2: """ + LATER + ", object_gain_idx 00, b_default_object_priority 0, object_priority_bits 10010, " + FULL + ", pos3D_X_bits 110010, pos3D_Y_bits 000010, pos3D_Z_sign_bits 1, pos3D_Z_bits 0010, " + LOOKS + """
     81 x inactive: """ + INACTIVE + """
     object 60 block 4: """ + LATER + ", object_gain_idx 00, b_default_object_priority 0, object_priority_bits 11100, " + FULL + ", pos3D_X_bits 111100, pos3D_Y_bits 000100, pos3D_Z_sign_bits 1, pos3D_Z_bits 1100, " + LOOKS + """
     81 x inactive: """ + INACTIVE + """
     object 70 block 6: """ + LATER + ", object_gain_idx 00, b_default_object_priority 0, object_priority_bits 00110, " + FULL + ", pos3D_X_bits 000111, pos3D_Y_bits 000110, pos3D_Z_sign_bits 1, pos3D_Z_bits 0110, " + LOOKS + """
     73 x inactive: """ + INACTIVE + """
     object 80 block 0: b_object_not_active 0, object_gain_idx 00, b_default_object_priority 0, object_priority_bits 10000, pos3D_X_bits 010001, pos3D_Y_bits 000000, pos3D_Z_sign_bits 0, pos3D_Z_bits 0000, """ + LOOKS + """
     81 x inactive: """ + INACTIVE + """
     object 90 block 2: """ + LATER + ", object_gain_idx 00, b_default_object_priority 0, object_priority_bits 11010, " + FULL + ", pos3D_X_bits 011011, pos3D_Y_bits 000010, pos3D_Z_sign_bits 1, pos3D_Z_bits 1010, " + LOOKS + """
     81 x inactive: """ + INACTIVE + """
     object 100 block 4: """ + LATER + ", object_gain_idx 00, b_default_object_priority 0, object_priority_bits 00100, " + FULL + ", pos3D_X_bits 100101, pos3D_Y_bits 000100, pos3D_Z_sign_bits 1, pos3D_Z_bits 0100, " + LOOKS + """
     81 x inactive: """ + INACTIVE + """
     object 110 block 6: """ + LATER + ", object_gain_idx 00, b_default_object_priority 0, object_priority_bits 01110, " + FULL + ", pos3D_X_bits 101111, pos3D_Y_bits 000110, pos3D_Z_sign_bits 1, pos3D_Z_bits 1110, " + LOOKS + """
     73 x inactive: """ + INACTIVE + """
     object 120 block 0: b_object_not_active 0, object_gain_idx 00, b_default_object_priority 0, object_priority_bits 11000, pos3D_X_bits 111001, pos3D_Y_bits 000000, pos3D_Z_sign_bits 1, pos3D_Z_bits 1000, """ + LOOKS + """
     81 x inactive: """ + INACTIVE + """
     object 130 block 2: """ + LATER + ", object_gain_idx 00, b_default_object_priority 0, object_priority_bits 00010, " + FULL + ", pos3D_X_bits 000100, pos3D_Y_bits 000010, pos3D_Z_sign_bits 1, pos3D_Z_bits 0010, " + LOOKS + """
     81 x inactive: """ + INACTIVE + """
     object 140 block 4: """ + LATER + ", object_gain_idx 00, b_default_object_priority 0, object_priority_bits 01100, " + FULL + ", pos3D_X_bits 001110, pos3D_Y_bits 000100, pos3D_Z_sign_bits 1, pos3D_Z_bits 1100, " + LOOKS + """
     81 x inactive: """ + INACTIVE + """
     object 150 block 6: """ + LATER + ", object_gain_idx 00, b_default_object_priority 0, object_priority_bits 10110, " + FULL + ", pos3D_X_bits 011000, pos3D_Y_bits 000110, pos3D_Z_sign_bits 1, pos3D_Z_bits 0110, " + LOOKS + """
     65 x inactive: """ + INACTIVE + """
     end: padding of the payload 0""", """
     3ffce1ffffbfa0110bc0380020406080a0c0e400aaaaaaaaaaaaaaaaaaaaaaaaaaaaaaaaaaaaaaaa8852aaaaaaaaaaaaaaaaaaaaaaaaaaaaaaaaaaaa
     aaaa228aaaaaaaaaaaaaaaaaaaaaaaaaaaaaaaaaaaaaaaa88f2aaaaaaaaaaaaaaaaaaaaaaaaaaaaaaaaaaaa042aaaaaaaaaaaaaaaaaaaaaaaaaaaaaa
     aaaaaaaaaa224b20a411555555555555555555555555555555555555555544717827022aaaaaaaaaaaaaaaaaaaaaaaaaaaaaaaaaaaaaaaa88321c6b0
     45555555555555555555555555555555555555041100011555555555555555555555555555555555555555544693616822aaaaaaaaaaaaaaaaaaaaaa
     aaaaaaaaaaaaaaaaaa8822944a045555555555555555555555555555555555555555510e578de08aaaaaaaaaaaaaaaaaaaaaaaaaaaaaaaaaaaaa0c72
     06022aaaaaaaaaaaaaaaaaaaaaaaaaaaaaaaaaaaaaaaa88121029045555555555555555555555555555555555555555510c4709c08aaaaaaaaaaaaaa
     aaaaaaaaaaaaaaaaaaaaaaaaaaa22c981ac11555555555555555555555555555555554""")
