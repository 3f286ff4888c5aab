//! Which branches of 5.5.2 to 5.5.15 a payload takes.

macro_rules! groups {
    ($($name:ident $values:literal $text:literal,)*) => {
        /// A choice in the syntax; each has up to 32 values.
        #[derive(Clone, Copy)]
        pub enum Group { $($name),* }

        /// Number of values and description of each group.
        pub const GROUPS: &[(usize, &str)] = &[$(($values, $text)),*];
    };
}

groups! {
    Objects 5 "object count: 1, to 31, 32 (extension 0), to 158, 159",
    Program 4 "program: not dynamic only, dynamic only, with LFE, LFE alone",
    Content 16 "content_description",
    BedCount 10 "bed instances (value 0 does not occur)",
    Bed 5 "bed: LFE only, standard, other, empty standard, empty other",
    Isf 6 "intermediate_spatial_format_idx",
    Dynamics 3 "num_dynamic_objects_bits: below 31, 31 + 0, 31 + more",
    ReservedRun 16 "reserved_data_size_bits",
    LeftOver 2 "left over under the reserved flag: none, some",
    Alternate 2 "b_alternate_object_data_present",
    ElementCount 5 "elements: 0, to 14, 15 (extension 0), to 45, 46",
    Element 5 "element: object, extended, trim, other, object of another alternate id",
    AlternateId 5 "alternate id: object 0, extended 0, extended other, trim 0, trim other",
    RefusedAlternate 4 "refused payloads, 6 or 7 at an alternate id other than 0: second extended, second trim, early, early behind an object element of another alternate id",
    SizeGroups 6 "size groups (value 0 does not occur, 4 and 5 never fit)",
    Padding 3 "known element's padding: none, below a byte, a byte or more",
    Offset 6 "sample offset: code 0, code 1 index 0 to 3, code 2",
    Blocks 9 "blocks (value 0: no object element)",
    Factor 2 "block_offset_factor_bits: below 48, 48 and more",
    Ramp 20 "ramp: code 0, 1, 2, 11 bits, index 0 to 15",
    ReservedBits 2 "reserved bits of the object element: absent, present",
    Active 6 "inactive bed, ISF, dynamic; active bed, ISF, dynamic",
    BedStatus 4 "basic status of bed and ISF objects after block 0",
    StatusPair 16 "4 x basic status + render status of dynamic objects",
    BasicMask 4 "object_basic_info of mixed status",
    RenderMask 16 "obj_render_info of mixed status",
    Gain 6 "gain: 0 dB, -inf, bits to 14, bits from 15, index 3, its first",
    Priority 2 "priority: coded, default",
    Position 5 "position: absolute, x or y 63, moved, moved past an end, -0",
    Distance 3 "distance: none, infinity, index",
    Zone 6 "zone_constraints_idx",
    Elevation 2 "b_enable_elevation",
    Size 3 "object_size_idx",
    Screen 2 "b_object_use_screen_ref",
    Snap 2 "b_object_snap",
    Additional 17 "additional data: none, else 1 + size bits",
    AdditionalInactive 2 "additional data of an inactive block: no, yes",
    DivergenceBlock 2 "b_obj_div_block",
    Divergence 4 "divergence: none, mode 0, 1, 2",
    PreciseBlock 2 "b_ext_prec_pos_block",
    Presence 9 "ext_prec_pos_presence, 8 for no flag",
    TrimPlace 5 "trim element: alone, before the object element, behind it alone, between, behind both",
    WarpMode 2 "warp_mode",
    TrimReserved 4 "reserved bits of the trim element",
    GlobalMode 3 "global_trim_mode",
    Configuration 3 "configuration: default, disabled, given",
    Balance 32 "trim_balance_presence",
    Centre 16 "trim_centre",
    Surround 12 "trim_surround from 4 on",
    TrimHeight 12 "trim_height from 4 on",
    SignTb 2 "bal3D_Y_sign_tb_code",
    AmountTb 16 "bal3D_Y_amount_tb",
    SignLis 2 "bal3D_Y_sign_lis_code",
    AmountLis 16 "bal3D_Y_amount_lis",
    PerObject 2 "b_disable_trim_per_obj",
    ObjectTrim 2 "b_disable_trim of an object",
    Trailing 2 "whole bytes after the last element: no, yes",
}

/// A set of taken branches: per group, one bit per value.
#[derive(Clone, Copy)]
pub struct Marks([u32; GROUPS.len()]);

impl Default for Marks {
    fn default() -> Self {
        Self([0; GROUPS.len()])
    }
}

impl Marks {
    pub fn set(&mut self, group: Group, value: usize) {
        debug_assert!(value < GROUPS[group as usize].0);
        self.0[group as usize] |= 1 << value;
    }

    pub fn has(&self, group: usize, value: usize) -> bool {
        self.0[group] >> value & 1 != 0
    }
}
