//! The fields of the three known elements in the one written form.

use super::record::*;
use super::sink::Sink;
use super::trim::*;
use super::Timing;

/// md_update_info (5.5.6): sample offset by code 0 or 2.
pub fn md_update_info<S: Sink>(sink: &mut S, timing: &Timing) {
    match timing.updates[0].start % 32 {
        0 => sink.put(2, 0),
        offset => {
            sink.put(2, 2);
            sink.put(5, u32::from(offset));
        }
    }
    sink.put(3, u32::from(timing.blocks) - 1);
    for update in &timing.updates[..usize::from(timing.blocks)] {
        sink.put(6, u32::from(update.start / 32));
        ramp_duration(sink, update.ramp);
    }
}

/// The ramp by code 0, 1, 2 if it can, else 11 bits, else index 15.
pub fn ramp_duration<S: Sink>(sink: &mut S, ramp: u16) {
    match ramp {
        0 => sink.put(2, 0),
        512 => sink.put(2, 1),
        1536 => sink.put(2, 2),
        2048 => sink.put(7, 0b111_1111),
        _ => {
            sink.put(3, 0b110);
            sink.put(11, u32::from(ramp));
        }
    }
}

/// object_info_block (5.5.9): full status, no additional data.
pub fn object_info_block<S: Sink>(sink: &mut S, r: &Record, first: bool) {
    if r[ACTIVE] == 0 {
        sink.put(2, 0b10);
        return;
    }
    sink.flag(false);
    if !first {
        sink.put(2, 0b01);
    }
    object_gain(sink, r[GAIN]);
    object_priority(sink, r[PRIORITY]);
    if r[CLASS] == DYNAMIC {
        if !first {
            // Full status, then an absolute position.
            sink.put(3, 0b010);
        }
        object_render_info(sink, r);
    }
    sink.flag(false);
}

/// Tables 18 and 19; index 3 is never used.
pub fn object_gain<S: Sink>(sink: &mut S, gain: u8) {
    match gain {
        GAIN_ZERO => sink.put(2, 0),
        0 => sink.put(2, 1),
        1..GAIN_ZERO => sink.put(8, 2 << 6 | u32::from(GAIN_ZERO + 14 - gain)),
        _ => sink.put(8, 2 << 6 | u32::from(GAIN_ZERO + 15 - gain)),
    }
}

/// Clause 5.6.1.3.
pub fn object_priority<S: Sink>(sink: &mut S, priority: u8) {
    if priority == 32 {
        sink.flag(true);
    } else {
        sink.put(6, u32::from(priority));
    }
}

/// The groups of object_render_info (5.5.11) from an absolute position on.
fn object_render_info<S: Sink>(sink: &mut S, r: &Record) {
    absolute_position(sink, r);
    object_distance(sink, r[DISTANCE]);
    sink.put(3, u32::from(r[ZONE]));
    sink.put(1, u32::from(r[ELEVATION]));
    object_size(sink, [r[WIDTH], r[DEPTH], r[HEIGHT]]);
    screen_reference(sink, [r[SCREEN], r[SCREEN_FACTOR], r[DEPTH_INDEX]]);
    sink.put(1, u32::from(r[SNAP]));
}

/// x = 62 is 62, and z = 0 has sign 0: the smallest numbers (point 26).
pub fn absolute_position<S: Sink>(sink: &mut S, r: &Record) {
    sink.put(6, u32::from(r[X]));
    sink.put(6, u32::from(r[Y]));
    sink.flag(r[Z] > Z_ZERO);
    sink.put(4, u32::from(r[Z].abs_diff(Z_ZERO)));
}

/// Clauses 5.6.1.1.15 to 5.6.1.1.17.
pub fn object_distance<S: Sink>(sink: &mut S, distance: u8) {
    match distance {
        0 => sink.put(1, 0),
        1 => sink.put(2, 0b11),
        _ => sink.put(6, 0b10 << 4 | u32::from(distance - 2)),
    }
}

/// Table 17: the shortest index that can.
pub fn object_size<S: Sink>(sink: &mut S, [width, depth, height]: [u8; 3]) {
    if width != depth || depth != height {
        sink.put(2, 2);
        sink.put(5, u32::from(width));
        sink.put(5, u32::from(depth));
        sink.put(5, u32::from(height));
    } else if width > 0 {
        sink.put(2, 1);
        sink.put(5, u32::from(width));
    } else {
        sink.put(2, 0);
    }
}

/// Clauses 5.6.1.1.18 to 5.6.1.1.20.
pub fn screen_reference<S: Sink>(sink: &mut S, [flag, factor, depth]: [u8; 3]) {
    sink.put(1, u32::from(flag));
    if flag != 0 {
        sink.put(3, u32::from(factor));
        sink.put(2, u32::from(depth));
    }
}

/// obj_div_block (5.5.14).
pub fn obj_div_block<S: Sink>(sink: &mut S, r: &Record) {
    sink.put(1, u32::from(r[DIVERGENCE]));
    if r[DIVERGENCE] != 0 {
        sink.put(2, u32::from(r[DIVERGENCE_MODE]));
        match r[DIVERGENCE_MODE] {
            0 => sink.put(2, u32::from(r[DIVERGENCE_VALUE])),
            1 => {}
            _ => sink.put(6, u32::from(r[DIVERGENCE_VALUE])),
        }
    }
}

/// ext_prec_pos_block (5.5.15): the flag only if something is carried.
pub fn ext_prec_pos_block<S: Sink>(sink: &mut S, r: &Record) {
    sink.flag(r[PRESENCE] != 0);
    if r[PRESENCE] != 0 {
        sink.put(3, u32::from(r[PRESENCE]));
        for (bit, code) in [(1, PRECISE_X), (2, PRECISE_Y), (4, PRECISE_Z)] {
            if r[PRESENCE] & bit != 0 {
                sink.put(2, u32::from(r[code]));
            }
        }
    }
}

/// trim_element (5.5.12): what the table holds, and nothing is left to choose.
pub fn trim_element<S: Sink>(sink: &mut S, table: &[u8]) {
    trim_modes(sink, [table[WARP], table[GLOBAL]]);
    if table[GLOBAL] == GLOBAL_CUSTOM {
        let configs = &table[FIRST_CONFIG..PER_OBJECT];
        for config in configs.as_chunks::<CONFIG_BYTES>().0 {
            trim_config(sink, config);
        }
    }
    sink.put(1, u32::from(table[PER_OBJECT]));
    if table[PER_OBJECT] != 0 {
        for flag in &table[FIRST_FLAG..] {
            sink.put(1, u32::from(*flag));
        }
    }
}

/// warp_mode and global_trim_mode, the reserved bits between 0.
pub fn trim_modes<S: Sink>(sink: &mut S, [warp, global]: [u8; 2]) {
    sink.put(2, u32::from(warp));
    sink.put(2, 0);
    sink.put(2, u32::from(global));
}

/// The fields of one configuration.
pub fn trim_config<S: Sink>(sink: &mut S, config: &Config) {
    sink.put(1, u32::from(config[DEFAULT]));
    if config[DEFAULT] != 0 {
        return;
    }
    sink.put(1, u32::from(config[DISABLE]));
    if config[DISABLE] != 0 {
        return;
    }
    sink.put(5, u32::from(config[BALANCE]));
    for (bit, width, value) in [
        (HAS_CENTRE, 4, config[CENTRE]),
        (HAS_SURROUND, 4, config[SURROUND]),
        (HAS_HEIGHT, 4, config[TRIM_HEIGHT]),
        (HAS_TB, 5, config[SIGN_TB] << 4 | config[AMOUNT_TB]),
        (HAS_LIS, 5, config[SIGN_LIS] << 4 | config[AMOUNT_LIS]),
    ] {
        if config[BALANCE] & bit != 0 {
            sink.put(width, u32::from(value));
        }
    }
}
