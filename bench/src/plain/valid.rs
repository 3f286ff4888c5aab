//! Which tables are valid (docs/DECISIONS.md, "The written form"; points 24, 25).

use super::record::*;
use super::trim::*;
use super::{Bed, Programme, Timing};

/// A programme that some accepted payload gives, the reserved content flag
/// clear. What is not carried is 0.
pub fn programme(p: &Programme) -> bool {
    if !(1..=159).contains(&p.objects) {
        return false;
    }
    if p.dynonly != 0 {
        let carried = Programme {
            objects: p.objects,
            dynonly: 1,
            lfe: p.lfe,
            ..Programme::default()
        };
        return *p == carried && p.lfe <= 1;
    }
    let most = |flag: u8, most: u8| if p.content & flag != 0 { most } else { 0 };
    p.lfe == 0
        && p.content < CONTENT_RESERVED
        && beds(p)
        && p.isf <= most(CONTENT_ISF, 5)
        && p.dynamics <= most(CONTENT_DYNAMIC, 158)
        && Counts::of(p).total() == usize::from(p.objects)
}

/// The bed fields: carried with the bed flag only, the unused beds 0.
fn beds(p: &Programme) -> bool {
    if p.content & CONTENT_BED == 0 {
        let fields = [p.distribute, p.multiple, p.instances, p.bedcount];
        return fields == [0; 4] && p.beds == [Bed::default(); 9];
    }
    let count = match (p.multiple, p.instances) {
        (0, 0) => 1,
        (1, instances @ 0..=7) => instances + 2,
        _ => return false,
    };
    let (used, unused) = p.beds.split_at(usize::from(count));
    p.distribute <= 1
        && p.bedcount == count
        && used.iter().all(bed)
        && unused.iter().all(|bed| *bed == Bed::default())
}

fn bed(bed: &Bed) -> bool {
    match (bed.lfeonly, bed.standard) {
        (1, 0) => bed.assignment == 0,
        (0, 1) => bed.assignment < 1 << 10,
        (0, 0) => bed.assignment < 1 << 17,
        _ => false,
    }
}

/// A timing that some accepted payload gives: one sample offset serves all
/// blocks, so all starts leave one remainder by 32.
pub fn timing(timing: &Timing) -> bool {
    if timing.blocks > 8 {
        return false;
    }
    let (used, unused) = timing.updates.split_at(usize::from(timing.blocks));
    let remainder = timing.updates[0].start % 32;
    used.iter()
        .all(|u| u.start < 2048 && u.start % 32 == remainder && u.ramp <= 2048)
        && unused.iter().all(|u| u.start == 0 && u.ramp == 0)
}

/// A record that some payload gives an object of this class.
pub fn record(r: &Record, class: u8) -> bool {
    if r[CLASS] != class {
        return false;
    }
    match (r[ACTIVE], class) {
        (0, _) => r[GAIN..] == DEFAULTS[GAIN..],
        (1, DYNAMIC) => basic(r) && render(r) && divergence(r) && precise(r),
        (1, _) => basic(r) && r[X..] == DEFAULTS[X..],
        _ => false,
    }
}

fn basic(r: &Record) -> bool {
    r[GAIN] <= 65 && r[PRIORITY] <= 32
}

fn render(r: &Record) -> bool {
    let screen = match r[SCREEN] {
        0 => r[SCREEN_FACTOR] == 0 && r[DEPTH_INDEX] == 0,
        1 => r[SCREEN_FACTOR] < 8 && r[DEPTH_INDEX] < 4,
        _ => false,
    };
    screen
        && r[X] <= XY_MAX
        && r[Y] <= XY_MAX
        && r[Z].abs_diff(Z_ZERO) <= 15
        && r[DISTANCE] <= 17
        && r[WIDTH..=HEIGHT].iter().all(|size| *size < 32)
        && r[ZONE] < 6
        && r[ELEVATION] <= 1
        && r[SNAP] <= 1
}

/// Flag, mode and value: mode 3 and code 0 are reserved (Tables 40, 42).
fn divergence(r: &Record) -> bool {
    matches!(
        (r[DIVERGENCE], r[DIVERGENCE_MODE], r[DIVERGENCE_VALUE]),
        (0, 0, 0) | (1, 0, 0..=3) | (1, 1, 0) | (1, 2, 1..=63)
    )
}

/// Codes of 2 bits, each 0 without its presence bit.
fn precise(r: &Record) -> bool {
    let code = |bit: u8, code: u8| code <= if r[PRESENCE] & bit != 0 { 3 } else { 0 };
    r[PRESENCE] < 8 && code(1, r[PRECISE_X]) && code(2, r[PRECISE_Y]) && code(4, r[PRECISE_Z])
}

/// A trim table that some accepted payload gives with as many objects as it has
/// flags (docs/DECISIONS.md, "The trim element").
pub fn trim(table: &[u8]) -> bool {
    let (configs, rest) = table[FIRST_CONFIG..].split_at(CONFIGS * CONFIG_BYTES);
    let configs = configs.as_chunks::<CONFIG_BYTES>().0;
    let flags = &rest[1..];
    match table[PRESENT] {
        0 => table.iter().fold(0, |all, byte| all | byte) == 0,
        1 => {
            table[WARP] < WARP_RESERVED
                && table[GLOBAL] < GLOBAL_RESERVED
                && match table[GLOBAL] {
                    GLOBAL_CUSTOM => configs.iter().all(trim_config),
                    _ => *configs == [Config::default(); CONFIGS],
                }
                && rest[0] <= 1
                && flags.iter().all(|flag| *flag <= rest[0])
        }
        _ => false,
    }
}

/// One configuration of custom_trim: what is not carried is 0.
fn trim_config(config: &Config) -> bool {
    match config[..=DISABLE] {
        [1, 0] | [0, 1] => config[BALANCE..] == Config::default()[BALANCE..],
        [0, 0] => {
            let within = |bit: u8, least: u8, most: u8, value: u8| match config[BALANCE] & bit {
                0 => value == 0,
                _ => (least..=most).contains(&value),
            };
            config[BALANCE] < 32
                && within(HAS_CENTRE, 0, 15, config[CENTRE])
                && within(HAS_SURROUND, LEAST_TRIM, 15, config[SURROUND])
                && within(HAS_HEIGHT, LEAST_TRIM, 15, config[TRIM_HEIGHT])
                && within(HAS_TB, 0, 1, config[SIGN_TB])
                && within(HAS_TB, 0, 15, config[AMOUNT_TB])
                && within(HAS_LIS, 0, 1, config[SIGN_LIS])
                && within(HAS_LIS, 0, 15, config[AMOUNT_LIS])
        }
        _ => false,
    }
}
