//! Objects that move slowly, as in a library: sent in full in block 0, and
//! afterwards as the block before but for those that moved (5.5.9 to 5.5.11).

use super::draft::Draft;
use super::object::defaults;
use super::rng::Rng;
use crate::plain::Record;

/// Dynamic objects in a thousand that move in a block; objects in a thousand that
/// change a value of another sort in block 0, and that fall silent or wake there.
const MOVES: usize = 300;
const CHANGES: usize = 20;
const TURNS: usize = 3;

/// An active object of a class, anywhere.
pub fn placed(rng: &mut Rng, class: u8) -> Record {
    let mut record = defaults(class.into());
    record[0] = 1;
    record[2] = 50;
    record[3] = 32;
    if class == 2 {
        record[4] = rng.below(63) as u8;
        record[5] = rng.below(63) as u8;
        record[6] = 64 + rng.below(16) as u8;
        let size = rng.pick(&[0, 0, 0, 1, 4, 10]);
        record[8..11].fill(size);
        record[16] = u8::from(rng.chance(10));
    }
    record
}

/// An object in block 0, as it then is, in full.
pub fn first_block(rng: &mut Rng, draft: &mut Draft, record: &mut Record) {
    if rng.of_thousand(TURNS) {
        *record = match record[0] {
            0 => placed(rng, record[1]),
            _ => defaults(record[1].into()),
        };
    }
    let active = record[0] != 0;
    if active && rng.of_thousand(CHANGES) {
        change(rng, record);
    }
    draft.flag(!active);
    if active {
        basic(draft, record);
        if record[1] == 2 {
            moved(rng, record);
            render(draft, record);
        }
    }
    draft.flag(false);
}

/// An object in a later block: it moved, or all is as before.
pub fn later_block(rng: &mut Rng, draft: &mut Draft, record: &mut Record) {
    let active = record[0] != 0;
    draft.flag(!active);
    if active {
        draft.field(2, 2);
        if record[1] == 2 {
            let codes = moved(rng, record);
            let still = codes == [0; 3];
            draft.field(2, if still { 2 } else { 3 });
            if !still {
                draft.field(4, 1);
                draft.flag(true);
                for code in codes {
                    draft.field(3, code);
                }
                distance(draft, record);
                draft.field(1, record[16].into());
            }
        }
    }
    draft.flag(false);
}

/// Moves the object a little, or not; answers the codes of the differences.
fn moved(rng: &mut Rng, record: &mut Record) -> [usize; 3] {
    let mut codes = [0; 3];
    if rng.of_thousand(MOVES) {
        for (code, (byte, most)) in codes.iter_mut().zip([(4, 62), (5, 62), (6, 79)]) {
            let least = if byte == 6 { 49 } else { 0 };
            let target = i32::from(record[byte]) + rng.pick(&[-1, 0, 1]);
            if (least..=most).contains(&target) {
                *code = ((target - i32::from(record[byte])) & 7) as usize;
                record[byte] = target as u8;
            }
        }
    }
    codes
}

/// Changes a value that is no coordinate.
fn change(rng: &mut Rng, record: &mut Record) {
    match rng.below(if record[1] == 2 { 6 } else { 2 }) {
        0 => record[2] = rng.pick(&[0, 40, 44, 47, 49, 50, 50, 52]),
        1 => record[3] = rng.within(0, 32) as u8,
        2 => record[7] = rng.pick(&[0, 0, 1, 7]),
        3 => record[8..11].fill(rng.below(32) as u8),
        4 => record[8..11].copy_from_slice(&[(); 3].map(|()| rng.below(32) as u8)),
        _ => (record[11], record[12]) = (rng.below(6) as u8, rng.below(2) as u8),
    }
}

/// object_basic_info (5.5.10) in full.
fn basic(draft: &mut Draft, record: &Record) {
    match usize::from(record[2]) {
        50 => draft.field(2, 0),
        0 => draft.field(2, 1),
        gain => {
            draft.field(2, 2);
            draft.field(6, if gain > 50 { 65 - gain } else { 64 - gain });
        }
    }
    draft.flag(record[3] == 32);
    if record[3] < 32 {
        draft.field(5, record[3].into());
    }
}

/// object_render_info (5.5.11) in full.
fn render(draft: &mut Draft, record: &Record) {
    draft.field(6, record[4].into());
    draft.field(6, record[5].into());
    draft.flag(record[6] >= 64);
    draft.field(4, record[6].abs_diff(64).into());
    distance(draft, record);
    draft.field(3, record[11].into());
    draft.field(1, record[12].into());
    let [width, depth, height] = [8, 9, 10].map(|byte| usize::from(record[byte]));
    match (width == depth && depth == height, width) {
        (true, 0) => draft.field(2, 0),
        (true, size) => {
            draft.field(2, 1);
            draft.field(5, size);
        }
        _ => {
            draft.field(2, 2);
            for size in [width, depth, height] {
                draft.field(5, size);
            }
        }
    }
    draft.flag(false);
    draft.field(1, record[16].into());
}

/// The distance: none, infinity or an index.
fn distance(draft: &mut Draft, record: &Record) {
    draft.flag(record[7] > 0);
    if record[7] > 0 {
        draft.flag(record[7] == 1);
    }
    if record[7] > 1 {
        draft.field(4, usize::from(record[7]) - 2);
    }
}
