//! The steps of an answer held against the bits of the payload, without a
//! reader: where a field is named, its bits, and those of the field that it
//! hangs on, must give the value of the step; every other step must have the
//! value of the step behind it, or the one that its table gives.

use crate::plain::{WhyAnswer, WhyStep, MAX_STEPS};

/// Sources of a step.
const FIELD: u8 = 1;
const PROGRAMME: u8 = 2;
const BASIC_DEFAULT: u8 = 3;
const RENDER_DEFAULT: u8 = 4;
const NOTHING: u8 = 5;
const BEFORE: u8 = 6;
const ABOVE: u8 = 7;

/// The byte of the gain, and the first of the position.
const GAIN: usize = 2;
const X: usize = 4;
/// Table 29, in the order of a record from x to snap.
const RENDER_DEFAULTS: [u8; 13] = [31, 31, 64, 0, 0, 0, 0, 0, 1, 0, 0, 0, 0];

/// A field: the byte, or the first and the last of them, that it is read for,
/// its width, and what must stand before it: so many bits further up a field of
/// so many bits with this number.
struct Form {
    bytes: (usize, usize),
    width: usize,
    hangs_on: Option<(usize, usize, u32)>,
}

/// The fields from 1 on.
const FORMS: [Form; 33] = {
    const fn form(first: usize, last: usize, width: usize) -> Form {
        let bytes = (first, last);
        Form {
            bytes,
            width,
            hangs_on: None,
        }
    }
    const fn on(byte: usize, width: usize, up: usize, wide: usize, number: u32) -> Form {
        Form {
            hangs_on: Some((up, wide, number)),
            ..form(byte, byte, width)
        }
    }
    let size_bits = Form {
        hangs_on: Some((2, 2, 1)),
        ..form(8, 10, 5)
    };
    [
        form(0, 0, 1),
        form(2, 2, 2),
        on(2, 6, 2, 2, 2),
        form(3, 3, 1),
        on(3, 5, 1, 1, 0),
        // behind the flag that says so, y behind x, z behind y
        on(4, 3, 1, 1, 1),
        on(5, 3, 4, 1, 1),
        on(6, 3, 7, 1, 1),
        form(4, 4, 6),
        form(5, 5, 6),
        form(6, 6, 4),
        form(7, 7, 1),
        on(7, 1, 1, 1, 1),
        on(7, 4, 2, 2, 2),
        form(11, 11, 3),
        form(12, 12, 1),
        form(8, 10, 2),
        size_bits,
        on(8, 5, 2, 2, 2),
        on(9, 5, 7, 2, 2),
        on(10, 5, 12, 2, 2),
        form(13, 15, 1),
        on(14, 3, 1, 1, 1),
        on(15, 2, 4, 1, 1),
        form(16, 16, 1),
        form(17, 17, 1),
        on(18, 2, 1, 1, 1),
        on(19, 2, 3, 3, 4),
        on(19, 6, 3, 3, 6),
        on(20, 3, 1, 1, 1),
        form(21, 21, 2),
        form(22, 22, 2),
        form(23, 23, 2),
    ]
};

/// A number of the payload's bits; none if it is not all there.
fn number(payload: &[u8], at: usize, width: usize) -> Option<u32> {
    (at..at + width).try_fold(0, |number, bit| {
        let byte = u32::from(*payload.get(bit / 8)?);
        Some(number << 1 | byte >> (7 - bit % 8) & 1)
    })
}

/// What a field gives a byte; none if it cannot be the last one read for it.
fn given(step: &WhyStep, byte: usize, n: u32, payload: &[u8]) -> Option<u32> {
    let bit = step.bit as usize;
    Some(match (step.field, n) {
        (1, _) => 1 - n,
        (2, 0) => 50,
        (2, 1) => 0,
        (2, 3) if step.object == 0 => 50,
        (2, _) => return None,
        (3, 0..15) => 65 - n,
        (3, _) => 64 - n,
        (4, 1) => 32,
        (4, _) => return None,
        (9 | 10, _) => n.min(62),
        (11, _) if number(payload, bit.checked_sub(1)?, 1)? == 1 => 64 + n,
        (11, _) => 64 - n,
        (12 | 17, 0) => 0,
        (12 | 17, _) => return None,
        (13, 1) => 1,
        (13, _) => return None,
        (14, _) => n + 2,
        // without the screen flag there is no factor and no depth
        (22, 1) if byte != 13 => return None,
        _ => n,
    })
}

/// The value that a step must have, by the step behind it; none if the step
/// itself cannot be.
fn expected(payload: &[u8], byte: usize, step: &WhyStep, behind: Option<&WhyStep>) -> Option<u32> {
    if matches!(step.source, BEFORE | ABOVE) != behind.is_some() {
        return None;
    }
    let n = match step.field {
        0 if step.bit == 0 => 0,
        0 => return None,
        field => {
            let form = FORMS.get(usize::from(field) - 1)?;
            if byte < form.bytes.0 || form.bytes.1 < byte {
                return None;
            }
            if let Some((up, width, n)) = form.hangs_on {
                let at = (step.bit as usize).checked_sub(up)?;
                if number(payload, at, width)? != n {
                    return None;
                }
            }
            number(payload, step.bit as usize, form.width)?
        }
    };
    let moved = (6..=8).contains(&step.field);
    if !moved && step.difference != 0 {
        return None;
    }
    let behind = behind.copied().unwrap_or_default();
    let value = u32::from(behind.value);
    match step.source {
        FIELD if step.field != 0 && !moved => given(step, byte, n, payload),
        PROGRAMME if step.field == 0 && byte == 1 => Some(u32::from(step.value)),
        BASIC_DEFAULT if step.field == 0 && (GAIN..X).contains(&byte) => Some(0),
        RENDER_DEFAULT if step.field == 0 => {
            Some(u32::from(*RENDER_DEFAULTS.get(byte.checked_sub(X)?)?))
        }
        NOTHING if step.field == 0 && (17..24).contains(&byte) => Some(0),
        BEFORE | ABOVE if (behind.object, behind.block) != back(step)? => None,
        BEFORE if moved && u32::from(step.difference) == n => {
            let (least, most) = if byte == 6 { (49, 79) } else { (0, 62) };
            let by = if n < 4 { n as i32 } else { n as i32 - 8 };
            Some((value as i32 + by).clamp(least, most) as u32)
        }
        BEFORE if step.field == 0 && (GAIN..17).contains(&byte) => Some(value),
        ABOVE if step.field == 0 && byte == GAIN => Some(value),
        _ => None,
    }
}

/// Where the step behind one of the two links must be.
fn back(step: &WhyStep) -> Option<(u8, u8)> {
    match step.source {
        ABOVE => Some((step.object.checked_sub(1)?, step.block)),
        _ => Some((step.object, step.block.checked_sub(1)?)),
    }
}

/// Holds an answer that is not a refusal against the payload, what was asked,
/// and the record's byte.
pub fn check_why(
    payload: &[u8],
    (object, block, byte): (u8, u8, usize),
    value: u8,
    answer: &WhyAnswer,
) -> Result<(), String> {
    let steps = &answer.steps;
    let most = usize::from(object) + usize::from(block) + 1;
    let first = steps.first().map(|s| (s.object, s.block, s.value));
    if steps.len() > most.min(MAX_STEPS) || first != Some((object, block, value)) {
        return Err(format!("steps {steps:?}"));
    }
    for (at, step) in steps.iter().enumerate() {
        let expected = expected(payload, byte, step, steps.get(at + 1));
        if expected != Some(u32::from(step.value)) {
            return Err(format!("step {at} of {steps:?}, expected {expected:?}"));
        }
    }
    Ok(())
}
