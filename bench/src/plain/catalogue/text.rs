//! The lines of a frame.

use super::line::FIELDS;
use super::sheet::{Rows, Sheet};
use crate::plain::record::{Record, RECORD_BYTES};
use crate::plain::refusal;
use std::fmt::{Result, Write};

/// Adds the lines of a frame behind an update with the rows `before`, none if it
/// has none before it. The rows are then those of the frame's last update, if it
/// has any.
pub fn lay(sheet: Sheet, before: &mut Rows, text: &mut String) -> Result {
    let frame = sheet.frame;
    if sheet.refusal != refusal::ACCEPTED {
        return writeln!(text, "frame={frame},refusal={}", sheet.refusal);
    }
    let (objects, blocks) = (sheet.objects, sheet.blocks.len());
    writeln!(text, "frame={frame},objects={objects},blocks={blocks}")?;
    for block in sheet.blocks {
        let (start, ramp) = (block.update.start, block.update.ramp);
        writeln!(text, "start={start},ramp={ramp}")?;
        // with another number of objects, no object has a row before
        let same = before.len() == block.rows.len();
        for (object, row) in block.rows.iter().enumerate() {
            lay_object(object, row, same.then(|| &before[object]), text)?;
        }
        *before = block.rows;
    }
    Ok(())
}

/// Adds the line of an object, with the fields that are not as before; none if
/// all are.
fn lay_object(object: usize, row: &Record, before: Option<&Record>, text: &mut String) -> Result {
    let changed = |field: &usize| before.is_none_or(|before| before[*field] != row[*field]);
    let changed: Vec<usize> = (0..RECORD_BYTES).filter(changed).collect();
    if changed.is_empty() {
        return Ok(());
    }
    write!(text, "object={object}")?;
    for field in changed {
        write!(text, ",{}={}", FIELDS[field].0, row[field])?;
    }
    writeln!(text)
}
