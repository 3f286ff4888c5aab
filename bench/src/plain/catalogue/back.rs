//! A text back to its frames: lines are taken one by one, each as what must or
//! may come next.

use super::line::{Line, FIELDS};
use super::sheet::{Block, Rows, Sheet};
use crate::plain::record::RECORD_BYTES;
use std::iter::Peekable;

/// The frames of a text behind an update with the rows `before`, which are then
/// those of the last update; or the number of the first line that cannot stand
/// where it does, counted from 1, which is one past the last if lines are missing.
pub fn sheets(text: &[u8], before: &mut Rows) -> Result<Vec<Sheet>, usize> {
    let lines = text.split_inclusive(|byte| *byte == b'\n');
    // what lies behind the last LF is a line without its end, and bad
    let lines = lines.map(|line| Line::parse(line.strip_suffix(b"\n")?));
    let mut reading = Reading {
        lines: lines.peekable(),
        taken: 0,
        before,
    };
    reading.frames().ok_or(reading.taken)
}

/// Where a reading stands. Its functions give none as soon as the line that was
/// taken last is bad, or is missing.
struct Reading<'a, I: Iterator<Item = Option<Line>>> {
    /// Lines that are left, none where one is bad by itself.
    lines: Peekable<I>,
    /// How many lines were taken.
    taken: usize,
    /// The rows of the last update.
    before: &'a mut Rows,
}

impl<I: Iterator<Item = Option<Line>>> Reading<'_, I> {
    fn take(&mut self) -> Option<Line> {
        self.taken += 1;
        self.lines.next()?
    }

    fn frames(&mut self) -> Option<Vec<Sheet>> {
        let mut sheets = vec![];
        while self.lines.peek().is_some() {
            sheets.push(self.frame()?);
        }
        Some(sheets)
    }

    fn frame(&mut self) -> Option<Sheet> {
        match self.take()? {
            Line::Refused { frame, refusal } => Some(Sheet::refused(frame, refusal)),
            Line::Frame {
                frame,
                objects,
                blocks,
            } => Some(Sheet {
                frame,
                refusal: 0,
                objects,
                blocks: (0..blocks)
                    .map(|_| self.block(objects.into()))
                    .collect::<Option<_>>()?,
            }),
            _ => None,
        }
    }

    fn block(&mut self, objects: usize) -> Option<Block> {
        let Line::Update(update) = self.take()? else {
            return None;
        };
        let rows = if self.before.len() == objects {
            self.changes()?
        } else {
            self.every(objects)?
        };
        self.before.clone_from(&rows);
        Some(Block { update, rows })
    }

    /// The rows of an update that lists every field of every object.
    fn every(&mut self, objects: usize) -> Option<Rows> {
        let row = |next| match self.take()? {
            Line::Object { object, fields } if object == next && fields.len() == FIELDS.len() => {
                let mut row = [0; RECORD_BYTES];
                for (field, value) in fields {
                    row[field] = value;
                }
                Some(row)
            }
            _ => None,
        };
        (0..objects).map(row).collect()
    }

    /// The rows of an update that lists what is not as in the one before.
    fn changes(&mut self) -> Option<Rows> {
        let mut rows = self.before.clone();
        let mut least = 0;
        let object = |line: &Option<Line>| matches!(line, Some(Line::Object { .. }));
        while let Some(Some(Line::Object { object, fields })) = self.lines.next_if(object) {
            self.taken += 1;
            if object < least {
                return None;
            }
            let row = rows.get_mut(object)?;
            for (field, value) in fields {
                if row[field] == value {
                    return None;
                }
                row[field] = value;
            }
            least = object + 1;
        }
        Some(rows)
    }
}
