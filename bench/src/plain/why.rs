//! Why a byte of a record is what it is: where it comes from, and where that
//! comes from, back to what the payload, the programme or a table gives.

use super::bits::Refusal;
use super::origin::{Noted, Origin};
use super::reader::{self, Scratch, Tables};
use super::refusal;
use super::{MAX_BLOCKS, MAX_OBJECTS, MAX_RECORDS};
use super::{MAX_RECORD_BYTES, MAX_TRIM_BYTES, RECORD_BYTES};

/// Most steps: each goes back by a block or by an object.
pub const MAX_STEPS: usize = MAX_OBJECTS - 1 + MAX_BLOCKS;

/// A step: the byte's value in a block of an object, and where it comes from.
#[derive(Clone, Copy, Debug, Default, PartialEq, Eq)]
pub struct WhyStep {
    pub object: u8,
    pub block: u8,
    pub value: u8,
    /// 1 a field, 2 the programme, 3 a default of Table 28, 4 of Table 29, 5
    /// nothing carried, 6 the block before, 7 the object before.
    pub source: u8,
    /// The field's number from 1 on, and its first bit; 0 without one.
    pub field: u8,
    pub bit: u32,
    /// The difference of a moved coordinate, 3 bits as carried, else 0.
    pub difference: u8,
}

/// What is answered. On a refusal there is no step.
#[derive(Clone, Debug, Default, PartialEq, Eq)]
pub struct WhyAnswer {
    pub refusal: u32,
    pub place: u64,
    pub missing: u32,
    pub steps: Vec<WhyStep>,
}

impl WhyAnswer {
    fn refused(refusal: u32, place: u64, missing: u32) -> Self {
        Self {
            refusal,
            place,
            missing,
            steps: vec![],
        }
    }
}

/// A payload read for questions about it.
pub struct Reasons(Result<Read, Refusal>);

struct Read {
    tables: Tables,
    scratch: Box<Scratch>,
    noted: Noted,
}

/// Why a byte, of the record of an object and a block, is what it is.
pub fn why(payload: &[u8], object: u32, block: u32, byte: u32) -> WhyAnswer {
    Reasons::of(payload).why(object, block, byte)
}

impl Reasons {
    /// Reads a payload, and notes where each byte comes from.
    pub fn of(payload: &[u8]) -> Self {
        let mut scratch = Box::new(Scratch {
            records: [[0; RECORD_BYTES]; MAX_RECORDS],
            trim: [0; MAX_TRIM_BYTES],
        });
        let mut noted = Noted::default();
        let rooms = (MAX_RECORD_BYTES, MAX_TRIM_BYTES);
        let tables = reader::payload(payload, rooms, &mut scratch, &mut noted);
        Self(tables.map(|tables| Read {
            tables,
            scratch,
            noted,
        }))
    }

    /// Refusals 1 to 8 come first, then 14.
    pub fn why(&self, object: u32, block: u32, byte: u32) -> WhyAnswer {
        let read = match &self.0 {
            Ok(read) => read,
            Err(why) => return WhyAnswer::refused(why.number, why.place, why.missing),
        };
        let there = [
            object < u32::from(read.tables.programme.objects),
            block < u32::from(read.tables.timing.blocks),
            byte < RECORD_BYTES as u32,
        ];
        match there.iter().position(|there| !there) {
            Some(which) => WhyAnswer::refused(refusal::NO_SUCH, which as u64 + 1, 0),
            None => WhyAnswer {
                steps: read.steps(object as usize, block as usize, byte as usize),
                ..WhyAnswer::default()
            },
        }
    }
}

impl Read {
    /// The steps back from a byte that is there.
    fn steps(&self, mut object: usize, mut block: usize, byte: usize) -> Vec<WhyStep> {
        let blocks = usize::from(self.tables.timing.blocks);
        let mut steps = vec![];
        loop {
            let at = object * blocks + block;
            let origin = self.noted.records[at][byte];
            let step = WhyStep {
                object: object as u8,
                block: block as u8,
                value: self.scratch.records[at][byte],
                ..told(origin)
            };
            steps.push(step);
            match origin {
                Origin::Before | Origin::Moved(..) => block -= 1,
                Origin::Above => object -= 1,
                _ => return steps,
            }
        }
    }
}

/// The numbers of an origin.
fn told(origin: Origin) -> WhyStep {
    let source = |source: u8| WhyStep {
        source,
        ..WhyStep::default()
    };
    match origin {
        Origin::Field(field, bit) => WhyStep {
            field: field as u8,
            bit: bit as u32,
            ..source(1)
        },
        Origin::Programme => source(2),
        Origin::BasicDefault => source(3),
        Origin::RenderDefault => source(4),
        Origin::Nothing => source(5),
        Origin::Before => source(6),
        Origin::Moved(field, bit, difference) => WhyStep {
            field: field as u8,
            bit: bit as u32,
            difference,
            ..source(6)
        },
        Origin::Above => source(7),
    }
}

const _: () = assert!(MAX_STEPS == 166);
