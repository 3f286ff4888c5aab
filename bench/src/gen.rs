//! A generator of valid, nearly valid and damaged payloads, and of tables to be
//! written. It shares the public table types with `plain` and nothing else: the
//! payloads are composed from the clauses anew, and where the generator knows
//! the answer it says so.

mod chain;
mod damage;
mod draft;
pub mod edges;
mod extended;
pub mod library;
pub mod marks;
mod object;
mod payload;
mod programme;
mod render;
pub mod rng;
mod slow;
mod tables;
pub mod texts;
mod timing;
mod trim;
mod trim_tables;
mod wreck;

use crate::plain::{Programme, Timing};
use marks::Marks;
use rng::Rng;

pub use chain::longest_chain;
pub use tables::longest;
pub use timing::timed;
pub use wreck::{Remains, Wreck};

/// Bytes of a record in a buffer: 24 that the payload gives, 8 of its time.
const STRIDE: usize = 32;
/// A buffer of this many bytes holds the records of every payload.
const ROOM: usize = 40_960;

/// One payload to be read.
pub struct Case {
    /// What kind of case it is.
    pub kind: &'static str,
    pub payload: Vec<u8>,
    /// The frame that it is read in.
    pub frame: u32,
    /// Length of the record buffer.
    pub room: usize,
    /// Length of the trim buffer.
    pub trim_room: usize,
    /// Refusal, place and missing bits, where the generator knows them.
    pub expect: Option<(u32, u64, u32)>,
    /// What is to be read if the payload is accepted, where it is known.
    pub tables: Option<Tables>,
    /// The branches that the payload takes, if nothing in it is damaged.
    pub marks: Marks,
}

/// What an accepted read answers and leaves in the buffers.
#[derive(Clone)]
pub struct Tables {
    pub programme: Programme,
    pub timing: Timing,
    pub records: Vec<u8>,
    pub trim: Vec<u8>,
    pub unknown: u32,
}

/// Tables to be written.
#[derive(Clone)]
pub struct TableCase {
    pub kind: &'static str,
    pub programme: Programme,
    pub timing: Timing,
    /// The frame that they are written in.
    pub frame: u32,
    pub records: Vec<u8>,
    pub trim: Vec<u8>,
    /// Whether they are valid, where the generator knows it.
    pub valid: Option<bool>,
    /// The place of refusal 10, if it is given and the generator knows it.
    pub place: Option<u64>,
}

/// What a nearly valid payload has wrong; each is placed at most once.
#[derive(Clone, Copy, PartialEq, Debug)]
pub(crate) enum Fault {
    Version,
    Counts,
    Isf,
    OffsetCode,
    Zone,
    SizeIndex,
    DivergenceMode,
    DivergenceCode,
    WarpMode,
    GlobalMode,
    Surround,
    TrimHeight,
    TwiceObject,
    TwiceExtended,
    TwiceTrim,
    Early,
    ShortElement,
    ShortTrim,
    LongSize,
}

/// The generator: all that it makes follows from the seed.
pub struct Gen {
    rng: Rng,
    marks: Marks,
    fault: Option<Fault>,
    /// The frame of the case or the tables that are made.
    frame: u32,
    /// The length in bytes that a last, unknown element is to fill.
    fill: Option<usize>,
}

impl Gen {
    pub fn new(seed: u64) -> Self {
        Self {
            rng: Rng::new(seed),
            marks: Marks::default(),
            fault: None,
            frame: 0,
            fill: None,
        }
    }

    /// Any frame, the first and the last one more often.
    fn draw_frame(&mut self) {
        let any = self.rng.word() as u32;
        self.frame = self.rng.pick(&[0, 1, any % 100_000, any, u32::MAX]);
    }

    /// Whether `fault` is wanted and is to be placed here, with this chance in
    /// a hundred.
    fn place_fault(&mut self, fault: Fault, chance: usize) -> bool {
        let here = self.fault == Some(fault) && self.rng.chance(chance);
        if here {
            self.fault = None;
        }
        here
    }
}
