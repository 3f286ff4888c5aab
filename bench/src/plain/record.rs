//! The record of one object in one block, byte by byte.

use super::{Programme, Timing, MAX_BLOCKS};

/// Bytes of one record that a payload gives.
pub const RECORD_BYTES: usize = 24;
/// Bytes of one record in a buffer: these, and behind them its time.
pub const RECORD_STRIDE: usize = RECORD_BYTES + size_of::<Time>();
/// Samples of a frame.
pub const FRAME_SAMPLES: u64 = 1536;

/// One record; the constants below name its bytes.
pub type Record = [u8; RECORD_BYTES];
/// When a record's block starts, in samples from the start of frame 0, least
/// byte first.
pub type Time = [u8; 8];
/// A record as it lies in a buffer.
pub type Entry = [u8; RECORD_STRIDE];

pub const ACTIVE: usize = 0;
pub const CLASS: usize = 1;
/// Gain in dB plus 50, or 0 for minus infinity.
pub const GAIN: usize = 2;
/// Priority in 32nds.
pub const PRIORITY: usize = 3;
pub const X: usize = 4;
pub const Y: usize = 5;
/// z in 15ths plus 64.
pub const Z: usize = 6;
/// 0 not given, 1 infinity, else 2 + index.
pub const DISTANCE: usize = 7;
pub const WIDTH: usize = 8;
pub const DEPTH: usize = 9;
pub const HEIGHT: usize = 10;
pub const ZONE: usize = 11;
pub const ELEVATION: usize = 12;
pub const SCREEN: usize = 13;
pub const SCREEN_FACTOR: usize = 14;
pub const DEPTH_INDEX: usize = 15;
pub const SNAP: usize = 16;
/// Divergence flag, mode, and table or code value.
pub const DIVERGENCE: usize = 17;
pub const DIVERGENCE_MODE: usize = 18;
pub const DIVERGENCE_VALUE: usize = 19;
/// ext_prec_pos_presence as carried: 4 z, 2 y, 1 x (Table 43, point 1).
pub const PRESENCE: usize = 20;
pub const PRECISE_X: usize = 21;
pub const PRECISE_Y: usize = 22;
pub const PRECISE_Z: usize = 23;

/// Values of `CLASS`.
pub const BED: u8 = 0;
pub const ISF: u8 = 1;
pub const DYNAMIC: u8 = 2;

/// z = 0 in byte 6.
pub const Z_ZERO: u8 = 64;
/// 0 dB in byte 2.
pub const GAIN_ZERO: u8 = 50;
/// Largest x and y: 62 over 62.
pub const XY_MAX: u8 = 62;

/// An inactive record of class 0: the defaults of Tables 28 and 29 (point 20).
pub const DEFAULTS: Record = {
    let mut record = [0; RECORD_BYTES];
    record[X] = 31;
    record[Y] = 31;
    record[Z] = Z_ZERO;
    record[ELEVATION] = 1;
    record
};

/// The record and the time of an entry.
#[inline]
pub fn parts(entry: &Entry) -> (&Record, &Time) {
    let (record, time) = entry.split_first_chunk().expect("a record");
    (record, time.try_into().expect("its time"))
}

/// The time of each block: starts past the end of the frame are not folded.
pub fn times(frame: u32, timing: &Timing) -> [Time; MAX_BLOCKS] {
    let first = FRAME_SAMPLES * u64::from(frame);
    timing
        .updates
        .map(|update| (first + u64::from(update.start)).to_le_bytes())
}

/// Bits of content_description (Table 11a; index 0 is sent first, point 1).
pub const CONTENT_RESERVED: u8 = 8;
pub const CONTENT_DYNAMIC: u8 = 4;
pub const CONTENT_ISF: u8 = 2;
pub const CONTENT_BED: u8 = 1;

/// Objects of each ISF type (Table 11b); indices 6 and 7 are reserved.
pub const ISF_OBJECTS: [usize; 6] = [4, 8, 10, 14, 15, 30];

/// Flags of bed_channel_assignment that stand for a pair (Table 12): array
/// index 9 and 6 to 1. Index k has weight 2^(9 - k).
const STANDARD_PAIRS: u32 = 0b01_1111_1001;

/// Numbers of objects by class as the program assignment gives them (5.6.4.8).
#[derive(Clone, Copy)]
pub struct Counts {
    pub bed: usize,
    pub isf: usize,
    pub dynamic: usize,
}

impl Counts {
    pub fn of(programme: &Programme) -> Self {
        if programme.dynonly != 0 {
            let bed = usize::from(programme.lfe);
            return Self {
                bed,
                isf: 0,
                dynamic: usize::from(programme.objects) - bed,
            };
        }
        let beds = &programme.beds[..usize::from(programme.bedcount)];
        let mut counts = Self {
            bed: beds.iter().map(bed_objects).sum(),
            isf: 0,
            dynamic: 0,
        };
        if programme.content & CONTENT_ISF != 0 {
            counts.isf = ISF_OBJECTS[usize::from(programme.isf)];
        }
        if programme.content & CONTENT_DYNAMIC != 0 {
            counts.dynamic = usize::from(programme.dynamics) + 1;
        }
        counts
    }

    pub fn total(self) -> usize {
        self.bed + self.isf + self.dynamic
    }

    /// Class of an object: beds, then ISF, then dynamic, with what is left over
    /// under the reserved content flag (house rule).
    pub fn class(self, object: usize) -> u8 {
        if object < self.bed {
            BED
        } else if object < self.bed + self.isf {
            ISF
        } else {
            DYNAMIC
        }
    }
}

/// Objects of one bed (Tables 12 and 13).
fn bed_objects(bed: &super::Bed) -> usize {
    let mut objects = u32::from(bed.lfeonly) + bed.assignment.count_ones();
    if bed.standard != 0 {
        objects += (bed.assignment & STANDARD_PAIRS).count_ones();
    }
    objects as usize
}
