//! The timing of an object element (5.5.6, 5.5.7).

use super::draft::Draft;
use super::marks::Group;
use super::{Fault, Gen, STRIDE};
use crate::plain::{Record, Timing};

/// The bytes of records, each with its time behind it: 1,536 samples for every
/// frame before this one, and the start of its block.
pub fn timed(records: &[Record], timing: &Timing, frame: u32) -> Vec<u8> {
    let mut bytes = Vec::with_capacity(STRIDE * records.len());
    for (index, record) in records.iter().enumerate() {
        let start = timing.updates[index % usize::from(timing.blocks)].start;
        let time = 1536 * u64::from(frame) + u64::from(start);
        bytes.extend(record);
        bytes.extend((0..8).map(|byte| (time >> (8 * byte)) as u8));
    }
    bytes
}

impl Gen {
    /// md_update_info (5.5.6, 5.5.7).
    pub(super) fn timing(&mut self, draft: &mut Draft) -> Timing {
        let offset = self.sample_offset(draft);
        let blocks = self.rng.pick(&[1, 1, 2, 2, 3, 4, 5, 6, 7, 8]);
        draft.field(3, blocks - 1);
        self.marks.set(Group::Blocks, blocks);
        let mut timing = Timing {
            blocks: blocks as u8,
            ..Timing::default()
        };
        for update in &mut timing.updates[..blocks] {
            let factor = self.rng.below(64);
            draft.field(6, factor);
            self.marks.set(Group::Factor, usize::from(factor >= 48));
            update.start = (offset + 32 * factor) as u16;
            update.ramp = self.ramp(draft);
        }
        timing
    }

    /// Tables 22 and 23.
    fn sample_offset(&mut self, draft: &mut Draft) -> usize {
        if self.place_fault(Fault::OffsetCode, 100) {
            draft.fail(5);
            draft.field(2, 3);
            return 0;
        }
        let (code, index) = (self.rng.below(3), self.rng.below(4));
        draft.field(2, code);
        let (mark, offset) = match code {
            0 => (0, 0),
            1 => {
                draft.field(2, index);
                (1 + index, [8, 16, 18, 24][index])
            }
            _ => {
                let offset = self.rng.below(32);
                draft.field(5, offset);
                (5, offset)
            }
        };
        self.marks.set(Group::Offset, mark);
        offset
    }

    /// Tables 24 and 25.
    fn ramp(&mut self, draft: &mut Draft) -> u16 {
        const TABLE: [u16; 16] = [
            32, 64, 128, 256, 320, 480, 1000, 1001, 1024, 1600, 1601, 1602, 1920, 2000, 2002, 2048,
        ];
        let code = self.rng.below(5);
        draft.field(2, code.min(3));
        let (mark, ramp) = match code {
            3 => {
                let ramp = self.rng.below(2048);
                draft.flag(false);
                draft.field(11, ramp);
                (3, ramp as u16)
            }
            4 => {
                let index = self.rng.below(16);
                draft.flag(true);
                draft.field(4, index);
                (4 + index, TABLE[index])
            }
            _ => (code, [0, 512, 1536][code]),
        };
        self.marks.set(Group::Ramp, mark);
        ramp
    }
}
