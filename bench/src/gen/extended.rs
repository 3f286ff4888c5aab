//! Extended object elements (5.5.13 to 5.5.15).

use super::draft::Draft;
use super::marks::Group;
use super::{Fault, Gen};
use crate::plain::Record;

impl Gen {
    /// The content of an extended element; completes the records.
    pub(super) fn extended_element(&mut self, draft: &mut Draft, records: &mut [Record]) {
        let wanted = matches!(
            self.fault,
            Some(Fault::DivergenceMode | Fault::DivergenceCode)
        );
        let mut extends: Vec<&mut Record> = records
            .iter_mut()
            .filter(|record| record[..2] == [1, 2])
            .collect();
        let sparse = self.rng.chance(30) || extends.len() > 400;
        let block = wanted || self.rng.chance(70);
        draft.flag(block);
        self.marks.set(Group::DivergenceBlock, usize::from(block));
        if block {
            for record in &mut extends {
                self.divergence(draft, sparse, record);
            }
        }
        let block = self.rng.chance(70);
        draft.flag(block);
        self.marks.set(Group::PreciseBlock, usize::from(block));
        if block {
            for record in &mut extends {
                self.precise(draft, sparse, record);
            }
        }
    }

    /// obj_div_block (5.5.14).
    fn divergence(&mut self, draft: &mut Draft, sparse: bool, record: &mut Record) {
        let flag = self.rng.chance(if sparse { 5 } else { 70 });
        draft.flag(flag);
        if !flag {
            self.marks.set(Group::Divergence, 0);
            return;
        }
        if self.place_fault(Fault::DivergenceMode, 20) {
            draft.fail(5);
            draft.field(2, 3);
            return;
        }
        let mode = self.rng.below(3);
        draft.field(2, mode);
        self.marks.set(Group::Divergence, 1 + mode);
        let (width, value) = match mode {
            0 => (2, self.rng.below(4)),
            1 => (0, 0),
            _ if self.place_fault(Fault::DivergenceCode, 40) => {
                draft.fail(5);
                (6, 0)
            }
            _ => (6, self.rng.within(1, 63)),
        };
        if width > 0 {
            draft.field(width, value);
        }
        record[17..20].copy_from_slice(&[1, mode as u8, value as u8]);
    }

    /// ext_prec_pos_block (5.5.15): flags of z, y, x; codes of x, y, z.
    fn precise(&mut self, draft: &mut Draft, sparse: bool, record: &mut Record) {
        let flag = self.rng.chance(if sparse { 5 } else { 70 });
        draft.flag(flag);
        if !flag {
            self.marks.set(Group::Presence, 8);
            return;
        }
        let [z, y, x] = [(); 3].map(|()| self.rng.below(2));
        let presence = 4 * z + 2 * y + x;
        draft.field(3, presence);
        self.marks.set(Group::Presence, presence);
        record[20] = presence as u8;
        for (byte, present) in [(21, x), (22, y), (23, z)] {
            if present != 0 {
                let code = self.rng.below(4);
                draft.field(2, code);
                record[byte] = code as u8;
            }
        }
    }
}
