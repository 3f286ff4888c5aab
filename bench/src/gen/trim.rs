//! Trim elements (5.5.12).

use super::draft::Draft;
use super::marks::Group;
use super::{Fault, Gen};

impl Gen {
    /// The content of a trim element; the table that a reader is to make of it:
    /// a byte for each field in the order of 5.5.12.
    pub(super) fn trim_element(&mut self, draft: &mut Draft, objects: usize) -> Vec<u8> {
        let mut table = vec![1, self.warp_mode(draft)];
        let reserved = self.rng.below(4);
        draft.field(2, reserved);
        self.marks.set(Group::TrimReserved, reserved);
        let mode = self.global_mode(draft);
        table.push(mode);
        for _ in 0..9 {
            match mode {
                2 => self.configuration(draft, &mut table),
                _ => table.extend([0; 10]),
            }
        }
        let per_object = self.rng.chance(50);
        draft.flag(per_object);
        self.marks.set(Group::PerObject, usize::from(per_object));
        table.push(per_object.into());
        for _ in 0..objects {
            let disable = per_object && self.rng.chance(50);
            if per_object {
                draft.flag(disable);
                self.marks.set(Group::ObjectTrim, usize::from(disable));
            }
            table.push(disable.into());
        }
        table
    }

    /// Table 32.
    fn warp_mode(&mut self, draft: &mut Draft) -> u8 {
        if self.place_fault(Fault::WarpMode, 100) {
            draft.fail(5);
            draft.field(2, self.rng.within(2, 3));
            return 0;
        }
        self.marked(draft, (Group::WarpMode, 0), 2, (0, 1))
    }

    /// Table 33; the configurations follow if a fault is wanted in one of them.
    fn global_mode(&mut self, draft: &mut Draft) -> u8 {
        if self.place_fault(Fault::GlobalMode, 100) {
            draft.fail(5);
            draft.field(2, 3);
            return 0;
        }
        let custom = matches!(self.fault, Some(Fault::Surround | Fault::TrimHeight));
        let least = if custom || self.rng.chance(50) { 2 } else { 0 };
        self.marked(draft, (Group::GlobalMode, 0), 2, (least, 2))
    }

    /// One configuration: ten bytes.
    fn configuration(&mut self, draft: &mut Draft, table: &mut Vec<u8>) {
        let kind = self.rng.pick(&[0, 1, 2, 2, 2]);
        self.marks.set(Group::Configuration, kind);
        draft.flag(kind == 0);
        if kind == 0 {
            table.extend([1, 0, 0, 0, 0, 0, 0, 0, 0, 0]);
            return;
        }
        draft.flag(kind == 1);
        if kind == 1 {
            table.extend([0, 1, 0, 0, 0, 0, 0, 0, 0, 0]);
            return;
        }
        let presence = self.rng.below(32);
        draft.field(5, presence);
        self.marks.set(Group::Balance, presence);
        table.extend([0, 0, presence as u8]);
        self.trims_and_balances(draft, table, presence);
    }

    /// The values of one configuration, each pair of sign and amount together:
    /// seven bytes. Index 0 of the presence is sent first, so it is the top bit.
    fn trims_and_balances(&mut self, draft: &mut Draft, table: &mut Vec<u8>, presence: usize) {
        for (bit, fault, group, least) in [
            (1, None, Group::Centre, 0),
            (2, Some(Fault::Surround), Group::Surround, 4),
            (4, Some(Fault::TrimHeight), Group::TrimHeight, 4),
        ] {
            table.push(match presence & bit {
                0 => 0,
                _ => self.trim_value(draft, fault, group, least),
            });
        }
        for (bit, sign, amount) in [
            (8, Group::SignTb, Group::AmountTb),
            (16, Group::SignLis, Group::AmountLis),
        ] {
            table.extend(match presence & bit {
                0 => [0, 0],
                _ => [
                    self.marked(draft, (sign, 0), 1, (0, 1)),
                    self.marked(draft, (amount, 0), 4, (0, 15)),
                ],
            });
        }
    }

    /// Tables 35 to 37: values below `least` are reserved.
    fn trim_value(
        &mut self,
        draft: &mut Draft,
        fault: Option<Fault>,
        group: Group,
        least: usize,
    ) -> u8 {
        if fault.is_some_and(|fault| self.place_fault(fault, 40)) {
            draft.fail(5);
            draft.field(4, self.rng.below(least));
            return 0;
        }
        self.marked(draft, (group, least), 4, (least, 15))
    }

    /// A field of any value within a range, marked; the group's first value is
    /// given with it.
    fn marked(
        &mut self,
        draft: &mut Draft,
        (group, first): (Group, usize),
        width: usize,
        (from, to): (usize, usize),
    ) -> u8 {
        let value = self.rng.within(from, to);
        draft.field(width, value);
        self.marks.set(group, value - first);
        value as u8
    }
}
