//! The render values of a block (5.5.11).

use super::draft::Draft;
use super::marks::Group;
use super::object::Context;
use super::{Fault, Gen};
use crate::plain::Record;

impl Gen {
    /// object_render_info (5.5.11): flags of screen, size, zone, position.
    pub(super) fn render(
        &mut self,
        draft: &mut Draft,
        status: usize,
        context: &Context,
        record: &mut Record,
    ) {
        if status >= 2 {
            record[4..17].copy_from_slice(&context.before[4..17]);
        }
        let mask = match status {
            1 => 15,
            3 => self.rng.below(16),
            _ => return,
        };
        if status == 3 {
            draft.field(4, mask);
            self.marks.set(Group::RenderMask, mask);
        }
        if mask & 1 != 0 {
            self.position(draft, context, record);
            record[7] = self.distance(draft);
        }
        if mask & 2 != 0 {
            self.zone(draft, record);
        }
        if mask & 4 != 0 {
            self.size(draft, record);
        }
        if mask & 8 != 0 {
            self.screen(draft, record);
        }
        record[16] = self.drawn(draft, 1, 2);
        self.marks.set(Group::Snap, usize::from(record[16]));
    }

    fn position(&mut self, draft: &mut Draft, context: &Context, record: &mut Record) {
        let moved = !context.first && self.rng.chance(60);
        if !context.first {
            draft.flag(moved);
        }
        if moved {
            self.moved(draft, context, record);
            return;
        }
        self.marks.set(Group::Position, 0);
        for coordinate in &mut record[4..6] {
            let any = self.rng.below(64);
            let code = self
                .rng
                .pick(&[0, 1, 2, 60, 61, 62, 63, any, any, any, any]);
            draft.field(6, code);
            if code == 63 {
                self.marks.set(Group::Position, 1);
            }
            *coordinate = code.min(62) as u8;
        }
        let (sign, z) = (self.rng.below(2), self.rng.pick(&[0, 1, 2, 7, 13, 14, 15]));
        draft.field(1, sign);
        draft.field(4, z);
        record[6] = if sign == 0 { 64 - z } else { 64 + z } as u8;
        if sign + z == 0 {
            self.marks.set(Group::Position, 4);
        }
    }

    fn moved(&mut self, draft: &mut Draft, context: &Context, record: &mut Record) {
        self.marks.set(Group::Position, 2);
        for (byte, least, most) in [(4, 0, 62), (5, 0, 62), (6, 49, 79)] {
            let code = self.rng.below(8);
            draft.field(3, code);
            let target = i32::from(context.before[byte]) + [0, 1, 2, 3, -4, -3, -2, -1][code];
            let kept = target.clamp(least, most);
            record[byte] = kept as u8;
            if target != kept {
                self.marks.set(Group::Position, 3);
            }
        }
    }

    fn distance(&mut self, draft: &mut Draft) -> u8 {
        let kind = self.rng.below(3);
        self.marks.set(Group::Distance, kind);
        draft.flag(kind > 0);
        if kind > 0 {
            draft.flag(kind == 1);
        }
        match kind {
            2 => 2 + self.drawn(draft, 4, 16),
            other => other as u8,
        }
    }

    fn zone(&mut self, draft: &mut Draft, record: &mut Record) {
        if self.place_fault(Fault::Zone, 20) {
            draft.fail(5);
            draft.field(3, self.rng.within(6, 7));
        } else {
            record[11] = self.drawn(draft, 3, 6);
            self.marks.set(Group::Zone, usize::from(record[11]));
        }
        record[12] = self.drawn(draft, 1, 2);
        self.marks.set(Group::Elevation, usize::from(record[12]));
    }

    fn size(&mut self, draft: &mut Draft, record: &mut Record) {
        if self.place_fault(Fault::SizeIndex, 20) {
            draft.fail(5);
            draft.field(2, 3);
            return;
        }
        let index = self.rng.below(3);
        draft.field(2, index);
        self.marks.set(Group::Size, index);
        let sizes = match index {
            0 => [0; 3],
            1 => [self.drawn(draft, 5, 32); 3],
            _ => [(); 3].map(|()| self.drawn(draft, 5, 32)),
        };
        record[8..11].copy_from_slice(&sizes);
    }

    fn screen(&mut self, draft: &mut Draft, record: &mut Record) {
        record[13..16].fill(0);
        record[13] = self.drawn(draft, 1, 2);
        if record[13] != 0 {
            record[14] = self.drawn(draft, 3, 8);
            record[15] = self.drawn(draft, 2, 4);
        }
        self.marks.set(Group::Screen, usize::from(record[13]));
    }
}
