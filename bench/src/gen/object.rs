//! Object elements (5.5.5, 5.5.8 to 5.5.10).

use super::draft::Draft;
use super::marks::Group;
use super::Gen;
use crate::plain::{Record, Timing};

/// How the blocks of one element are drawn, in chances of a hundred.
struct Style {
    inactive: usize,
    /// Choices of a status.
    statuses: &'static [usize],
    additional: usize,
}

/// What the reader is to make of an object element.
pub struct ObjectElement {
    pub timing: Timing,
    pub records: Vec<Record>,
}

/// What a block depends on.
pub struct Context {
    pub object: usize,
    pub first: bool,
    /// The record of the block before.
    pub before: Record,
    /// The gain of the object before.
    pub above: u8,
}

/// An inactive record (Tables 28 and 29).
pub fn defaults(class: usize) -> Record {
    let mut record = [0; 24];
    record[1] = class as u8;
    (record[4], record[5], record[6], record[12]) = (31, 31, 64, 1);
    record
}

impl Gen {
    /// An object element for `objects` objects, the first `anchored` of which
    /// are bed or ISF objects, `bed` of them bed objects.
    pub(super) fn object_element(
        &mut self,
        draft: &mut Draft,
        objects: usize,
        (bed, anchored): (usize, usize),
    ) -> ObjectElement {
        let timing = self.timing(draft);
        let present = self.rng.chance(20);
        draft.flag(!present);
        if present {
            draft.run(&mut self.rng, 5);
        }
        self.marks.set(Group::ReservedBits, usize::from(present));
        let blocks = usize::from(timing.blocks);
        let style = self.style(objects * blocks);
        let mut records: Vec<Record> = Vec::with_capacity(objects * blocks);
        for object in 0..objects {
            let class = usize::from(object >= bed) + usize::from(object >= anchored);
            for block in 0..blocks {
                let context = Context {
                    object,
                    first: block == 0,
                    before: *records.last().unwrap_or(&defaults(class)),
                    above: match object {
                        0 => 50,
                        _ => records[records.len() - blocks][2],
                    },
                };
                records.push(self.block(draft, &style, &context, class));
            }
        }
        ObjectElement { timing, records }
    }

    /// object_info_block (5.5.9).
    fn block(
        &mut self,
        draft: &mut Draft,
        style: &Style,
        context: &Context,
        class: usize,
    ) -> Record {
        let mut record = defaults(class);
        let active = !self.rng.chance(style.inactive);
        let mark = 3 * usize::from(active) + class;
        self.marks.set(Group::Active, mark);
        draft.flag(!active);
        if active {
            record[0] = 1;
            self.active(draft, style, context, &mut record);
        }
        self.additional(draft, style, active);
        record
    }

    /// A style that keeps most elements within a payload.
    fn style(&mut self, records: usize) -> Style {
        let heavy = records > 300 && !self.rng.chance(3);
        Style {
            inactive: if heavy {
                self.rng.pick(&[70, 90, 97])
            } else {
                self.rng.pick(&[0, 10, 30, 60])
            },
            statuses: if heavy {
                &[0, 2, 2, 2, 3]
            } else {
                self.rng
                    .pick(&[&[0, 1, 2, 3], &[1, 1, 3], &[2, 3, 3], &[0, 3]])
            },
            additional: if heavy {
                0
            } else {
                self.rng.pick(&[0, 0, 2, 20])
            },
        }
    }

    /// The status fields and groups of an active block.
    fn active(&mut self, draft: &mut Draft, style: &Style, context: &Context, record: &mut Record) {
        let basic = self.status(draft, style, context);
        self.basic(draft, basic, context, record);
        if record[1] < 2 {
            if !context.first {
                self.marks.set(Group::BedStatus, basic);
            }
            return;
        }
        let render = self.status(draft, style, context);
        if !context.first {
            self.marks.set(Group::StatusPair, 4 * basic + render);
        }
        self.render(draft, render, context, record);
    }

    /// A status: 1 and not sent in block 0.
    fn status(&mut self, draft: &mut Draft, style: &Style, context: &Context) -> usize {
        if context.first {
            return 1;
        }
        let status = self.rng.pick(style.statuses);
        draft.field(2, status);
        status
    }

    /// object_basic_info (5.5.10): flags of priority, then gain.
    fn basic(&mut self, draft: &mut Draft, status: usize, context: &Context, record: &mut Record) {
        if status >= 2 {
            record[2..4].copy_from_slice(&context.before[2..4]);
        }
        let mask = match status {
            1 => 3,
            3 => self.rng.below(4),
            _ => return,
        };
        if status == 3 {
            draft.field(2, mask);
            self.marks.set(Group::BasicMask, mask);
        }
        if mask & 1 != 0 {
            record[2] = self.gain(draft, context);
        }
        if mask & 2 != 0 {
            let default = self.rng.chance(30);
            draft.flag(default);
            record[3] = 32;
            if !default {
                record[3] = self.drawn(draft, 5, 32);
            }
            self.marks.set(Group::Priority, usize::from(default));
        }
    }

    /// A field of any value below a limit.
    pub(super) fn drawn(&mut self, draft: &mut Draft, width: usize, limit: usize) -> u8 {
        let value = self.rng.below(limit);
        draft.field(width, value);
        value as u8
    }

    /// Tables 18 and 19.
    fn gain(&mut self, draft: &mut Draft, context: &Context) -> u8 {
        let index = self.rng.below(4);
        draft.field(2, index);
        let (mark, gain) = match index {
            0 => (0, 50),
            1 => (1, 0),
            2 => {
                let any = self.rng.below(64);
                let code = self.rng.pick(&[0, 14, 15, 63, any, any]);
                draft.field(6, code);
                let low = usize::from(code >= 15);
                (2 + low, (50 + 15 - code - low) as u8)
            }
            _ => (4 + usize::from(context.object == 0), context.above),
        };
        self.marks.set(Group::Gain, mark);
        gain
    }

    fn additional(&mut self, draft: &mut Draft, style: &Style, active: bool) {
        let present = self.rng.chance(style.additional);
        draft.flag(present);
        let mut value = 0;
        if present {
            let size = self.rng.below(16);
            draft.field(4, size);
            draft.run(&mut self.rng, 8 * (size + 1));
            value = 1 + size;
        }
        self.marks.set(Group::Additional, value);
        if !active {
            self.marks
                .set(Group::AdditionalInactive, usize::from(present));
        }
    }
}
