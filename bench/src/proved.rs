//! The proved library through its C interface (include/skriemelt.h), linked, or served by another process (feature `served`). The structs mirror the
//! header's; host/test_layout.c holds the header to the numbers that are asserted here.

use crate::plain;

/// skriemelt_bed.
#[repr(C)]
#[derive(Clone, Copy, Debug)]
pub struct Bed {
    pub assignment: u32,
    pub lfeonly: u8,
    pub standard: u8,
}

/// skriemelt_programme.
#[repr(C)]
#[derive(Clone, Copy, Debug)]
pub struct Programme {
    pub objects: u8,
    pub dynonly: u8,
    pub lfe: u8,
    pub content: u8,
    pub distribute: u8,
    pub multiple: u8,
    pub instances: u8,
    pub bedcount: u8,
    pub isf: u8,
    pub dynamics: u8,
    pub beds: [Bed; 9],
}

/// skriemelt_update.
#[repr(C)]
#[derive(Clone, Copy, Debug)]
pub struct Update {
    pub start: u16,
    pub ramp: u16,
}

/// skriemelt_timing.
#[repr(C)]
#[derive(Clone, Copy, Debug)]
pub struct Timing {
    pub blocks: u8,
    pub updates: [Update; 8],
}

/// skriemelt_read_answer.
#[repr(C)]
#[derive(Clone, Copy, Debug)]
pub struct ReadAnswer {
    pub place: u64,
    pub refusal: u8,
    pub unknown: u8,
    pub programme: Programme,
    pub timing: Timing,
    pub missing: u32,
}

/// skriemelt_write_answer.
#[repr(C)]
#[derive(Clone, Copy, Debug)]
pub struct WriteAnswer {
    pub place: u64,
    pub length: u32,
    pub refusal: u8,
}

/// skriemelt_batch_answer.
#[repr(C)]
#[derive(Clone, Copy, Debug)]
pub struct BatchAnswer {
    pub place: u64,
    pub refusal: u8,
}

/// skriemelt_summary.
#[repr(C)]
#[derive(Clone, Copy, Debug)]
pub struct Summary {
    pub place: u64,
    pub refusal: u8,
    pub records: u32,
    pub gains: [u32; 66],
    pub zones: [u32; 6],
    pub classes: [u32; 3],
    pub activity: [u32; 2],
    pub late: u32,
    pub ramps: u32,
    pub payloads: [u32; 13],
}

/// skriemelt_catalogue_answer.
#[repr(C)]
#[derive(Clone, Copy, Debug)]
pub struct CatalogueAnswer {
    pub place: u64,
    pub length: u64,
    pub refusal: u8,
}

/// skriemelt_back_answer.
#[repr(C)]
#[derive(Clone, Copy, Debug)]
pub struct BackAnswer {
    pub place: u64,
    pub frames: u64,
    pub bytes: u64,
    pub refusal: u8,
}

/// skriemelt_catalogue_frame.
#[repr(C)]
#[derive(Clone, Copy, Debug)]
pub struct CatalogueFrame {
    pub frame: u32,
    pub refusal: u8,
    pub objects: u8,
    pub blocks: u8,
    pub zero: u8,
    pub updates: [Update; 8],
}

/// skriemelt_catalogue_before.
#[repr(C)]
#[derive(Clone, Copy, Debug)]
pub struct CatalogueBefore {
    pub objects: u8,
    pub rows: [u8; 3816],
}

/// skriemelt_why_step.
#[repr(C)]
#[derive(Clone, Copy, Debug, Default, PartialEq, Eq)]
pub struct WhyStep {
    pub bit: u32,
    pub object: u8,
    pub block: u8,
    pub value: u8,
    pub source: u8,
    pub field: u8,
    pub difference: u8,
}

/// skriemelt_why_answer.
#[repr(C)]
#[derive(Clone, Copy, Debug)]
pub struct WhyAnswer {
    pub place: u64,
    pub missing: u32,
    pub refusal: u8,
    pub count: u8,
    pub steps: [WhyStep; 166],
}

/// skriemelt_drop.
#[repr(C)]
#[derive(Clone, Copy, Debug, Default, PartialEq, Eq)]
pub struct Dropped {
    pub place: u32,
    pub id: u8,
    pub refusal: u8,
}

/// skriemelt_salvage_answer.
#[repr(C)]
#[derive(Clone, Copy, Debug)]
pub struct SalvageAnswer {
    pub place: u64,
    pub missing: u32,
    pub length: u32,
    pub refusal: u8,
    pub drops: u8,
    pub dropped: [Dropped; 46],
}

const _: () = {
    use core::mem::{align_of, offset_of, size_of};
    assert!(size_of::<Bed>() == 8 && align_of::<Bed>() == 4);
    assert!(offset_of!(Bed, assignment) == 0 && offset_of!(Bed, lfeonly) == 4);
    assert!(offset_of!(Bed, standard) == 5);
    assert!(size_of::<Programme>() == 84 && align_of::<Programme>() == 4);
    assert!(offset_of!(Programme, objects) == 0 && offset_of!(Programme, dynonly) == 1);
    assert!(offset_of!(Programme, lfe) == 2 && offset_of!(Programme, content) == 3);
    assert!(offset_of!(Programme, distribute) == 4 && offset_of!(Programme, multiple) == 5);
    assert!(offset_of!(Programme, instances) == 6 && offset_of!(Programme, bedcount) == 7);
    assert!(offset_of!(Programme, isf) == 8 && offset_of!(Programme, dynamics) == 9);
    assert!(offset_of!(Programme, beds) == 12);
    assert!(size_of::<Update>() == 4 && align_of::<Update>() == 2);
    assert!(offset_of!(Update, start) == 0 && offset_of!(Update, ramp) == 2);
    assert!(size_of::<Timing>() == 34 && align_of::<Timing>() == 2);
    assert!(offset_of!(Timing, blocks) == 0 && offset_of!(Timing, updates) == 2);
    assert!(size_of::<ReadAnswer>() == 136 && align_of::<ReadAnswer>() == 8);
    assert!(offset_of!(ReadAnswer, place) == 0 && offset_of!(ReadAnswer, refusal) == 8);
    assert!(offset_of!(ReadAnswer, unknown) == 9 && offset_of!(ReadAnswer, programme) == 12);
    assert!(offset_of!(ReadAnswer, timing) == 96 && offset_of!(ReadAnswer, missing) == 132);
    assert!(size_of::<WriteAnswer>() == 16 && align_of::<WriteAnswer>() == 8);
    assert!(offset_of!(WriteAnswer, place) == 0 && offset_of!(WriteAnswer, length) == 8);
    assert!(offset_of!(WriteAnswer, refusal) == 12);
    assert!(size_of::<BatchAnswer>() == 16 && align_of::<BatchAnswer>() == 8);
    assert!(offset_of!(BatchAnswer, place) == 0 && offset_of!(BatchAnswer, refusal) == 8);
    assert!(size_of::<ReadAnswer>() == plain::ANSWER_BYTES);
    assert!(size_of::<Summary>() == 384 && align_of::<Summary>() == 8);
    assert!(offset_of!(Summary, place) == 0 && offset_of!(Summary, refusal) == 8);
    assert!(offset_of!(Summary, records) == 12 && offset_of!(Summary, gains) == 16);
    assert!(offset_of!(Summary, zones) == 280 && offset_of!(Summary, classes) == 304);
    assert!(offset_of!(Summary, activity) == 316 && offset_of!(Summary, late) == 324);
    assert!(offset_of!(Summary, ramps) == 328 && offset_of!(Summary, payloads) == 332);
    assert!(size_of::<CatalogueAnswer>() == 24 && align_of::<CatalogueAnswer>() == 8);
    assert!(offset_of!(CatalogueAnswer, place) == 0 && offset_of!(CatalogueAnswer, length) == 8);
    assert!(offset_of!(CatalogueAnswer, refusal) == 16);
    assert!(size_of::<BackAnswer>() == 32 && align_of::<BackAnswer>() == 8);
    assert!(offset_of!(BackAnswer, place) == 0 && offset_of!(BackAnswer, frames) == 8);
    assert!(offset_of!(BackAnswer, bytes) == 16 && offset_of!(BackAnswer, refusal) == 24);
    assert!(size_of::<CatalogueFrame>() == 40 && align_of::<CatalogueFrame>() == 4);
    assert!(offset_of!(CatalogueFrame, frame) == 0 && offset_of!(CatalogueFrame, refusal) == 4);
    assert!(offset_of!(CatalogueFrame, objects) == 5 && offset_of!(CatalogueFrame, blocks) == 6);
    assert!(offset_of!(CatalogueFrame, zero) == 7 && offset_of!(CatalogueFrame, updates) == 8);
    assert!(size_of::<CatalogueFrame>() == plain::LINE_BYTES);
    assert!(size_of::<CatalogueBefore>() == 3817 && align_of::<CatalogueBefore>() == 1);
    assert!(offset_of!(CatalogueBefore, objects) == 0 && offset_of!(CatalogueBefore, rows) == 1);
    assert!(size_of::<CatalogueBefore>() == plain::BEFORE_BYTES);
    assert!(size_of::<WhyStep>() == 12 && align_of::<WhyStep>() == 4);
    assert!(offset_of!(WhyStep, bit) == 0 && offset_of!(WhyStep, object) == 4);
    assert!(offset_of!(WhyStep, block) == 5 && offset_of!(WhyStep, value) == 6);
    assert!(offset_of!(WhyStep, source) == 7 && offset_of!(WhyStep, field) == 8);
    assert!(offset_of!(WhyStep, difference) == 9);
    assert!(size_of::<WhyAnswer>() == 2008 && align_of::<WhyAnswer>() == 8);
    assert!(offset_of!(WhyAnswer, place) == 0 && offset_of!(WhyAnswer, missing) == 8);
    assert!(offset_of!(WhyAnswer, refusal) == 12 && offset_of!(WhyAnswer, count) == 13);
    assert!(offset_of!(WhyAnswer, steps) == 16);
    assert!(size_of::<Dropped>() == 8 && align_of::<Dropped>() == 4);
    assert!(offset_of!(Dropped, place) == 0 && offset_of!(Dropped, id) == 4);
    assert!(offset_of!(Dropped, refusal) == 5);
    assert!(size_of::<SalvageAnswer>() == 392 && align_of::<SalvageAnswer>() == 8);
    assert!(offset_of!(SalvageAnswer, place) == 0 && offset_of!(SalvageAnswer, missing) == 8);
    assert!(offset_of!(SalvageAnswer, length) == 12 && offset_of!(SalvageAnswer, refusal) == 16);
    assert!(offset_of!(SalvageAnswer, drops) == 17 && offset_of!(SalvageAnswer, dropped) == 20);
};

#[cfg(not(feature = "served"))]
mod linked;
#[cfg(feature = "served")]
mod served;

#[cfg(not(feature = "served"))]
use linked as library;
#[cfg(feature = "served")]
use served as library;

pub use library::{read, read_batch, salvage, summarise, version, why, write};
pub use library::{read_catalogue, read_catalogue_on, write_catalogue, write_catalogue_on};

impl From<&plain::Programme> for Programme {
    fn from(p: &plain::Programme) -> Self {
        Self {
            objects: p.objects,
            dynonly: p.dynonly,
            lfe: p.lfe,
            content: p.content,
            distribute: p.distribute,
            multiple: p.multiple,
            instances: p.instances,
            bedcount: p.bedcount,
            isf: p.isf,
            dynamics: p.dynamics,
            beds: p.beds.map(|b| Bed {
                assignment: b.assignment,
                lfeonly: b.lfeonly,
                standard: b.standard,
            }),
        }
    }
}

impl From<&plain::Timing> for Timing {
    fn from(t: &plain::Timing) -> Self {
        Self {
            blocks: t.blocks,
            updates: t.updates.map(|u| Update {
                start: u.start,
                ramp: u.ramp,
            }),
        }
    }
}

impl BatchAnswer {
    /// The same answer in the plain reader's types, every field of it.
    pub fn plain(&self) -> plain::BatchAnswer {
        plain::BatchAnswer {
            refusal: self.refusal.into(),
            place: self.place,
        }
    }
}

impl Summary {
    /// The same summary in the plain reader's types, every field of it.
    pub fn plain(&self) -> plain::Summary {
        plain::Summary {
            refusal: self.refusal.into(),
            place: self.place,
            records: self.records,
            gains: self.gains,
            zones: self.zones,
            classes: self.classes,
            activity: self.activity,
            late: self.late,
            ramps: self.ramps,
            payloads: self.payloads,
        }
    }
}

impl CatalogueAnswer {
    /// The same answer in the plain writer's types, every field of it.
    pub fn plain(&self) -> plain::CatalogueAnswer {
        plain::CatalogueAnswer {
            refusal: self.refusal.into(),
            place: self.place,
            length: self.length,
        }
    }
}

impl BackAnswer {
    /// The same answer in the plain reader's types, every field of it.
    pub fn plain(&self) -> plain::BackAnswer {
        plain::BackAnswer {
            refusal: self.refusal.into(),
            place: self.place,
            frames: self.frames,
            bytes: self.bytes,
        }
    }
}

impl WhyAnswer {
    /// The same answer in the plain reader's types, every field of it; none if there are more steps than there can be, or one behind them is not all 0.
    pub fn plain(&self) -> Option<plain::WhyAnswer> {
        let (used, unused) = self.steps.split_at_checked(self.count.into())?;
        if unused.iter().any(|step| *step != WhyStep::default()) {
            return None;
        }
        let steps = used.iter().map(|s| plain::WhyStep {
            object: s.object,
            block: s.block,
            value: s.value,
            source: s.source,
            field: s.field,
            bit: s.bit,
            difference: s.difference,
        });
        Some(plain::WhyAnswer {
            refusal: self.refusal.into(),
            place: self.place,
            missing: self.missing,
            steps: steps.collect(),
        })
    }
}

impl SalvageAnswer {
    /// The same answer in the plain types, every field of it; none if there are more drops than there can be, or one behind them is not all 0.
    pub fn plain(&self) -> Option<plain::SalvageAnswer> {
        let (used, unused) = self.dropped.split_at_checked(self.drops.into())?;
        if unused.iter().any(|drop| *drop != Dropped::default()) {
            return None;
        }
        let drops = used.iter().map(|drop| plain::Dropped {
            place: drop.place.into(),
            id: drop.id,
            refusal: drop.refusal.into(),
        });
        Some(plain::SalvageAnswer {
            refusal: self.refusal.into(),
            place: self.place,
            missing: self.missing,
            length: self.length.into(),
            drops: drops.collect(),
        })
    }
}

impl WriteAnswer {
    /// The same answer in the plain writer's types, every field of it.
    pub fn plain(&self) -> plain::WriteAnswer {
        plain::WriteAnswer {
            refusal: self.refusal.into(),
            place: self.place,
            length: self.length.into(),
        }
    }
}

impl ReadAnswer {
    /// The same answer in the plain reader's types, every field of it.
    pub fn plain(&self) -> plain::Answer {
        let p = &self.programme;
        plain::Answer {
            refusal: self.refusal.into(),
            place: self.place,
            programme: plain::Programme {
                objects: p.objects,
                dynonly: p.dynonly,
                lfe: p.lfe,
                content: p.content,
                distribute: p.distribute,
                multiple: p.multiple,
                instances: p.instances,
                bedcount: p.bedcount,
                beds: p.beds.map(|b| plain::Bed {
                    assignment: b.assignment,
                    lfeonly: b.lfeonly,
                    standard: b.standard,
                }),
                isf: p.isf,
                dynamics: p.dynamics,
            },
            timing: plain::Timing {
                blocks: self.timing.blocks,
                updates: self.timing.updates.map(|u| plain::Update {
                    start: u.start,
                    ramp: u.ramp,
                }),
            },
            unknown: self.unknown.into(),
            missing: self.missing,
        }
    }
}
