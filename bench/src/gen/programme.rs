//! Programmes and their bits (5.5.2, 5.5.3).

use super::draft::Draft;
use super::marks::Group;
use super::{Fault, Gen};
use crate::plain::{Bed, Programme};

/// Number of labels by array index (Table 12).
const STANDARD_LABELS: [usize; 10] = [1, 2, 2, 2, 2, 2, 2, 1, 1, 2];
/// Table 11b.
const ISF: [usize; 6] = [4, 8, 10, 14, 15, 30];

/// Bed objects, ISF objects and counted dynamic objects.
pub fn counts(p: &Programme) -> (usize, usize, usize) {
    if p.dynonly != 0 {
        let bed = usize::from(p.lfe);
        return (bed, 0, usize::from(p.objects) - bed);
    }
    let bed = p.beds[..p.bedcount.into()].iter().map(bed_labels).sum();
    let isf = match p.content & 2 {
        0 => 0,
        _ => ISF[usize::from(p.isf)],
    };
    let dynamic = match p.content & 4 {
        0 => 0,
        _ => usize::from(p.dynamics) + 1,
    };
    (bed, isf, dynamic)
}

/// Labels of one bed: index k of n flags has weight 2^(n - 1 - k).
fn bed_labels(bed: &Bed) -> usize {
    let set = |n: usize, k: usize| bed.assignment >> (n - 1 - k) & 1 != 0;
    match (bed.lfeonly, bed.standard) {
        (1, _) => 1,
        (_, 1) => (0..10)
            .filter(|k| set(10, *k))
            .map(|k| STANDARD_LABELS[k])
            .sum(),
        _ => (0..17).filter(|k| set(17, *k)).count(),
    }
}

impl Gen {
    /// A number of objects, mostly small, with the edges of the field.
    pub(super) fn object_number(&mut self) -> usize {
        match self.rng.below(20) {
            0..=11 => self.rng.within(1, 8),
            12..=14 => self.rng.within(9, 40),
            15..=17 => self.rng.pick(&[1, 30, 31, 32, 33, 158, 159]),
            _ => self.rng.within(41, 159),
        }
    }

    /// A programme whose counts agree; the reserved content flag at will.
    pub(super) fn programme(&mut self, reserved: bool) -> Programme {
        if self.rng.chance(25) {
            return Programme {
                objects: self.object_number() as u8,
                dynonly: 1,
                lfe: self.rng.below(2) as u8,
                ..Programme::default()
            };
        }
        loop {
            let mut p = self.assignment(reserved);
            let (bed, isf, dynamic) = counts(&p);
            let mut total = bed + isf + dynamic;
            if p.content & 8 != 0 && total < 159 && self.rng.chance(70) {
                total += self.rng.within(1, (159 - total).min(12));
            }
            if (1..=159).contains(&total) {
                p.objects = total as u8;
                return p;
            }
        }
    }

    /// Program assignment fields, the object count still 0.
    fn assignment(&mut self, reserved: bool) -> Programme {
        let mut p = Programme {
            content: self.rng.within(1, 7) as u8,
            ..Programme::default()
        };
        if reserved && self.rng.chance(25) {
            p.content = self.rng.within(8, 15) as u8;
        }
        if p.content & 1 != 0 {
            p.distribute = self.rng.below(2) as u8;
            p.multiple = self.rng.below(2) as u8;
            p.bedcount = 1;
            if p.multiple != 0 {
                p.instances = self.rng.below(8) as u8;
                p.bedcount = p.instances + 2;
            }
            for bed in 0..usize::from(p.bedcount) {
                p.beds[bed] = self.bed();
            }
        }
        if p.content & 2 != 0 {
            p.isf = self.rng.below(6) as u8;
        }
        let (bed, isf, _) = counts(&p);
        if p.content & 4 != 0 {
            let most = 158usize.saturating_sub(bed + isf);
            p.dynamics = (self.object_number() - 1).min(most) as u8;
        }
        p
    }

    fn bed(&mut self) -> Bed {
        let (standard, width) = self.rng.pick(&[(1, 10), (0, 17)]);
        let assignment = match self.rng.below(6) {
            0 => {
                return Bed {
                    lfeonly: 1,
                    ..Bed::default()
                }
            }
            1 => 0,
            2 => 1 << self.rng.below(width),
            3 => self.rng.below(1 << width) & self.rng.below(1 << width),
            4 => self.rng.below(1 << width),
            _ => (1 << width) - 1,
        };
        Bed {
            assignment: assignment as u32,
            lfeonly: 0,
            standard,
        }
    }

    /// Version, object count and program assignment.
    pub(super) fn header(&mut self, draft: &mut Draft, p: &Programme) {
        if self.place_fault(Fault::Version, 100) {
            draft.fail(3);
            let version = self.rng.within(1, 10);
            draft.grown(2, 3, version);
        } else {
            draft.field(2, 0);
        }
        draft.grown(5, 7, usize::from(p.objects) - 1);
        self.mark_objects(p);
        draft.field(1, usize::from(p.dynonly));
        if p.dynonly != 0 {
            draft.field(1, usize::from(p.lfe));
            return;
        }
        draft.field(4, usize::from(p.content));
        if p.content & 1 != 0 {
            self.beds(draft, p);
        }
        if p.content & 2 != 0 {
            self.isf(draft, p);
        }
        if p.content & 4 != 0 {
            draft.grown(5, 7, usize::from(p.dynamics));
            let value = (1 + usize::from(p.dynamics)).saturating_sub(31).min(2);
            self.marks.set(Group::Dynamics, value);
        }
        if p.content & 8 != 0 {
            let size = self.rng.below(16);
            draft.field(4, size);
            draft.run(&mut self.rng, 8 * (size + 1));
            self.marks.set(Group::ReservedRun, size);
        }
        self.hold_counts(draft, p);
    }

    /// Refusal 4 at the end of the assignment, if the counts disagree.
    fn hold_counts(&mut self, draft: &mut Draft, p: &Programme) {
        let (bed, isf, dynamic) = counts(p);
        let (total, objects) = (bed + isf + dynamic, usize::from(p.objects));
        let reserved = p.content & 8 != 0;
        if total > objects || (total < objects && !reserved) {
            draft.fail(4);
        }
        if reserved {
            let some = usize::from(total < objects);
            self.marks.set(Group::LeftOver, some);
        }
    }

    fn isf(&mut self, draft: &mut Draft, p: &Programme) {
        if self.place_fault(Fault::Isf, 100) {
            draft.fail(5);
            draft.field(3, self.rng.within(6, 7));
        } else {
            draft.field(3, usize::from(p.isf));
            self.marks.set(Group::Isf, usize::from(p.isf));
        }
    }

    fn beds(&mut self, draft: &mut Draft, p: &Programme) {
        draft.field(1, usize::from(p.distribute));
        draft.field(1, usize::from(p.multiple));
        if p.multiple != 0 {
            draft.field(3, usize::from(p.instances));
        }
        self.marks.set(Group::BedCount, usize::from(p.bedcount));
        for bed in &p.beds[..p.bedcount.into()] {
            draft.field(1, usize::from(bed.lfeonly));
            if bed.lfeonly != 0 {
                self.marks.set(Group::Bed, 0);
                continue;
            }
            draft.field(1, usize::from(bed.standard));
            let width = if bed.standard != 0 { 10 } else { 17 };
            draft.field(width, bed.assignment as usize);
            let empty = if bed.assignment == 0 { 2 } else { 0 };
            self.marks
                .set(Group::Bed, 2 - usize::from(bed.standard) + empty);
        }
    }

    fn mark_objects(&mut self, p: &Programme) {
        let objects = match p.objects {
            1 => 0,
            2..=31 => 1,
            32 => 2,
            33..=158 => 3,
            _ => 4,
        };
        self.marks.set(Group::Objects, objects);
        let program = match (p.dynonly, p.lfe, p.objects) {
            (0, _, _) => 0,
            (_, 0, _) => 1,
            (_, _, 1) => 3,
            _ => 2,
        };
        self.marks.set(Group::Program, program);
        if p.dynonly == 0 {
            self.marks.set(Group::Content, usize::from(p.content));
        }
    }
}
