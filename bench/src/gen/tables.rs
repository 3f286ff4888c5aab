//! Tables to be written: valid, with one value changed, or not fit to write.

use super::programme::counts;
use super::{timed, Gen, TableCase, STRIDE};
use crate::plain::{Bed, Programme, Record, Timing, Update};

impl Gen {
    /// The next tables.
    pub fn tables(&mut self) -> TableCase {
        self.draw_frame();
        if self.rng.chance(3) {
            return self.random_tables();
        }
        let mut case = self.valid_tables();
        match self.rng.below(29) {
            0..=9 => {}
            10..=14 if !case.records.is_empty() => self.change_record(&mut case),
            15..=16 => self.change_programme(&mut case),
            17 => self.change_timing(&mut case),
            18 if !case.records.is_empty() => {
                case.records.truncate(self.rng.below(case.records.len()));
                case.kind = "too few record bytes";
                (case.valid, case.place) = (Some(false), Some(0));
            }
            19 if case.programme.dynonly == 0 => {
                case.programme.content |= 8;
                case.kind = "reserved content flag";
                (case.valid, case.place) = (Some(false), Some(0));
            }
            20..=23 => self.spoil_trim(&mut case),
            24 => self.change_trim(&mut case),
            25..=27 if !case.records.is_empty() => self.spoil_time(&mut case),
            _ => {
                let (more, trim) = (self.rng.within(1, 50), self.rng.within(1, 50));
                case.records.extend((0..more).map(|k| k as u8));
                case.trim.extend((0..trim).map(|k| k as u8));
                case.kind = "valid tables, more bytes";
            }
        }
        case
    }

    /// Tables with one to three values changed, or with record or trim bytes cut
    /// off or put behind the others.
    pub fn damage_tables(&mut self, case: &mut TableCase) {
        for _ in 0..self.rng.within(1, 3) {
            match self.rng.below(18) {
                0..=6 if !case.records.is_empty() => self.change_record(case),
                7..=8 => self.change_programme(case),
                9 => self.change_timing(case),
                10 => case
                    .records
                    .truncate(self.rng.below(case.records.len() + 1)),
                11..=13 if !case.trim.is_empty() => self.change_trim(case),
                14 => case.trim.truncate(self.rng.below(case.trim.len() + 1)),
                15 => case.trim.push(self.rng.byte()),
                16 => case.frame ^= 1 << self.rng.below(32),
                17 if !case.records.is_empty() => self.spoil_time(case),
                _ => case.records.push(self.rng.byte()),
            }
        }
        case.kind = "damaged tables";
        (case.valid, case.place) = (None, None);
    }

    /// Tables of arbitrary values, small ones more often.
    fn random_tables(&mut self) -> TableCase {
        let most = self.rng.pick(&[2, 10, 256]);
        let mut byte = || self.rng.below(most) as u8;
        let mut programme = Programme {
            objects: byte(),
            dynonly: byte(),
            lfe: byte(),
            content: byte(),
            distribute: byte(),
            multiple: byte(),
            instances: byte(),
            bedcount: byte(),
            beds: [Bed::default(); 9],
            isf: byte(),
            dynamics: byte(),
        };
        for bed in &mut programme.beds {
            (bed.lfeonly, bed.standard) = (byte(), byte());
            bed.assignment = u32::from(byte()) << (byte() % 24);
        }
        let mut timing = Timing {
            blocks: byte(),
            ..Timing::default()
        };
        for update in &mut timing.updates {
            (update.start, update.ramp) = (byte().into(), byte().into());
        }
        let (length, trim_length) = (self.rng.below(5000), self.rng.below(300));
        let mut bytes = |n| (0..n).map(|_| self.rng.below(most) as u8).collect();
        TableCase {
            kind: "random tables",
            programme,
            timing,
            frame: self.frame,
            records: bytes(length),
            trim: bytes(trim_length),
            valid: None,
            place: None,
        }
    }

    fn valid_tables(&mut self) -> TableCase {
        let programme = self.programme(false);
        let timing = self.valid_timing();
        let (bed, isf, _) = counts(&programme);
        // Chances of an inactive record and of extended data, in a hundred.
        let inactive = self.rng.pick(&[0, 20, 60, 95]);
        let extended = self.rng.pick(&[0, 0, 1, 50, 100]);
        let mut records = Vec::new();
        for object in 0..usize::from(programme.objects) {
            let class = u8::from(object >= bed) + u8::from(object >= bed + isf);
            for _ in 0..timing.blocks {
                let active = !self.rng.chance(inactive);
                records.push(self.record(active, class, extended));
            }
        }
        TableCase {
            kind: "valid tables",
            programme,
            timing,
            frame: self.frame,
            records: timed(&records, &timing, self.frame),
            trim: self.valid_trim(programme.objects.into()),
            valid: Some(true),
            place: None,
        }
    }

    fn valid_timing(&mut self) -> Timing {
        let mut timing = Timing {
            blocks: self.rng.pick(&[0, 1, 1, 2, 2, 3, 4, 5, 6, 7, 8]),
            ..Timing::default()
        };
        let offset = {
            let any = self.rng.below(32);
            self.rng.pick(&[0, 0, 8, 31, any])
        };
        for update in &mut timing.updates[..usize::from(timing.blocks)] {
            let any = self.rng.below(2049);
            let ramp = self
                .rng
                .pick(&[0, 512, 1536, 2048, 2047, 32, 1, any, any, any]);
            *update = Update {
                start: (offset + 32 * self.rng.below(64)) as u16,
                ramp: ramp as u16,
            };
        }
        timing
    }

    /// A valid record.
    fn record(&mut self, active: bool, class: u8, extended: usize) -> Record {
        let mut r = [0; 24];
        (r[0], r[1]) = (u8::from(active), class);
        (r[4], r[5], r[6], r[12]) = (31, 31, 64, 1);
        if !active {
            return r;
        }
        r[2] = self.edge(0, 65, 50);
        r[3] = self.edge(0, 32, 31);
        if class < 2 {
            return r;
        }
        r[4] = self.edge(0, 62, 61);
        r[5] = self.edge(0, 62, 61);
        r[6] = self.edge(49, 79, 64);
        r[7] = self.edge(0, 17, 1);
        r[8] = self.edge(0, 31, 0);
        (r[9], r[10]) = match self.rng.below(3) {
            0 => (r[8], r[8]),
            1 => (r[8], self.edge(0, 31, 0)),
            _ => (self.edge(0, 31, 0), self.edge(0, 31, 0)),
        };
        r[11] = self.rng.below(6) as u8;
        r[12] = self.rng.below(2) as u8;
        if self.rng.chance(50) {
            r[13] = 1;
            r[14] = self.rng.below(8) as u8;
            r[15] = self.rng.below(4) as u8;
        }
        r[16] = self.rng.below(2) as u8;
        if self.rng.chance(extended) {
            self.extend(&mut r);
        }
        r
    }

    /// Bytes 17 to 23 of an active dynamic record.
    fn extend(&mut self, r: &mut Record) {
        let mode = self.rng.below(4) as u8;
        if mode < 3 {
            r[17] = 1;
            r[18] = mode;
            r[19] = match mode {
                0 => self.rng.below(4) as u8,
                1 => 0,
                _ => self.edge(1, 63, 32),
            };
        }
        if self.rng.chance(70) {
            r[20] = self.rng.below(8) as u8;
            for (byte, bit) in [(21, 1), (22, 2), (23, 4)] {
                if r[20] & bit != 0 {
                    r[byte] = self.rng.below(4) as u8;
                }
            }
        }
    }

    /// A value within a range, often an end of it or a given one.
    fn edge(&mut self, from: u8, to: u8, other: u8) -> u8 {
        let any = self.rng.within(from.into(), to.into()) as u8;
        self.rng.pick(&[from, to, other, any, any, any])
    }

    /// A value near the present one, or any.
    pub(super) fn other(&mut self, value: u8) -> u8 {
        let any = self.rng.byte();
        let small = self.rng.below(8) as u8;
        self.rng.pick(&[
            value.wrapping_add(1),
            value.wrapping_sub(1),
            value ^ 1,
            small,
            any,
        ])
    }

    fn change_record(&mut self, case: &mut TableCase) {
        let mut at = self.rng.below(case.records.len());
        for _ in 0..4 {
            // Rather an active dynamic record.
            if case.records[at / STRIDE * STRIDE..].starts_with(&[1, 2]) {
                break;
            }
            at = self.rng.below(case.records.len());
        }
        case.records[at] = self.other(case.records[at]);
        case.kind = "record byte changed";
        (case.valid, case.place) = (None, Some(1 + (at / STRIDE) as u64));
    }

    /// Gives a record another time, or all of them another frame.
    fn spoil_time(&mut self, case: &mut TableCase) {
        let count = case.records.len() / STRIDE;
        if count == 0 || self.rng.chance(20) {
            case.frame = case
                .frame
                .wrapping_add(self.rng.pick(&[1, u32::MAX, 1 << 16]));
            case.kind = "another frame";
            (case.valid, case.place) = (Some(false), Some(1));
            return;
        }
        let index = self.rng.below(count);
        let time = &mut case.records[STRIDE * index + 24..STRIDE * (index + 1)];
        let right = time.to_vec();
        let first = 1536 * u64::from(case.frame);
        let start = case.timing.updates[self.rng.below(8)].start;
        match self.rng.below(6) {
            // the start left out, that of another block, and counted in another frame
            0 => time.copy_from_slice(&first.to_le_bytes()),
            1 => time.copy_from_slice(&(first + u64::from(start)).to_le_bytes()),
            2 => time.copy_from_slice(&(first + 1536 + u64::from(start)).to_le_bytes()),
            3 => time.reverse(),
            4 => time.fill(0),
            _ => time[self.rng.below(8)] ^= 1 << self.rng.below(8),
        }
        if *time != right {
            case.kind = "another time";
            (case.valid, case.place) = (Some(false), Some(1 + index as u64));
        }
    }

    fn change_programme(&mut self, case: &mut TableCase) {
        let (field, at) = (self.rng.below(14), self.rng.below(9));
        let other = |gen: &mut Gen, value: &mut u8| *value = gen.other(*value);
        let p = &mut case.programme;
        match field {
            0 => other(self, &mut p.objects),
            1 => other(self, &mut p.dynonly),
            2 => other(self, &mut p.lfe),
            3 => other(self, &mut p.content),
            4 => other(self, &mut p.distribute),
            5 => other(self, &mut p.multiple),
            6 => other(self, &mut p.instances),
            7 => other(self, &mut p.bedcount),
            8 => other(self, &mut p.isf),
            9 => other(self, &mut p.dynamics),
            10 => other(self, &mut p.beds[at].lfeonly),
            11 => other(self, &mut p.beds[at].standard),
            12 => p.beds[at].assignment ^= 1 << self.rng.below(32),
            _ => p.beds[at].assignment = self.rng.word() as u32,
        }
        case.kind = "programme value changed";
        case.valid = None;
    }

    fn change_timing(&mut self, case: &mut TableCase) {
        let at = self.rng.below(8);
        let any = self.rng.below(1 << 16) as u16;
        let update = &mut case.timing.updates[at];
        match self.rng.below(5) {
            0 => case.timing.blocks = self.other(case.timing.blocks),
            1 => update.start ^= 1 << self.rng.below(16),
            2 => update.ramp ^= 1 << self.rng.below(16),
            3 => update.start = any,
            _ => update.ramp = self.rng.pick(&[2049, any]),
        }
        case.kind = "timing value changed";
        case.valid = None;
    }
}

/// Valid tables whose form is as long as a form can be: nine empty beds of 17
/// flags, 159 dynamic objects, 8 blocks, every field at its longest.
pub fn longest() -> TableCase {
    let programme = Programme {
        objects: 159,
        content: 5,
        multiple: 1,
        instances: 7,
        bedcount: 9,
        beds: [Bed::default(); 9],
        dynamics: 158,
        ..Programme::default()
    };
    let update = Update { start: 1, ramp: 1 };
    let timing = Timing {
        blocks: 8,
        updates: [update; 8],
    };
    let record = [
        1, 2, 65, 0, 62, 62, 79, 17, 1, 2, 3, 5, 1, 1, 7, 3, 1, 1, 2, 63, 7, 3, 3, 3,
    ];
    let config = [0, 0, 31, 15, 15, 15, 1, 15, 1, 15];
    TableCase {
        kind: "longest",
        programme,
        timing,
        frame: u32::MAX,
        records: timed(&[record; 159 * 8], &timing, u32::MAX),
        trim: [&[1, 1, 2][..], &config.repeat(9), &[1; 160]].concat(),
        valid: Some(true),
        place: None,
    }
}
