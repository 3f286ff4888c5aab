//! Trim tables to be written: valid, and with something that no payload gives.

use super::draft::Draft;
use super::rng::Rng;
use super::{Gen, TableCase};

/// Where the objects' flags begin, behind the flag that says whether they are
/// carried.
const FLAGS: usize = 94;

/// One change that makes a trim table bad, whatever else it holds.
type Spoil = (&'static str, fn(&mut Rng, &mut Vec<u8>));

/// Each rule of 5.5.12 and 5.6.5, and the length, broken.
const SPOILS: [Spoil; 20] = [
    ("bad trim: there", |rng, t| t[0] = any(rng, 2)),
    ("bad trim: absent, not 0", |rng, t| {
        let at = rng.within(1, t.len() - 1);
        (t[0], t[at]) = (0, any(rng, 1));
    }),
    ("bad trim: warp", |rng, t| t[1] = any(rng, 2)),
    ("bad trim: mode", |rng, t| t[2] = any(rng, 3)),
    ("bad trim: other mode", |rng, t| {
        (t[0], t[2]) = (1, rng.below(2) as u8);
        t[rng.within(3, 92)] = any(rng, 1);
    }),
    ("bad trim: default flag", |rng, t| {
        t[config(rng)] = any(rng, 2)
    }),
    ("bad trim: disable flag", |rng, t| {
        t[config(rng) + 1] = any(rng, 2)
    }),
    ("bad trim: behind default", |rng, t| {
        let at = config(rng);
        t[at] = 1;
        t[at + rng.within(1, 9)] = any(rng, 1);
    }),
    ("bad trim: behind disable", |rng, t| {
        let at = config(rng);
        t[at + 1] = 1;
        t[at + rng.within(2, 9)] = any(rng, 1);
    }),
    ("bad trim: balance", |rng, t| {
        t[config(rng) + 2] = any(rng, 32)
    }),
    ("bad trim: centre", |rng, t| {
        t[config(rng) + 3] = any(rng, 16)
    }),
    ("bad trim: surround", |rng, t| {
        t[config(rng) + 4] = any(rng, 16)
    }),
    ("bad trim: height", |rng, t| {
        t[config(rng) + 5] = any(rng, 16)
    }),
    ("bad trim: reserved value", |rng, t| {
        let (at, (bit, byte)) = (config(rng), rng.pick(&[(2, 4), (4, 5)]));
        (t[0], t[2], t[at], t[at + 1]) = (1, 2, 0, 0);
        t[at + 2] |= bit;
        t[at + byte] = rng.below(4) as u8;
    }),
    ("bad trim: sign", |rng, t| {
        t[config(rng) + rng.pick(&[6, 8])] = any(rng, 2)
    }),
    ("bad trim: amount", |rng, t| {
        t[config(rng) + rng.pick(&[7, 9])] = any(rng, 16)
    }),
    ("bad trim: not carried", |rng, t| {
        let all = [(1, 3), (2, 4), (4, 5), (8, 6), (8, 7), (16, 8), (16, 9)];
        let (at, (bit, byte)) = (config(rng), rng.pick(&all));
        t[at + 2] &= !bit;
        t[at + byte] = if byte == 6 || byte == 8 {
            1
        } else {
            rng.within(4, 15) as u8
        };
    }),
    ("bad trim: objects", |rng, t| t[FLAGS - 1] = any(rng, 2)),
    ("bad trim: object flag", |rng, t| {
        let at = rng.within(FLAGS, t.len() - 1);
        t[FLAGS - 1] = rng.below(2) as u8;
        t[at] = any(rng, 1 + t[FLAGS - 1]);
    }),
    ("short trim table", |rng, t| {
        let any = rng.below(t.len());
        t.truncate(rng.pick(&[0, t.len() - 1, any]));
    }),
];

/// A value of at least `least`, often that one.
fn any(rng: &mut Rng, least: u8) -> u8 {
    let any = rng.within(least.into(), 255) as u8;
    rng.pick(&[least, any])
}

/// The first byte of a configuration.
fn config(rng: &mut Rng) -> usize {
    3 + 10 * rng.below(9)
}

impl Gen {
    /// A trim table that some payload gives.
    pub(super) fn valid_trim(&mut self, objects: usize) -> Vec<u8> {
        if self.rng.chance(40) {
            return vec![0; FLAGS + objects];
        }
        self.trim_element(&mut Draft::default(), objects)
    }

    /// Makes the trim table of valid tables bad.
    pub(super) fn spoil_trim(&mut self, case: &mut TableCase) {
        let (kind, spoil) = self.rng.pick(&SPOILS);
        spoil(&mut self.rng, &mut case.trim);
        case.kind = kind;
        (case.valid, case.place) = (Some(false), Some(trim_place(case)));
    }

    /// Changes one byte of the trim table.
    pub(super) fn change_trim(&mut self, case: &mut TableCase) {
        let at = self.rng.below(case.trim.len());
        case.trim[at] = self.other(case.trim[at]);
        case.kind = "trim byte changed";
        (case.valid, case.place) = (None, Some(trim_place(case)));
    }
}

/// The place of a bad trim table: 1 + the number of records.
fn trim_place(case: &TableCase) -> u64 {
    1 + u64::from(case.programme.objects) * u64::from(case.timing.blocks)
}
