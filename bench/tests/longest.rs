//! The length of the written form by arithmetic, and the longest of all.

use skriemelt_bench::check::length::{form_bytes, payload};
use skriemelt_bench::gen::{longest, Gen, TableCase};
use skriemelt_bench::plain::{write, Programme};

/// The needed bytes as the writer says them.
fn said(case: &TableCase) -> u64 {
    let (records, trim) = (&case.records, &case.trim);
    let (programme, timing) = (&case.programme, &case.timing);
    let answer = write(programme, timing, case.frame, records, trim, &mut []);
    assert_eq!(answer.refusal, 11);
    answer.place
}

#[test]
fn arithmetic_and_writer_agree() {
    let mut gen = Gen::new(7);
    let mut checked = 0;
    while checked < 3000 {
        let case = gen.tables();
        if case.valid == Some(true) {
            assert_eq!(said(&case), form_bytes(&case) as u64);
            checked += 1;
        }
    }
}

/// The longest form of all tables of one shape: blocks, bed instances, bed, ISF
/// and dynamic objects, every field at its longest. Sizes of elements grow with
/// their contents, so nothing is longer.
fn shape(blocks: usize, beds: usize, bed: usize, isf: usize, dynamic: usize) -> usize {
    let mut assignment = 5;
    if beds > 0 {
        // An instance of 17 flags takes 19 bits, however many are set.
        assignment += 2 + if beds > 1 { 3 } else { 0 } + 19 * beds;
    }
    if isf > 0 {
        assignment += 3;
    }
    if dynamic > 0 {
        assignment += if dynamic < 32 { 5 } else { 12 };
    }
    let anchored = 16 + 18 * (blocks - 1);
    let free = 67 + 72 * (blocks - 1);
    let records = (bed + isf) * anchored + dynamic * free;
    let object = 1 + 7 + 3 + 20 * blocks + 1 + records;
    let extended = if dynamic > 0 {
        3 + dynamic * blocks * (9 + 10)
    } else {
        0
    };
    let objects = bed + isf + dynamic;
    let trim = 1 + 6 + 9 * (7 + 3 * 4 + 2 * 5) + 1 + objects;
    payload(objects, assignment, [object, extended, trim]).div_ceil(8)
}

#[test]
fn longest_of_all() {
    let mut most = (0, [0; 5]);
    for blocks in 1..=8 {
        for beds in 0..=9 {
            for isf in [0, 4, 8, 10, 14, 15, 30] {
                for bed in 0..=(17 * beds).min(159 - isf) {
                    let least = usize::from(bed + isf == 0);
                    for dynamic in least..=159 - isf - bed {
                        let bytes = shape(blocks, beds, bed, isf, dynamic);
                        most = most.max((bytes, [blocks, beds, bed, isf, dynamic]));
                    }
                }
            }
        }
    }
    assert_eq!(most, (14_481, [8, 9, 0, 0, 159]));
    let case = longest();
    assert_eq!(form_bytes(&case), 14_481);
    assert_eq!(said(&case), 14_481);
}

/// The same records without the nine empty beds.
#[test]
fn longest_of_other_programmes() {
    let mut case = longest();
    case.programme = Programme {
        objects: 159,
        content: 4,
        dynamics: 158,
        ..Programme::default()
    };
    assert_eq!(said(&case), 14_459);
    case.programme = Programme {
        objects: 159,
        dynonly: 1,
        ..Programme::default()
    };
    assert_eq!(said(&case), 14_457);
}
