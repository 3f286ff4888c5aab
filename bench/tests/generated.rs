//! The self test on fewer payloads.

use skriemelt_bench::check::{check_case, check_rewrite, check_tables};
use skriemelt_bench::gen::Gen;

#[test]
fn payloads() {
    let mut gen = Gen::new(11);
    for index in 0..5000 {
        let case = gen.case();
        let answer = check_case(&case);
        let answer = answer.unwrap_or_else(|why| panic!("{index}, {}: {why}", case.kind));
        if answer.refusal == 0 {
            let written = check_rewrite(&case, &answer);
            written.unwrap_or_else(|why| panic!("{index}, {}: {why}", case.kind));
        }
    }
}

#[test]
fn tables() {
    let mut gen = Gen::new(12);
    for index in 0..5000 {
        let case = gen.tables();
        let written = check_tables(&case);
        written.unwrap_or_else(|why| panic!("{index}, {}: {why}", case.kind));
    }
}

/// All follows from the seed.
#[test]
fn same_seed() {
    let (mut one, mut two) = (Gen::new(5), Gen::new(5));
    for _ in 0..500 {
        let (a, b) = (one.case(), two.case());
        assert_eq!((a.payload, a.room), (b.payload, b.room));
        assert_eq!((a.trim_room, a.frame), (b.trim_room, b.frame));
        let (a, b) = (one.tables(), two.tables());
        assert_eq!((a.programme, a.records), (b.programme, b.records));
        assert_eq!((a.trim, a.frame), (b.trim, b.frame));
    }
}
