//! Time against the payload's length and the number of objects, reading and writing.

use crate::inputs::{reading, shaped, writing, Tables};
use crate::mixture::Mixture;
use crate::times::{Buffers, Times};
use skriemelt_bench::gen::rng::Rng;
use skriemelt_bench::plain::RECORD_STRIDE;

/// Lengths in bytes, from and to.
const LENGTHS: [(usize, usize); 9] = [
    (0, 16),
    (16, 32),
    (32, 64),
    (64, 128),
    (128, 256),
    (256, 512),
    (512, 1024),
    (1024, 2048),
    (2048, 4097),
];

/// The head of a table. The last columns are of the proved library: where its cost grows as the records do, what an object and block take falls to a constant.
fn head(name: &str) {
    let of = ["read", "write", "ns a byte", "ns an object and block"];
    println!(
        "\n{:24}   {:26}   {:26}   {:15}   {}",
        "", of[0], of[1], of[2], of[3]
    );
    print!("{name:>16}   bytes");
    for _ in 0..2 {
        print!("   {:>9} {:>9} {:>6}", "proved ns", "plain ns", "ratio");
    }
    for _ in 0..2 {
        print!("   {:>7} {:>7}", "read", "write");
    }
    println!();
}

/// One line of a table: payloads read, and their tables written.
fn line(name: &str, payloads: &[&[u8]], rounds: usize) {
    let mut lent = Buffers::new();
    let repeated = (500 / payloads.len()).max(1);
    let tables: Vec<Tables> = payloads.iter().filter_map(|p| Tables::of(p)).collect();
    let read = Times::new(&payloads.repeat(repeated), rounds, &mut lent, &reading());
    let calls = tables.iter().collect::<Vec<_>>().repeat(repeated);
    let write = Times::new(&calls, rounds, &mut lent, &writing());
    let bytes: usize = payloads.iter().map(|payload| payload.len()).sum();
    let records: usize = tables.iter().map(|t| t.records.len() / RECORD_STRIDE).sum();
    print!("{name:>16} {:7}", bytes / payloads.len());
    for times in [&read, &write] {
        let count = calls.len() as f64;
        let (proved, plain) = (times.best.0 / count, times.best.1 / count);
        print!("   {proved:9.0} {plain:9.0} {:6.2}", times.ratio());
    }
    for units in [bytes, records] {
        let units = (units * repeated) as f64;
        let (read, write) = (read.best.0 / units, write.best.0 / units);
        print!("   {read:7.2} {write:7.2}");
    }
    println!();
}

pub fn by_length(mixture: &Mixture, rounds: usize) {
    println!("\nTime against payload length: generated payloads whose tables can be written, and writing these.");
    head("length");
    let payloads = mixture.store.payloads();
    let writable = |p: &&[u8]| Tables::of(p).is_some_and(|tables| tables.form_bytes() > 0);
    for (from, to) in LENGTHS {
        let some = payloads.iter().filter(|p| (from..to).contains(&p.len()));
        let some: Vec<&[u8]> = some.copied().filter(writable).take(500).collect();
        if some.len() >= 10 {
            line(&format!("{from} to {}", to - 1), &some, rounds);
        }
    }
}

pub fn by_objects(rounds: usize) {
    println!("\nTime against objects: accepted payloads of dynamic objects, all active, without trim, and writing their tables.");
    head("objects x blocks");
    let mut rng = Rng::new(3);
    for blocks in [1, 4, 8] {
        for objects in [1, 2, 4, 8, 16, 32, 64, 128, 159] {
            let some: Option<Vec<_>> = (0..50).map(|_| shaped(&mut rng, objects, blocks)).collect();
            if let Some(some) = some {
                let some: Vec<&[u8]> = some.iter().map(Vec::as_slice).collect();
                line(&format!("{objects} x {blocks}"), &some, rounds);
            }
        }
    }
}
