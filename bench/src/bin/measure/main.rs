//! The speed of the proved library and of the plain code, side by side in one process: of reading and writing, of the calls that take many payloads, and
//! of catalogues; on a mixture of valid and damaged payloads, and on one like a library.
//!
//! `measure [ROUNDS] [PAYLOADS] [SEED]`. Its last line is `read ratio R, write ratio W, batch ratio B`, of the first mixture.

mod batch;
mod catalogues;
mod inputs;
mod library;
mod lists;
mod mixture;
mod scaling;
mod times;

use batch::{batching, summing, summing_both};
use inputs::{reading, writing, Tables};
use lists::Slots;
use mixture::Mixture;
use times::{Buffers, Times, PART};

/// Ratios of reading, writing and batches.
struct Ratios(f64, f64, f64);

/// Measures the mixture of all sorts.
fn generated(mixture: &Mixture, rounds: usize) -> Ratios {
    mixture.describe("mixture");
    println!("batch and summarise: the payloads that are read, on shelves of {PART}, against single reads of them by the proved library into the same slots; and summarise against the plain one");
    let (payloads, lists) = (mixture.store.payloads(), mixture.lists());
    let tables: Vec<&Tables> = mixture.tables.iter().collect();
    let (count, bytes) = (payloads.len(), mixture.store.bytes.len());
    let (mut lent, mut slots) = (Buffers::new(), Slots::new());
    let read = Times::new(&payloads, rounds, &mut lent, &reading());
    read.print("read", count, bytes);
    let write = Times::new(&tables, rounds, &mut lent, &writing());
    write.print("write", tables.len(), mixture.written_bytes());
    let batch = Times::new(&lists, rounds, &mut slots, &batching());
    batch.print("batch", count, bytes);
    let sums = Times::new(&lists, rounds, &mut slots, &summing());
    sums.print("sum", count, bytes);
    let sums = Times::new(&lists, rounds, &mut slots, &summing_both());
    sums.print("sum", count, bytes);
    Ratios(read.ratio(), write.ratio(), batch.ratio())
}

fn main() {
    let mut arguments = std::env::args().skip(1);
    let mut number = |default: usize| {
        let text = arguments.next();
        text.map_or(default, |text| text.parse().expect("a number"))
    };
    let (rounds, count, seed) = (number(60), number(20_000), number(1));
    println!("both at opt-level 3 for x86-64; {rounds} rounds each, by turns in parts of {PART}; best and median are sums over the parts; buffers are not cleared between calls");
    let mixture = Mixture::generated(count, seed as u64);
    let Ratios(read, write, batch) = generated(&mixture, rounds);
    library::measure(&Mixture::library(count, seed as u64), rounds);
    scaling::by_length(&mixture, rounds / 2);
    scaling::by_objects(rounds / 2);
    println!("\nread ratio {read:.2}, write ratio {write:.2}, batch ratio {batch:.2}");
}
