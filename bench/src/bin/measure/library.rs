//! All calls on the mixture that is like a library, with what they do in a second.

use crate::batch::{batching_both, summing_both};
use crate::catalogues::{cataloguing, reading_back, Catalogue, Pages};
use crate::inputs::{reading, writing, Tables};
use crate::lists::Slots;
use crate::mixture::Mixture;
use crate::times::{Buffers, Times};
use skriemelt_bench::plain::FRAME_SAMPLES;

/// Frames of an hour of programme: 31.25 a second, at 48,000 samples a second.
const FRAMES_AN_HOUR: f64 = 3600.0 * 48_000.0 / FRAME_SAMPLES as f64;

/// One call on the whole mixture, against its plain counterpart.
struct Row {
    name: &'static str,
    times: Times,
    payloads: usize,
    /// Bytes of the payloads, or of the text.
    bytes: usize,
}

pub fn measure(mixture: &Mixture, rounds: usize) {
    mixture.describe("library");
    let mut rows = payload_rows(mixture, rounds);
    rows.extend(catalogue_rows(mixture, rounds));
    println!("In a second, best times; MB of payloads, of a catalogue MB of text:");
    print!("{:10}", "");
    for who in ["proved", "plain"] {
        print!(
            "   {:>16} {:>10} {:>6}",
            format!("{who}: payloads"),
            "hours",
            "MB"
        );
    }
    println!("  {:>7}", "ratio");
    rows.iter().for_each(print_row);
    let ratio = |name| {
        let row = rows.iter().find(|row| row.name == name);
        row.map_or(f64::NAN, |row| row.times.ratio())
    };
    println!(
        "catalogue: write ratio {:.2}, read back ratio {:.2}",
        ratio("catalogue"),
        ratio("read back")
    );
    println!(
        "library: read ratio {:.2}, write ratio {:.2}",
        ratio("read"),
        ratio("write")
    );
}

/// Reads, writes, batches and summaries.
fn payload_rows(mixture: &Mixture, rounds: usize) -> Vec<Row> {
    let (lists, payloads) = (mixture.lists(), mixture.store.payloads());
    let tables: Vec<&Tables> = mixture.tables.iter().collect();
    let (mut lent, mut slots) = (Buffers::new(), Slots::new());
    let row = |name, times| Row {
        name,
        times,
        payloads: payloads.len(),
        bytes: mixture.store.bytes.len(),
    };
    let written = Row {
        name: "write",
        times: Times::new(&tables, rounds, &mut lent, &writing()),
        payloads: tables.len(),
        bytes: mixture.written_bytes(),
    };
    let read = Times::new(&payloads, rounds, &mut lent, &reading());
    let batch = Times::new(&lists, rounds, &mut slots, &batching_both());
    let summary = Times::new(&lists, rounds, &mut slots, &summing_both());
    vec![
        row("read", read),
        written,
        row("batch", batch),
        row("summarise", summary),
    ]
}

/// Catalogues written and read back, a shelf each.
fn catalogue_rows(mixture: &Mixture, rounds: usize) -> Vec<Row> {
    let lists = mixture.lists().into_iter();
    let catalogues: Vec<Catalogue> = lists.map(Catalogue::new).collect();
    let mut lent = Pages::new(&catalogues);
    let row = |name, times| Row {
        name,
        times,
        payloads: mixture.store.spans.len(),
        bytes: catalogues.iter().map(|c| c.text.len()).sum(),
    };
    let write = Times::new(&catalogues, rounds, &mut lent, &cataloguing());
    let back = Times::new(&catalogues, rounds, &mut lent, &reading_back());
    vec![row("catalogue", write), row("read back", back)]
}

fn print_row(row: &Row) {
    print!("{:>10}", row.name);
    for ns in [row.times.best.0, row.times.best.1] {
        let payloads = row.payloads as f64 / ns * 1e9;
        let hours = payloads / FRAMES_AN_HOUR;
        print!(
            "   {payloads:16.0} {hours:10.2} {:6.1}",
            row.bytes as f64 / ns * 1e3
        );
    }
    println!("  {:7.2}", row.times.ratio());
}
