//! The proved library against the plain reader and writer.
//!
//! `compare N [SEED]`: N generated payloads, valid, faulty and damaged; answers, places, missing bits, tables and both whole buffers, with canaries around them. The
//! tables of each accepted payload are written, as they are and damaged, and so are N generated tables. The payloads, some of them cut or longer, are read once more
//! on shelves of a few; these are summarised, and of some a few entries are catalogued, and their texts read back, as they are and damaged. Of each payload it is asked
//! why some bytes are what they are, of some why every byte is. Each payload is salvaged, and half as many that are put together of elements to be kept and to be dropped.
//! `compare --damaged N [SEED]`: N random and damaged inputs: the library ends, and touches nothing that it may not.

mod catalogues;
mod lent;
mod salvages;
mod shelves;
mod summaries;
mod whys;
mod writes;

use lent::Lent;
use salvages::Salvages;
use shelves::Shelves;
use skriemelt_bench::gen::rng::Rng;
use skriemelt_bench::gen::Gen;
use skriemelt_bench::{plain, proved};
use std::process::ExitCode;
use whys::Whys;
use writes::{Read, Writer};

const KINDS: [&str; 10] = [
    "accepted",
    "too long",
    "past the payload",
    "version",
    "counts disagree",
    "reserved value",
    "second element",
    "extended too early",
    "past the element",
    "no room",
];

/// What has been seen.
struct Tally {
    refusals: [u64; 10],
    /// Accepted payloads with a trim element.
    trims: u64,
    differences: u64,
    writer: Writer,
    shelves: Shelves,
    whys: Whys,
    salvages: Salvages,
}

impl Tally {
    fn new(seed: u64) -> Self {
        Self {
            refusals: [0; 10],
            trims: 0,
            differences: 0,
            writer: Writer::new(seed),
            shelves: Shelves::new(seed),
            whys: Whys::new(seed),
            salvages: Salvages::new(seed),
        }
    }
}

/// The bytes that a read changes, of records and of trim.
fn used(answer: &plain::Answer) -> (usize, usize) {
    match answer.refusal {
        0 => (
            plain::needed(&answer.programme, &answer.timing),
            plain::trim_needed(&answer.programme),
        ),
        _ => (0, 0),
    }
}

/// A refusal with its place, and the missing bits of a payload that ends early.
fn bare(answer: &plain::Answer) -> plain::Answer {
    plain::Answer {
        refusal: answer.refusal,
        place: answer.place,
        missing: match answer.refusal {
            2 => answer.missing.max(1),
            _ => 0,
        },
        ..plain::Answer::default()
    }
}

/// Reads with both into buffers of the input's rooms and compares all that both give; `Err` says what differs.
fn both(rng: &mut Rng, input: &Input) -> Result<Read, String> {
    let Input {
        payload,
        frame,
        rooms,
    } = *input;
    let (records, trim) = (Lent::new(rng, rooms.0), Lent::new(rng, rooms.1));
    let (mut a, mut a_trim) = (records.clone(), trim.clone());
    let (mut b, mut b_trim) = (records.clone(), trim.clone());
    let answer = proved::read(payload, frame, a.lend(), a_trim.lend()).plain();
    let other = plain::read(payload, frame, b.lend(), b_trim.lend());
    if answer != other {
        return Err(format!("proved {answer:?}\nplain  {other:?}"));
    }
    a.same(&b).map_err(|why| format!("records: {why}"))?;
    a_trim.same(&b_trim).map_err(|why| format!("trim: {why}"))?;
    let (used, trim_used) = used(&answer);
    if used > rooms.0 || trim_used > rooms.1 || answer.refusal > 9 {
        return Err(format!("{answer:?} with rooms {rooms:?}"));
    }
    a.kept(&records, used)
        .map_err(|why| format!("records: {why}"))?;
    a_trim
        .kept(&trim, trim_used)
        .map_err(|why| format!("trim: {why}"))?;
    if answer.refusal != 0 && answer != bare(&answer) {
        return Err(format!("refused, yet more is given: {answer:?}"));
    }
    Ok(Read {
        answer,
        frame,
        records: a.first(used).to_vec(),
        trim: a_trim.first(trim_used).to_vec(),
    })
}

/// A payload, with its frame and the rooms of its two buffers, of records and of trim.
struct Input<'a> {
    payload: &'a [u8],
    frame: u32,
    rooms: (usize, usize),
}

/// Counts what was read, asks for the reasons of it, salvages the payload, and writes the tables of an accepted one.
fn count(tally: &mut Tally, index: u64, input: &Input, result: Result<Read, String>) {
    let payload = input.payload;
    let result = result.and_then(|read| {
        tally.refusals[read.answer.refusal as usize] += 1;
        tally.whys.payload(payload, &read)?;
        tally.salvages.payload(payload, &read.answer)?;
        match read.answer.refusal {
            0 => {
                tally.trims += u64::from(read.trim[0]);
                let needs = (read.records.len(), read.trim.len());
                tally.shelves.add(payload, Some(needs))?;
                tally.writer.rewrite(&read)
            }
            _ => tally.shelves.add(payload, None),
        }
    });
    if let Err(message) = result {
        let hex: String = payload.iter().map(|b| format!("{b:02x}")).collect();
        let (frame, rooms) = (input.frame, input.rooms);
        let what = format!("payload {index}, frame {frame}, rooms {rooms:?}");
        differ(tally, format!("{what}: {message}\n{hex}"));
    }
}

/// Counts a difference; the first five are printed.
fn differ(tally: &mut Tally, message: String) {
    tally.differences += 1;
    if tally.differences <= 5 {
        println!("{message}");
    }
}

/// Reads the last shelf, and what is at the limits of summaries, catalogues and chains of sources.
fn finish(tally: &mut Tally) {
    if let Err(message) = tally.shelves.read() {
        differ(tally, format!("the last shelf: {message}"));
    }
    if let Err(message) = tally.shelves.limits() {
        differ(tally, format!("at the limits: {message}"));
    }
    if let Err(message) = tally.whys.limits() {
        differ(tally, format!("the longest chain: {message}"));
    }
}

fn generated(number: u64, seed: u64) -> Tally {
    let mut gen = Gen::new(seed);
    let mut rng = Rng::new(seed ^ 0x1E27);
    let mut tally = Tally::new(seed);
    for index in 0..number {
        let case = gen.case();
        let input = Input {
            payload: &case.payload,
            frame: case.frame,
            rooms: (case.room, case.trim_room),
        };
        let mut result = both(&mut rng, &input);
        if let (Ok(read), Some(expect)) = (&result, case.expect) {
            let answer = &read.answer;
            let got = (answer.refusal, answer.place, answer.missing);
            if got != expect {
                result = Err(format!("{got:?}, the generator says {expect:?}"));
            }
        }
        count(&mut tally, index, &input, result);
        if let Err(message) = tally.writer.generated() {
            differ(&mut tally, format!("generated tables {index}: {message}"));
        }
        if index % 2 == 0 {
            if let Err(message) = tally.salvages.generated() {
                differ(&mut tally, format!("salvage {index}: {message}"));
            }
        }
    }
    if let Err(message) = tally.writer.longest() {
        differ(&mut tally, message);
    }
    finish(&mut tally);
    tally
}

/// Damages a payload: bits, bytes, runs, cuts, repeats; or gives random bytes.
fn damage(rng: &mut Rng, bytes: &mut Vec<u8>) {
    for _ in 0..rng.within(1, 4) {
        if bytes.is_empty() {
            bytes.push(rng.byte());
        }
        let limit = if rng.chance(50) { 16 } else { bytes.len() };
        let at = rng.below(limit.min(bytes.len()));
        match rng.below(8) {
            0..=2 => bytes[at] ^= 1 << rng.below(8),
            3 => bytes[at] = rng.byte(),
            4 => bytes.truncate(at),
            5 => {
                bytes.insert(at, rng.byte());
            }
            6 => {
                bytes.remove(at);
            }
            _ => {
                let value = rng.pick(&[0, 0xFF]);
                let end = bytes.len().min(at + rng.within(1, 20));
                bytes[at..end].fill(value);
            }
        }
    }
}

fn damaged(number: u64, seed: u64) -> Tally {
    let mut gen = Gen::new(seed);
    let store: Vec<Vec<u8>> = (0..20_000).map(|_| gen.case().payload).collect();
    let mut rng = Rng::new(seed ^ 0x5EED);
    let mut tally = Tally::new(seed);
    for index in 0..number {
        let mut payload = store[rng.below(store.len())].clone();
        match rng.below(10) {
            0 => {
                let most = rng.pick(&[8, 64, 512, 4200]);
                payload = (0..rng.below(most)).map(|_| rng.byte()).collect();
                if let Some(first) = payload.first_mut() {
                    *first &= rng.pick(&[0xFF, 0x3F, 0x07]);
                }
            }
            _ => damage(&mut rng, &mut payload),
        }
        let most = rng.pick(&[1, 100, 4000, plain::MAX_RECORD_BYTES + 1]);
        let trim = rng.pick(&[1, 96, 253, 253, 300, 300]);
        let input = Input {
            payload: &payload,
            frame: rng.word() as u32,
            rooms: (rng.below(most), rng.below(trim) + trim / 2),
        };
        let result = both(&mut rng, &input);
        count(&mut tally, index, &input, result);
        if index % 2 == 0 {
            if let Err(message) = tally.salvages.damaged() {
                differ(&mut tally, format!("salvage {index}: {message}"));
            }
        }
    }
    finish(&mut tally);
    tally
}

fn main() -> ExitCode {
    let mut arguments: Vec<String> = std::env::args().skip(1).collect();
    let random = arguments.first().is_some_and(|a| a == "--damaged");
    if random {
        arguments.remove(0);
    }
    let number = arguments.first().and_then(|text| text.parse().ok());
    let seed = match arguments.get(1) {
        Some(text) => text.parse().ok(),
        None => Some(1),
    };
    let (Some(number), Some(seed)) = (number, seed) else {
        eprintln!("usage: compare [--damaged] N [SEED]");
        return ExitCode::from(2);
    };
    println!("library version {}, seed {seed}", proved::version());
    let tally = if random {
        damaged(number, seed)
    } else {
        generated(number, seed)
    };
    for (refusal, count) in tally.refusals.iter().enumerate() {
        println!("read, refusal {refusal} ({}): {count}", KINDS[refusal]);
    }
    println!("read, accepted with a trim element: {}", tally.trims);
    tally.writer.writes.print();
    tally.shelves.print();
    tally.whys.print();
    tally.salvages.print();
    let what = if random { "damaged inputs" } else { "payloads" };
    println!("{number} {what}, {} differences", tally.differences);
    ExitCode::from(u8::from(tally.differences != 0))
}
