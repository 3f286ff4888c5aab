//! The library's functions, asked of host/serve.c, which says how requests and answers are laid out. The command that runs it is in the variable SERVE.

use super::{BackAnswer, BatchAnswer, CatalogueAnswer};
use super::{Bed, Programme, ReadAnswer, Summary, Timing, Update, WriteAnswer};
use super::{Dropped, SalvageAnswer};
use super::{WhyAnswer, WhyStep};
use crate::plain::Shelf;
use std::cell::RefCell;
use std::io::{Read, Write};
use std::process::{ChildStdin, ChildStdout, Command, Stdio};

const READ_ANSWER_BYTES: usize = 8 + 1 + 1 + (10 + 9 * 6) + (1 + 8 * 4) + 4;
const WRITE_ANSWER_BYTES: usize = 8 + 4 + 1;
const BATCH_ANSWER_BYTES: usize = 8 + 1;
const CATALOGUE_ANSWER_BYTES: usize = 8 + 8 + 1;
const BACK_ANSWER_BYTES: usize = 8 + 8 + 8 + 1;
const WHY_ANSWER_BYTES: usize = 8 + 4 + 1 + 1 + 166 * (4 + 6);
const SALVAGE_ANSWER_BYTES: usize = 8 + 4 + 4 + 1 + 1 + 46 * (4 + 2);
const SUMMARY_BYTES: usize = 8 + 1 + 4 * (1 + 66 + 6 + 3 + 2 + 1 + 1 + 13);

/// The serving process.
struct Server {
    requests: ChildStdin,
    answers: ChildStdout,
}

thread_local! {
    static SERVER: RefCell<Server> = RefCell::new(Server::start());
}

impl Server {
    fn start() -> Self {
        let command = std::env::var("SERVE").expect("SERVE is the command that serves");
        let mut words = command.split_whitespace();
        let child = Command::new(words.next().expect("SERVE names a program"))
            .args(words)
            .stdin(Stdio::piped())
            .stdout(Stdio::piped())
            .spawn()
            .expect("the server starts");
        Self {
            requests: child.stdin.expect("a pipe"),
            answers: child.stdout.expect("a pipe"),
        }
    }
}

/// Sends a request; takes the fields of its answer, `bytes` long, and the lent buffers.
fn ask(request: &[u8], bytes: usize, buffers: &mut [&mut [u8]]) -> Answer {
    let lent: usize = buffers.iter().map(|buffer| buffer.len()).sum();
    let mut all = vec![0; bytes + lent];
    SERVER
        .with_borrow_mut(|server| {
            let asked = server.requests.write_all(request);
            asked.and_then(|()| server.answers.read_exact(&mut all))
        })
        .unwrap_or_else(|error| {
            eprintln!("the server does not answer: {error}");
            std::process::exit(1)
        });
    let mut from = bytes;
    for buffer in buffers {
        buffer.copy_from_slice(&all[from..from + buffer.len()]);
        from += buffer.len();
    }
    Answer { bytes: all, at: 0 }
}

fn add_number(request: &mut Vec<u8>, number: usize) {
    let number = u32::try_from(number).expect("a length below 2^32");
    request.extend(number.to_le_bytes());
}

/// Adds what a call looks at to its request.
fn add_given(request: &mut Vec<u8>, given: &[u8]) {
    add_number(request, given.len());
    request.extend(given);
}

/// Adds a lent buffer, and how it lies in memory.
fn add_lent(request: &mut Vec<u8>, buffer: &[u8]) {
    add_number(request, buffer.len());
    add_number(request, buffer.as_ptr() as usize % 16);
    request.extend(buffer);
}

/// The fields of an answer, taken one behind the other.
struct Answer {
    bytes: Vec<u8>,
    at: usize,
}

impl Answer {
    fn take<const N: usize>(&mut self) -> [u8; N] {
        let from = self.at;
        self.at += N;
        self.bytes[from..self.at].try_into().expect("N bytes")
    }

    fn u8(&mut self) -> u8 {
        u8::from_le_bytes(self.take())
    }

    fn u16(&mut self) -> u16 {
        u16::from_le_bytes(self.take())
    }

    fn u32(&mut self) -> u32 {
        u32::from_le_bytes(self.take())
    }

    fn u64(&mut self) -> u64 {
        u64::from_le_bytes(self.take())
    }

    fn counters<const N: usize>(&mut self) -> [u32; N] {
        std::array::from_fn(|_| self.u32())
    }

    fn programme(&mut self) -> Programme {
        Programme {
            objects: self.u8(),
            dynonly: self.u8(),
            lfe: self.u8(),
            content: self.u8(),
            distribute: self.u8(),
            multiple: self.u8(),
            instances: self.u8(),
            bedcount: self.u8(),
            isf: self.u8(),
            dynamics: self.u8(),
            beds: std::array::from_fn(|_| Bed {
                assignment: self.u32(),
                lfeonly: self.u8(),
                standard: self.u8(),
            }),
        }
    }

    fn timing(&mut self) -> Timing {
        Timing {
            blocks: self.u8(),
            updates: std::array::from_fn(|_| Update {
                start: self.u16(),
                ramp: self.u16(),
            }),
        }
    }
}

/// The version of the library.
pub fn version() -> u32 {
    ask(b"v", 4, &mut []).u32()
}

/// Reads one payload with the proved library.
pub fn read(payload: &[u8], frame: u32, records: &mut [u8], trim: &mut [u8]) -> ReadAnswer {
    let mut request = b"r".to_vec();
    add_given(&mut request, payload);
    request.extend(frame.to_le_bytes());
    add_lent(&mut request, records);
    add_lent(&mut request, trim);
    let mut answer = ask(&request, READ_ANSWER_BYTES, &mut [records, trim]);
    ReadAnswer {
        place: answer.u64(),
        refusal: answer.u8(),
        unknown: answer.u8(),
        programme: answer.programme(),
        timing: answer.timing(),
        missing: answer.u32(),
    }
}

/// Adds a list of numbers, as its length and 8 bytes for each.
fn add_list(request: &mut Vec<u8>, list: &[u64]) {
    add_number(request, list.len());
    request.extend(list.iter().flat_map(|number| number.to_le_bytes()));
}

/// Adds a list of frames, as its length and 4 bytes for each.
fn add_frames(request: &mut Vec<u8>, frames: &[u32]) {
    add_number(request, frames.len());
    request.extend(frames.iter().flat_map(|frame| frame.to_le_bytes()));
}

/// Reads a shelf of payloads with the proved library.
pub fn read_batch(
    shelf: &Shelf,
    records: &mut [u8],
    trims: &mut [u8],
    answers: &mut [u8],
) -> BatchAnswer {
    let mut request = b"b".to_vec();
    add_given(&mut request, shelf.store);
    add_list(&mut request, shelf.starts);
    add_list(&mut request, shelf.lengths);
    add_frames(&mut request, shelf.frames);
    request.extend((shelf.record_slot as u64).to_le_bytes());
    request.extend((shelf.trim_slot as u64).to_le_bytes());
    add_lent(&mut request, records);
    add_lent(&mut request, trims);
    add_lent(&mut request, answers);
    let mut buffers = [records, trims, answers];
    let mut answer = ask(&request, BATCH_ANSWER_BYTES, &mut buffers);
    BatchAnswer {
        place: answer.u64(),
        refusal: answer.u8(),
    }
}

/// Summarises a segment of payloads with the proved library.
pub fn summarise(store: &[u8], starts: &[u64], lengths: &[u64]) -> Summary {
    let mut request = b"s".to_vec();
    add_given(&mut request, store);
    add_list(&mut request, starts);
    add_list(&mut request, lengths);
    let mut answer = ask(&request, SUMMARY_BYTES, &mut []);
    Summary {
        place: answer.u64(),
        refusal: answer.u8(),
        records: answer.u32(),
        gains: answer.counters(),
        zones: answer.counters(),
        classes: answer.counters(),
        activity: answer.counters(),
        late: answer.u32(),
        ramps: answer.u32(),
        payloads: answer.counters(),
    }
}

/// A request for the catalogue of a segment, without the buffers.
fn catalogue_request(
    letter: u8,
    store: &[u8],
    starts: &[u64],
    lengths: &[u64],
    frames: &[u32],
) -> Vec<u8> {
    let mut request = vec![letter];
    add_given(&mut request, store);
    add_list(&mut request, starts);
    add_list(&mut request, lengths);
    add_frames(&mut request, frames);
    request
}

/// Sends such a request with its buffers.
fn ask_catalogue(mut request: Vec<u8>, buffers: &mut [&mut [u8]]) -> CatalogueAnswer {
    for buffer in buffers.iter() {
        add_lent(&mut request, buffer);
    }
    let mut answer = ask(&request, CATALOGUE_ANSWER_BYTES, buffers);
    CatalogueAnswer {
        place: answer.u64(),
        length: answer.u64(),
        refusal: answer.u8(),
    }
}

/// Writes the catalogue of a segment with the proved library.
pub fn write_catalogue(
    store: &[u8],
    starts: &[u64],
    lengths: &[u64],
    frames: &[u32],
    text: &mut [u8],
) -> CatalogueAnswer {
    let request = catalogue_request(b'c', store, starts, lengths, frames);
    ask_catalogue(request, &mut [text])
}

/// Writes the catalogue of a segment behind an update with the proved library.
pub fn write_catalogue_on(
    store: &[u8],
    starts: &[u64],
    lengths: &[u64],
    frames: &[u32],
    before: &mut [u8],
    text: &mut [u8],
) -> CatalogueAnswer {
    let request = catalogue_request(b'C', store, starts, lengths, frames);
    ask_catalogue(request, &mut [before, text])
}

/// Sends a text that is to be read back, and the buffers of that request.
fn ask_back(letter: u8, text: &[u8], buffers: &mut [&mut [u8]]) -> BackAnswer {
    let mut request = vec![letter];
    add_given(&mut request, text);
    for buffer in buffers.iter() {
        add_lent(&mut request, buffer);
    }
    let mut answer = ask(&request, BACK_ANSWER_BYTES, buffers);
    BackAnswer {
        place: answer.u64(),
        frames: answer.u64(),
        bytes: answer.u64(),
        refusal: answer.u8(),
    }
}

/// Reads a catalogue's text back with the proved library.
pub fn read_catalogue(text: &[u8], lines: &mut [u8], records: &mut [u8]) -> BackAnswer {
    ask_back(b't', text, &mut [lines, records])
}

/// Reads a catalogue's text back behind an update with the proved library.
pub fn read_catalogue_on(
    text: &[u8],
    before: &mut [u8],
    lines: &mut [u8],
    records: &mut [u8],
) -> BackAnswer {
    ask_back(b'T', text, &mut [before, lines, records])
}

/// Asks the proved library why a byte of a record is what it is.
pub fn why(payload: &[u8], object: u32, block: u32, byte: u32) -> WhyAnswer {
    let mut request = b"y".to_vec();
    add_given(&mut request, payload);
    for number in [object, block, byte] {
        request.extend(number.to_le_bytes());
    }
    let mut answer = ask(&request, WHY_ANSWER_BYTES, &mut []);
    WhyAnswer {
        place: answer.u64(),
        missing: answer.u32(),
        refusal: answer.u8(),
        count: answer.u8(),
        steps: std::array::from_fn(|_| WhyStep {
            bit: answer.u32(),
            object: answer.u8(),
            block: answer.u8(),
            value: answer.u8(),
            source: answer.u8(),
            field: answer.u8(),
            difference: answer.u8(),
        }),
    }
}

/// Salvages one payload with the proved library.
pub fn salvage(payload: &[u8], out: &mut [u8]) -> SalvageAnswer {
    let mut request = b"S".to_vec();
    add_given(&mut request, payload);
    add_lent(&mut request, out);
    let mut answer = ask(&request, SALVAGE_ANSWER_BYTES, &mut [out]);
    SalvageAnswer {
        place: answer.u64(),
        missing: answer.u32(),
        length: answer.u32(),
        refusal: answer.u8(),
        drops: answer.u8(),
        dropped: std::array::from_fn(|_| Dropped {
            place: answer.u32(),
            id: answer.u8(),
            refusal: answer.u8(),
        }),
    }
}

/// Writes tables with the proved library.
pub fn write(
    p: Programme,
    t: Timing,
    frame: u32,
    records: &[u8],
    trim: &[u8],
    payload: &mut [u8],
) -> WriteAnswer {
    let mut request = b"w".to_vec();
    request.extend([p.objects, p.dynonly, p.lfe, p.content, p.distribute]);
    request.extend([p.multiple, p.instances, p.bedcount, p.isf, p.dynamics]);
    for bed in p.beds {
        request.extend(bed.assignment.to_le_bytes());
        request.extend([bed.lfeonly, bed.standard]);
    }
    request.push(t.blocks);
    for update in t.updates {
        request.extend(update.start.to_le_bytes());
        request.extend(update.ramp.to_le_bytes());
    }
    request.extend(frame.to_le_bytes());
    add_given(&mut request, records);
    add_given(&mut request, trim);
    add_lent(&mut request, payload);
    let mut answer = ask(&request, WRITE_ANSWER_BYTES, &mut [payload]);
    WriteAnswer {
        place: answer.u64(),
        length: answer.u32(),
        refusal: answer.u8(),
    }
}
