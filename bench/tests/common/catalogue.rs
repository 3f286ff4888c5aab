//! Segments and texts of the catalogue.

use skriemelt_bench::gen::texts::FIELDS;
use skriemelt_bench::plain::{read, read_catalogue, read_catalogue_on, write_catalogue};
use skriemelt_bench::plain::{write_catalogue_on, BackAnswer, CatalogueAnswer};
use skriemelt_bench::plain::{BEFORE_BYTES, LINE_BYTES};
use std::fmt::Write;

const SAMPLE: &[u8] = include_bytes!("../../../samples/three-objects.oamd");

/// The text of the sample, a payload that ends early and one without blocks.
pub const WORKED: &str = "\
frame=7,objects=3,blocks=2
start=0,ramp=0
object=0,active=1,class=0,gain=50,priority=2,x=31,y=31,z=64,distance=0,width=0,depth=0,height=0,\
zone=0,elevation=1,screen=0,screen_factor=0,screen_depth=0,snap=0,divergence=0,divergence_mode=0,\
divergence_value=0,precise=0,precise_x=0,precise_y=0,precise_z=0
object=1,active=1,class=2,gain=50,priority=32,x=11,y=12,z=77,distance=0,width=0,depth=0,height=0,\
zone=0,elevation=1,screen=0,screen_factor=0,screen_depth=0,snap=0,divergence=0,divergence_mode=0,\
divergence_value=0,precise=0,precise_x=0,precise_y=0,precise_z=0
object=2,active=0,class=2,gain=0,priority=0,x=31,y=31,z=64,distance=0,width=0,depth=0,height=0,\
zone=0,elevation=1,screen=0,screen_factor=0,screen_depth=0,snap=0,divergence=0,divergence_mode=0,\
divergence_value=0,precise=0,precise_x=0,precise_y=0,precise_z=0
start=32,ramp=0
object=0,gain=62,priority=4
object=2,active=1,x=9,y=8,z=57
frame=8,refusal=2
frame=9,objects=1,blocks=0
";

/// What a lent buffer holds before a call.
pub const FILL: u8 = 0xEE;
/// No update before.
pub const EMPTY: [u8; BEFORE_BYTES] = [0; BEFORE_BYTES];

/// Payloads in a store.
#[derive(Clone, Default)]
pub struct Segment {
    pub store: Vec<u8>,
    pub starts: Vec<u64>,
    pub lengths: Vec<u64>,
    pub frames: Vec<u32>,
}

impl Segment {
    /// Some of the entries.
    pub fn part(&self, from: usize, to: usize) -> Self {
        Self {
            store: self.store.clone(),
            starts: self.starts[from..to].to_vec(),
            lengths: self.lengths[from..to].to_vec(),
            frames: self.frames[from..to].to_vec(),
        }
    }

    /// Writes into a room of this many bytes, with nothing before.
    pub fn write(&self, room: usize) -> (CatalogueAnswer, Vec<u8>) {
        let mut text = vec![FILL; room];
        let lists = (&self.starts, &self.lengths, &self.frames);
        let answer = write_catalogue(&self.store, lists.0, lists.1, lists.2, &mut text);
        (answer, text)
    }

    /// The answer lines and the records that single reads give.
    pub fn single_reads(&self) -> (Vec<u8>, Vec<u8>) {
        let (mut lines, mut all) = (vec![], vec![]);
        let entries = self.starts.iter().zip(&self.lengths).zip(&self.frames);
        for ((start, length), frame) in entries {
            let mut line = [0; LINE_BYTES];
            line[..4].copy_from_slice(&frame.to_le_bytes());
            let (from, to) = (*start as usize, (start + length) as usize);
            match self.store.get(from..to) {
                None => line[4] = 12,
                Some(payload) => {
                    let mut records = vec![0; 40_960];
                    let answer = read(payload, *frame, &mut records, &mut [0; 253]);
                    line[4] = answer.refusal as u8;
                    (line[5], line[6]) = (answer.programme.objects, answer.timing.blocks);
                    for (at, update) in answer.timing.updates.iter().enumerate() {
                        line[8 + 4 * at..][..2].copy_from_slice(&update.start.to_le_bytes());
                        line[10 + 4 * at..][..2].copy_from_slice(&update.ramp.to_le_bytes());
                    }
                    records.truncate(32 * usize::from(line[5]) * usize::from(line[6]));
                    all.extend(records);
                }
            }
            lines.extend(line);
        }
        (lines, all)
    }
}

/// The segment of the worked text.
pub fn segment() -> Segment {
    Segment {
        store: [SAMPLE, &[0x01, 0x07, 0xC1, 0x00]].concat(),
        starts: vec![0, 45, 45],
        lengths: vec![45, 3, 4],
        frames: vec![7, 8, 9],
    }
}

/// The lines of the worked text, from line 1 on.
pub fn worked() -> Vec<&'static str> {
    WORKED.lines().collect()
}

/// Lines as a text.
pub fn text(lines: &[&str]) -> String {
    lines.iter().map(|line| format!("{line}\n")).collect()
}

/// The worked text with another line, of this number from 1 on.
pub fn with(number: usize, line: &str) -> String {
    let mut lines = worked();
    lines[number - 1] = line;
    text(&lines)
}

/// The number of the bad line; 0 if the text is accepted.
pub fn bad(text: &str) -> u64 {
    let (answer, _, _) = back(text.as_bytes());
    assert!(matches!(answer.refusal, 0 | 17), "{answer:?}");
    answer.place
}

/// The text of a segment, written with room that is exact.
pub fn write_text(segment: &Segment, before: &mut [u8]) -> Vec<u8> {
    let lists = (&segment.starts, &segment.lengths, &segment.frames);
    let mut write = |text: &mut [u8]| {
        write_catalogue_on(&segment.store, lists.0, lists.1, lists.2, before, text)
    };
    let length = write(&mut []);
    let mut text = vec![FILL; length.place as usize];
    let answer = write(&mut text);
    let whole = (answer.refusal, answer.place, answer.length);
    assert_eq!(whole, (0, 0, text.len() as u64));
    text
}

/// Reads a text into lines and records of these many bytes.
pub fn back_on(
    text: &[u8],
    before: &mut [u8],
    rooms: (usize, usize),
) -> (BackAnswer, Vec<u8>, Vec<u8>) {
    let (mut lines, mut records) = (vec![FILL; rooms.0], vec![FILL; rooms.1]);
    let answer = read_catalogue_on(text, before, &mut lines, &mut records);
    (answer, lines, records)
}

/// Reads a text with nothing before and room that is exact, if it is accepted.
pub fn back(text: &[u8]) -> (BackAnswer, Vec<u8>, Vec<u8>) {
    let lines = text.iter().filter(|byte| **byte == b'\n').count();
    let mut lines = vec![FILL; LINE_BYTES * lines];
    let bytes = match read_catalogue(text, &mut lines, &mut []) {
        answer if answer.refusal == 9 => answer.place as usize,
        _ => 0,
    };
    let mut records = vec![FILL; bytes];
    let answer = read_catalogue(text, &mut lines, &mut records);
    lines.truncate(LINE_BYTES * answer.frames as usize);
    assert!(answer.refusal == 0 && answer.bytes == bytes as u64 || bytes == 0);
    (answer, lines, records)
}

/// The lines and the records of a text that is accepted.
pub fn read_text(text: &[u8], before: &mut [u8]) -> (Vec<u8>, Vec<u8>) {
    let frames = text.iter().filter(|byte| **byte == b'\n').count();
    let enough = vec![0; LINE_BYTES * frames];
    let short = read_catalogue_on(text, before, &mut enough.clone(), &mut []);
    let bytes = match short.refusal {
        // no update: it was read, and left the update before as it was
        0 => 0,
        _ => short.place as usize,
    };
    let (answer, mut lines, records) = back_on(text, before, (enough.len(), bytes));
    assert_eq!((answer.refusal, answer.place), (0, 0));
    assert_eq!(answer.bytes, bytes as u64);
    lines.truncate(LINE_BYTES * answer.frames as usize);
    (lines, records)
}

/// The parts of a text that begin with a frame's line.
pub fn cut(text: &[u8]) -> Vec<&[u8]> {
    let starts = (0..text.len()).filter(|at| text[*at..].starts_with(b"frame="));
    let ends: Vec<usize> = starts.chain([text.len()]).collect();
    ends.windows(2)
        .map(|ends| &text[ends[0]..ends[1]])
        .collect()
}

/// The text of answer lines and records, with nothing before.
pub fn text_of(lines: &[u8], mut records: &[u8]) -> String {
    let (mut text, mut before) = (String::new(), vec![]);
    for line in lines.chunks(LINE_BYTES) {
        let frame = u32::from_le_bytes([line[0], line[1], line[2], line[3]]);
        if line[4] != 0 {
            writeln!(text, "frame={frame},refusal={}", line[4]).expect("room");
            continue;
        }
        let (objects, blocks) = (usize::from(line[5]), usize::from(line[6]));
        writeln!(text, "frame={frame},objects={objects},blocks={blocks}").expect("room");
        for block in 0..blocks {
            let number = |at: usize| u16::from_le_bytes([line[at], line[at + 1]]);
            let (start, ramp) = (number(8 + 4 * block), number(10 + 4 * block));
            writeln!(text, "start={start},ramp={ramp}").expect("room");
            let row = |object: usize| records[32 * (object * blocks + block)..][..24].to_vec();
            let rows: Vec<Vec<u8>> = (0..objects).map(row).collect();
            for (object, row) in rows.iter().enumerate() {
                text += &entry(
                    object,
                    row,
                    (before.len() == objects).then(|| &before[object]),
                );
            }
            before = rows;
        }
        records = &records[32 * objects * blocks..];
    }
    assert!(records.is_empty());
    text
}

/// The line of an object, empty if nothing of it changed.
fn entry(object: usize, row: &[u8], before: Option<&Vec<u8>>) -> String {
    let mut line = String::new();
    for (at, (key, ..)) in FIELDS.iter().enumerate() {
        if before.is_none_or(|before| before[at] != row[at]) {
            line += &format!(",{key}={}", row[at]);
        }
    }
    match line.as_str() {
        "" => line,
        fields => format!("object={object}{fields}\n"),
    }
}
