//! Payloads like those of a library: scenes one behind the other, each of some
//! seconds, whose frames have the same programme and whose objects move slowly.
//! All follows from the seed; the constants are the settings.

use super::draft::Draft;
use super::programme::counts;
use super::rng::Rng;
use super::slow::{first_block, later_block, placed};
use super::Gen;
use crate::plain::{Bed, Programme, Record};

/// Frames of a scene: few, so that 20,000 payloads hold some 400 scenes.
const FRAMES: (usize, usize) = (25, 75);
/// Dynamic objects of most scenes, and of the others.
const FEW: (usize, usize) = (8, 16);
const MANY: (usize, usize) = (17, 118);
/// Standard beds of 6, 8 and 10 channels.
const BEDS: [u32; 3] = [0b1111, 0b1_1111, 0b101_1111];

/// Scenes in a thousand: with many objects; with a bed; of the others, those
/// whose dynamic objects have an LFE beside them; with an extended element.
const MANY_OBJECTS: usize = 50;
const WITH_BED: usize = 400;
const WITH_LFE: usize = 700;
const WITH_EXTENDED: usize = 50;
/// Frames in a thousand: with 2 to 8 blocks; with a trim element; damaged.
const MORE_BLOCKS: usize = 30;
const WITH_TRIM: usize = 100;
const DAMAGED: usize = 4;

/// One frame of a library.
pub struct Frame {
    pub payload: Vec<u8>,
    /// Whether some bits were changed afterwards, or bytes cut off.
    pub damaged: bool,
    /// What is to be read if not: programme and records, block by block of each
    /// object.
    pub programme: Programme,
    pub records: Vec<Record>,
}

/// The library: what its present scene has, and where the objects are.
pub struct Library {
    gen: Gen,
    programme: Programme,
    extended: bool,
    /// Frames of the scene that are still to come.
    left: usize,
    objects: Vec<Record>,
}

impl Library {
    pub fn new(seed: u64) -> Self {
        Self {
            gen: Gen::new(seed),
            programme: Programme::default(),
            extended: false,
            left: 0,
            objects: vec![],
        }
    }

    /// The next frame.
    pub fn frame(&mut self) -> Frame {
        if self.left == 0 {
            self.scene();
        }
        self.left -= 1;
        let trim = self.gen.rng.of_thousand(WITH_TRIM);
        let mut draft = Draft::default();
        self.gen.header(&mut draft, &self.programme);
        draft.flag(false);
        let elements = 1 + usize::from(self.extended) + usize::from(trim);
        draft.field(4, elements);
        let records = self.elements(&mut draft, trim);
        let mut payload = draft.bytes(false);
        let damaged = self.gen.rng.of_thousand(DAMAGED);
        if damaged && self.gen.rng.chance(50) {
            self.gen.flip(&mut payload);
        } else if damaged {
            payload.truncate(self.gen.rng.below(payload.len()));
        }
        Frame {
            payload,
            damaged,
            programme: self.programme,
            records,
        }
    }

    /// A scene begins: a programme, and objects anywhere.
    fn scene(&mut self) {
        let rng = &mut self.gen.rng;
        self.left = rng.within(FRAMES.0, FRAMES.1);
        let many = rng.of_thousand(MANY_OBJECTS);
        let (from, to) = if many { MANY } else { FEW };
        let dynamic = rng.within(from, to);
        self.programme = programme(rng, dynamic);
        self.extended = rng.of_thousand(WITH_EXTENDED);
        let (anchored, ..) = counts(&self.programme);
        let class = |object| if object < anchored { 0 } else { 2 };
        let objects = 0..usize::from(self.programme.objects);
        self.objects = objects.map(|object| placed(rng, class(object))).collect();
    }

    /// The elements of a frame; its records.
    fn elements(&mut self, draft: &mut Draft, trim: bool) -> Vec<Record> {
        let mut content = start();
        let mut records = self.object_element(&mut content);
        element(draft, 1, content);
        if self.extended {
            let mut content = start();
            self.gen.extended_element(&mut content, &mut records);
            element(draft, 5, content);
        }
        if trim {
            let mut content = start();
            self.gen.trim_element(&mut content, self.objects.len());
            element(draft, 2, content);
        }
        records
    }

    /// The content of an object element (5.5.5).
    fn object_element(&mut self, draft: &mut Draft) -> Vec<Record> {
        let rng = &mut self.gen.rng;
        let more = rng.of_thousand(MORE_BLOCKS);
        let blocks = if more { rng.within(2, 8) } else { 1 };
        draft.field(2, 0);
        draft.field(3, blocks - 1);
        for block in 0..blocks {
            draft.field(6, block * 48 / blocks);
            // a ramp of 512 samples, now and then one of 0 or of 1,536
            draft.field(2, rng.pick(&[1, 1, 1, 1, 1, 1, 0, 2]));
        }
        draft.flag(true);
        let mut records = Vec::with_capacity(blocks * self.objects.len());
        for object in &mut self.objects {
            for block in 0..blocks {
                match block {
                    0 => first_block(rng, draft, object),
                    _ => later_block(rng, draft, object),
                }
                records.push(*object);
            }
        }
        records
    }
}

/// A programme of so many dynamic objects, with a bed, an LFE or neither.
fn programme(rng: &mut Rng, dynamic: usize) -> Programme {
    if !rng.of_thousand(WITH_BED) {
        let lfe = u8::from(rng.of_thousand(WITH_LFE));
        return Programme {
            objects: dynamic as u8 + lfe,
            dynonly: 1,
            lfe,
            ..Programme::default()
        };
    }
    let mut p = Programme {
        content: 5,
        bedcount: 1,
        dynamics: dynamic as u8 - 1,
        ..Programme::default()
    };
    p.beds[0] = Bed {
        assignment: rng.pick(&BEDS),
        lfeonly: 0,
        standard: 1,
    };
    let (bed, _, dynamic) = counts(&p);
    p.objects = (bed + dynamic) as u8;
    p
}

/// The discard flag.
fn start() -> Draft {
    let mut content = Draft::default();
    content.flag(false);
    content
}

/// An element that ends with the byte its content ends in.
fn element(draft: &mut Draft, id: usize, content: Draft) {
    draft.field(4, id);
    let bytes = content.len().div_ceil(8);
    let padding = 8 * bytes - content.len();
    draft.size(bytes);
    draft.content(content, 8 * bytes);
    draft.number(padding, 0);
}
