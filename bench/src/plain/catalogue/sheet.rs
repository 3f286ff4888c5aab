//! What the catalogue holds of one frame.

use super::LINE_BYTES;
use crate::plain::record::{parts, Record};
use crate::plain::{needed, read, refusal, Update};
use crate::plain::{FRAME_SAMPLES, MAX_RECORD_BYTES, MAX_TRIM_BYTES};

/// An update's records without their times, object by object.
pub type Rows = Vec<Record>;

/// One update of a frame.
pub struct Block {
    pub update: Update,
    pub rows: Rows,
}

/// One frame. A refused one has no objects and no blocks.
pub struct Sheet {
    pub frame: u32,
    pub refusal: u32,
    pub objects: u8,
    pub blocks: Vec<Block>,
}

impl Sheet {
    /// A frame that is refused.
    pub fn refused(frame: u32, refusal: u32) -> Self {
        Self {
            frame,
            refusal,
            objects: 0,
            blocks: vec![],
        }
    }

    /// The frame of an entry, whose payload is none if it leaves the store.
    pub fn of(payload: Option<&[u8]>, frame: u32) -> Self {
        let Some(payload) = payload else {
            return Self::refused(frame, refusal::OUTSIDE);
        };
        let (mut records, mut trim) = ([0; MAX_RECORD_BYTES], [0; MAX_TRIM_BYTES]);
        let answer = read(payload, frame, &mut records, &mut trim);
        let entries = records[..needed(&answer.programme, &answer.timing)]
            .as_chunks()
            .0;
        let blocks = usize::from(answer.timing.blocks);
        let block = |at: usize| Block {
            update: answer.timing.updates[at],
            // a buffer has the blocks of object 0 first, then those of object 1
            rows: entries[at..]
                .iter()
                .step_by(blocks)
                .map(|entry| *parts(entry).0)
                .collect(),
        };
        Self {
            frame,
            refusal: answer.refusal,
            objects: answer.programme.objects,
            blocks: (0..blocks).map(block).collect(),
        }
    }

    /// The answer line, at the offsets of the C struct; what is not used is 0.
    pub fn line(&self) -> [u8; LINE_BYTES] {
        let mut line = [0; LINE_BYTES];
        let (head, updates) = line.split_at_mut(8);
        head[..4].copy_from_slice(&self.frame.to_le_bytes());
        head[4..7].copy_from_slice(&[self.refusal as u8, self.objects, self.blocks.len() as u8]);
        for (place, block) in updates.chunks_exact_mut(4).zip(&self.blocks) {
            place[..2].copy_from_slice(&block.update.start.to_le_bytes());
            place[2..].copy_from_slice(&block.update.ramp.to_le_bytes());
        }
        line
    }

    /// The records with their times, as a read of the payload gives them.
    pub fn records(&self) -> Vec<u8> {
        let mut records = vec![];
        for object in 0..usize::from(self.objects) {
            for block in &self.blocks {
                let time = FRAME_SAMPLES * u64::from(self.frame) + u64::from(block.update.start);
                records.extend(block.rows[object]);
                records.extend(time.to_le_bytes());
            }
        }
        records
    }
}
