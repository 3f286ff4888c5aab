//! Questions why a byte is what it is, asked of both: refusal, place, missing bits and every step. Each answer is held against the payload's bits, too.

use crate::writes::Read;
use crate::KINDS;
use skriemelt_bench::check::check_why;
use skriemelt_bench::gen::longest_chain;
use skriemelt_bench::gen::rng::Rng;
use skriemelt_bench::plain::{refusal, Reasons, WhyAnswer, RECORD_STRIDE};
use skriemelt_bench::proved;

/// Of so many payloads one is asked for every byte of its records, if these are no more than so many, and else of so many of its records.
const EVERY: usize = 20;
const RECORDS: usize = 48;
/// Questions of every other payload.
const SOME: usize = 4;
/// Bytes of a record that can be asked for.
const BYTES: usize = 24;

/// The words of the sources, from 1 on.
const SOURCES: [&str; 7] = [
    "a field",
    "the programme",
    "default of Table 28",
    "default of Table 29",
    "nothing carried",
    "the block before",
    "the object before",
];
/// What there can be none of, by the place of refusal 14.
const MISSING: [&str; 3] = ["object", "block", "byte"];

/// What the questions gave.
pub struct Whys {
    rng: Rng,
    refusals: [u64; 10],
    missing: [u64; 3],
    /// Payloads of which every byte was asked for.
    whole: u64,
    steps: u64,
    longest: usize,
    sources: [u64; 8],
    fields: [u64; 34],
}

/// A payload, read by the plain reader, and what both readers gave.
struct Asked<'a> {
    payload: &'a [u8],
    reasons: Reasons,
    objects: usize,
    blocks: usize,
    records: &'a [u8],
}

impl Whys {
    pub fn new(seed: u64) -> Self {
        Self {
            rng: Rng::new(seed ^ 0x3417),
            refusals: [0; 10],
            missing: [0; 3],
            whole: 0,
            steps: 0,
            longest: 0,
            sources: [0; 8],
            fields: [0; 34],
        }
    }

    /// Takes a payload, and what was read of it.
    pub fn payload(&mut self, payload: &[u8], read: &Read) -> Result<(), String> {
        let asked = Asked {
            payload,
            reasons: Reasons::of(payload),
            objects: read.answer.programme.objects.into(),
            blocks: read.answer.timing.blocks.into(),
            records: &read.records,
        };
        let records = asked.objects * asked.blocks;
        if records == 0 {
            return self.nowhere(&asked);
        }
        let every = self.rng.below(EVERY) == 0;
        if every && records <= RECORDS {
            self.whole += 1;
            (0..records).try_for_each(|record| self.every(&asked, record))?;
        } else if every {
            for _ in 0..RECORDS {
                let record = self.rng.below(records);
                self.every(&asked, record)?;
            }
        }
        for _ in 0..SOME {
            self.some(&asked)?;
        }
        self.nowhere(&asked)
    }

    /// Every byte of a record.
    fn every(&mut self, asked: &Asked, record: usize) -> Result<(), String> {
        let (object, block) = (record / asked.blocks, record % asked.blocks);
        (0..BYTES).try_for_each(|byte| self.there(asked, object, block, byte))
    }

    /// A byte, of the later objects and blocks more often; they have the longer chains.
    fn some(&mut self, asked: &Asked) -> Result<(), String> {
        let rng = &mut self.rng;
        let mut late = |count: usize| rng.below(count).max(rng.below(count));
        let (object, block) = (late(asked.objects), late(asked.blocks));
        let byte = self.rng.below(BYTES);
        let byte = self.rng.pick(&[byte, byte, byte, 2]);
        self.there(asked, object, block, byte)
    }

    /// A byte that is there: the answer begins with the record's, and holds by the bits.
    fn there(
        &mut self,
        asked: &Asked,
        object: usize,
        block: usize,
        byte: usize,
    ) -> Result<(), String> {
        let question = [object, block, byte].map(|number| number as u32);
        let answer = self.both(asked, question)?;
        let value = asked.records[RECORD_STRIDE * (object * asked.blocks + block) + byte];
        if (answer.refusal, answer.place, answer.missing) != (0, 0, 0) {
            return Err(format!("why {question:?}: {answer:?}"));
        }
        let at = (object as u8, block as u8, byte);
        check_why(asked.payload, at, value, &answer)
            .map_err(|why| format!("why {question:?}: {why}"))
    }

    /// Numbers of which one or more are out of range, also by what one or two bytes hold; of a refused payload, and one without blocks, any.
    fn nowhere(&mut self, asked: &Asked) -> Result<(), String> {
        let limits = [asked.objects, asked.blocks, BYTES].map(|limit| limit as u32);
        let mut question = limits.map(|limit| match limit {
            0 => self.rng.word() as u32 & self.rng.pick(&[0, 1, 7, u32::MAX]),
            _ => self.rng.below(limit as usize) as u32,
        });
        for _ in 0..self.rng.within(1, 2) {
            let which = self.rng.below(3);
            let (limit, within) = (limits[which], question[which]);
            let any = limit.saturating_add(self.rng.word() as u32);
            let out = [
                limit,
                limit + 1,
                within.saturating_add(256),
                within.saturating_add(65_536),
                any,
                u32::MAX,
            ];
            if limit > 0 {
                question[which] = self.rng.pick(&out);
            }
        }
        self.both(asked, question).map(|_| ())
    }

    /// Asks both, and compares all that both give.
    fn both(&mut self, asked: &Asked, question: [u32; 3]) -> Result<WhyAnswer, String> {
        let [object, block, byte] = question;
        let answer = proved::why(asked.payload, object, block, byte);
        let other = asked.reasons.why(object, block, byte);
        let Some(answer) = answer.plain().filter(|answer| *answer == other) else {
            return Err(format!(
                "why {question:?}: proved {answer:?}\nwhy {question:?}: plain  {other:?}"
            ));
        };
        self.count(&answer)?;
        Ok(answer)
    }

    fn count(&mut self, answer: &WhyAnswer) -> Result<(), String> {
        match (answer.refusal, answer.place) {
            (refusal::NO_SUCH, place @ 1..=3) => self.missing[place as usize - 1] += 1,
            (refusal @ 0..9, _) => self.refusals[refusal as usize] += 1,
            _ => return Err(format!("{answer:?}")),
        }
        if (answer.refusal == 0) == answer.steps.is_empty() {
            return Err(format!("{answer:?}"));
        }
        self.steps += answer.steps.len() as u64;
        self.longest = self.longest.max(answer.steps.len());
        for step in &answer.steps {
            self.sources[usize::from(step.source)] += 1;
            self.fields[usize::from(step.field)] += 1;
        }
        Ok(())
    }

    /// The longest chain, and every byte of its first and of its last records.
    pub fn limits(&mut self) -> Result<(), String> {
        let payload = longest_chain();
        let mut records = vec![0; 40_960];
        let answer = proved::read(&payload, 0, &mut records, &mut [0; 253]).plain();
        let asked = Asked {
            payload: &payload,
            reasons: Reasons::of(&payload),
            objects: answer.programme.objects.into(),
            blocks: answer.timing.blocks.into(),
            records: &records,
        };
        let (objects, blocks) = (asked.objects, asked.blocks);
        for record in [0, 1, blocks, objects * blocks - 2, objects * blocks - 1] {
            self.every(&asked, record)?;
        }
        let steps = self.both(&asked, [158, 7, 2])?.steps.len();
        match steps {
            166 => Ok(()),
            _ => Err(format!("the longest chain has {steps} steps")),
        }
    }

    pub fn print(&self) {
        let kinds = KINDS.iter().zip(self.refusals).take(9).enumerate();
        for (refusal, (kind, count)) in kinds {
            println!("why, refusal {refusal} ({kind}): {count}");
        }
        for (what, count) in MISSING.iter().zip(self.missing) {
            println!("why, refusal 14 (no such {what}): {count}");
        }
        println!("why, payloads asked for every byte: {}", self.whole);
        for (source, count) in SOURCES.iter().zip(&self.sources[1..]) {
            println!("why, steps from {source}: {count}");
        }
        let (steps, longest) = (self.steps, self.longest);
        println!("why, steps: {steps}, {longest} at the most");
        let fewest = self.fields[1..].iter().min().expect("fields");
        println!("why, steps with each field: {fewest} or more");
    }
}
