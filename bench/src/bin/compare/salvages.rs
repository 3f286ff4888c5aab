//! Payloads salvaged with both: refusal, place, missing bits, length, every drop and the whole buffer, with canaries around it. What is left is read, and salvaged once more.

use crate::lent::Lent;
use crate::{damage, KINDS};
use skriemelt_bench::gen::rng::Rng;
use skriemelt_bench::gen::{Gen, Remains, Tables, Wreck};
use skriemelt_bench::plain::{self, refusal, SalvageAnswer};
use skriemelt_bench::plain::{MAX_RECORD_BYTES, MAX_TRIM_BYTES};
use skriemelt_bench::proved;

/// How many of a hundred payloads are salvaged with other rooms, too, and what is left of them once more.
const SHARE: usize = 30;
/// The ids of the known elements.
const IDS: [usize; 3] = [1, 2, 5];

/// What the salvages gave.
pub struct Salvages {
    rng: Rng,
    gen: Gen,
    /// Accepted ones by drops: none, one, two, more.
    accepted: [u64; 4],
    most: usize,
    /// Drops by id and refusal.
    drops: [[u64; 9]; 6],
    refusals: [u64; 12],
    /// Payloads of 15 elements or more of which fewer are left.
    below: u64,
}

/// What both gave, and what is left of an accepted payload.
struct Salvaged {
    answer: SalvageAnswer,
    payload: Vec<u8>,
}

impl Salvages {
    pub fn new(seed: u64) -> Self {
        Self {
            rng: Rng::new(seed ^ 0x5A17),
            gen: Gen::new(seed ^ 0x12EC),
            accepted: [0; 4],
            most: 0,
            drops: [[0; 9]; 6],
            refusals: [0; 12],
            below: 0,
        }
    }

    /// Takes a payload, and what is answered when it is read.
    pub fn payload(&mut self, payload: &[u8], read: &plain::Answer) -> Result<(), String> {
        let whole = self.rng.chance(SHARE);
        self.salvaged(payload, read, whole).map(|_| ())
    }

    /// Takes a payload that is put together of several elements: what is left is what the generator says, and gives the tables of the kept elements.
    pub fn generated(&mut self) -> Result<(), String> {
        let wreck = self.gen.wreck();
        let result = self.wreck(&wreck);
        result.map_err(|why| format!("{why}\n{}", hex(&wreck.payload)))
    }

    /// Takes such a payload, damaged.
    pub fn damaged(&mut self) -> Result<(), String> {
        let mut payload = self.gen.wreck().payload;
        damage(&mut self.rng, &mut payload);
        let (read, _) = read(&payload);
        match self.salvaged(&payload, &read, true) {
            Ok(_) => Ok(()),
            Err(why) => Err(format!("{why}\n{}", hex(&payload))),
        }
    }

    fn wreck(&mut self, wreck: &Wreck) -> Result<(), String> {
        let (read, _) = read(&wreck.payload);
        let salvaged = self.salvaged(&wreck.payload, &read, true)?;
        let answer = &salvaged.answer;
        match &wreck.left {
            Ok(remains) => {
                let kept = wreck.count - remains.drops.len();
                self.below += u64::from(wreck.count >= 15 && kept < 15);
                as_expected(&salvaged, remains)
            }
            Err(expect) => same(&(answer.refusal, answer.place, answer.missing), expect),
        }
    }

    /// Salvages a payload, which is answered so when it is read; with other rooms and once more if `whole`.
    fn salvaged(
        &mut self,
        payload: &[u8],
        read: &plain::Answer,
        whole: bool,
    ) -> Result<Salvaged, String> {
        let room = payload.len() + self.rng.pick(&[0, 0, 1, 9, 64]);
        let salvaged = self.both(payload, room)?;
        follows(payload, read, &salvaged)?;
        match (whole, salvaged.answer.refusal) {
            (false, _) => {}
            (true, 0) => self.once_more(payload, &salvaged.payload)?,
            _ => {
                let room = self.rng.pick(&[0, 1, payload.len() / 2]);
                same(&self.both(payload, room)?.answer, &salvaged.answer)?;
            }
        }
        Ok(salvaged)
    }

    /// With too little room, and what is left once more, with just enough: it stays.
    fn once_more(&mut self, payload: &[u8], left: &[u8]) -> Result<(), String> {
        let length = left.len();
        let room = [length - 1, length - 1, self.rng.below(length)];
        let room = self.rng.pick(&room);
        let short = SalvageAnswer {
            refusal: refusal::FORM,
            place: length as u64,
            ..SalvageAnswer::default()
        };
        same(&self.both(payload, room)?.answer, &short)?;
        let again = self.both(left, length)?;
        let stays = SalvageAnswer {
            length: length as u64,
            ..SalvageAnswer::default()
        };
        same(&again.answer, &stays)
            .and_then(|()| same(&hex(&again.payload), &hex(left)))
            .map_err(|why| format!("once more: {why}"))
    }

    /// Salvages with both, and compares all that both give.
    fn both(&mut self, payload: &[u8], room: usize) -> Result<Salvaged, String> {
        let lent = Lent::new(&mut self.rng, room);
        let (mut a, mut b) = (lent.clone(), lent.clone());
        let answer = proved::salvage(payload, a.lend());
        let other = plain::salvage(payload, b.lend());
        let Some(answer) = answer.plain().filter(|answer| *answer == other) else {
            return Err(format!(
                "salvage, room {room}: proved {answer:?}\nsalvage, room {room}: plain  {other:?}"
            ));
        };
        let length = answer.length as usize;
        a.same(&b)
            .and_then(|()| a.kept(&lent, length))
            .map_err(|why| format!("salvage, room {room}: {why}"))?;
        self.count(&answer);
        Ok(Salvaged {
            payload: a.first(length).to_vec(),
            answer,
        })
    }

    fn count(&mut self, answer: &SalvageAnswer) {
        self.refusals[answer.refusal as usize] += 1;
        if answer.refusal != 0 {
            return;
        }
        self.accepted[answer.drops.len().min(3)] += 1;
        self.most = self.most.max(answer.drops.len());
        for drop in &answer.drops {
            self.drops[usize::from(drop.id)][drop.refusal as usize] += 1;
        }
    }

    pub fn print(&self) {
        let [none, one, two, more] = self.accepted;
        println!("salvage, accepted without a drop: {none}");
        println!("salvage, accepted with 1 drop: {one}");
        println!("salvage, accepted with 2 drops: {two}");
        println!(
            "salvage, accepted with more: {more}, {} at the most",
            self.most
        );
        println!("salvage, 15 elements and more become fewer: {}", self.below);
        let kinds = || KINDS.iter().enumerate();
        for (refusal, kind) in kinds().skip(1).take(5) {
            let count = self.refusals[refusal];
            println!("salvage, refusal {refusal} ({kind}): {count}");
        }
        let count = self.refusals[refusal::FORM as usize];
        println!("salvage, refusal 11 (no room): {count}");
        for (refusal, kind) in kinds().skip(5).take(4) {
            let counts = IDS.map(|id| self.drops[id][refusal]);
            println!("salvage, dropped with {refusal} ({kind}), of ids 1, 2, 5: {counts:?}");
        }
    }
}

/// What a salvage gives agrees with what reading the payload gives.
fn follows(payload: &[u8], first: &plain::Answer, salvaged: &Salvaged) -> Result<(), String> {
    let answer = &salvaged.answer;
    let drop = answer.drops.first();
    let holds = match (first.refusal, answer.refusal) {
        (refusal::ACCEPTED | refusal::ROOM, 0) => drop.is_none() && salvaged.payload == payload,
        (5..=8, 0) => drop.is_some_and(|d| (d.refusal, d.place) == (first.refusal, first.place)),
        // met behind a dropped element
        (5..=8, 2) => answer.place >= first.place,
        _ => {
            let got = (answer.refusal, answer.place, answer.missing);
            (1..=5).contains(&first.refusal) && got == (first.refusal, first.place, first.missing)
        }
    };
    if !holds {
        return Err(format!("read: {first:?}\nsalvage: {answer:?}"));
    }
    if answer.refusal == 0 {
        let (again, _) = read(&salvaged.payload);
        same(&again.refusal, &0).map_err(|why| format!("what is left is refused: {why}"))?;
    }
    Ok(())
}

/// What is left is what the generator says.
fn as_expected(salvaged: &Salvaged, remains: &Remains) -> Result<(), String> {
    same(&salvaged.answer.refusal, &0)?;
    let drops = salvaged.answer.drops.iter();
    let drops: Vec<_> = drops.map(|d| (d.place, d.id, d.refusal)).collect();
    same(&drops, &remains.drops)?;
    same(&hex(&salvaged.payload), &hex(&remains.payload))?;
    let (answer, left) = read(&salvaged.payload);
    let tables = &remains.tables;
    let equal = answer.programme == tables.programme
        && answer.timing == tables.timing
        && answer.unknown == tables.unknown
        && left.records == tables.records
        && left.trim == tables.trim;
    match equal {
        true => Ok(()),
        false => Err("what is left gives other tables".to_string()),
    }
}

/// Reads with the plain reader, in frame 0: the answer and, if it is accepted, the tables.
fn read(payload: &[u8]) -> (plain::Answer, Tables) {
    let (mut records, mut trim) = (vec![0; MAX_RECORD_BYTES], vec![0; MAX_TRIM_BYTES]);
    let answer = plain::read(payload, 0, &mut records, &mut trim);
    records.truncate(plain::needed(&answer.programme, &answer.timing));
    trim.truncate(plain::trim_needed(&answer.programme));
    let tables = Tables {
        programme: answer.programme,
        timing: answer.timing,
        records,
        trim,
        unknown: answer.unknown,
    };
    (answer, tables)
}

fn same<T: PartialEq + std::fmt::Debug>(got: &T, expected: &T) -> Result<(), String> {
    match got == expected {
        true => Ok(()),
        false => Err(format!("{got:?}, not {expected:?}")),
    }
}

fn hex(bytes: &[u8]) -> String {
    bytes.iter().map(|byte| format!("{byte:02x}")).collect()
}
