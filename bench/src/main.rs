//! Self test: `skriemelt-bench [payloads] [seed]`.

use skriemelt_bench::check::{check_case, check_rewrite, check_tables};
use skriemelt_bench::gen::marks::{Group, GROUPS};
use skriemelt_bench::gen::{longest, Case, Gen};
use std::collections::BTreeMap;
use std::process::ExitCode;

/// What has been seen.
struct Tally {
    read: [u64; 12],
    /// Refusal 9 where the tables are known: for the records, for trim.
    no_room: [u64; 2],
    written: [u64; 12],
    rewritten: [u64; 12],
    kinds: BTreeMap<&'static str, [u64; 12]>,
    /// Undamaged payloads by branch: accepted ones, but refused ones in the group
    /// of refused elements.
    branches: Vec<[u64; 32]>,
    /// All undamaged payloads by number of size groups.
    groups: [u64; 6],
}

/// Branches that no accepted payload takes: content 0 (refusal 4), no bed
/// instance, no size group, and sizes of more than 4,096 bytes.
const IMPOSSIBLE: [(Group, usize); 5] = [
    (Group::Content, 0),
    (Group::BedCount, 0),
    (Group::SizeGroups, 0),
    (Group::SizeGroups, 4),
    (Group::SizeGroups, 5),
];

fn main() -> ExitCode {
    let mut arguments = std::env::args().skip(1);
    let mut number = |default| {
        let text = arguments.next();
        text.map_or(Ok(default), |text| text.parse::<u64>())
    };
    let (Ok(count), Ok(seed)) = (number(200_000), number(1)) else {
        eprintln!("usage: skriemelt-bench [payloads] [seed]");
        return ExitCode::from(2);
    };
    match run(count, seed) {
        Ok(tally) => report(&tally),
        Err(message) => {
            eprintln!("{message}");
            ExitCode::FAILURE
        }
    }
}

fn run(count: u64, seed: u64) -> Result<Tally, String> {
    let mut tally = Tally {
        read: [0; 12],
        no_room: [0; 2],
        written: [0; 12],
        rewritten: [0; 12],
        kinds: BTreeMap::new(),
        branches: vec![[0; 32]; GROUPS.len()],
        groups: [0; 6],
    };
    let mut gen = Gen::new(seed);
    for index in 0..count {
        let case = gen.case();
        one(&case, &mut tally).map_err(|message| {
            let hex: String = case.payload.iter().map(|b| format!("{b:02x}")).collect();
            let (kind, rooms) = (case.kind, (case.room, case.trim_room));
            format!("payload {index} ({kind}, rooms {rooms:?}): {message}\n{hex}")
        })?;
    }
    for index in 0..count / 2 {
        let tables = gen.tables();
        let answer = check_tables(&tables).map_err(|message| {
            let (kind, programme, timing) = (tables.kind, tables.programme, tables.timing);
            format!("tables {index} ({kind}): {message}\n{programme:?}\n{timing:?}")
        })?;
        tally.written[answer.refusal as usize] += 1;
        tally.kinds.entry(tables.kind).or_default()[answer.refusal as usize] += 1;
    }
    check_tables(&longest())?;
    Ok(tally)
}

/// One payload read and, if accepted, its tables written.
fn one(case: &Case, tally: &mut Tally) -> Result<(), String> {
    let answer = check_case(case)?;
    tally.read[answer.refusal as usize] += 1;
    tally.kinds.entry(case.kind).or_default()[answer.refusal as usize] += 1;
    for (groups, count) in tally.groups.iter_mut().enumerate() {
        *count += u64::from(case.marks.has(Group::SizeGroups as usize, groups));
    }
    if let (9, Some(tables)) = (answer.refusal, &case.tables) {
        tally.no_room[usize::from(tables.records.len() <= case.room)] += 1;
    }
    if answer.refusal == 0 {
        let write = check_rewrite(case, &answer)?;
        tally.rewritten[write.refusal as usize] += 1;
    }
    for (group, (values, _)) in GROUPS.iter().enumerate() {
        let counted = match answer.refusal {
            6 | 7 => group == Group::RefusedAlternate as usize,
            refusal => refusal == 0,
        };
        for value in 0..*values {
            if counted && case.marks.has(group, value) {
                tally.branches[group][value] += 1;
            }
        }
    }
    Ok(())
}

/// Prints all counts; fails if a refusal was not reached.
fn report(tally: &Tally) -> ExitCode {
    println!("refusal  payloads read  tables written  read tables written");
    let mut missed = false;
    for refusal in 0..12 {
        let [read, written, again] =
            [&tally.read, &tally.written, &tally.rewritten].map(|counts| counts[refusal]);
        println!("{refusal:7}  {read:13}  {written:14}  {again:19}");
        missed |= read + written == 0;
    }
    println!("refusal 9 for the records, for the trim table");
    println!("    {:?}", tally.no_room);
    missed |= tally.no_room.contains(&0);
    println!("\nby kind of case, refusals 0 to 11");
    for (kind, counts) in &tally.kinds {
        println!("{kind:28} {counts:?}");
    }
    println!("\nundamaged payloads, accepted or not, by size groups");
    println!("    {:?}", tally.groups);
    missed |= tally.groups[1..].contains(&0);
    println!("\nundamaged payloads by branch: accepted ones, unless said otherwise");
    for (group, (values, text)) in GROUPS.iter().enumerate() {
        let counts = &tally.branches[group][..*values];
        println!("{text}\n    {counts:?}");
        let possible = |value| {
            !IMPOSSIBLE
                .iter()
                .any(|(g, v)| (*g as usize, *v) == (group, value))
        };
        missed |= (0..*values).any(|value| possible(value) && counts[value] == 0);
    }
    if missed {
        println!("\na refusal or a branch was not reached");
        return ExitCode::FAILURE;
    }
    println!("\nall reached, all invariants hold");
    ExitCode::SUCCESS
}
