//! The length of the written form by arithmetic alone: it knows how many bits
//! each value takes in the one form, and nothing of how they are written.

use crate::gen::TableCase;
use crate::plain::Programme;

/// Bits of an element whose content takes `bits` bits from its discard flag on:
/// id, size groups, whole bytes.
fn element(bits: usize) -> usize {
    let bytes = bits.div_ceil(8);
    let groups = match bytes - 1 {
        0..=15 => 1,
        16..=271 => 2,
        272..=4367 => 3,
        4368..=69_903 => 4,
        _ => 5,
    };
    4 + 5 * groups + 8 * bytes
}

/// Bits of the payload without its last padding, from its parts: program
/// assignment, and the contents of the object, extended and trim elements.
pub fn payload(objects: usize, assignment: usize, elements: [usize; 3]) -> usize {
    let header = 2 + if objects < 32 { 5 } else { 12 };
    let element = |bits| if bits == 0 { 0 } else { element(bits) };
    header + assignment + 1 + 4 + elements.map(element).iter().sum::<usize>()
}

/// Bits of a trim element from its discard flag on: the flag, 2 + 2 + 2 bits of
/// modes, the configurations, the flag of the objects' flags and these.
fn trim_bits(trim: &[u8], objects: usize) -> usize {
    if trim[0] == 0 {
        return 0;
    }
    let config = |c: &[u8]| match (c[0], c[1]) {
        (1, _) => 1,
        (_, 1) => 2,
        _ => 7 + (4 * (c[2] & 7).count_ones() + 5 * (c[2] >> 3).count_ones()) as usize,
    };
    let configs = match trim[2] {
        2 => trim[3..93].chunks(10).map(config).sum(),
        _ => 0,
    };
    1 + 6 + configs + 1 + objects * usize::from(trim[93])
}

/// Bits of one record in an object element.
fn record_bits(r: &[u8], first: bool) -> usize {
    if r[0] == 0 {
        return 2;
    }
    let gain = if r[2] == 0 || r[2] == 50 { 2 } else { 8 };
    let priority = if r[3] == 32 { 1 } else { 6 };
    let basic = 1 + if first { 0 } else { 2 } + gain + priority + 1;
    if r[1] < 2 {
        return basic;
    }
    let distance = [1, 2, 6][usize::from(r[7]).min(2)];
    let size = match (r[8] == r[9] && r[9] == r[10], r[8]) {
        (true, 0) => 2,
        (true, _) => 7,
        _ => 17,
    };
    let screen = 1 + 5 * usize::from(r[13]);
    basic + if first { 0 } else { 3 } + 17 + distance + 4 + size + screen + 1
}

/// Bytes of the form of valid tables.
pub fn form_bytes(case: &TableCase) -> usize {
    let (p, t) = (&case.programme, &case.timing);
    let blocks = usize::from(t.blocks);
    let count = usize::from(p.objects) * blocks;
    let records: Vec<&[u8]> = case.records.chunks(32).take(count).collect();
    let mut object = 0;
    if blocks > 0 {
        let offset = if t.updates[0].start % 32 == 0 { 2 } else { 7 };
        let ramp = |ramp: u16| match ramp {
            0 | 512 | 1536 => 2,
            2048 => 7,
            _ => 14,
        };
        let updates: usize = t.updates[..blocks].iter().map(|u| 6 + ramp(u.ramp)).sum();
        let all = records.iter().enumerate();
        let records: usize = all.map(|(i, r)| record_bits(r, i % blocks == 0)).sum();
        object = 1 + offset + 3 + updates + 1 + records;
    }
    let extends = records.iter().filter(|r| r[0] == 1 && r[1] == 2).count();
    let mut extended = 0;
    if records.iter().any(|r| r[17] != 0) {
        let more = |r: &&[u8]| [0, 4, 2, 8][usize::from(r[17] + r[17] * r[18])];
        extended += extends + records.iter().map(more).sum::<usize>();
    }
    if records.iter().any(|r| r[20] != 0) {
        let more = |r: &&[u8]| match r[20] {
            0 => 0,
            presence => 3 + 2 * presence.count_ones() as usize,
        };
        extended += extends + records.iter().map(more).sum::<usize>();
    }
    if extended > 0 {
        extended += 3;
    }
    let trim = trim_bits(&case.trim, p.objects.into());
    let elements = [object, extended, trim];
    payload(p.objects.into(), assignment_bits(p), elements).div_ceil(8)
}

fn assignment_bits(p: &Programme) -> usize {
    if p.dynonly != 0 {
        return 2;
    }
    let mut bits = 5;
    if p.content & 1 != 0 {
        bits += 2 + 3 * usize::from(p.multiple);
        for bed in &p.beds[..p.bedcount.into()] {
            bits += [[19, 12][usize::from(bed.standard)], 1][usize::from(bed.lfeonly)];
        }
    }
    if p.content & 2 != 0 {
        bits += 3;
    }
    if p.content & 4 != 0 {
        bits += if p.dynamics < 31 { 5 } else { 12 };
    }
    bits
}
