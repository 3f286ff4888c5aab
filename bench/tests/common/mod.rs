//! Payloads written as strings of bits; what is not 0 or 1 parts the fields.

#![allow(dead_code)]

pub mod catalogue;

use skriemelt_bench::plain::{read, Answer};

/// The bits as bytes, the last one filled up with zeros.
pub fn bytes(text: &str) -> Vec<u8> {
    let bits: Vec<u8> = text.bytes().filter(|c| matches!(c, b'0' | b'1')).collect();
    let byte = |chunk: &[u8]| {
        let bit = |k: usize| chunk.get(k).map_or(0, |c| c - b'0');
        (0..8).fold(0, |byte, k| byte << 1 | bit(k))
    };
    bits.chunks(8).map(byte).collect()
}

/// An element of up to 272 bytes whose content, from the alternate id or the
/// discard flag on, is filled up with zeros to whole bytes.
pub fn element(id: u32, content: &str) -> String {
    let mut bits: String = content.chars().filter(|c| "01".contains(*c)).collect();
    while !bits.len().is_multiple_of(8) {
        bits.push('0');
    }
    let value = bits.len() / 8 - 1;
    let size = if value < 16 {
        format!("{value:04b} 0")
    } else {
        format!("{:04b} 1 {:04b} 0", value / 16 - 1, value % 16)
    };
    format!("{id:04b} {size} {bits} ")
}

/// Reads in frame 0 with room for every payload: the answer, the records and
/// trim.
pub fn read_both(payload: &[u8]) -> (Answer, Vec<u8>, Vec<u8>) {
    let (mut records, mut trim) = (vec![0xEE; 40_960], vec![0xEE; 253]);
    let answer = read(payload, 0, &mut records, &mut trim);
    (answer, records, trim)
}

/// The same without trim.
pub fn read_all(payload: &[u8]) -> (Answer, Vec<u8>) {
    let (answer, records, _) = read_both(payload);
    (answer, records)
}

/// Refusal and place of a payload given in bits.
pub fn refusal(text: &str) -> (u32, u64) {
    let (answer, _) = read_all(&bytes(text));
    (answer.refusal, answer.place)
}

/// Version 0, one object, dynamic only, no LFE, no alternate ids: 10 bits.
pub const ONE: &str = "00 00000 1 0 0 ";
