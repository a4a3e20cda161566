//! The program: bytes of standard input to bytes of standard output.

use crate::{compliance, Verdict, FULL_WORK};
use std::fmt::Write as _;

const MOST_BYTES: usize = 65_536;
const OUTPUT: usize = 16_384;

/// The three parts of the program's bytes. "Input over 65,536 bytes, cut short or followed by more"
/// has none.
#[must_use]
pub fn parts_of_bytes(bytes: &[u8]) -> Option<[Vec<u32>; 3]> {
    if bytes.len() > MOST_BYTES {
        return None;
    }
    let mut rest = bytes;
    let parts = [part(&mut rest)?, part(&mut rest)?, part(&mut rest)?];
    rest.is_empty().then_some(parts)
}

fn part(rest: &mut &[u8]) -> Option<Vec<u32>> {
    let count = word(rest)? as usize;
    if count > rest.len() / 4 {
        return None;
    }
    (0..count).map(|_| word(rest)).collect()
}

fn word(rest: &mut &[u8]) -> Option<u32> {
    let (first, after) = rest.split_first_chunk::<4>()?;
    *rest = after;
    Some(u32::from_le_bytes(*first))
}

/// The program's standard output for these bytes of standard input. "It decides compliance with
/// an output of 16,384 words."
#[must_use]
pub fn program(bytes: &[u8]) -> Vec<u8> {
    let Some([v, p, q]) = parts_of_bytes(bytes) else {
        return b"refused 40\n".to_vec();
    };
    let mut out = vec![0; OUTPUT];
    let answer = match compliance(&v, &p, &q, &mut vec![0; FULL_WORK], &mut out) {
        Verdict::Compliant => "compliant\n".to_owned(),
        Verdict::Refused(number) => format!("refused {number}\n"),
        Verdict::Outside(s, q, words) => outside(s, q, &out[..words as usize]),
    };
    answer.into_bytes()
}

/// ""outside s q" with one line a record"
fn outside(s: u32, q: u32, model: &[u32]) -> String {
    let mut text = format!("outside {s} {q}\n");
    for record in model.chunks_exact(5).skip(1) {
        let (name, individual, other) = (record[1], record[2], record[3]);
        let line = match record[0] {
            1 => writeln!(text, "member {name} {individual}"),
            2 => writeln!(text, "edge {name} {individual} {other}"),
            _ => writeln!(text, "value {name} {individual} {other}"),
        };
        line.expect("a string takes every line");
    }
    text
}

/// The program's bytes for three parts.
#[must_use]
pub fn bytes_of_parts(v: &[u32], p: &[u32], q: &[u32]) -> Vec<u8> {
    bytes_of_words(&words_of_parts([v, p, q]))
}

/// The parts one after another, each behind its word count.
pub(crate) fn words_of_parts(parts: [&[u32]; 3]) -> Vec<u32> {
    let mut words = Vec::new();
    for part in parts {
        words.push(part.len() as u32);
        words.extend(part);
    }
    words
}

/// The program's bytes for words: four each, the least significant first.
#[must_use]
pub fn bytes_of_words(words: &[u32]) -> Vec<u8> {
    words.iter().flat_map(|word| word.to_le_bytes()).collect()
}
