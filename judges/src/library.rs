//! The library's operations with the reasoner's answers, so that the two can be held to each other.

use gimbuka::Refusal;
use reasoner::{Checked, Comparison, Filling, Possibility, Reading, Verdict};

fn reading(read: Result<(), Refusal>) -> Reading {
    match read {
        Ok(()) => Reading::Accepted,
        Err(refusal) => Reading::Refused(refusal.number()),
    }
}

fn filling(filled: Result<usize, Refusal>) -> Filling {
    match filled {
        Ok(words) => Filling::Written(count(words)),
        Err(refusal) => Filling::Refused(refusal.number()),
    }
}

/// The reasoner counts words by 32 bits.
fn count(words: usize) -> u32 {
    u32::try_from(words).expect("words that can be numbered")
}

/// Read vocabulary.
#[must_use]
pub fn read_vocabulary(v: &[u32]) -> Reading {
    reading(gimbuka::read_vocabulary(v))
}

/// Read OWL.
#[must_use]
pub fn read_owl(text: &[u8], out: &mut [u32]) -> Filling {
    filling(gimbuka::read_owl(text, out))
}

/// Read policy.
#[must_use]
pub fn read_policy(v: &[u32], p: &[u32]) -> Reading {
    reading(gimbuka::read_policy(v, p))
}

/// Read policy with a second policy's numbers.
#[must_use]
pub fn read_second_policy(v: &[u32], q: &[u32]) -> Reading {
    reading(gimbuka::read_second_policy(v, q))
}

/// Possible.
#[must_use]
pub fn possible(v: &[u32], p: &[u32], work: &mut [u32]) -> Possibility {
    match gimbuka::possible(v, p, work) {
        Ok(gimbuka::Possibility::Possible { term }) => Possibility::Possible(term),
        Ok(gimbuka::Possibility::Impossible) => Possibility::Impossible,
        Err(refusal) => Possibility::Refused(refusal.number()),
    }
}

/// Compliance.
#[must_use]
pub fn compliance(v: &[u32], p: &[u32], q: &[u32], work: &mut [u32], out: &mut [u32]) -> Verdict {
    match gimbuka::compliance(v, p, q, work, out) {
        Ok(gimbuka::Verdict::Compliant) => Verdict::Compliant,
        Ok(gimbuka::Verdict::Outside { term, combination, words }) => {
            Verdict::Outside(term, combination, count(words))
        }
        Err(refusal) => Verdict::Refused(refusal.number()),
    }
}

/// Equality.
#[must_use]
pub fn equality(v: &[u32], p: &[u32], q: &[u32], work: &mut [u32], out: &mut [u32]) -> Comparison {
    match gimbuka::equality(v, p, q, work, out) {
        Ok(gimbuka::Comparison::Equal) => Comparison::Equal,
        Ok(gimbuka::Comparison::Differs { side, term, combination, words }) => {
            Comparison::Differs(side as u32, term, combination, count(words))
        }
        Err(refusal) => Comparison::Refused(refusal.number()),
    }
}

/// Model check.
#[must_use]
pub fn model_check(v: &[u32], p: &[u32], q: &[u32], m: &[u32], work: &mut [u32]) -> Checked {
    match gimbuka::model_check(v, p, q, m, work) {
        Ok(gimbuka::Checked::Yes) => Checked::Yes,
        Ok(gimbuka::Checked::No) => Checked::No,
        Err(refusal) => Checked::Refused(refusal.number()),
    }
}

/// Spell.
#[must_use]
pub fn spell(v: &[u32], p: &[u32], work: &mut [u32], out: &mut [u32]) -> Filling {
    filling(gimbuka::spell(v, p, work, out))
}

/// Rehearse.
#[must_use]
pub fn rehearse(seed: u32, classes: u32, terms: u32, out: &mut [u32]) -> Filling {
    filling(gimbuka::rehearse(seed, classes, terms, out))
}
