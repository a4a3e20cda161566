//! Damaged inputs: mutations of words, lengths and links, and one directed fault a refusal.

use super::{Family, Spelling};
use crate::encode::policy_words;
use crate::policy::Term;
use crate::random::damage::{self, Fault};
use crate::random::limits::{nested, reaches, within};
use crate::random::{Case, Rng};

/// A valid input with one to three mutations.
#[must_use]
pub fn damaged(rng: &mut Rng) -> Spelling {
    let family = *rng.pick(&[Family::Repeats, Family::Mixed, Family::Nearly]);
    let mut input = Spelling::generate(family, rng.bits());
    for _ in 0..rng.between(1, 3) {
        match rng.below(7) {
            0 | 1 => damage::mutate(rng, &mut input.v, 4, &[3]),
            2..6 => damage::mutate(rng, &mut input.p, 6, &[4, 5]),
            _ => input = input.lent(rng),
        }
    }
    input
}

/// Words and lengths of any kind; now and then one part is valid.
#[must_use]
pub fn garbage(rng: &mut Rng) -> Spelling {
    Spelling::from(damage::garbage(rng)).lent(rng)
}

/// Two directed faults of different stages, or one: the earlier one's number is the answer.
#[must_use]
pub fn two_faults(rng: &mut Rng) -> Spelling {
    let faults = faults();
    let (first, second) = (*rng.pick(&faults), *rng.pick(&faults));
    let mut case = base();
    case.work_seed = rng.bits();
    case.out_seed = rng.bits();
    damage::put_both(&mut case, first, second);
    Spelling::from(case)
}

/// A case whose first policy is spelled in 36 words.
#[must_use]
pub fn base() -> Case {
    damage::base()
}

/// At least one fault for every refusal; put on [`base`] it is told.
#[must_use]
pub fn faults() -> Vec<Fault> {
    let mut all = damage::faults();
    all.retain(|fault| matches!(fault.number, 1..=8 | 21 | 23 | 44));
    let fault = |number, name, apply| Fault { number, name, apply };
    all.extend([
        fault(43, "a range 17 deep", |case| {
            add_term(&mut case.p, nested(16, |_| 2, vec![reaches(3, vec![])]));
        }),
        fault(43, "over 512 records by ranges", |case| {
            let roles = (0..200).map(|at| reaches(3, vec![within(2, at, at)]));
            add_term(&mut case.p, roles.collect());
        }),
        fault(23, "output a word short", |case| case.out_len = 35),
    ]);
    all
}

/// Puts a term behind those of an accepted policy.
fn add_term(p: &mut Vec<u32>, term: Term) {
    let records = (p.len() / 6 - 1) as u32;
    let mut link = 0;
    while p[link] != 0 {
        link = 6 * p[link] as usize + 5;
    }
    p[link] = records + 1;
    let mut words = policy_words(&[term]).split_off(6);
    for record in words.chunks_exact_mut(6) {
        for link in &mut record[4..] {
            *link = if *link == 0 { 0 } else { *link + records };
        }
    }
    p.extend(words);
}
