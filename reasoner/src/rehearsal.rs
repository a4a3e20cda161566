//! A load for rehearsals, SPECIFICATION 9.14: a vocabulary and two policies, drawn from a seed.

use crate::classes::{ClassNo, FeatureNo};
use crate::encode::{policy_words, vocabulary_words};
use crate::policy::{Conjunct, Term};
use crate::program::words_of_parts;
use crate::vocabulary::{Axiom, Vocabulary, CLASSES};
use crate::{fill, Filling};
use std::ops::RangeInclusive;

/// The seeds that draws begin at.
pub(crate) const SEEDS: RangeInclusive<u32> = 1..=2_147_483_646;
/// How many terms each policy of a load may have.
pub(crate) const TERMS: RangeInclusive<u32> = 1..=100;

/// The one feature.
const FEATURE: FeatureNo = FeatureNo(1);

/// Rehearse: 45, then 23.
#[must_use]
pub fn rehearse(seed: u32, classes: u32, terms: u32, out: &mut [u32]) -> Filling {
    written(seed, classes, terms, out).unwrap_or_else(Filling::Refused)
}

fn written(seed: u32, classes: u32, terms: u32, out: &mut [u32]) -> Result<Filling, u32> {
    if !SEEDS.contains(&seed) || !CLASSES.contains(&classes) || !TERMS.contains(&terms) {
        return Err(45);
    }
    // Each part draws on where the one before it ended.
    let mut draws = Draws::from(seed);
    let v = vocabulary_words(&vocabulary(&mut draws, classes));
    let p = policy_words(&policy(&mut draws, classes, terms));
    let q = policy_words(&policy(&mut draws, classes, terms));
    fill(&words_of_parts([&v, &p, &q]), out)
}

/// "Class k is below class 1 + draw(k - 1)", for k from 2 on; there is no role, and the last record says
/// that the feature is functional.
fn vocabulary(draws: &mut Draws, classes: u32) -> Vocabulary {
    let below = |k: u32| Axiom::Below(ClassNo(k), ClassNo(1 + draws.draw(k - 1)));
    let mut axioms: Vec<Axiom> = (2..=classes).map(below).collect();
    axioms.push(Axiom::FunctionalFeature(FEATURE));
    Vocabulary { classes, roles: 0, features: 1, axioms }
}

fn policy(draws: &mut Draws, classes: u32, terms: u32) -> Vec<Term> {
    (0..terms).map(|_| term(draws, classes)).collect()
}

/// "A class 1 + draw(N), a lo of draw(100) and a hi of lo + draw(100)", drawn in this order.
fn term(draws: &mut Draws, classes: u32) -> Term {
    let class = ClassNo(1 + draws.draw(classes));
    let lo = draws.draw(100);
    let hi = lo + draws.draw(100);
    vec![Conjunct::Class(class), Conjunct::Within(FEATURE, lo, hi)]
}

/// A source of draws. The first is the one behind the seed.
pub struct Draws(u32);

impl From<u32> for Draws {
    fn from(seed: u32) -> Self {
        Self(seed)
    }
}

impl Draws {
    /// "A draw first moves s, to 48271 × s mod 2147483647, and draw(n) is then s mod n": whatever n is.
    pub fn draw(&mut self, n: u32) -> u32 {
        self.0 = (48_271 * u64::from(self.0) % 2_147_483_647) as u32;
        self.0 % n
    }
}
