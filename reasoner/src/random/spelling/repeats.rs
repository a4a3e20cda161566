//! Policies in which conjuncts and terms stand several times, and other policies with the spelling
//! of a given one.

use super::Spelling;
use crate::classes::{ClassNo, RoleNo};
use crate::policy::{Conjunct, Place, Policy, Term, DEEPEST};
use crate::random::limits::{class, reaches, within};
use crate::random::slow::{records, RECORDS};
use crate::random::valid::{self, policy_layout, Shape};
use crate::random::Rng;
use crate::vocabulary::{Axiom, Functional, Vocabulary};

/// What is done to a policy besides another order of conjuncts and terms, and leaves its spelling.
#[derive(Clone, Copy, Debug, PartialEq, Eq)]
pub struct Disguise {
    /// A class that a range gives is put in where it is missing, or left out.
    ranges: bool,
    /// What one value of a functional role or feature is asked is asked in two conjuncts.
    merges: bool,
}

impl Disguise {
    /// Conjuncts and terms are put in again, and each copy is disguised for itself.
    pub const REPEATS: Self = Self { ranges: false, merges: false };
    /// Ranges besides.
    pub const RANGES: Self = Self { ranges: true, merges: false };
    /// Merges besides.
    pub const MERGES: Self = Self { ranges: false, merges: true };
    /// Everything.
    pub const ALL: Self = Self { ranges: true, merges: true };
}

/// A policy of few names, some of its terms far below, with repeats in disguise.
#[must_use]
pub fn input(rng: &mut Rng, disguise: Disguise) -> Spelling {
    let shape = Shape::repeats();
    let vocabulary = valid::vocabulary(rng, &shape);
    let mut terms = valid::policy(rng, &shape, &vocabulary);
    for term in &mut terms {
        if vocabulary.roles > 0 && rng.once_in(4) {
            let role = rng.between(1, vocabulary.roles);
            let most = DEEPEST - depth(term);
            let more = if rng.once_in(2) { most } else { rng.between(1, most) };
            let inner = std::mem::take(term);
            *term = (0..more).fold(inner, |inner, _| vec![reaches(role, inner)]);
        }
    }
    let room = rng.between(1, 100);
    Hand::of(&vocabulary, disguise, room as usize).disguise(rng, &mut terms);
    Spelling::laid_out(rng, &vocabulary, &terms)
}

/// How deep a chain goes, one without conjuncts not at all.
fn depth(chain: &Term) -> u32 {
    let below = |conjunct: &Conjunct| match conjunct {
        Conjunct::Reaches(_, inner) => 1 + depth(inner),
        _ => 1,
    };
    chain.iter().map(below).max().unwrap_or(0)
}

/// The policy with its conjuncts and terms in another order, and some of them more often, as far as
/// there is room: it has the same spelling. None where a table is refused.
#[must_use]
pub fn rearranged(rng: &mut Rng, v: &[u32], p: &[u32]) -> Option<Vec<u32>> {
    rewritten(rng, v, p, Disguise::REPEATS)
}

/// Rearranged, and besides with ranges put in or left out, what is functional parted, and an
/// impossible term added: it has the same spelling. None where a table is refused.
#[must_use]
pub fn disguised(rng: &mut Rng, v: &[u32], p: &[u32]) -> Option<Vec<u32>> {
    rewritten(rng, v, p, Disguise::ALL)
}

fn rewritten(rng: &mut Rng, v: &[u32], p: &[u32], disguise: Disguise) -> Option<Vec<u32>> {
    let vocabulary = Vocabulary::read(v).ok()?;
    let mut terms = Policy::read(&vocabulary, p, Place::First).ok()?.terms;
    let room = (RECORDS - records(&terms)).min(rng.place(100));
    let mut hand = Hand::of(&vocabulary, disguise, room);
    if disguise == Disguise::ALL && rng.once_in(2) && hand.takes(2) {
        terms.push(vec![Conjunct::Nothing]);
    }
    hand.disguise(rng, &mut terms);
    Some(policy_layout(rng, &Shape::repeats(), &terms))
}

/// Disguises the terms of a policy.
struct Hand {
    disguise: Disguise,
    /// How many records may be put in.
    room: usize,
    ranges: Vec<(RoleNo, ClassNo)>,
    functional: Functional,
}

impl Hand {
    fn of(over: &Vocabulary, disguise: Disguise, room: usize) -> Self {
        let ranges = over.axioms.iter().filter_map(|axiom| match axiom {
            Axiom::Range(role, class) => Some((*role, *class)),
            _ => None,
        });
        Self { disguise, room, ranges: ranges.collect(), functional: Functional::of(over) }
    }

    /// Is there room for so many records? Then it is taken.
    fn takes(&mut self, count: usize) -> bool {
        let fits = count <= self.room;
        if fits {
            self.room -= count;
        }
        fits
    }

    fn disguise(&mut self, rng: &mut Rng, terms: &mut Vec<Term>) {
        for term in terms.iter_mut() {
            self.chain(rng, term, 1);
        }
        for at in 0..terms.len() {
            if rng.once_in(2) && self.takes(records(&terms[at..=at])) {
                let mut again = terms[at].clone();
                self.chain(rng, &mut again, 1);
                terms.push(again);
            }
        }
        rng.shuffle(terms);
    }

    /// Disguises a chain that stands at this depth, and all below it.
    fn chain(&mut self, rng: &mut Rng, chain: &mut Vec<Conjunct>, depth: u32) {
        for conjunct in chain.iter_mut() {
            self.inside(rng, conjunct, depth);
        }
        if self.disguise.merges {
            self.part(rng, chain);
        }
        for at in 0..chain.len() {
            if rng.once_in(2) && self.takes(records(&[vec![chain[at].clone()]]) - 1) {
                let mut again = chain[at].clone();
                if rng.once_in(2) {
                    shuffle(rng, &mut again);
                } else {
                    self.inside(rng, &mut again, depth);
                }
                chain.push(again);
            }
        }
        rng.shuffle(chain);
    }

    /// Disguises what a conjunct at this depth reaches.
    fn inside(&mut self, rng: &mut Rng, conjunct: &mut Conjunct, depth: u32) {
        let Conjunct::Reaches(role, inner) = conjunct else { return };
        self.chain(rng, inner, depth + 1);
        if self.disguise.ranges {
            self.state_ranges(rng, *role, inner, depth + 1);
        }
    }

    fn state_ranges(&mut self, rng: &mut Rng, role: RoleNo, inner: &mut Term, depth: u32) {
        let ranges = self.ranges.iter().filter(|(own, _)| *own == role);
        let classes: Vec<Conjunct> = ranges.map(|(_, range)| class(range.0)).collect();
        for stated in classes {
            if rng.once_in(2) {
                inner.retain(|conjunct| *conjunct != stated);
            } else if depth <= DEEPEST && self.takes(1) {
                let place = rng.place(inner.len() + 1);
                inner.insert(place, stated);
            }
        }
    }

    /// Parts what is asked of a functional role, and asks two wider spans of a functional feature.
    fn part(&mut self, rng: &mut Rng, chain: &mut Vec<Conjunct>) {
        for at in 0..chain.len() {
            if rng.once_in(2) {
                continue;
            }
            let other = match &mut chain[at] {
                Conjunct::Reaches(role, inner)
                    if self.functional.has_role(*role) && self.takes(1) =>
                {
                    let (some, others) = inner.drain(..).partition(|_| rng.once_in(2));
                    *inner = some;
                    reaches(role.0, others)
                }
                Conjunct::Within(feature, lo, hi)
                    if self.functional.has_feature(*feature) && self.takes(1) =>
                {
                    let other = within(feature.0, *lo, hi.saturating_add(rng.below(3)));
                    *lo = lo.saturating_sub(rng.below(3));
                    other
                }
                _ => continue,
            };
            chain.push(other);
        }
    }
}

/// Puts what a conjunct reaches in another order, at every depth.
fn shuffle(rng: &mut Rng, conjunct: &mut Conjunct) {
    if let Conjunct::Reaches(_, inner) = conjunct {
        inner.iter_mut().for_each(|one| shuffle(rng, one));
        rng.shuffle(inner);
    }
}
