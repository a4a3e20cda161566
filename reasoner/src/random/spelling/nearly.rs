//! Policies whose conjuncts and terms differ in one record.

use super::Spelling;
use crate::classes::{ClassNo, FeatureNo, RoleNo};
use crate::policy::{Conjunct, Term};
use crate::random::limits::{class, names, reaches, within};
use crate::random::slow::{records, RECORDS};
use crate::random::valid::{self, Shape};
use crate::random::Rng;
use crate::vocabulary::{Axiom, Vocabulary};

const CLASSES: u32 = 3;
const ROLES: u32 = 2;
const FEATURES: u32 = 2;

/// Terms, and roles of them, with copies that were altered. Little is functional, so that roles
/// stay apart.
#[must_use]
pub fn input(rng: &mut Rng) -> Spelling {
    let vocabulary = vocabulary(rng);
    let mut terms = valid::policy(rng, &Shape::repeats(), &vocabulary);
    for term in &mut terms {
        copy_roles(rng, term);
    }
    for at in 0..terms.len() {
        for _ in 0..rng.below(4) {
            let mut other = terms[at].clone();
            alter(rng, &mut other);
            terms.push(other);
        }
    }
    rng.shuffle(&mut terms);
    while records(&terms) > RECORDS {
        terms.pop();
    }
    Spelling::laid_out(rng, &vocabulary, &terms)
}

/// Role 1 and feature 1 are many-valued; the others are functional once in three, stated so or not.
fn vocabulary(rng: &mut Rng) -> Vocabulary {
    let mut vocabulary = names(CLASSES, ROLES, FEATURES);
    let axioms = &mut vocabulary.axioms;
    axioms.push(Axiom::ManyValuedRole(RoleNo(1)));
    axioms.push(Axiom::ManyValuedFeature(FeatureNo(1)));
    if rng.once_in(3) {
        let class = rng.between(1, CLASSES);
        axioms.push(Axiom::Range(RoleNo(1), ClassNo(class)));
    }
    match rng.below(6) {
        0 => axioms.push(Axiom::FunctionalRole(RoleNo(2))),
        1 => {}
        _ => axioms.push(Axiom::ManyValuedRole(RoleNo(2))),
    }
    match rng.below(6) {
        0 => axioms.push(Axiom::FunctionalFeature(FeatureNo(2))),
        1 => {}
        _ => axioms.push(Axiom::ManyValuedFeature(FeatureNo(2))),
    }
    vocabulary
}

/// Puts altered copies of roles beside them, from below.
fn copy_roles(rng: &mut Rng, chain: &mut Term) {
    let mut copies = Term::new();
    for conjunct in chain.iter_mut() {
        let Conjunct::Reaches(role, inner) = conjunct else { continue };
        copy_roles(rng, inner);
        for _ in 0..rng.below(3) {
            let mut other = inner.clone();
            alter(rng, &mut other);
            copies.push(reaches(role.0, other));
        }
    }
    chain.extend(copies);
    rng.shuffle(chain);
}

/// One change in a chain or somewhere below it: a conjunct put in, left out, with another name or
/// other ends, or what a role reaches put behind the role.
fn alter(rng: &mut Rng, chain: &mut Term) {
    let inside: Vec<usize> =
        (0..chain.len()).filter(|&at| matches!(chain[at], Conjunct::Reaches(..))).collect();
    if !inside.is_empty() && !rng.once_in(3) {
        let place = *rng.pick(&inside);
        if let Conjunct::Reaches(_, inner) = &mut chain[place] {
            alter(rng, inner);
        }
        return;
    }
    if chain.is_empty() || rng.once_in(3) {
        let place = rng.place(chain.len() + 1);
        chain.insert(place, conjunct(rng));
        return;
    }
    let place = rng.place(chain.len());
    if rng.once_in(4) {
        chain.remove(place);
        return;
    }
    match &mut chain[place] {
        Conjunct::Class(class) => class.0 = rng.between(1, CLASSES),
        Conjunct::Nothing => {}
        Conjunct::Within(feature, lo, hi) => match rng.below(3) {
            0 => feature.0 = rng.between(1, FEATURES),
            1 => *lo = lo.saturating_sub(1),
            _ => *hi = hi.saturating_add(1),
        },
        Conjunct::Reaches(role, _) if rng.once_in(2) => role.0 = rng.between(1, ROLES),
        Conjunct::Reaches(_, inner) => {
            let moved = std::mem::take(inner);
            chain.extend(moved);
        }
    }
}

fn conjunct(rng: &mut Rng) -> Conjunct {
    match rng.below(3) {
        0 => class(rng.between(1, CLASSES)),
        1 => reaches(rng.between(1, ROLES), vec![]),
        _ => {
            let lo = rng.below(3);
            within(rng.between(1, FEATURES), lo, lo + rng.below(3))
        }
    }
}
