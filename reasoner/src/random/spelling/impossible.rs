//! Policies with impossible terms.

use super::Spelling;
use crate::classes::{ClassNo, FeatureNo, RoleNo};
use crate::policy::{Conjunct, Term};
use crate::random::limits::{class, names, nested, reaches, within};
use crate::random::Rng;
use crate::vocabulary::{Axiom, Vocabulary};

/// Up to four impossible terms; every other time one or two possible ones among them.
#[must_use]
pub fn input(rng: &mut Rng) -> Spelling {
    let mut terms: Vec<Term> = (0..rng.between(1, 4)).map(|_| impossible(rng)).collect();
    if rng.once_in(2) {
        for _ in 0..rng.between(1, 2) {
            terms.push(frame(rng, vec![class(1)]));
        }
        rng.shuffle(&mut terms);
    }
    let vocabulary = vocabulary(rng);
    Spelling::laid_out(rng, &vocabulary, &terms)
}

/// Classes 1 and 3 are disjoint and class 4 is below both; role 1 and feature 1 are functional, stated so
/// or not, and the others many-valued; role 3 has the range 1, and role 4 has ranges in plenty.
fn vocabulary(rng: &mut Rng) -> Vocabulary {
    let mut vocabulary = names(256, 4, 2);
    vocabulary.axioms = vec![
        Axiom::Below(ClassNo(4), ClassNo(1)),
        Axiom::Below(ClassNo(4), ClassNo(3)),
        Axiom::Disjoint(ClassNo(1), ClassNo(3)),
        Axiom::Range(RoleNo(3), ClassNo(1)),
        Axiom::ManyValuedFeature(FeatureNo(2)),
    ];
    vocabulary.axioms.extend((2..=4).map(|role| Axiom::ManyValuedRole(RoleNo(role))));
    if rng.once_in(2) {
        vocabulary.axioms.push(Axiom::FunctionalRole(RoleNo(1)));
        vocabulary.axioms.push(Axiom::FunctionalFeature(FeatureNo(1)));
    }
    let many = rng.between(1, 250);
    vocabulary.axioms.extend((5..5 + many).map(|range| Axiom::Range(RoleNo(4), ClassNo(range))));
    vocabulary
}

/// A term that is impossible by what stands at one place of it.
fn impossible(rng: &mut Rng) -> Term {
    let wrong = match rng.below(7) {
        0 => vec![Conjunct::Nothing],
        1 => vec![within(2, 5, 4)],
        2 => vec![class(1), class(3)],
        3 => vec![class(4)],
        4 => vec![within(1, 0, 4), within(1, 5, 9)],
        5 => vec![reaches(1, vec![class(1)]), reaches(1, vec![class(3)])],
        _ => vec![reaches(3, vec![class(3)])],
    };
    frame(rng, wrong)
}

/// A term with these conjuncts at some depth, and with what is too deep or too long by ranges.
fn frame(rng: &mut Rng, conjuncts: Term) -> Term {
    let depth = rng.between(1, 15);
    let mut term = nested(depth, |_| 2, conjuncts);
    match rng.below(4) {
        0 => term.extend(nested(16, |_| 2, vec![reaches(3, vec![])])),
        1 => term.extend((0..rng.below(6)).map(|at| reaches(4, vec![within(2, at, at)]))),
        _ => {}
    }
    rng.shuffle(&mut term);
    term
}
