//! Everyday pairs for benchmarks: a company's policy and a consent, after the source paper's
//! form (1), over a vocabulary of 256 classes and about 300 records.

use super::{models, Case, Rng};
use crate::classes::{ClassNo, FeatureNo, RoleNo};
use crate::encode::{policy_words, vocabulary_words};
use crate::policy::{Conjunct, Term};
use crate::vocabulary::{Axiom, Vocabulary};

const PURPOSE: RoleNo = RoleNo(1);
const DATA: RoleNo = RoleNo(2);
const STORAGE: RoleNo = RoleNo(3);
const DURATION: FeatureNo = FeatureNo(1);

/// What the pair answers.
#[derive(Clone, Copy, Debug, PartialEq, Eq)]
pub enum Answer {
    /// Every term of the company is inside a term of the consent.
    TermByTerm,
    /// Every term of the company is inside the consent, one only by two consent terms together.
    Compliant,
    /// The last term of the company stores for a day longer than any consent allows.
    Outside,
}

/// A pair of everyday size: 256 classes, ten terms and about 70 records each side.
#[must_use]
pub fn case(seed: u64, answer: Answer) -> Case {
    sized(seed, answer, 256, 10)
}

/// A pair over so many classes, 16 or more, and of so many terms each side; with five or more of them the consent has one
/// more, since one of the company's is inside two together, unless they comply term by term.
#[must_use]
pub fn sized(seed: u64, answer: Answer, classes: u32, terms: usize) -> Case {
    let mut rng = Rng::new(seed);
    let vocabulary = vocabulary(&mut rng, classes);
    let mut company = Vec::new();
    let mut consent = Vec::new();
    while company.len() < terms {
        let (purpose, data) = (class(&mut rng, classes), class(&mut rng, classes));
        let last = company.len() + 1 == terms;
        let days = if last { 1_000 } else { rng.between(20, 400) };
        company.push(term(purpose, data, 1, days));
        let purpose = above(&mut rng, &vocabulary, purpose);
        let data = above(&mut rng, &vocabulary, data);
        let allowed = if last && answer == Answer::Outside { days - 1 } else { days };
        let half = if company.len() == 5 && answer != Answer::TermByTerm { days / 2 } else { 0 };
        if half > 0 {
            consent.push(term(purpose, data, 0, half));
        }
        consent.push(term(purpose, data, if half > 0 { half + 1 } else { 0 }, allowed));
    }
    consent.reverse();
    let p = policy_words(&company);
    let q = policy_words(&consent);
    let mut case = Case::of(vocabulary_words(&vocabulary), p, q, vec![0, 1, 0, 0, 0]);
    case.m = models::countermodel(&case).unwrap_or(case.m);
    case
}

/// A tree of classes, some disjoint pairs, functional and many-valued roles, functional features,
/// ranges.
pub(super) fn vocabulary(rng: &mut Rng, classes: u32) -> Vocabulary {
    let mut axioms = Vec::new();
    for number in 2..=classes {
        let parent =
            rng.between(number.saturating_sub(1).div_ceil(3), number.div_ceil(2).min(number - 1));
        axioms.push(Axiom::Below(ClassNo(number), ClassNo(parent)));
    }
    // Leaves: no class is below two of them.
    let pairs = classes * 5 / 64;
    axioms.extend(
        (0..pairs).map(|at| Axiom::Disjoint(ClassNo(classes - at), ClassNo(classes - pairs - at))),
    );
    axioms.extend((1..=12).map(|role| Axiom::FunctionalRole(RoleNo(role))));
    axioms.extend((13..=16).map(|role| Axiom::ManyValuedRole(RoleNo(role))));
    axioms.extend((1..=4).map(|feature| Axiom::FunctionalFeature(FeatureNo(feature))));
    axioms.extend((1..=9).map(|role| Axiom::Range(RoleNo(role), ClassNo(1))));
    rng.shuffle(&mut axioms);
    Vocabulary { classes, roles: 16, features: 4, axioms }
}

fn class(rng: &mut Rng, classes: u32) -> ClassNo {
    ClassNo(rng.between(classes / 8, classes))
}

/// The class itself, or one some steps up.
fn above(rng: &mut Rng, over: &Vocabulary, class: ClassNo) -> ClassNo {
    let mut at = class;
    for _ in 0..rng.below(3) {
        let parent = over.axioms.iter().find_map(|axiom| match axiom {
            Axiom::Below(a, b) if *a == at => Some(*b),
            _ => None,
        });
        at = parent.unwrap_or(at);
    }
    at
}

/// Seven records: a purpose, a kind of data, and a storage with its duration in days.
fn term(purpose: ClassNo, data: ClassNo, from: u32, to: u32) -> Term {
    vec![
        Conjunct::Reaches(PURPOSE, vec![Conjunct::Class(purpose)]),
        Conjunct::Reaches(DATA, vec![Conjunct::Class(data)]),
        Conjunct::Reaches(STORAGE, vec![Conjunct::Within(DURATION, from, to)]),
    ]
}
