//! What several test files share.
#![allow(dead_code)]

pub mod literal;
pub mod meaning;

use reasoner::classes::{ClassNo, FeatureNo, RoleNo};
use reasoner::encode::{policy_words, vocabulary_words};
use reasoner::policy::{Conjunct, Term};
use reasoner::vocabulary::{Axiom, Vocabulary};
use reasoner::FULL_WORK;

/// Class a.
pub fn c(a: u32) -> Conjunct {
    Conjunct::Class(ClassNo(a))
}

/// Role a reaches an individual in the inner conjuncts.
pub fn r(a: u32, inner: Vec<Conjunct>) -> Conjunct {
    Conjunct::Reaches(RoleNo(a), inner)
}

/// Feature a has a value from lo to hi.
pub fn f(a: u32, lo: u32, hi: u32) -> Conjunct {
    Conjunct::Within(FeatureNo(a), lo, hi)
}

/// The words of a policy of these terms.
pub fn words(terms: &[Term]) -> Vec<u32> {
    policy_words(terms)
}

/// The consent desk's vocabulary, with feature 1 functional or many-valued.
pub fn desk_vocabulary(functional_feature: bool) -> Vec<u32> {
    let class = ClassNo;
    let mut axioms = vec![
        Axiom::Below(class(2), class(1)),
        Axiom::Below(class(4), class(1)),
        Axiom::Below(class(4), class(3)),
        Axiom::Disjoint(class(1), class(3)),
        Axiom::FunctionalRole(RoleNo(1)),
        Axiom::FunctionalRole(RoleNo(2)),
        Axiom::FunctionalFeature(FeatureNo(1)),
        Axiom::Range(RoleNo(3), class(1)),
        Axiom::ManyValuedRole(RoleNo(3)),
    ];
    if !functional_feature {
        axioms[6] = Axiom::ManyValuedFeature(FeatureNo(1));
    }
    vocabulary_words(&Vocabulary { classes: 4, roles: 3, features: 1, axioms })
}

/// A vocabulary of names only, of which nothing is stated.
pub fn names(classes: u32, roles: u32, features: u32) -> Vec<u32> {
    vocabulary_words(&Vocabulary { classes, roles, features, axioms: Vec::new() })
}

/// A vocabulary of names only, whose roles and features are many-valued.
pub fn many_valued(classes: u32, roles: u32, features: u32) -> Vec<u32> {
    let named = Vocabulary { classes, roles, features, axioms: Vec::new() };
    vocabulary_words(&named.read_as_owl())
}

/// A full work slice.
pub fn work() -> Vec<u32> {
    vec![7; FULL_WORK]
}
