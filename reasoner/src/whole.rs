//! The short way: does a normal form pass a term of the second policy as it is, unsplit?

use crate::normal::Individual;
use crate::policy::{Conjunct, Term};

/// SPECIFICATION 7.7: "with the constraints themselves in place of pieces", against some term.
#[must_use]
pub fn passes_whole(root: &Individual, second: &[Term]) -> bool {
    second.iter().any(|term| passes(root, term))
}

/// Algorithm 1: does the individual pass each of the conjuncts?
fn passes(individual: &Individual, conjuncts: &[Conjunct]) -> bool {
    conjuncts.iter().all(|conjunct| match conjunct {
        Conjunct::Class(class) => individual.classes.contains(*class),
        Conjunct::Nothing => false,
        Conjunct::Within(feature, lo, hi) => individual
            .spans
            .iter()
            .any(|span| span.feature == *feature && *lo <= span.lo && span.hi <= *hi),
        Conjunct::Reaches(role, inner) => {
            individual.children.iter().any(|(edge, child)| edge == role && passes(child, inner))
        }
    })
}
