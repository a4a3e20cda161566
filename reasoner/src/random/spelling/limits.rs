//! Policies whose spelling has about 512 records or is about 16 deep.

use super::Spelling;
use crate::classes::{ClassNo, FeatureNo, RoleNo};
use crate::policy::Term;
use crate::random::limits::{class, names, nested, reaches, within};
use crate::random::slow::{records, RECORDS};
use crate::random::Rng;
use crate::vocabulary::{Axiom, Vocabulary};

/// One of the two, with repeats and impossible terms as far as there is room.
#[must_use]
pub fn input(rng: &mut Rng) -> Spelling {
    let ranges = rng.between(1, 250);
    let mut terms = if rng.once_in(3) {
        vec![deep(rng)]
    } else {
        let records = rng.between(RECORDS as u32 - 2, RECORDS as u32 + 2);
        vec![long(rng, ranges, records)]
    };
    let again = terms[0].clone();
    for conjunct in again {
        if rng.once_in(4) {
            terms[0].push(conjunct);
        }
    }
    rng.shuffle(&mut terms[0]);
    if rng.once_in(3) {
        terms.push(nested(16, |_| 2, vec![reaches(1, vec![]), class(1), class(2)]));
    }
    while records(&terms) > RECORDS && terms.len() > 1 {
        terms.pop();
    }
    while records(&terms) > RECORDS {
        terms[0].pop();
    }
    Spelling::laid_out(rng, &vocabulary(ranges), &terms)
}

/// Role 1 has so many ranges, from class 3 on, and is many-valued, as both features are; classes 1 and
/// 2 are disjoint.
fn vocabulary(ranges: u32) -> Vocabulary {
    let mut vocabulary = names(256, 3, 2);
    vocabulary.axioms = vec![Axiom::Disjoint(ClassNo(1), ClassNo(2))];
    vocabulary.axioms.extend((3..3 + ranges).map(|range| Axiom::Range(RoleNo(1), ClassNo(range))));
    vocabulary.axioms.push(Axiom::ManyValuedRole(RoleNo(1)));
    vocabulary.axioms.extend([1, 2].map(|feature| Axiom::ManyValuedFeature(FeatureNo(feature))));
    vocabulary
}

/// A term that has so many records once the ranges are there: as many roles as fit, or fewer, and
/// spans for the rest.
fn long(rng: &mut Rng, ranges: u32, records: u32) -> Term {
    let most = (records - 1) / (ranges + 2);
    let roles = rng.between(most / 2, most);
    let rest = records - 1 - roles * (ranges + 2);
    let mut term: Term = (0..roles).map(|at| reaches(1, vec![within(1, at, at)])).collect();
    term.extend((0..rest).map(|at| within(2, at, at)));
    term
}

/// A chain of roles, at the end of which there may be a range.
fn deep(rng: &mut Rng) -> Term {
    let depth = *rng.pick(&[14, 15, 16, 16]);
    let end = *rng.pick(&[1, 1, 2, 3]);
    nested(depth, |_| 2, if end == 3 { vec![class(1)] } else { vec![reaches(end, vec![])] })
}
