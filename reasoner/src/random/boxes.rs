//! Spans of several features that many consent terms cover only together: the first policy is a
//! box, the second a partition of it into smaller boxes, whole or with a box left out.

use super::valid::{laid_out, Shape};
use super::{Case, Rng};
use crate::classes::{ClassNo, FeatureNo, RoleNo};
use crate::encode::vocabulary_words;
use crate::policy::{Conjunct, Term};
use crate::vocabulary::{Axiom, Vocabulary};

/// One side of a box: where its span stands, and its ends.
#[derive(Clone, Copy)]
struct Side {
    /// 0: at the individual itself; else behind this role.
    role: u32,
    feature: u32,
    lo: u32,
    hi: u32,
}

/// A box against a partition of it.
#[must_use]
pub fn case(rng: &mut Rng) -> Case {
    let mut vocabulary = Vocabulary { classes: 2, roles: 2, features: 5, axioms: Vec::new() };
    // Role 1 is functional, stated so or not, and role 2 every other time.
    if rng.once_in(2) {
        vocabulary.axioms.push(Axiom::FunctionalRole(RoleNo(1)));
    }
    if rng.once_in(2) {
        vocabulary.axioms.push(Axiom::ManyValuedRole(RoleNo(2)));
    }
    let feature = FeatureNo(rng.between(1, 5));
    let stated = [Axiom::FunctionalFeature(feature), Axiom::ManyValuedFeature(feature)];
    vocabulary.axioms.push(*rng.pick(&stated));
    let whole: Vec<Side> = (1..=rng.between(1, 5)).map(|feature| side(rng, feature)).collect();
    let mut parts = Vec::new();
    let cuts = rng.between(1, 4);
    divide(rng, &whole, cuts, &mut parts);
    if rng.once_in(2) {
        let lost = rng.place(parts.len());
        parts.swap_remove(lost);
    }
    rng.shuffle(&mut parts);
    let first: Vec<Term> = vec![term(rng, &whole, &whole, false)];
    let second: Vec<Term> = parts.iter().map(|part| term(rng, part, &whole, true)).collect();
    let v = vocabulary_words(&vocabulary);
    laid_out(rng, &Shape::small(), v, &vocabulary, [&first, &second])
}

fn side(rng: &mut Rng, feature: u32) -> Side {
    let lo = if rng.once_in(6) { u32::MAX - 9 } else { rng.below(4) };
    Side { role: rng.below(3), feature, lo, hi: lo + rng.between(0, 5) }
}

/// Cuts a box in two, and the halves again.
fn divide(rng: &mut Rng, whole: &[Side], cuts: u32, parts: &mut Vec<Vec<Side>>) {
    let at = rng.place(whole.len());
    let Side { lo, hi, .. } = whole[at];
    if cuts == 0 || lo == hi {
        parts.push(whole.to_vec());
        return;
    }
    let end = rng.between(lo, hi - 1);
    let (mut low, mut high) = (whole.to_vec(), whole.to_vec());
    low[at].hi = end;
    high[at].lo = end + 1;
    divide(rng, &low, cuts - 1, parts);
    divide(rng, &high, cuts - 1, parts);
}

/// The term of a box. In a consent, a side as long as the whole box's is often left out,
/// so that the term says nothing of its feature.
fn term(rng: &mut Rng, sides: &[Side], whole: &[Side], consent: bool) -> Term {
    let mut conjuncts = Term::new();
    for (side, full) in sides.iter().zip(whole) {
        let same = side.lo == full.lo && side.hi == full.hi;
        if consent && same && !rng.once_in(4) {
            continue;
        }
        let span = Conjunct::Within(FeatureNo(side.feature), side.lo, side.hi);
        conjuncts.push(match side.role {
            0 => span,
            role => Conjunct::Reaches(RoleNo(role), vec![span]),
        });
    }
    if rng.once_in(8) {
        conjuncts.push(Conjunct::Class(ClassNo(1)));
    }
    conjuncts
}
