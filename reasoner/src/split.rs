//! Splitting: the pieces of each constraint of a normal form.

use crate::classes::FeatureNo;
use crate::normal::{Individual, Span};
use crate::policy::{Conjunct, Policy};

/// SPECIFICATION 9.6, 22: where the short way fails, no possible term has more combinations.
pub const MOST_COMBINATIONS: u64 = 65_536;

/// For each feature the ends of its constraints "anywhere in the second policy as given", sorted.
pub struct Ends(Vec<Vec<u32>>);

impl Ends {
    /// Collects the ends of a policy over so many features.
    #[must_use]
    pub fn of(policy: &Policy, features: u32) -> Self {
        let mut ends = Self(vec![Vec::new(); features as usize]);
        for term in &policy.terms {
            ends.collect(term);
        }
        for list in &mut ends.0 {
            list.sort_unstable();
            list.dedup();
        }
        ends
    }

    fn collect(&mut self, conjuncts: &[Conjunct]) {
        for conjunct in conjuncts {
            match conjunct {
                Conjunct::Within(feature, lo, hi) => {
                    self.0[feature.0 as usize - 1].extend([*lo, *hi]);
                }
                Conjunct::Reaches(_, inner) => self.collect(inner),
                Conjunct::Class(_) | Conjunct::Nothing => {}
            }
        }
    }

    fn of_feature(&self, feature: FeatureNo) -> &[u32] {
        &self.0[feature.0 as usize - 1]
    }

    /// X: "lo, hi and every end, between them", rising.
    fn points(&self, span: Span) -> impl Iterator<Item = u32> + '_ {
        let ends = self.of_feature(span.feature);
        let from = ends.partition_point(|&end| end <= span.lo);
        let to = from + ends[from..].partition_point(|&end| end < span.hi);
        let hi = (span.hi > span.lo).then_some(span.hi);
        std::iter::once(span.lo).chain(ends[from..to].iter().copied()).chain(hi)
    }

    /// The number of pieces: "the size of X plus the neighbours that differ by 2 or more".
    #[must_use]
    pub fn count(&self, span: Span) -> u64 {
        let mut count = 0;
        let mut before = None;
        for point in self.points(span) {
            count += 1 + u64::from(before.is_some_and(|before| point - before >= 2));
            before = Some(point);
        }
        count
    }

    /// Has a normal form over 65,536 combinations?
    #[must_use]
    pub fn are_too_many(&self, root: &Individual) -> bool {
        let mut combinations = 1u64;
        root.visit(&mut |individual| {
            for &span in &individual.spans {
                combinations = combinations.saturating_mul(self.count(span));
            }
        });
        combinations > MOST_COMBINATIONS
    }

    /// The upper ends of the pieces: "each member of X and each non-empty gap between neighbours
    /// in X, rising".
    #[must_use]
    pub fn pieces(&self, span: Span) -> Vec<u32> {
        let mut uppers = Vec::with_capacity(self.count(span) as usize);
        for point in self.points(span) {
            if uppers.last().is_some_and(|&before| point - before >= 2) {
                uppers.push(point - 1);
            }
            uppers.push(point);
        }
        uppers
    }
}

/// A possible term with its pieces.
pub struct Split {
    /// The normal form.
    pub root: Individual,
    /// For each constraint, in order, the upper ends of its pieces.
    pub pieces: Vec<Vec<u32>>,
}

impl Split {
    /// Splits a normal form.
    #[must_use]
    pub fn of(root: Individual, ends: &Ends) -> Self {
        let mut pieces = Vec::new();
        root.visit(&mut |individual| {
            pieces.extend(individual.spans.iter().map(|&span| ends.pieces(span)));
        });
        Self { root, pieces }
    }
}
