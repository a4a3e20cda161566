//! Is every combination of a split term inside the second policy, and if not, which is
//! the first that is outside?
//!
//! The canonical models of a term's combinations differ only in the values of features.
//! So each term of the second policy, tested once against the normal form, leaves a condition on
//! the chosen pieces. The search goes through the combinations in order, and skips those that a
//! condition met already is known to cover.

use crate::normal::Individual;
use crate::policy::{Conjunct, Term};
use crate::split::Split;

/// What a term of the second policy still asks of a combination.
#[derive(Clone, Debug, PartialEq, Eq)]
enum Condition {
    Always,
    Never,
    /// The dial shows a piece from `first` to `last`.
    Piece {
        dial: usize,
        first: usize,
        last: usize,
    },
    All(Vec<Condition>),
    Any(Vec<Condition>),
}

/// A set of dials, one bit each.
type DialSet = u32;

impl Condition {
    fn all(parts: impl Iterator<Item = Condition>) -> Condition {
        let mut open = Vec::new();
        for part in parts {
            match part {
                Condition::Always => {}
                Condition::Never => return Condition::Never,
                other => open.push(other),
            }
        }
        match open.len() {
            0 => Condition::Always,
            1 => open.remove(0),
            _ => Condition::All(open),
        }
    }

    fn any(parts: impl Iterator<Item = Condition>) -> Condition {
        let mut open = Vec::new();
        for part in parts {
            match part {
                Condition::Never => {}
                Condition::Always => return Condition::Always,
                other => open.push(other),
            }
        }
        match open.len() {
            0 => Condition::Never,
            1 => open.remove(0),
            _ => Condition::Any(open),
        }
    }

    /// Does the condition hold of the chosen pieces? If so, the dials that are reason enough.
    fn reason(&self, chosen: &[usize]) -> Option<DialSet> {
        match self {
            Condition::Always => Some(0),
            Condition::Never => None,
            Condition::Piece { dial, first, last } => {
                (*first..=*last).contains(&chosen[*dial]).then_some(1 << dial)
            }
            Condition::All(parts) => {
                parts.iter().try_fold(0, |dials, part| Some(dials | part.reason(chosen)?))
            }
            Condition::Any(parts) => parts.iter().find_map(|part| part.reason(chosen)),
        }
    }
}

/// A split term's constraints that have more than one piece: at most 16 of them, since
/// the combinations are at most 65,536. The first dial turns slowest.
struct Dials<'a> {
    split: &'a Split,
    /// For each constraint its dial, if it has one.
    dial_of: Vec<Option<usize>>,
    /// For each dial the number of its pieces.
    sizes: Vec<usize>,
}

impl<'a> Dials<'a> {
    fn of(split: &'a Split) -> Self {
        let mut sizes = Vec::new();
        let dial_of = split
            .pieces
            .iter()
            .map(|pieces| {
                (pieces.len() > 1).then(|| {
                    sizes.push(pieces.len());
                    sizes.len() - 1
                })
            })
            .collect();
        Self { split, dial_of, sizes }
    }

    /// What it takes that the individual is in all of the conjuncts: Algorithm 1 on one
    /// combination, with the pieces left open.
    fn inside(&self, individual: &Individual, conjuncts: &[Conjunct]) -> Condition {
        Condition::all(conjuncts.iter().map(|conjunct| self.inside_one(individual, conjunct)))
    }

    fn inside_one(&self, individual: &Individual, conjunct: &Conjunct) -> Condition {
        match conjunct {
            Conjunct::Class(class) if individual.classes.contains(*class) => Condition::Always,
            Conjunct::Class(_) | Conjunct::Nothing => Condition::Never,
            Conjunct::Within(feature, lo, hi) => {
                let spans = individual.spans.iter().enumerate();
                Condition::any(
                    spans
                        .filter(|(_, span)| span.feature == *feature)
                        .map(|(place, _)| self.between(individual.first_slot + place, *lo, *hi)),
                )
            }
            Conjunct::Reaches(role, inner) => {
                let children = individual.children.iter();
                Condition::any(
                    children
                        .filter(|(edge, _)| edge == role)
                        .map(|(_, child)| self.inside(child, inner)),
                )
            }
        }
    }

    /// The pieces of a constraint with their upper end from lo to hi; they are neighbours.
    fn between(&self, slot: usize, lo: u32, hi: u32) -> Condition {
        let pieces = &self.split.pieces[slot];
        let first = pieces.partition_point(|&upper| upper < lo);
        let end = pieces.partition_point(|&upper| upper <= hi);
        if first >= end {
            return Condition::Never;
        }
        match self.dial_of[slot] {
            Some(dial) if end - first < pieces.len() => {
                Condition::Piece { dial, first, last: end - 1 }
            }
            _ => Condition::Always,
        }
    }

    /// The choice of pieces, one a constraint.
    fn choice(&self, chosen: &[usize]) -> Vec<usize> {
        self.dial_of.iter().map(|dial| dial.map_or(0, |dial| chosen[dial])).collect()
    }

    /// The combination's number, counted from 1, the last constraint varying fastest.
    fn position(&self, chosen: &[usize]) -> u32 {
        let number = self.sizes.iter().zip(chosen).fold(0, |sum, (size, at)| sum * size + at);
        number as u32 + 1
    }
}

/// A combination outside the second policy.
pub struct Uncovered {
    /// Its number q.
    pub combination: u32,
    /// The piece chosen for each constraint.
    pub choice: Vec<usize>,
}

/// The first combination of the split term that no term of the second policy covers.
#[must_use]
pub fn first_uncovered(split: &Split, second: &[Term]) -> Option<Uncovered> {
    let dials = Dials::of(split);
    let conditions = second.iter().map(|term| dials.inside(&split.root, term));
    let conditions = conditions.filter(|condition| *condition != Condition::Never).collect();
    let mut search =
        Search { sizes: &dials.sizes, conditions, chosen: vec![0; dials.sizes.len()], latest: 0 };
    match search.covered_from(0) {
        Some(_) => None,
        None => Some(Uncovered {
            combination: dials.position(&search.chosen),
            choice: dials.choice(&search.chosen),
        }),
    }
}

struct Search<'a> {
    sizes: &'a [usize],
    conditions: Vec<Condition>,
    chosen: Vec<usize>,
    /// The condition that held last; the next combination is likely to meet it too.
    latest: usize,
}

impl Search<'_> {
    /// Turns the dials from `dial` on through all their pieces in order. Gives the earlier dials
    /// that are reason enough for all of these combinations to be covered; none when `chosen`
    /// shows the first that is not.
    fn covered_from(&mut self, dial: usize) -> Option<DialSet> {
        let Some(&size) = self.sizes.get(dial) else {
            return self.covered();
        };
        let mut reasons = 0;
        for piece in 0..size {
            self.chosen[dial] = piece;
            let reason = self.covered_from(dial + 1)?;
            if reason >> dial & 1 == 0 {
                // This dial is no part of the reason: its other pieces are covered as well.
                reasons = reason;
                break;
            }
            reasons |= reason;
        }
        Some(reasons & !(1 << dial))
    }

    fn covered(&mut self) -> Option<DialSet> {
        let count = self.conditions.len();
        let order = (self.latest..count).chain(0..self.latest.min(count));
        for at in order {
            if let Some(reason) = self.conditions[at].reason(&self.chosen) {
                self.latest = at;
                return Some(reason);
            }
        }
        None
    }
}
