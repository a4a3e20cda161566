//! Vocabularies and policies back to words.

use crate::policy::{Conjunct, Term};
use crate::vocabulary::{Axiom, Vocabulary};

/// The words of a vocabulary, its records chained 1, 2, 3 and so on.
#[must_use]
pub fn vocabulary_words(vocabulary: &Vocabulary) -> Vec<u32> {
    let Vocabulary { classes, roles, features, axioms } = vocabulary;
    let last = axioms.len() as u32;
    let mut words = vec![*classes, *roles, *features, u32::from(last > 0)];
    for (axiom, own) in axioms.iter().zip(1..) {
        let [kind, a, b] = axiom_words(*axiom);
        words.extend([kind, a, b, if own == last { 0 } else { own + 1 }]);
    }
    words
}

fn axiom_words(axiom: Axiom) -> [u32; 3] {
    match axiom {
        Axiom::Below(a, b) => [1, a.0, b.0],
        Axiom::Disjoint(a, b) => [2, a.0, b.0],
        Axiom::FunctionalRole(role) => [3, role.0, 0],
        Axiom::FunctionalFeature(feature) => [4, feature.0, 0],
        Axiom::Range(role, class) => [5, role.0, class.0],
        Axiom::ManyValuedRole(role) => [6, role.0, 0],
        Axiom::ManyValuedFeature(feature) => [7, feature.0, 0],
    }
}

/// The words of a policy, its records in the order of the walk.
#[must_use]
pub fn policy_words(terms: &[Term]) -> Vec<u32> {
    let mut writer = Writer { words: vec![0; 6] };
    let mut link = 0;
    for term in terms {
        link = writer.record(link, [5, 0, 0, 0], term);
    }
    writer.words
}

struct Writer {
    words: Vec<u32>,
}

impl Writer {
    /// Writes a record behind the link at this word, and its child chain; gives the place of its
    /// own next.
    fn record(&mut self, link: usize, fields: [u32; 4], inner: &[Conjunct]) -> usize {
        let start = self.words.len();
        self.words[link] = (start / 6) as u32;
        self.words.extend(fields);
        self.words.extend([0, 0]);
        let mut link = start + 4;
        for conjunct in inner {
            link = match conjunct {
                Conjunct::Class(class) => self.record(link, [1, class.0, 0, 0], &[]),
                Conjunct::Nothing => self.record(link, [2, 0, 0, 0], &[]),
                Conjunct::Reaches(role, inner) => self.record(link, [3, role.0, 0, 0], inner),
                Conjunct::Within(feature, lo, hi) => {
                    self.record(link, [4, feature.0, *lo, *hi], &[])
                }
            };
        }
        start + 5
    }
}

/// Moves record k of a policy to the number `places[k - 1]`, in a table of `total` records whose
/// other records are 0.
#[must_use]
pub fn move_records(words: &[u32], places: &[u32], total: u32) -> Vec<u32> {
    let moved = |link: u32| if link == 0 { 0 } else { places[link as usize - 1] };
    let mut target = vec![0; 6 * (total as usize + 1)];
    target[..6].copy_from_slice(&words[..6]);
    target[0] = moved(words[0]);
    for (record, &place) in words[6..].chunks_exact(6).zip(places) {
        let start = 6 * place as usize;
        target[start..start + 4].copy_from_slice(&record[..4]);
        target[start + 4] = moved(record[4]);
        target[start + 5] = moved(record[5]);
    }
    target
}

/// The numbers of the records of an accepted policy, in the order of the walk.
#[must_use]
pub fn walk_order(words: &[u32]) -> Vec<u32> {
    let mut order = Vec::new();
    let mut waiting = vec![words[0]];
    while let Some(at) = waiting.pop() {
        if at != 0 {
            let start = at as usize * 6;
            order.push(at);
            waiting.extend([words[start + 5], words[start + 4]]);
        }
    }
    order
}
