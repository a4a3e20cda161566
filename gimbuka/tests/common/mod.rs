//! Tables that several tests lend.
#![allow(dead_code, reason = "no test uses all of them")]

use gimbuka::WORK_SIZE;

/// Classes 1 to 4, roles 1 to 3, feature 1: 2 is below 1, 4 below 1 and 3; 1 and 3 are disjoint; roles 1 and 2 and feature 1 are
/// functional; role 3 has range 1 and is many-valued.
pub const V: [u32; 40] = [
    4, 3, 1, 1, 1, 2, 1, 2, 1, 4, 1, 3, 1, 4, 3, 4, 2, 1, 3, 5, 3, 1, 0, 6, 3, 2, 0, 7, 4, 1, 0, 8,
    5, 3, 1, 9, 6, 3, 0, 0,
];

/// Role 1 reaches class 1.
pub const WIDE: [u32; 24] =
    [1, 0, 0, 0, 0, 0, 5, 0, 0, 0, 2, 0, 3, 1, 0, 0, 3, 0, 1, 1, 0, 0, 0, 0];

/// Role 1 reaches class 2, which is below class 1.
pub const NARROW: [u32; 24] =
    [1, 0, 0, 0, 0, 0, 5, 0, 0, 0, 2, 0, 3, 1, 0, 0, 3, 0, 1, 2, 0, 0, 0, 0];

/// Individual 1 reaches individual 2 by role 1, and 2 is in class 1: the countermodel to "WIDE lies inside NARROW".
pub const MODEL: [u32; 15] = [1, 2, 0, 0, 0, 2, 1, 1, 2, 2, 1, 1, 2, 0, 0];

/// No term.
pub const NONE: [u32; 6] = [0; 6];

/// A text of one class and so many axioms.
pub fn owl(axioms: usize) -> String {
    format!("Ontology(Declaration(Class(:A)) {})", "SubClassOf(:A :A) ".repeat(axioms))
}

/// One term for each list of conjuncts. A conjunct is its kind, a, lo and hi; each list has at least one.
pub fn policy(terms: &[&[[u32; 4]]]) -> Vec<u32> {
    let mut words = NONE.to_vec();
    words[0] = u32::from(!terms.is_empty());
    let mut record = 0;
    for (at, term) in terms.iter().enumerate() {
        let last = at + 1 == terms.len();
        let next = record + 1 + term.len() as u32 + 1;
        words.extend([5, 0, 0, 0, record + 2, if last { 0 } else { next }]);
        record += 1;
        for (at, [kind, a, lo, hi]) in term.iter().enumerate() {
            record += 1;
            let last = at + 1 == term.len();
            words.extend([*kind, *a, *lo, *hi, 0, if last { 0 } else { record + 1 }]);
        }
    }
    words
}

/// A vocabulary of one class and so many features, of which nothing is stated, and a policy that asks each for 0 or 1: against a policy
/// without ends it has two to the power of so many combinations.
pub fn binary(features: u32) -> ([u32; 4], Vec<u32>) {
    let spans: Vec<[u32; 4]> = (1..=features).map(|feature| [4, feature, 0, 1]).collect();
    ([1, 0, features, 0], policy(&[&spans]))
}

/// Role 1 reaches what role 1 reaches, and so on: a conjunct at each depth from 1 to this.
pub fn deep(depth: u32) -> Vec<u32> {
    let mut words = vec![1, 0, 0, 0, 0, 0, 5, 0, 0, 0, 2, 0];
    for at in 1..=depth {
        words.extend([3, 1, 0, 0, if at == depth { 0 } else { at + 2 }, 0]);
    }
    words
}

/// A work slice with something in every word, and a few words more than it needs.
pub fn work() -> Vec<u32> {
    vec![7; WORK_SIZE + 3]
}

/// True where a call that came to an answer has had this work slice: 0 in the words that it may use, and the others left.
pub fn is_cleared(work: &[u32]) -> bool {
    let (used, left) = work.split_at(WORK_SIZE);
    used.iter().all(|&word| word == 0) && left.iter().all(|&word| word == 7)
}
