//! Damaged inputs: mutations of words, lengths and links, and one directed fault a refusal.

use super::limits::dials;
use super::valid::{self, Shape};
use super::{models, Case, Rng};
use crate::classes::{ClassNo, FeatureNo, RoleNo};
use crate::encode::{policy_words, vocabulary_words};
use crate::policy::{Conjunct, Term};
use crate::vocabulary::{Axiom, Vocabulary};
use crate::FULL_WORK;

/// A valid small case with one to three mutations.
#[must_use]
pub fn damaged(rng: &mut Rng) -> Case {
    let shape = *rng.pick(&[Shape::small(), Shape::merges(), Shape::coverage()]);
    let mut case = valid::pair(rng, &shape);
    for _ in 0..rng.between(1, 3) {
        match rng.below(8) {
            0 | 1 => mutate(rng, &mut case.v, 4, &[3]),
            2 | 3 => mutate(rng, &mut case.p, 6, &[4, 5]),
            4 | 5 => mutate(rng, &mut case.q, 6, &[4, 5]),
            6 => mutate(rng, &mut case.m, 5, &[4]),
            _ => case.lend(rng),
        }
    }
    case
}

/// One mutation of a table: a word, a link, a length, a shared link.
pub(super) fn mutate(rng: &mut Rng, words: &mut Vec<u32>, width: usize, links: &[usize]) {
    let records = (words.len() / width) as u32;
    match rng.below(10) {
        0 => words.truncate(rng.place(words.len() + 1)),
        1 => words.extend((0..rng.between(1, width as u32 + 1)).map(|_| 0)),
        2 => words.truncate(words.len().saturating_sub(width)),
        _ if words.is_empty() => {}
        3 => {
            let end = width.min(words.len());
            let at = rng.place(end);
            words[at] = rng.word();
        }
        4..7 if records > 1 => {
            let record = rng.between(1, records - 1);
            let at = record as usize * width + rng.pick(links);
            words[at] = *rng.pick(&[
                record,
                record.saturating_sub(1),
                record + 1,
                records - 1,
                records,
                rng.clone().between(0, records),
            ]);
        }
        7 | 8 => {
            let at = rng.place(words.len());
            words[at] =
                if rng.once_in(2) { words[at].wrapping_add(1) } else { words[at].wrapping_sub(1) };
        }
        _ => {
            let at = rng.place(words.len());
            words[at] = rng.word();
        }
    }
}

/// Words and lengths of any kind; now and then one part is valid.
#[must_use]
pub fn garbage(rng: &mut Rng) -> Case {
    let mut case = base();
    if !rng.once_in(3) {
        case.v = any_words(rng);
    }
    if rng.once_in(2) {
        case.p = any_words(rng);
    }
    if rng.once_in(2) {
        case.q = any_words(rng);
    }
    if rng.once_in(2) {
        case.m = any_words(rng);
    }
    case.lend(rng);
    case
}

fn any_words(rng: &mut Rng) -> Vec<u32> {
    let length = match rng.below(6) {
        0 => rng.below(8),
        1 => *rng.pick(&[3_078, 3_084, 4_100, 4_104]),
        _ => *rng.pick(&[4, 5, 6]) * rng.below(12),
    };
    (0..length).map(|_| if rng.once_in(3) { 0 } else { rng.word() }).collect()
}

/// A fault that reaches one refusal when it is put on [`base`].
#[derive(Clone, Copy)]
pub struct Fault {
    /// The refusal.
    pub number: u32,
    /// What is wrong.
    pub name: &'static str,
    /// Puts the fault on a case.
    pub apply: fn(&mut Case),
}

impl Fault {
    /// Faults of one stage are found in the walk's order, not by their numbers.
    #[must_use]
    pub fn stage(&self) -> u32 {
        match self.number {
            6..=8 => 6,
            16..=18 => 16,
            number => number,
        }
    }
}

/// A valid case whose first policy is outside the second, over 4 classes, 3 roles and 20 features.
#[must_use]
pub fn base() -> Case {
    let class = |number| Conjunct::Class(ClassNo(number));
    let vocabulary = Vocabulary {
        classes: 4,
        roles: 3,
        features: 20,
        axioms: vec![
            Axiom::Below(ClassNo(2), ClassNo(1)),
            Axiom::Disjoint(ClassNo(1), ClassNo(3)),
            Axiom::FunctionalRole(RoleNo(1)),
            Axiom::FunctionalFeature(FeatureNo(1)),
            Axiom::Range(RoleNo(3), ClassNo(1)),
            Axiom::ManyValuedRole(RoleNo(3)),
            Axiom::ManyValuedFeature(FeatureNo(2)),
        ],
    };
    let first = vec![
        vec![
            Conjunct::Reaches(RoleNo(1), vec![class(1), Conjunct::Within(FeatureNo(1), 0, 9)]),
            class(2),
        ],
        vec![Conjunct::Nothing],
    ];
    let second = vec![vec![Conjunct::Reaches(
        RoleNo(1),
        vec![class(1), Conjunct::Within(FeatureNo(1), 0, 4)],
    )]];
    let mut case = Case::of(
        vocabulary_words(&vocabulary),
        policy_words(&first),
        policy_words(&second),
        Vec::new(),
    );
    case.m = models::countermodel(&case).unwrap_or_default();
    case
}

fn deep(depth: u32) -> Vec<u32> {
    let mut term: Term = vec![Conjunct::Class(ClassNo(1))];
    for _ in 1..depth {
        term = vec![Conjunct::Reaches(RoleNo(2), term)];
    }
    policy_words(&[term])
}

/// At least one fault for every refusal, and every way that SPECIFICATION names to come to it.
#[must_use]
pub fn faults() -> Vec<Fault> {
    let fault = |number, name, apply| Fault { number, name, apply };
    vec![
        fault(1, "vocabulary a word too long", |case| case.v.push(0)),
        fault(1, "vocabulary empty", |case| case.v.clear()),
        fault(1, "vocabulary over 4,100 words", |case| case.v.resize(4_104, 0)),
        fault(2, "no class", |case| case.v[0] = 0),
        fault(2, "257 classes", |case| case.v[0] = 257),
        fault(2, "65 roles", |case| case.v[1] = 65),
        fault(2, "65 features", |case| case.v[2] = 65),
        fault(2, "vocabulary header link", |case| case.v[3] = 8),
        fault(3, "axiom kind 0", |case| case.v[4] = 0),
        fault(3, "axiom kind 8", |case| case.v[24] = 8),
        fault(3, "class 0", |case| case.v[5] = 0),
        fault(3, "class 5 of 4", |case| case.v[10] = 5),
        fault(3, "role 4 of 3", |case| case.v[13] = 4),
        fault(3, "functional role with b", |case| case.v[14] = 1),
        fault(3, "functional feature with b", |case| case.v[18] = 1),
        fault(3, "feature 21 of 20", |case| case.v[17] = 21),
        fault(3, "range of role 0", |case| case.v[21] = 0),
        fault(3, "range class 0", |case| case.v[22] = 0),
        fault(3, "many-valued role 0", |case| case.v[25] = 0),
        fault(3, "many-valued role 4 of 3", |case| case.v[25] = 4),
        fault(3, "many-valued role with b", |case| case.v[26] = 1),
        fault(3, "many-valued feature 0", |case| case.v[29] = 0),
        fault(3, "many-valued feature 21 of 20", |case| case.v[29] = 21),
        fault(3, "many-valued feature with b", |case| case.v[30] = 1),
        fault(3, "axiom links to itself", |case| case.v[7] = 1),
        fault(3, "axiom links back", |case| case.v[11] = 1),
        fault(3, "axiom links too far", |case| case.v[31] = 8),
        fault(44, "role 1 both ways", |case| case.v[25] = 1),
        fault(44, "role 3 both ways", |case| case.v[13] = 3),
        fault(44, "feature 1 both ways", |case| case.v[29] = 1),
        fault(44, "feature 2 both ways", |case| case.v[17] = 2),
        fault(4, "policy a word too long", |case| case.p.push(0)),
        fault(4, "policy empty", |case| case.p.clear()),
        fault(4, "policy over 3,078 words", |case| case.p.resize(3_084, 0)),
        fault(5, "policy header link", |case| case.p[0] = (case.p.len() / 6) as u32),
        fault(5, "policy header word", |case| case.p[5] = 1),
        fault(6, "term of kind 1", |case| case.p[6] = 1),
        fault(6, "term with a", |case| case.p[7] = 1),
        fault(6, "term links to itself", |case| case.p[11] = 1),
        fault(6, "conjunct of kind 5", |case| case.p[12] = 5),
        fault(6, "conjunct of kind 0", |case| case.p[12] = 0),
        fault(6, "conjunct of kind 6", |case| case.p[12] = 6),
        fault(6, "conjunct with a bad name", |case| case.p[13] = 90),
        fault(6, "conjunct links too far", |case| case.p[17] = u32::MAX),
        fault(7, "child is next", |case| case.p[11] = case.p[10]),
        fault(8, "policy 17 deep", |case| case.p = deep(17)),
        fault(14, "second a word too long", |case| case.q.push(0)),
        fault(14, "second empty", |case| case.q.clear()),
        fault(14, "second over 3,078 words", |case| case.q.resize(3_084, 0)),
        fault(15, "second header link", |case| case.q[0] = (case.q.len() / 6) as u32),
        fault(15, "second header word", |case| case.q[1] = 1),
        fault(16, "second term of kind 1", |case| case.q[6] = 1),
        fault(16, "second conjunct of kind 5", |case| case.q[12] = 5),
        fault(16, "second conjunct links too far", |case| case.q[17] = u32::MAX),
        fault(17, "second child is next", |case| case.q[11] = case.q[10]),
        fault(18, "second 17 deep", |case| case.q = deep(17)),
        fault(31, "model a word too long", |case| case.m.push(0)),
        fault(31, "model empty", |case| case.m.clear()),
        fault(31, "model over 700,005 words", |case| case.m.resize(700_010, 0)),
        fault(32, "model header link", |case| case.m[0] = (case.m.len() / 5) as u32),
        fault(32, "no individual", |case| case.m[1] = 0),
        fault(32, "513 individuals", |case| case.m[1] = 513),
        fault(32, "model header word 2", |case| case.m[2] = 1),
        fault(32, "model header word 3", |case| case.m[3] = 1),
        fault(32, "model header word 4", |case| case.m[4] = 1),
        fault(33, "fact kind 0", |case| case.m[5] = 0),
        fault(33, "fact kind 4", |case| case.m[5] = 4),
        fault(33, "fact name 0", |case| case.m[6] = 0),
        fault(33, "member of class 5 of 4", |case| case.m[6] = 5),
        fault(33, "individual 0", |case| case.m[7] = 0),
        fault(33, "individual past the last", |case| case.m[7] = 3),
        fault(33, "member with other", |case| case.m[8] = 1),
        fault(33, "fact links to itself", |case| case.m[9] = 1),
        fault(33, "edge to individual 0", |case| case.m[5..9].copy_from_slice(&[2, 1, 1, 0])),
        fault(33, "edge past the last", |case| case.m[5..9].copy_from_slice(&[2, 1, 1, 3])),
        fault(33, "edge of role 4 of 3", |case| case.m[5..9].copy_from_slice(&[2, 4, 1, 1])),
        fault(33, "value of feature 21 of 20", |case| case.m[5..9].copy_from_slice(&[3, 21, 1, 1])),
        fault(21, "no work slice", |case| case.work_len = 0),
        fault(21, "work slice a word short", |case| case.work_len = FULL_WORK - 1),
        fault(22, "17 features of two pieces", |case| case.p = policy_words(&[dials(17)])),
        fault(23, "no output", |case| case.out_len = 0),
        fault(23, "output for a header", |case| case.out_len = 5),
    ]
}

/// Two directed faults of different stages: the earlier one's number is the answer. They are put
/// on in the order that leaves both in place.
#[must_use]
pub fn two_faults(rng: &mut Rng) -> Case {
    let faults = faults();
    let first = *rng.pick(&faults);
    let second = *rng.pick(&faults);
    let mut case = base();
    case.work_seed = rng.bits();
    case.out_seed = rng.bits();
    put_both(&mut case, first, second);
    case
}

/// Puts two faults on a case, the one that changes more of it first; false if they are of one
/// stage, and then only the first is put on.
pub fn put_both(case: &mut Case, first: Fault, second: Fault) -> bool {
    if first.stage() == second.stage() {
        (first.apply)(case);
        return false;
    }
    let (early, late) =
        if order(first) < order(second) { (first, second) } else { (second, first) };
    (early.apply)(case);
    (late.apply)(case);
    true
}

/// Whole new policies first and the names that may be stated both ways, then links and words, then
/// lengths.
fn order(fault: Fault) -> (u32, u32) {
    let rank = match fault.number {
        22 | 43 => 0,
        8 | 18 | 44 => 1,
        3 | 6 | 7 | 16 | 17 | 33 => 2,
        2 | 5 | 15 | 32 => 3,
        _ => 4,
    };
    (rank, fault.number)
}

/// Bytes for the program: mostly the case's own, else cut short, followed by more, with a word
/// count that is wrong, or very long.
#[must_use]
pub fn program_bytes(rng: &mut Rng, case: &Case) -> Vec<u8> {
    let mut bytes = case.bytes();
    match rng.below(10) {
        0 => bytes.truncate(rng.place(bytes.len() + 1)),
        1 => bytes.extend((0..rng.between(1, 9)).map(|_| 0)),
        2 => {
            let first = 4 + 4 * case.v.len();
            let second = first + 4 + 4 * case.p.len();
            let at = *rng.pick(&[0, first, second]) + rng.place(4);
            bytes[at] = bytes[at].wrapping_add(*rng.pick(&[1, 255, 6, 4, 128]));
        }
        3 => {
            // A last part that fills the input to its most bytes, or to a little over.
            let room = 65_536 / 4 - 3 - case.v.len().min(5_000) - case.p.len().min(5_000);
            let v = &case.v[..case.v.len().min(5_000)];
            let p = &case.p[..case.p.len().min(5_000)];
            let more = rng.place(2);
            bytes = crate::bytes_of_parts(v, p, &vec![0; room + more]);
        }
        _ => {}
    }
    bytes
}
