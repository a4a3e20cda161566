//! Cases at every limit (SPECIFICATION 12) and one past it.

use super::{crowded, models, Case, Rng};
use crate::classes::{ClassNo, FeatureNo, RoleNo};
use crate::encode::{policy_words, vocabulary_words};
use crate::policy::{Conjunct, Term};
use crate::vocabulary::{Axiom, Vocabulary};

/// One of the cases, with the slices chosen anew.
#[must_use]
pub fn pick(rng: &mut Rng) -> Case {
    let makers = makers();
    let (_, make) = *rng.pick(&makers);
    let mut case = make();
    case.lend(rng);
    case
}

/// Every case with its name.
#[must_use]
pub fn cases() -> Vec<(&'static str, Case)> {
    makers().into_iter().map(|(name, make)| (name, make())).collect()
}

pub(super) type Maker = (&'static str, fn() -> Case);

fn makers() -> Vec<Maker> {
    let mut all: Vec<Maker> = vec![
        ("256 classes", || counts(256, 3, 3)),
        ("257 classes", || counts(257, 3, 3)),
        ("0 classes", || counts(0, 3, 3)),
        ("64 roles and features", || counts(4, 64, 64)),
        ("65 roles", || counts(4, 65, 64)),
        ("65 features", || counts(4, 64, 65)),
        ("no role, no feature", || counts(4, 0, 0)),
        ("64 many-valued roles and features", || kinds_6_and_7(64, 64)),
        ("many-valued role 65 of 64", || kinds_6_and_7(65, 64)),
        ("many-valued feature 65 of 64", || kinds_6_and_7(64, 65)),
        ("1,024 vocabulary records", || long_vocabulary(1_024)),
        ("1,025 vocabulary records", || long_vocabulary(1_025)),
        ("1,024 vocabulary records, a role both ways by the first and the last", || {
            both_ways(1_024)
        }),
        ("1,025 vocabulary records, a role both ways by the first and the last", || {
            both_ways(1_025)
        }),
        ("1,023 records of one role that is many-valued", many_times),
        ("256 classes in one falling chain", || class_chain(false, false)),
        ("256 classes in one rising chain", || class_chain(true, false)),
        ("256 classes in one cycle", || class_chain(false, true)),
        ("512 policy records in one term", || wide_policy(511)),
        ("513 policy records in one term", || wide_policy(512)),
        ("512 terms", || many_terms(512)),
        ("513 terms", || many_terms(513)),
        ("depth 16", || deep_policy(16, false)),
        ("depth 17", || deep_policy(17, false)),
        ("depth 17 in the second", || deep_policy(17, true)),
        ("31 roles of depth 16", || comb(16)),
        ("65,536 combinations", || binary(16, false)),
        ("131,072 combinations", || binary(17, false)),
        ("65,536 combinations, all covered", || binary(16, true)),
        ("65,536 combinations in the last one only outside", last_one_outside),
        ("65,535 combinations", || product(&[3, 5, 17, 257])),
        ("65,538 combinations", || product(&[9, 11, 331, 2])),
        ("65,536 combinations times one piece", || product(&[2; 16])),
        ("combinations past 64 bits", || product(&[31; 20])),
        ("2 to the 32nd combinations", || product(&[2; 32])),
        ("2 to the 64th combinations", || product(&[2; 64])),
        ("131,072 combinations in an impossible term", impossible_and_many),
        ("131,072 combinations after a failing term", many_after_failing),
        ("131,072 combinations in the second only", many_in_the_second),
        ("512 individuals in 256 classes", full_countermodel),
        ("countermodel of 16,380 words", || countermodel_of(3_275)),
        ("countermodel of 16,385 words", || countermodel_of(3_276)),
        ("dense model, deep policies", dense_model),
        ("dense model of one role", dense_role),
        ("model of 700,005 words", || long_model(140_000)),
        ("model of 700,010 words", || long_model(140_001)),
        ("whole line of values", whole_line),
    ];
    all.extend(crowded::makers());
    all
}

pub(super) fn class(number: u32) -> Conjunct {
    Conjunct::Class(ClassNo(number))
}

pub(super) fn within(feature: u32, lo: u32, hi: u32) -> Conjunct {
    Conjunct::Within(FeatureNo(feature), lo, hi)
}

pub(super) fn reaches(role: u32, inner: Term) -> Conjunct {
    Conjunct::Reaches(RoleNo(role), inner)
}

/// Names of which nothing is stated: each role and feature is functional.
pub(super) fn names(classes: u32, roles: u32, features: u32) -> Vocabulary {
    Vocabulary { classes, roles, features, axioms: Vec::new() }
}

/// Names of which every role and feature is many-valued.
pub(super) fn many_valued(classes: u32, roles: u32, features: u32) -> Vocabulary {
    names(classes, roles, features).read_as_owl()
}

/// So many constraints of two pieces each, whatever the ends are.
pub(super) fn dials(count: u32) -> Term {
    (1..=count).map(|feature| within(feature, 0, 1)).collect()
}

/// A case of these policies with its own countermodel as model.
pub(super) fn case(vocabulary: &Vocabulary, first: &[Term], second: &[Term]) -> Case {
    let mut case = Case::of(
        vocabulary_words(vocabulary),
        policy_words(first),
        policy_words(second),
        Vec::new(),
    );
    case.m = models::countermodel(&case).unwrap_or_else(|| vec![0, 1, 0, 0, 0]);
    case
}

fn counts(classes: u32, roles: u32, features: u32) -> Case {
    let mut term = vec![class(classes.max(1))];
    if roles > 0 {
        term.push(reaches(roles, vec![class(1)]));
    }
    if features > 0 {
        term.push(within(features, 3, u32::MAX));
    }
    case(&names(classes, roles, features), &[term], &[vec![class(2)]])
}

/// Records for so many roles and features of 64 each, the last of which a policy asks for twice.
fn kinds_6_and_7(roles: u32, features: u32) -> Case {
    let vocabulary = Vocabulary { roles: 64, features: 64, ..many_valued(4, roles, features) };
    let twice = vec![
        reaches(64, vec![class(1)]),
        reaches(64, vec![class(2)]),
        within(64, 0, 4),
        within(64, 6, 9),
    ];
    case(&vocabulary, &[twice], &[vec![reaches(64, vec![class(1), class(2)])]])
}

fn long_vocabulary(records: u32) -> Case {
    let mut vocabulary = names(256, 64, 64);
    for at in 0..records {
        vocabulary.axioms.push(match at % 8 {
            0 | 1 => Axiom::Below(ClassNo(at % 255 + 2), ClassNo(at % 255 / 2 + 1)),
            2 => Axiom::Disjoint(ClassNo(200 + at % 20), ClassNo(230 + at % 26)),
            3 => Axiom::FunctionalRole(RoleNo(at / 8 % 32 + 1)),
            4 => Axiom::FunctionalFeature(FeatureNo(at / 8 % 32 + 1)),
            5 => Axiom::ManyValuedRole(RoleNo(at / 8 % 24 + 41)),
            6 => Axiom::ManyValuedFeature(FeatureNo(at / 8 % 24 + 41)),
            _ => Axiom::Range(RoleNo(at / 8 % 64 + 1), ClassNo(at % 190 + 1)),
        });
    }
    // Role 33 and feature 33 are functional by default, role 64 and feature 64 are many-valued.
    let asked = |role| [reaches(role, vec![class(150)]), reaches(role, vec![])];
    let spans = |feature| [within(feature, 0, 4), within(feature, 3, 9)];
    let mut term = vec![class(100)];
    term.extend([asked(1), asked(33), asked(64)].concat());
    term.extend([spans(1), spans(33), spans(64)].concat());
    let second = vec![vec![class(1), reaches(1, vec![class(1)]), reaches(64, vec![class(2)])]];
    case(&vocabulary, &[term], &second)
}

/// So many records, of which the first and the last name a role both ways.
fn both_ways(records: usize) -> Case {
    let mut vocabulary = names(2, 1, 1);
    vocabulary.axioms = vec![Axiom::Below(ClassNo(2), ClassNo(1)); records];
    vocabulary.axioms[0] = Axiom::ManyValuedRole(RoleNo(1));
    vocabulary.axioms[records - 1] = Axiom::FunctionalRole(RoleNo(1));
    case(&vocabulary, &[vec![class(2)]], &[vec![class(1)]])
}

/// Kind 6 many times, and kind 4 of the feature of the same number.
fn many_times() -> Case {
    let mut vocabulary = names(2, 1, 1);
    vocabulary.axioms = vec![Axiom::ManyValuedRole(RoleNo(1)); 1_023];
    vocabulary.axioms.push(Axiom::FunctionalFeature(FeatureNo(1)));
    let first = vec![reaches(1, vec![class(1)]), reaches(1, vec![class(2)])];
    case(&vocabulary, &[first], &[vec![reaches(1, vec![class(1), class(2)])]])
}

fn class_chain(rising: bool, cycle: bool) -> Case {
    let mut vocabulary = names(256, 1, 0);
    vocabulary.axioms = (1..256).map(|at| Axiom::Below(ClassNo(at + 1), ClassNo(at))).collect();
    if cycle {
        vocabulary.axioms.push(Axiom::Below(ClassNo(1), ClassNo(256)));
    }
    if rising {
        vocabulary.axioms.reverse();
    }
    let first = vec![vec![class(256)], vec![class(128), reaches(1, vec![class(255)])]];
    case(&vocabulary, &first, &[vec![class(1), reaches(1, vec![])], vec![class(129)]])
}

fn wide_policy(conjuncts: u32) -> Case {
    let mut vocabulary = many_valued(256, 64, 64);
    vocabulary.axioms.retain(|axiom| *axiom != Axiom::ManyValuedRole(RoleNo(7)));
    let term: Term = (0..conjuncts)
        .map(|at| match at % 3 {
            0 => class(at % 256 + 1),
            1 => reaches(at % 64 + 1, vec![]),
            _ => within(at % 64 + 1, at, at),
        })
        .collect();
    let mut wider = term.clone();
    wider.truncate(500);
    case(&vocabulary, &[term], &[wider])
}

fn many_terms(terms: u32) -> Case {
    let vocabulary = names(4, 1, 1);
    case(&vocabulary, &vec![Vec::new(); terms as usize], &vec![Vec::new(); terms.min(512) as usize])
}

pub(super) fn nested(depth: u32, role: impl Fn(u32) -> u32, inner: Term) -> Term {
    (1..depth).fold(inner, |inner, at| vec![reaches(role(at), inner)])
}

fn deep_policy(depth: u32, second: bool) -> Case {
    let mut vocabulary = names(4, 2, 1);
    vocabulary.axioms.push(Axiom::FunctionalRole(RoleNo(1)));
    let deep = vec![nested(depth, |at| at % 2 + 1, vec![class(1)])];
    let shallow = vec![nested(16, |at| at % 2 + 1, vec![class(2)])];
    if second {
        case(&vocabulary, &shallow, &deep)
    } else {
        case(&vocabulary, &deep, &shallow)
    }
}

/// A functional role twice at each of so many depths, to be merged at all of them.
fn comb(depth: u32) -> Case {
    let mut vocabulary = names(64, 1, 1);
    vocabulary.axioms.push(Axiom::FunctionalRole(RoleNo(1)));
    vocabulary.axioms.push(Axiom::FunctionalFeature(FeatureNo(1)));
    let mut term = vec![within(1, 0, 100)];
    for at in 1..depth {
        let short = reaches(1, vec![class(at), within(1, at, 100 + at)]);
        term = vec![short, class(at + 20), reaches(1, term)];
    }
    let consent = nested(depth, |_| 1, vec![within(1, 0, 60)]);
    let rest = nested(depth, |_| 1, vec![within(1, 61, 100)]);
    case(&vocabulary, &[term], &[consent, rest])
}

/// Two pieces of each of so many features: as many combinations as that power of two, all of which three consent terms cover
/// together, or none.
#[must_use]
pub fn binary(features: u32, covered: bool) -> Case {
    let vocabulary = names(1, 0, 64);
    let second = if covered {
        vec![
            vec![within(features, 1, 1)],
            vec![within(1, 1, 1), within(features, 0, 0)],
            vec![within(1, 0, 0), within(features, 0, 0)],
        ]
    } else {
        Vec::new()
    };
    case(&vocabulary, &[dials(features)], &second)
}

/// Every combination but the last is covered.
fn last_one_outside() -> Case {
    let vocabulary = names(1, 0, 64);
    let second: Vec<Term> = (1..=16).map(|feature| vec![within(feature, 0, 0)]).collect();
    case(&vocabulary, &[dials(16)], &second)
}

/// A term with one constraint for each number of pieces, which is 1, 2 or odd; and a consent term
/// that has the ends for them and does not take it.
pub(super) fn pieced(pieces: &[u32]) -> (Term, Term) {
    let mut term = Term::new();
    let mut consent = Term::new();
    for (&count, feature) in pieces.iter().zip(1..) {
        match count {
            1 => term.push(within(feature, 5, 5)),
            2 => term.push(within(feature, 0, 1)),
            _ => {
                let ends = (count - 3) / 2;
                term.push(within(feature, 0, 2 * (ends + 1)));
                consent.extend((1..=ends).map(|at| within(feature, 2 * at, 2 * at)));
            }
        }
    }
    consent.push(class(1));
    (term, consent)
}

fn product(pieces: &[u32]) -> Case {
    let (term, consent) = pieced(pieces);
    case(&many_valued(1, 0, 64), &[term], &[consent])
}

fn impossible_and_many() -> Case {
    let vocabulary = names(1, 1, 64);
    let mut term = dials(17);
    term.push(reaches(1, vec![Conjunct::Nothing]));
    case(&vocabulary, &[term, vec![class(1)]], &[vec![within(1, 0, 0)]])
}

fn many_after_failing() -> Case {
    let vocabulary = names(1, 1, 64);
    case(&vocabulary, &[vec![], dials(17)], &[vec![class(1)]])
}

fn many_in_the_second() -> Case {
    let vocabulary = names(1, 1, 64);
    case(&vocabulary, &[vec![class(1)]], &[dials(17)])
}

/// The longest countermodel: 511 role values, each in all classes by range.
fn full_countermodel() -> Case {
    let mut vocabulary = names(256, 1, 0);
    vocabulary.axioms = (1..=255).map(|at| Axiom::Below(ClassNo(at + 1), ClassNo(at))).collect();
    vocabulary.axioms.push(Axiom::Range(RoleNo(1), ClassNo(256)));
    let vocabulary = vocabulary.read_as_owl();
    let mut case = case(&vocabulary, &[vec![reaches(1, vec![]); 511]], &[vec![class(1)]]);
    case.out_len = case.m.len();
    case
}

/// A countermodel of exactly so many records.
fn countermodel_of(records: u32) -> Case {
    let mut vocabulary = names(256, 1, 64);
    vocabulary.axioms = (1..=255).map(|at| Axiom::Below(ClassNo(at + 1), ClassNo(at))).collect();
    vocabulary.axioms.push(Axiom::Range(RoleNo(1), ClassNo(256)));
    let vocabulary = vocabulary.read_as_owl();
    let mut term = vec![reaches(1, vec![]); records as usize / 257];
    term.extend((0..records % 257).map(|value| within(1, value, value)));
    case(&vocabulary, &[term], &[vec![class(1)]])
}

/// 512 individuals and about 139,000 edges over four roles, and policies 16 deep and branching.
fn dense_model() -> Case {
    let mut vocabulary = many_valued(4, 4, 1);
    vocabulary.axioms.push(Axiom::Below(ClassNo(2), ClassNo(1)));
    let mut rng = Rng::new(77);
    let mut facts: Vec<[u32; 4]> = (0..139_000)
        .map(|_| [2, rng.between(1, 4), rng.between(1, 512), rng.between(1, 512)])
        .collect();
    facts.extend((1..=512).map(|individual| [1, 1, individual, 0]));
    let branch = |depth: u32, last: Term| {
        (1..depth)
            .fold(last, |inner, at| vec![reaches(at % 4 + 1, inner), reaches(1, vec![class(1)])])
    };
    let first = vec![branch(16, vec![class(1)]); 10];
    let second = vec![branch(16, vec![class(2)]); 10];
    let mut case = case(&vocabulary, &first[..9], &second);
    case.m = models::words(512, &facts);
    case
}

/// 373 individuals, each with an edge to each, and no way out of a class that is missing.
fn dense_role() -> Case {
    let vocabulary = many_valued(2, 1, 0);
    let facts: Vec<[u32; 4]> =
        (1..=373).flat_map(|from| (1..=373).map(move |to| [2, 1, from, to])).collect();
    let first = vec![nested(16, |_| 1, vec![])];
    let second = vec![nested(16, |_| 1, vec![class(2)])];
    let mut case = case(&vocabulary, &first, &second);
    case.m = models::words(373, &facts);
    case
}

fn long_model(records: u32) -> Case {
    let vocabulary = many_valued(2, 1, 1);
    let facts: Vec<[u32; 4]> = (0..records)
        .map(|at| match at % 3 {
            0 => [1, 1, at % 512 + 1, 0],
            1 => [2, 1, at % 512 + 1, at / 512 + 1],
            _ => [3, 1, at % 512 + 1, at],
        })
        .collect();
    let first = vec![vec![within(1, 5, u32::MAX), reaches(1, vec![within(1, 0, 9_000)])]];
    let mut case = case(&vocabulary, &first, &[vec![class(2)]]);
    case.m = models::words(512, &facts);
    case
}

fn whole_line() -> Case {
    let vocabulary = names(1, 0, 2);
    let first = vec![vec![within(1, 0, u32::MAX), within(2, u32::MAX, u32::MAX)]];
    let half = 1 << 31;
    let second = vec![
        vec![within(1, 0, half - 1), within(2, 7, u32::MAX)],
        vec![within(1, half, u32::MAX - 1)],
    ];
    case(&vocabulary, &first, &second)
}
