//! Cases that are made to be slow, and a search for slower ones: many combinations, of which few are skipped; terms that nearly pass; wide
//! and deep policies; full models.

use super::limits::{binary, class, dials, many_valued, names, reaches, within};
use super::{models, Case, Rng};
use crate::classes::{ClassNo, FeatureNo, RoleNo};
use crate::encode::{policy_words, vocabulary_words};
use crate::policy::{Conjunct, Term};
use crate::vocabulary::{Axiom, Vocabulary};
use std::{fmt, iter};

/// As many records as a policy may have.
pub(super) const RECORDS: usize = 512;
/// As many equal terms of two spans as fit into a policy.
pub const MOST_EQUAL: usize = RECORDS / 3;
/// As many individuals as a model may have.
const INDIVIDUALS: u32 = 512;
/// Edges or values of a model that has room for each individual's classes too.
const FACTS: u32 = 138_000;

pub(super) fn records(policy: &[Term]) -> usize {
    fn of(term: &[Conjunct]) -> usize {
        term.iter()
            .map(|c| 1 + if let Conjunct::Reaches(_, inner) = c { of(inner) } else { 0 })
            .sum()
    }
    policy.iter().map(|term| 1 + of(term)).sum()
}

fn case(first: &[Term], second: &[Term]) -> Case {
    let v = vocabulary_words(&many_valued(3, 64, 64));
    Case::of(v, policy_words(first), policy_words(second), vec![0, 1, 0, 0, 0])
}

/// Terms, one after another, while they fit into a policy.
fn filled(mut more: impl FnMut() -> Term) -> Vec<Term> {
    let mut policy = Vec::new();
    loop {
        policy.push(more());
        if records(&policy) > RECORDS {
            policy.pop();
            return policy;
        }
    }
}

/// One piece of a feature with two, by chance.
fn side(rng: &mut Rng, feature: u32) -> Conjunct {
    let value = rng.below(2);
    within(feature, value, value)
}

/// Every compliance case with its name. First policies of equal terms have `equal` of them, at most [`MOST_EQUAL`]: the time grows so.
#[must_use]
pub fn compliance(equal: usize) -> Vec<(String, Case)> {
    let mut all = Vec::new();
    for count in [4, 8, 16] {
        let combinations = 1 << count;
        all.push((format!("504 spans asked of 165 individuals, {combinations}"), asked(count)));
        all.push((format!("252 roles tried on 247 individuals, {combinations}"), tried(count)));
    }
    let mut rng = Rng::new(1);
    let rng = &mut rng;
    all.push(("65,536 combinations covered by turns".into(), binary(16, true)));
    all.push(("240 terms that never pass, two that cover".into(), never()));
    all.push((format!("{equal} terms of 2,003 pieces, two takers"), ends(equal)));
    let name = format!("85 stretches by 84 steps, {equal} terms");
    all.push((name, steps(rng, 85, 84, 0, equal)));
    let name = format!("60 stretches by 25 steps, idle ends, {equal} terms");
    all.push((name, steps(rng, 60, 25, 145, equal)));
    // A term of eight dials and a span takes more records.
    let fewer = equal.min(51);
    all.push((format!("8 dials by 85 stretches, {fewer} terms"), sweeps(rng, 8, 85, fewer)));
    all.push((format!("a grid of 12 by 12 boxes, {equal} terms"), grid(rng, 12, equal)));
    for width in [2, 3, 4] {
        all.push((format!("random terms of {width} of 16 dials"), cubes(rng, width)));
    }
    all.push(("16 individuals with a dial each".into(), spread(rng, 1, 2)));
    all.push(("16 dials 7 deep".into(), deep(rng, 7)));
    let name = "50 stretches behind a term that tries 100 roles on 240 individuals";
    all.push((name.into(), behind(rng)));
    let fewer = equal.min(22);
    let name = format!("14 stretches behind 160 roles tried on 10 dials, {fewer} terms");
    all.push((name, opens(rng, 14, 160, fewer)));
    all
}

/// The compliance cases with a consent term less, the one in the middle or the last: many of them fail, some at a late combination.
#[must_use]
pub fn uncovered(equal: usize) -> Vec<(String, Case)> {
    let mut all = Vec::new();
    for (name, case) in compliance(equal) {
        let links = term_links(&case.q);
        for place in [(links.len() - 1) / 2, links.len() - 1] {
            let mut less = case.clone();
            less.q[links[place]] = case.q[next(&case.q, links[place])];
            all.push((format!("{name}, consent term {} left out", place + 1), less));
        }
    }
    all
}

/// Where the term that stands behind this link has its own.
fn next(policy: &[u32], link: usize) -> usize {
    6 * policy[link] as usize + 5
}

/// Where a policy's words have a link to a term.
fn term_links(policy: &[u32]) -> Vec<usize> {
    let links = iter::successors(Some(0), |&link| Some(next(policy, link)));
    links.take_while(|&link| policy[link] != 0).collect()
}

/// 504 spans asked of each of 165 individuals, of which the last alone passes; then it fails by the dial that turns fastest.
fn asked(count: u32) -> Case {
    let mut first = dials(count);
    first.extend((0..164).map(|_| reaches(3, vec![within(40, 8, 8)])));
    first.push(reaches(3, vec![within(40, 8, 8), class(2)]));
    let mut inner = vec![within(40, 7, 9); 504];
    inner.push(class(2));
    let second = [vec![reaches(3, inner), within(count, 0, 0)], vec![within(count, 1, 1)]];
    case(&[first], &second)
}

/// 252 roles, each tried on 247 individuals, of which the last alone passes.
fn tried(count: u32) -> Case {
    let mut first = dials(count);
    first.extend((1..=247).map(|value| reaches(3, vec![within(40, value, value)])));
    let mut term = vec![reaches(3, vec![within(40, 247, 250)]); 252];
    term.push(within(count, 0, 0));
    case(&[first], &[term, vec![within(count, 1, 1)]])
}

fn never() -> Case {
    let mut second: Vec<Term> = (0..240).map(|k| vec![within(40, 3 * k, 3 * k + 1)]).collect();
    second.push(vec![within(16, 0, 0)]);
    second.push(vec![within(16, 1, 1)]);
    case(&[dials(16)], &second)
}

/// As many ends as there can be, in a term that never passes.
fn ends(equal: usize) -> Case {
    let first = vec![vec![within(1, 0, 4_000_000_000), within(2, 5, 5)]; equal];
    let idle = (0..500).map(|k| within(1, 4 * k, 4 * k + 2)).collect();
    case(&first, &[idle, vec![within(1, 0, 1000)], vec![within(1, 1001, 4_000_000_000)]])
}

/// Two dials of many pieces: each stretch of the inner one is taken by one of two terms, by where the outer one stands.
fn steps(rng: &mut Rng, stretches: u32, borders: u32, idle: u32, equal: usize) -> Case {
    let (most, end) = (3 * borders + 2, 10 * stretches);
    let mut second: Vec<Term> = Vec::new();
    for k in 0..stretches {
        let border = 3 * rng.below(borders) + 1;
        second.push(vec![within(2, 10 * k, 10 * k + 9), within(1, 0, border)]);
        second.push(vec![within(2, 10 * k, 10 * k + 9), within(1, border + 1, most)]);
    }
    rng.shuffle(&mut second);
    if idle > 0 {
        second.push((0..idle).map(|k| within(2, (4 * k + 2) % end, (4 * k + 4) % end)).collect());
    }
    case(&vec![vec![within(1, 0, most), within(2, 0, end - 1)]; equal], &second)
}

/// Two terms for each stretch of an inner dial, one for each piece of another dial, in any order.
fn swept(rng: &mut Rng, outer: u32, stretches: u32) -> Vec<Term> {
    let mut terms: Vec<Term> = Vec::new();
    for k in 0..stretches {
        for value in 0..2 {
            let stretch = within(64, 10 * k, 10 * k + 9);
            terms.push(vec![stretch, within(1 + k % outer, value, value)]);
        }
    }
    rng.shuffle(&mut terms);
    terms
}

/// Dials of two pieces, and an inner one of many: each of its stretches is taken by one of two terms, by another dial.
fn sweeps(rng: &mut Rng, outer: u32, stretches: u32, equal: usize) -> Case {
    let mut first = dials(outer);
    first.push(within(64, 0, 10 * stretches - 1));
    case(&vec![first; equal], &swept(rng, outer, stretches))
}

/// Sweeps, behind a term that tries each of its roles on many individuals before it fails by the inner dial.
fn behind(rng: &mut Rng) -> Case {
    let (outer, stretches) = (8, 50);
    let mut first = dials(outer);
    first.extend((1..=240).map(|value| reaches(3, vec![within(40, value, value)])));
    first.push(within(64, 0, 10 * stretches - 1));
    let mut slow = vec![reaches(3, vec![within(40, 240, 250)]); 100];
    slow.push(within(64, 10 * stretches, 10 * stretches));
    let mut second = swept(rng, outer, stretches);
    second.insert(0, slow);
    case(&[first], &second)
}

/// Sweeps over dials at successors, behind a term that tries each of its roles on all of them before it fails by the inner dial.
fn opens(rng: &mut Rng, stretches: u32, tries: usize, equal: usize) -> Case {
    let arms = 10;
    let mut first: Term = (1..=arms).map(|k| reaches(3, vec![within(k, 0, 1)])).collect();
    first.push(reaches(4, vec![within(64, 0, 10 * stretches - 1)]));
    let mut slow = vec![reaches(3, vec![within(arms, 0, 0)]); tries];
    slow.push(reaches(4, vec![within(64, 0, 0)]));
    let mut second: Vec<Term> = Vec::new();
    for k in 0..stretches {
        for value in 0..2 {
            let arm = reaches(3, vec![within(1 + k % arms, value, value)]);
            second.push(vec![reaches(4, vec![within(64, 10 * k, 10 * k + 9)]), arm]);
        }
    }
    rng.shuffle(&mut second);
    second.insert(0, slow);
    case(&vec![first; equal], &second)
}

/// A grid of boxes over two dials of many pieces.
fn grid(rng: &mut Rng, size: u32, equal: usize) -> Case {
    let mut second: Vec<Term> = Vec::new();
    for row in 0..size {
        for column in 0..size {
            second.push(vec![
                within(1, 20 * row, 20 * row + 19),
                within(2, 20 * column, 20 * column + 19),
            ]);
        }
    }
    rng.shuffle(&mut second);
    let idle = (RECORDS - 2 - records(&second)) as u32;
    second.push((0..idle).map(|k| within(1 + k % 2, 1 + 2 * k, 2 + 2 * k)).collect());
    let end = 20 * size - 1;
    case(&vec![vec![within(1, 0, end), within(2, 0, end)]; equal], &second)
}

/// Terms on so many of 16 dials, by chance.
fn cubes(rng: &mut Rng, width: usize) -> Case {
    let second = filled(|| {
        let mut features: Vec<u32> = (1..=16).collect();
        rng.shuffle(&mut features);
        features[..width].iter().map(|&feature| side(rng, feature)).collect()
    });
    case(&[dials(16)], &second)
}

/// 16 individuals with a dial each, and terms of so many roles that each of them is tried for.
fn spread(rng: &mut Rng, roles: u32, width: usize) -> Case {
    let first =
        (0..16).map(|k| reaches(1 + k % roles, vec![within(1 + k % 3, 0, 1)])).collect::<Term>();
    let second = filled(|| {
        let mut one = || {
            let feature = 1 + rng.below(3);
            reaches(1 + rng.below(roles), vec![side(rng, feature)])
        };
        (0..width).map(|_| one()).collect()
    });
    case(&[first], &second)
}

/// 16 dials, each at the end of a chain of roles.
fn deep(rng: &mut Rng, depth: u32) -> Case {
    let nest = |inner| (0..depth).fold(inner, |inner, _| reaches(1, vec![inner]));
    let first: Term = (0..16).map(|k| nest(within(1 + k % 2, 0, 1))).collect();
    let second = filled(|| {
        let mut one = || {
            let feature = 1 + rng.below(2);
            nest(side(rng, feature))
        };
        vec![one(), one()]
    });
    case(&[first], &second)
}

/// Every model check case with its name.
#[must_use]
pub fn model_check() -> Vec<(&'static str, Case)> {
    let edges = by_turns(|individual, name, _| {
        [2, name, individual, 1 + (7 * individual + name) % INDIVIDUALS]
    });
    let values = by_turns(|individual, name, round| [3, name, individual, round]);
    let ranges = (0..1_024).map(|k| Axiom::Range(RoleNo(1 + k % 64), ClassNo(1 + k / 64 % 3)));
    let single = (1..=64).map(|role| Axiom::FunctionalRole(RoleNo(role)));
    let several = (1..=64).map(|feature| Axiom::ManyValuedFeature(FeatureNo(feature)));
    let wide: Term = (0..510).map(|k| reaches(1 + k % 64, vec![])).collect();
    let chain = |_| (0..16).fold(vec![], |inner, _| vec![reaches(1, inner)]);
    let deep: Term = (0..31).flat_map(chain).collect();
    let spans: Term = (0..510).map(|k| within(1 + k % 64, k, 1_000_000)).collect();
    vec![
        ("1,024 ranges", modelled(ranges.collect(), &edges, &wide)),
        ("64 functional roles", modelled(single.collect(), &edges, &wide)),
        ("31 chains of roles 16 deep", modelled(vec![], &edges, &deep)),
        ("510 spans of 64 features", modelled(several.collect(), &values, &spans)),
    ]
}

/// Facts of the individuals by turns, each with the names of a series by turns.
fn by_turns(fact: impl Fn(u32, u32, u32) -> [u32; 4]) -> Vec<[u32; 4]> {
    let round = |k| k / INDIVIDUALS;
    (0..FACTS).map(|k| fact(1 + k % INDIVIDUALS, 1 + round(k) % 64, round(k) / 64)).collect()
}

/// A case whose model has these facts and every individual in every class, and whose policies are one term.
fn modelled(axioms: Vec<Axiom>, facts: &[[u32; 4]], term: &[Conjunct]) -> Case {
    let vocabulary = Vocabulary { axioms, ..names(3, 64, 64) };
    let policy = policy_words(&[term.to_vec()]);
    let mut facts = facts.to_vec();
    facts.extend((1..=3).flat_map(|c| (1..=INDIVIDUALS).map(move |i| [1, c, i, 0])));
    let m = models::words(INDIVIDUALS, &facts);
    Case::of(vocabulary_words(&vocabulary), policy.clone(), policy, m)
}

// ---- a search for slower ones

/// A pair of policies, to be changed a little at a time.
#[derive(Clone)]
pub struct Pair {
    first: Vec<Term>,
    second: Vec<Term>,
}

impl Pair {
    /// Where a search starts: dials at one individual, terms on them by chance; or dials at several individuals.
    #[must_use]
    pub fn start(rng: &mut Rng) -> Self {
        if rng.once_in(2) {
            let second = (0..120).map(|_| (0..3).map(|_| Self::conjunct(rng, 0, false)).collect());
            return Self { second: second.collect(), first: vec![dials(16)] };
        }
        let arms = (0..16).map(|k| reaches(1, vec![within(1 + k % 3, 0, 1)])).collect();
        let second = (0..2).map(|value| vec![reaches(1, vec![within(1, value, value)])]);
        Self { second: second.collect(), first: vec![arms] }
    }

    fn conjunct(rng: &mut Rng, depth: u32, wide: bool) -> Conjunct {
        match rng.below(if depth > 0 { 5 } else { 3 }) {
            0 if rng.once_in(4) => class(1 + rng.below(3)),
            3 | 4 => {
                let width = 1 + rng.below(3);
                reaches(
                    1 + rng.below(2),
                    (0..width).map(|_| Self::conjunct(rng, depth - 1, wide)).collect(),
                )
            }
            _ => {
                let feature = 1 + rng.below(16);
                if wide && !rng.once_in(4) {
                    within(feature, 0, 1)
                } else {
                    side(rng, feature)
                }
            }
        }
    }

    /// One or more terms or conjuncts put in, left out, changed or moved.
    #[must_use]
    pub fn changed(&self, rng: &mut Rng) -> Self {
        let mut pair = self.clone();
        for _ in 0..1 + rng.below(4) {
            let first = rng.once_in(4);
            let policy = if first { &mut pair.first } else { &mut pair.second };
            let at = rng.place(policy.len());
            match rng.below(6) {
                0 => {
                    let width = 1 + rng.below(if first { 16 } else { 6 });
                    policy.insert(at, (0..width).map(|_| Self::conjunct(rng, 2, first)).collect());
                }
                1 if policy.len() > 1 => drop(policy.remove(at)),
                2 => {
                    let other = rng.place(policy.len());
                    policy.swap(at, other);
                }
                3 if !policy[at].is_empty() => {
                    let place = rng.place(policy[at].len());
                    policy[at].remove(place);
                }
                _ => {
                    let place = rng.place(policy[at].len() + 1);
                    policy[at].insert(place, Self::conjunct(rng, 2, first));
                }
            }
        }
        pair
    }

    /// The pair's case; none where a policy has too many records.
    #[must_use]
    pub fn case(&self) -> Option<Case> {
        let fits = |policy: &[Term]| records(policy) < RECORDS;
        (fits(&self.first) && fits(&self.second)).then(|| case(&self.first, &self.second))
    }
}

impl fmt::Display for Pair {
    fn fmt(&self, to: &mut fmt::Formatter<'_>) -> fmt::Result {
        let size =
            |policy: &[Term]| format!("{} terms in {} records", policy.len(), records(policy));
        write!(to, "{} against {}", size(&self.first), size(&self.second))
    }
}
