//! Models for the model check: canonical, random, repaired, damaged; any order, with repeats.

use super::valid::insert_unreached;
use super::{Case, Rng};
use crate::classes::{FeatureNo, RoleNo};
use crate::vocabulary::{Axiom, Functional, Vocabulary};
use crate::{compliance, equality, Comparison, Verdict, FULL_WORK};
use std::collections::BTreeSet;

/// A fact: kind, name, individual, other.
type Fact = [u32; 4];

const MOST_WORDS: usize = 700_005;

/// The countermodel that an equality of the case writes, if it differs.
#[must_use]
pub fn countermodel(case: &Case) -> Option<Vec<u32>> {
    written(|work, out| match equality(&case.v, &case.p, &case.q, work, out) {
        Comparison::Differs(_, _, _, words) => Ok(words),
        Comparison::Equal => Err(None),
        Comparison::Refused(number) => Err(Some(number)),
    })
}

/// The canonical model of some combination of the first policy, in or outside the second.
#[must_use]
pub fn canonical(case: &Case) -> Option<Vec<u32>> {
    let nothing = [0; 6];
    written(|work, out| match compliance(&case.v, &case.p, &nothing, work, out) {
        Verdict::Outside(_, _, words) => Ok(words),
        Verdict::Compliant => Err(None),
        Verdict::Refused(number) => Err(Some(number)),
    })
}

/// The words that an operation writes, in a short output or, when that is refused, in a long one.
fn written(
    operation: impl Fn(&mut [u32], &mut [u32]) -> Result<u32, Option<u32>>,
) -> Option<Vec<u32>> {
    let mut work = vec![0; FULL_WORK];
    for length in [2_000, MOST_WORDS] {
        let mut out = vec![0; length];
        match operation(&mut work, &mut out) {
            Ok(words) => return Some(out[..words as usize].to_vec()),
            Err(Some(23)) => {}
            Err(_) => return None,
        }
    }
    None
}

/// A model for this case.
#[must_use]
pub fn model(rng: &mut Rng, case: &Case, over: &Vocabulary) -> Vec<u32> {
    let mut m = match rng.below(8) {
        0..4 => countermodel(case).or_else(|| canonical(case)),
        4 | 5 => canonical(case),
        _ => None,
    }
    .unwrap_or_else(|| random(rng, over));
    if rng.once_in(3) {
        disturb(rng, over, &mut m);
    }
    if rng.once_in(3) {
        m = repair(rng, over, &m);
    }
    if rng.once_in(2) {
        m = shuffled(rng, &m);
    }
    if rng.once_in(8) {
        damage(rng, &mut m);
    }
    m
}

/// The facts of a model whose records are chained 1, 2, 3 and so on.
fn facts(m: &[u32]) -> Vec<Fact> {
    m.chunks_exact(5).skip(1).map(|record| [record[0], record[1], record[2], record[3]]).collect()
}

/// The words of a model with these facts in this order.
#[must_use]
pub fn words(individuals: u32, facts: &[Fact]) -> Vec<u32> {
    let last = facts.len() as u32;
    let mut m = vec![u32::from(last > 0), individuals, 0, 0, 0];
    for (fact, own) in facts.iter().zip(1..) {
        m.extend(fact);
        m.push(if own == last { 0 } else { own + 1 });
    }
    m
}

/// A random fact over so many individuals.
fn fact(rng: &mut Rng, over: &Vocabulary, individuals: u32) -> Fact {
    let individual = rng.between(1, individuals);
    match rng.below(3) {
        1 if over.roles > 0 => {
            [2, rng.between(1, over.roles), individual, rng.between(1, individuals)]
        }
        2 if over.features > 0 => [3, rng.between(1, over.features), individual, rng.below(12)],
        _ => [1, rng.between(1, over.classes), individual, 0],
    }
}

/// A random model of up to five individuals.
#[must_use]
pub fn random(rng: &mut Rng, over: &Vocabulary) -> Vec<u32> {
    let individuals = rng.between(1, 5);
    let facts: Vec<Fact> = (0..rng.below(16)).map(|_| fact(rng, over, individuals)).collect();
    words(individuals, &facts)
}

/// Adds, drops or changes a few facts; one individual may come to stand for another.
fn disturb(rng: &mut Rng, over: &Vocabulary, m: &mut Vec<u32>) {
    let individuals = m[1];
    let mut list = facts(m);
    for _ in 0..rng.between(1, 3) {
        match rng.below(3) {
            0 if !list.is_empty() => {
                let at = rng.place(list.len());
                list.swap_remove(at);
            }
            1 => {
                let (old, new) = (rng.between(1, individuals), rng.between(1, individuals));
                for fact in &mut list {
                    fact[2] = if fact[2] == old { new } else { fact[2] };
                    if fact[0] == 2 && fact[3] == old {
                        fact[3] = new;
                    }
                }
            }
            _ => list.push(fact(rng, over, individuals)),
        }
    }
    *m = words(individuals, &list);
}

/// Makes the model satisfy more of the vocabulary: adds the classes above and the ranges, drops
/// second values of functional names.
fn repair(rng: &mut Rng, over: &Vocabulary, m: &[u32]) -> Vec<u32> {
    let individuals = m[1];
    let mut list = facts(m);
    rng.shuffle(&mut list);
    let mut taken = BTreeSet::new();
    let functional = Functional::of(over);
    list.retain(|fact| {
        !is_functional(functional, fact) || taken.insert([fact[0], fact[1], fact[2]])
    });
    let mut known: BTreeSet<Fact> = list.into_iter().collect();
    loop {
        let new: Vec<Fact> = known
            .iter()
            .flat_map(|fact| over.axioms.iter().filter_map(|axiom| follows(axiom, fact)))
            .filter(|fact| !known.contains(fact))
            .collect();
        if new.is_empty() {
            break;
        }
        known.extend(new);
    }
    let list: Vec<Fact> = known.into_iter().collect();
    words(individuals, &list)
}

fn is_functional(functional: Functional, &[kind, name, ..]: &Fact) -> bool {
    match kind {
        2 => functional.has_role(RoleNo(name)),
        3 => functional.has_feature(FeatureNo(name)),
        _ => false,
    }
}

fn follows(axiom: &Axiom, fact: &Fact) -> Option<Fact> {
    match (axiom, fact) {
        (Axiom::Below(a, b), [1, name, individual, _]) if a.0 == *name => {
            Some([1, b.0, *individual, 0])
        }
        (Axiom::Range(role, class), [2, name, _, target]) if role.0 == *name => {
            Some([1, class.0, *target, 0])
        }
        _ => None,
    }
}

/// The same interpretation: any order, some records twice, some that no link reaches.
#[must_use]
pub fn shuffled(rng: &mut Rng, m: &[u32]) -> Vec<u32> {
    let mut list = facts(m);
    rng.shuffle(&mut list);
    for _ in 0..rng.below(4) {
        if !list.is_empty() && list.len() < 139_000 {
            let again = *rng.pick(&list);
            list.insert(rng.place(list.len()), again);
        }
    }
    let mut m = words(m[1], &list);
    for _ in 0..rng.below(3) {
        if m.len() + 5 <= MOST_WORDS {
            insert_unreached(rng, &mut m, 5, &[4]);
        }
    }
    m
}

/// Changes a word or the length.
pub fn damage(rng: &mut Rng, m: &mut Vec<u32>) {
    match rng.below(4) {
        0 => m.truncate(rng.place(m.len() + 1)),
        1 => m.extend((0..rng.between(1, 6)).map(|_| 0)),
        _ if m.is_empty() => {}
        _ => {
            let near = rng.once_in(3);
            let end = if near { m.len().min(5) } else { m.len() };
            let at = rng.place(end);
            m[at] = if rng.once_in(2) { m[at].wrapping_add(1) } else { rng.word() };
        }
    }
}
