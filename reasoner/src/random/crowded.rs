//! Terms of about 65,536 combinations and of more, against consent terms that take them whole or
//! nearly do: the short way of SPECIFICATION 7.7 succeeds, or there is 22.

use super::limits::{
    self, binary, class, dials, many_valued, names, nested, pieced, reaches, within, Maker,
};
use super::valid::{cut, laid_out, widen, Shape};
use super::{Case, Rng};
use crate::classes::{ClassNo, RoleNo};
use crate::encode::vocabulary_words;
use crate::policy::{Conjunct, Term};
use crate::vocabulary::{Axiom, Vocabulary};

// ---- at the limit

/// The cases about the limit of combinations where the short way matters.
pub(super) fn makers() -> Vec<Maker> {
    vec![
        // Every term of the first policy passes whole.
        ("65,536 combinations taken whole", || same(dials(16))),
        ("65,538 combinations taken whole", || just_over(vec![])),
        ("131,072 combinations taken whole", || same(dials(17))),
        ("2 to the 64th combinations taken whole", || same(dials(64))),
        ("131,072 combinations taken whole by a wider term", by_a_wider),
        ("131,072 combinations taken whole, each term by another", each_by_another),
        ("131,072 combinations taken whole, an impossible term between", || {
            pair(&[dials(17), impossible(), dials(18)], &[dials(17)])
        }),
        ("131,072 combinations taken whole, behind terms that none is in", || {
            pair(&[dials(17)], &[impossible(), vec![within(1, 1, 0)], dials(17)])
        }),
        ("131,072 combinations taken whole once merged", || asked_of_two(true)),
        // One term does not pass whole.
        ("131,072 combinations that are not merged", || asked_of_two(false)),
        ("65,536 combinations taken whole, then a term that fails", || {
            pair(&[dials(16), vec![class(1)]], &[dials(16)])
        }),
        ("65,538 combinations taken whole, then a term that fails", || {
            just_over(vec![vec![class(2)]])
        }),
        ("131,072 combinations taken whole, first a term that fails", || one_fails(0)),
        ("131,072 combinations taken whole, between them a term that fails", || one_fails(1)),
        ("131,072 combinations taken whole, last a term that fails", || one_fails(2)),
        ("131,072 combinations taken whole, an impossible and a failing term", || {
            pair(&[dials(17), impossible(), vec![class(1)]], &[dials(17)])
        }),
        ("131,072 combinations in the only term that fails", || {
            pair(&[vec![class(1)], dials(17)], &[vec![class(1)]])
        }),
        ("65,536 combinations taken whole, then a term that two cover", || two_cover(16)),
        ("131,072 combinations taken whole, then a term that two cover", || two_cover(17)),
        ("131,072 combinations, all covered", || binary(17, true)),
        // The two directions of an equality.
        ("131,072 combinations in the first, taken whole", || {
            pair(&[with(dials(17), class(1))], &[vec![class(1)]])
        }),
        ("131,072 combinations in the second, taken whole", || {
            pair(&[vec![class(1)]], &[with(dials(17), class(1))])
        }),
        ("131,072 combinations in both, the first taken whole", || {
            pair(&[with(dials(17), class(1))], &[dials(17)])
        }),
        // What a consent term asks, at any depth.
        ("131,072 combinations in a term without conjuncts", || pair(&[dials(17)], &[vec![]])),
        ("131,072 combinations behind a role that reaches any", || behind_roles(1, vec![])),
        ("131,072 combinations behind 15 roles that reach any", || behind_roles(15, vec![])),
        ("131,072 combinations beside the impossible concept", || {
            pair(&[dials(17)], &[impossible()])
        }),
        ("131,072 combinations behind a role that reaches the impossible concept", || {
            behind_roles(1, vec![Conjunct::Nothing])
        }),
        ("131,072 combinations beside lo above hi", || {
            pair(&[with(dials(17), within(18, 4, 4))], &[with(dials(17), within(18, 5, 3))])
        }),
        ("131,072 combinations behind a role, lo above hi", || {
            behind_roles(1, vec![within(1, 1, 0)])
        }),
    ]
}

fn pair(first: &[Term], second: &[Term]) -> Case {
    limits::case(&names(4, 1, 64), first, second)
}

fn same(term: Term) -> Case {
    let policy = [term];
    pair(&policy, &policy)
}

fn with(mut term: Term, more: Conjunct) -> Term {
    term.push(more);
    term
}

fn impossible() -> Term {
    with(dials(17), Conjunct::Nothing)
}

/// A term of 65,538 combinations, which the second consent term takes and the first only has the
/// ends for; then these terms.
fn just_over(more: Vec<Term>) -> Case {
    let (term, ends) = pieced(&[9, 11, 331, 2]);
    let mut first = vec![term.clone()];
    first.extend(more);
    limits::case(&many_valued(4, 1, 64), &first, &[ends, term])
}

/// The wider term has too many combinations too, and is not taken.
fn by_a_wider() -> Case {
    let wider = (1..=17).map(|feature| within(feature, 0, 3)).collect();
    pair(&[dials(17)], &[wider])
}

fn each_by_another() -> Case {
    let first: Vec<Term> = (1..=4).map(|number| with(dials(17), class(number))).collect();
    let second: Vec<Term> = first.iter().rev().cloned().collect();
    pair(&first, &second)
}

/// What the consent asks of one value of a role and of a feature, asked of two: of one again where
/// they are functional.
fn asked_of_two(functional: bool) -> Case {
    let vocabulary = if functional { names(4, 1, 64) } else { many_valued(4, 1, 64) };
    let mut some = dials(17);
    let others = some.split_off(9);
    let first = vec![reaches(1, some), within(18, 0, 5), reaches(1, others), within(18, 4, 9)];
    let second = vec![reaches(1, dials(17)), within(18, 4, 5)];
    limits::case(&vocabulary, &[first], &[second])
}

fn one_fails(place: usize) -> Case {
    let mut first = vec![dials(17), dials(18)];
    first.insert(place, vec![class(1)]);
    pair(&first, &[dials(17)])
}

/// Both terms comply, the last by its combinations only.
fn two_cover(count: u32) -> Case {
    let one = |lo, hi| vec![class(1), within(40, lo, hi)];
    pair(&[dials(count), one(0, 9)], &[dials(count), one(0, 4), one(5, 9)])
}

fn behind_roles(count: u32, asked: Term) -> Case {
    let behind = |inner| nested(count + 1, |_| 1, inner);
    pair(&[behind(dials(17))], &[behind(asked)])
}

// ---- by chance

/// How the consent terms come from the terms that they take.
#[derive(Clone, Copy)]
enum Taking {
    Same,
    Wider,
    Hollow,
}

/// A first policy of crowded and small terms, and a second of terms that take them whole, of which
/// one may be spoiled; or the other way round.
#[must_use]
pub fn case(rng: &mut Rng) -> Case {
    let vocabulary = vocabulary(rng);
    let count = *rng.pick(&[15, 16, 16, 17, 17, 18]);
    let mut first: Vec<Term> = (0..rng.between(1, 4)).map(|_| term(rng, count)).collect();
    let mut second = takers(rng, &vocabulary, &first);
    if rng.once_in(6) {
        let place = rng.place(first.len());
        part(rng, &mut first[place]);
    }
    if rng.once_in(6) {
        second.push(term(rng, count));
    }
    for policy in [&mut first, &mut second] {
        if rng.once_in(3) {
            let place = rng.place(policy.len() + 1);
            policy.insert(place, contradiction(rng, count));
        }
    }
    let (first, second) = if rng.once_in(3) { (second, first) } else { (first, second) };
    let v = vocabulary_words(&vocabulary);
    laid_out(rng, &Shape::small(), v, &vocabulary, [&first, &second])
}

/// All roles and features are functional, stated so or not, or none.
fn vocabulary(rng: &mut Rng) -> Vocabulary {
    let mut vocabulary = names(4, 3, 18);
    vocabulary.axioms.push(Axiom::Below(ClassNo(2), ClassNo(1)));
    vocabulary.axioms.push(Axiom::Disjoint(ClassNo(1), ClassNo(3)));
    vocabulary.axioms.push(Axiom::Range(RoleNo(2), ClassNo(1)));
    match rng.below(4) {
        0 => vocabulary,
        1 => Vocabulary { axioms: vocabulary.said_in_owl(), ..vocabulary },
        _ => vocabulary.read_as_owl(),
    }
}

/// A crowded term or a small one, without class 4: no term that asks for it takes one.
fn term(rng: &mut Rng, count: u32) -> Term {
    match rng.below(6) {
        0 => vec![class(1 + rng.below(2))],
        1 => vec![reaches(1 + rng.below(3), vec![class(1 + rng.below(2))])],
        _ => crowd(rng, count),
    }
}

/// So many constraints of two pieces each, at individuals in a row.
fn crowd(rng: &mut Rng, count: u32) -> Term {
    let mut chains = vec![Term::new(); rng.between(1, 4) as usize];
    for feature in 1..=count {
        let (place, lo) = (rng.place(chains.len()), rng.below(3));
        chains[place].push(within(feature, lo, lo + 1));
    }
    let mut inner = vec![class(1 + rng.below(2))];
    for chain in chains.into_iter().rev() {
        inner = with(chain, reaches(1 + rng.below(3), inner));
    }
    inner
}

/// A consent term for each term, in any order; every other time one of them is spoiled.
fn takers(rng: &mut Rng, over: &Vocabulary, terms: &[Term]) -> Vec<Term> {
    let taking = *rng.pick(&[Taking::Same, Taking::Same, Taking::Wider, Taking::Hollow]);
    let mut takers: Vec<Term> = terms.iter().map(|term| taker(rng, over, taking, term)).collect();
    if rng.once_in(2) {
        let spoiled = takers.swap_remove(rng.place(terms.len()));
        takers.extend(spoil(rng, spoiled));
    }
    rng.shuffle(&mut takers);
    takers
}

fn taker(rng: &mut Rng, over: &Vocabulary, taking: Taking, term: &Term) -> Term {
    let mut taker = term.clone();
    match taking {
        Taking::Same => {}
        Taking::Wider => widen(rng, over, &mut taker),
        Taking::Hollow => hollow(rng, &mut taker),
    }
    taker
}

/// Leaves a way along the roles that ends where nothing is asked.
fn hollow(rng: &mut Rng, chain: &mut Term) {
    let mut kept = !rng.once_in(3);
    chain.retain_mut(|conjunct| match conjunct {
        Conjunct::Reaches(_, inner) if kept => {
            hollow(rng, inner);
            kept = false;
            true
        }
        _ => false,
    });
}

/// What comes of a taker that is to take no more: none, several that may take together, or one that
/// asks too much.
fn spoil(rng: &mut Rng, mut taker: Term) -> Vec<Term> {
    let asked = match rng.below(7) {
        0 => return vec![],
        1..4 => return cut(rng, &taker),
        4 => Conjunct::Nothing,
        5 => within(1 + rng.below(15), 2, 1),
        _ => class(4),
    };
    any_chain(rng, &mut taker).push(asked);
    vec![taker]
}

/// Asks of two values what was asked of one; the same where roles and features are functional.
fn part(rng: &mut Rng, term: &mut Term) {
    let chain = any_chain(rng, term);
    let place = rng.place(chain.len());
    let other = match &mut chain[place] {
        Conjunct::Reaches(role, inner) => {
            let others = inner.split_off(inner.len() / 2);
            reaches(role.0, others)
        }
        Conjunct::Within(feature, lo, hi) => {
            let wider = within(feature.0, 0, *hi);
            *hi = *lo + 5;
            wider
        }
        Conjunct::Class(_) | Conjunct::Nothing => return,
    };
    chain.push(other);
}

/// An impossible term of many combinations.
fn contradiction(rng: &mut Rng, count: u32) -> Term {
    let mut term = crowd(rng, count);
    let chain = any_chain(rng, &mut term);
    match rng.below(3) {
        0 => chain.push(Conjunct::Nothing),
        1 => chain.push(within(1 + rng.below(15), 2, 1)),
        _ => chain.extend([class(2), class(3)]),
    }
    term
}

/// The term's conjuncts, or those behind its first role, at any depth.
fn any_chain<'a>(rng: &mut Rng, chain: &'a mut Term) -> &'a mut Term {
    let role = chain.iter().position(|conjunct| matches!(conjunct, Conjunct::Reaches(..)));
    let Some(place) = role.filter(|_| rng.once_in(2)) else { return chain };
    let Conjunct::Reaches(_, inner) = &mut chain[place] else { unreachable!() };
    any_chain(rng, inner)
}
