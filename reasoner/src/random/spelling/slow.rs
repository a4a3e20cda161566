//! Inputs that are made to be slow: many siblings, and long lists that are alike to the end.

use super::Spelling;
use crate::classes::{ClassNo, FeatureNo, RoleNo};
use crate::encode::{policy_words, vocabulary_words};
use crate::policy::Term;
use crate::random::limits::{class, names, nested, reaches, within};
use crate::random::slow::RECORDS;
use crate::random::Rng;
use crate::vocabulary::{Axiom, Vocabulary};

/// Records of one term besides its own.
const MOST: usize = RECORDS - 1;

/// In which order siblings stand that differ by a number.
#[derive(Clone, Copy, Debug)]
enum Order {
    Rising,
    Falling,
    Random,
}

impl Order {
    const ALL: [Order; 3] = [Order::Rising, Order::Falling, Order::Random];

    fn of<T>(self, mut items: Vec<T>) -> Vec<T> {
        match self {
            Order::Rising => {}
            Order::Falling => items.reverse(),
            Order::Random => Rng::new(7).shuffle(&mut items),
        }
        items
    }
}

/// At which of the levels 1 to 15 a tree branches.
type Shape = (&'static str, fn(u32) -> bool);

const SHAPES: [Shape; 3] = [
    ("the upper 5", |level| level <= 5),
    ("the lower 7", |level| level > 8),
    ("every third", |level| level % 3 == 1),
];

/// Every input with its name. Where it is refused, the name ends in the number.
#[must_use]
pub fn inputs() -> Vec<(String, Spelling)> {
    let mut all = Vec::new();
    let mut put = |name: String, input: Spelling| all.push((name, input));
    for order in Order::ALL {
        for each in [1, 2, 3, 7, 15, 63, 127, 170] {
            let name = format!("siblings of {each} records that differ in the last, {order:?}");
            put(format!("{} {name}", MOST / each), siblings(order, each));
        }
        put(format!("31 chains of roles that differ in the last, {order:?}"), chains(order));
        for each in [2, 5, 64] {
            let name = format!("terms of {each} records that differ in the last, {order:?}");
            put(format!("{} {name}", RECORDS / each), terms(order, each));
        }
        put(format!("511 classes, 256 of them different, {order:?}"), classes(order));
        put(format!("31 spans at each of 16 levels, {order:?}"), levels(order));
        put(format!("255 functional roles of a span each, {order:?}"), merged(order));
        let name = format!("255 roles that differ behind 250 ranges, {order:?}: 43");
        put(name, behind_ranges(order));
    }
    put("511 equal spans".into(), plain(vec![vec![within(1, 3, 4); MOST]], vec![]));
    put("512 equal terms".into(), plain(vec![vec![]; RECORDS], vec![]));
    put("511 roles of a range of 250 classes".into(), ranged(1));
    put("511 roles, of four with a range of 250 classes each: 43".into(), ranged(4));
    put("31 equal chains of roles of a range of 30 classes".into(), ranged_chains(30));
    put("31 equal chains of roles of a range of 250 classes: 43".into(), ranged_chains(250));
    let met = (0..MOST as u32).map(|at| within(1 + at % 64, at / 64, 100 - at / 64));
    let met = vec![met.collect()];
    let functional = (1..=64).map(|feature| Axiom::FunctionalFeature(FeatureNo(feature)));
    put("511 spans that meet to 64".into(), plain(met.clone(), functional.collect()));
    let unstated = Spelling::of(vocabulary_words(&names(256, 64, 64)), policy_words(&met));
    put("511 spans that meet to 64, nothing stated".into(), unstated);
    for (levels, is_double) in SHAPES {
        let name = |what: &str| format!("16 levels, two branches at {levels}, {what}");
        put(name("equal"), plain(vec![branches(1, is_double, true, 16)], vec![]));
        let differ = vec![branches(1, is_double, false, 16)];
        put(name("that differ in the last leaf"), plain(differ.clone(), vec![]));
        let functional = vec![Axiom::FunctionalRole(RoleNo(1))];
        put(name("that are merged"), plain(differ, functional));
    }
    all
}

/// An input over 256 classes, 64 roles and 64 features. Roles 1 to 4 and features 1 and 2 are
/// many-valued unless they are stated functional.
fn plain(terms: Vec<Term>, axioms: Vec<Axiom>) -> Spelling {
    let used = Vocabulary { axioms, ..names(256, 4, 2) }.read_as_owl();
    let vocabulary = Vocabulary { axioms: used.axioms, ..names(256, 64, 64) };
    Spelling::of(vocabulary_words(&vocabulary), policy_words(&terms))
}

/// As many siblings as fit, of so many records each, of which the last alone is another.
fn siblings(order: Order, each: usize) -> Spelling {
    let one = |at: u32| {
        if each == 1 {
            return within(1, 0, at);
        }
        let mut inner: Term = (0..each as u32 - 2).map(|at| within(1, at, at)).collect();
        inner.push(within(2, 0, at));
        reaches(1, inner)
    };
    plain(vec![order.of((0..(MOST / each) as u32).map(one).collect())], vec![])
}

/// Chains of 15 roles that end in another span.
fn chains(order: Order) -> Spelling {
    let one = |at| nested(16, |_| 1, vec![within(1, 0, at)]);
    let chains: Vec<Term> = (0..31).map(one).collect();
    plain(vec![order.of(chains).concat()], vec![])
}

/// As many terms as fit, of so many records each, of which the last alone is another.
fn terms(order: Order, each: usize) -> Spelling {
    let one = |at| {
        let mut term: Term = (0..each as u32 - 2).map(|at| within(1, at, at)).collect();
        term.push(within(2, 0, at));
        term
    };
    plain(order.of((0..(RECORDS / each) as u32).map(one).collect()), vec![])
}

fn classes(order: Order) -> Spelling {
    let all: Term = (0..MOST as u32).map(|at| class(1 + at / 2)).collect();
    plain(vec![order.of(all)], vec![])
}

fn levels(order: Order) -> Spelling {
    let spans = || order.of((0..31).map(|at| within(1, 0, at)).collect());
    let deeper = |inner: Term, _| [vec![reaches(1, inner)], spans()].concat();
    plain(vec![(1..16).fold(spans(), deeper)], vec![])
}

fn merged(order: Order) -> Spelling {
    let roles = (0..255).map(|at| reaches(1, vec![within(1, 0, at)])).collect();
    plain(vec![order.of(roles)], vec![Axiom::FunctionalRole(RoleNo(1))])
}

fn ranges(roles: u32, classes: u32) -> Vec<Axiom> {
    let of = |role| (1..=classes).map(move |class| Axiom::Range(RoleNo(role), ClassNo(class)));
    (1..=roles).flat_map(of).collect()
}

fn behind_ranges(order: Order) -> Spelling {
    let roles = (0..255).map(|at| reaches(1, vec![within(1, 0, at)])).collect();
    plain(vec![order.of(roles)], ranges(1, 250))
}

fn ranged(roles: u32) -> Spelling {
    let all = (0..MOST as u32).map(|at| reaches(1 + at % roles, vec![])).collect();
    plain(vec![all], ranges(roles, 250))
}

fn ranged_chains(classes: u32) -> Spelling {
    let chain = nested(16, |_| 1, vec![]);
    plain(vec![vec![chain; 31].concat()], ranges(1, classes))
}

/// A tree that branches at some levels, from this one down to 16. Its leaves are classes, the first
/// `leaf`. The branches are equal, or the later one has a lesser class as its first leaf.
fn branches(level: u32, is_double: fn(u32) -> bool, equal: bool, leaf: u32) -> Term {
    if level == 16 {
        return vec![class(leaf)];
    }
    let below = |leaf| reaches(1, branches(level + 1, is_double, equal, leaf));
    let mut term = vec![below(leaf)];
    if is_double(level) {
        term.push(below(if equal { leaf } else { 16 - level }));
    }
    term
}
