//! Valid vocabularies and policies.

use super::{models, Case, Rng};
use crate::classes::{ClassNo, FeatureNo, RoleNo};
use crate::encode::{move_records, policy_words, vocabulary_words};
use crate::policy::{Conjunct, Term};
use crate::vocabulary::{Axiom, Vocabulary};

/// What the pairs of a family look like; every number is the most there can be.
#[derive(Clone, Copy, Debug)]
pub struct Shape {
    classes: u32,
    roles: u32,
    features: u32,
    axioms: u32,
    /// Of the axioms, how many in 16 are "below", disjoint and ranges; the rest say again whether a name is functional.
    below: u32,
    disjoint: u32,
    ranges: u32,
    terms: u32,
    width: u32,
    depth: u32,
    /// Conjuncts in one term, all depths together.
    size: u32,
    /// Of the conjuncts, how many in 16 are roles and spans.
    reaches: u32,
    spans: u32,
    /// Values of small spans are below this.
    values: u32,
    /// Make the second policy from the first one's terms by widening and cutting.
    related: bool,
    /// Of the roles and features, how many in 4 are functional; the others have a record that makes them many-valued.
    functional: u32,
    /// Leave the layout in walk order and the tables without unreached records.
    tidy: bool,
}

impl Shape {
    /// For exhaustive search.
    #[must_use]
    pub fn tiny() -> Self {
        Self {
            classes: 2,
            roles: 1,
            features: 1,
            axioms: 4,
            below: 4,
            disjoint: 3,
            ranges: 3,
            terms: 2,
            width: 3,
            depth: 2,
            size: 4,
            reaches: 4,
            spans: 5,
            values: 3,
            related: false,
            functional: 2,
            tidy: true,
        }
    }

    /// A few names.
    #[must_use]
    pub fn small() -> Self {
        Self {
            classes: 6,
            roles: 3,
            features: 3,
            axioms: 10,
            below: 6,
            disjoint: 2,
            ranges: 3,
            terms: 3,
            width: 4,
            depth: 3,
            size: 8,
            reaches: 6,
            spans: 4,
            values: 12,
            related: true,
            functional: 2,
            tidy: false,
        }
    }

    /// Everyday size.
    #[must_use]
    pub fn medium() -> Self {
        Self {
            classes: 60,
            roles: 10,
            features: 5,
            axioms: 120,
            below: 11,
            disjoint: 1,
            ranges: 2,
            terms: 10,
            width: 8,
            depth: 6,
            size: 30,
            reaches: 7,
            spans: 2,
            values: 40,
            related: true,
            functional: 2,
            tidy: false,
        }
    }

    /// Rich in merges.
    #[must_use]
    pub fn merges() -> Self {
        Self {
            classes: 5,
            roles: 2,
            features: 2,
            axioms: 9,
            below: 3,
            disjoint: 1,
            ranges: 3,
            terms: 3,
            width: 6,
            depth: 6,
            size: 24,
            reaches: 9,
            spans: 4,
            values: 20,
            related: true,
            functional: 3,
            tidy: false,
        }
    }

    /// Rich in spans.
    #[must_use]
    pub fn coverage() -> Self {
        Self {
            classes: 3,
            roles: 2,
            features: 3,
            axioms: 6,
            below: 4,
            disjoint: 1,
            ranges: 2,
            terms: 3,
            width: 4,
            depth: 3,
            size: 8,
            reaches: 4,
            spans: 10,
            values: 9,
            related: true,
            functional: 1,
            tidy: false,
        }
    }

    /// So few names and values that conjuncts come to be equal.
    #[must_use]
    pub fn repeats() -> Self {
        Self {
            classes: 3,
            roles: 3,
            features: 2,
            axioms: 6,
            below: 3,
            disjoint: 1,
            ranges: 6,
            terms: 3,
            width: 3,
            depth: 4,
            size: 14,
            reaches: 8,
            spans: 4,
            values: 4,
            related: false,
            functional: 1,
            tidy: false,
        }
    }

    /// Long hierarchies.
    #[must_use]
    pub fn hierarchy() -> Self {
        Self {
            classes: 24,
            roles: 4,
            features: 1,
            axioms: 60,
            below: 11,
            disjoint: 2,
            ranges: 2,
            terms: 4,
            width: 4,
            depth: 4,
            size: 10,
            reaches: 6,
            spans: 1,
            values: 6,
            related: true,
            functional: 2,
            tidy: false,
        }
    }
}

/// A vocabulary, two policies and a model over it, and the slices.
#[must_use]
pub fn pair(rng: &mut Rng, shape: &Shape) -> Case {
    let vocabulary = vocabulary(rng, shape);
    let first = policy(rng, shape, &vocabulary);
    let second = if shape.related && !rng.once_in(4) {
        consent(rng, shape, &vocabulary, &first)
    } else {
        policy(rng, shape, &vocabulary)
    };
    let (first, second) = if rng.once_in(5) { (second, first) } else { (first, second) };
    let v = vocabulary_layout(rng, shape, &vocabulary);
    laid_out(rng, shape, v, &vocabulary, [&first, &second])
}

/// The policies in random layouts, with a model over the vocabulary, whose words are `v`, and the slices.
#[must_use]
pub fn laid_out(
    rng: &mut Rng,
    shape: &Shape,
    v: Vec<u32>,
    vocabulary: &Vocabulary,
    policies: [&[Term]; 2],
) -> Case {
    let [p, q] = policies.map(|terms| policy_layout(rng, shape, terms));
    let mut case = Case::of(v, p, q, Vec::new());
    case.m = models::model(rng, &case, vocabulary);
    case.lend(rng);
    case
}

/// A random vocabulary of this shape.
#[must_use]
pub fn vocabulary(rng: &mut Rng, shape: &Shape) -> Vocabulary {
    let classes = rng.between(1, shape.classes);
    let fewest = u32::from(!rng.once_in(8));
    let roles = rng.between(fewest, shape.roles);
    let fewest = u32::from(!rng.once_in(8));
    let features = rng.between(fewest, shape.features);
    let mut axioms = Vec::new();
    let mut is_many = || rng.below(4) >= shape.functional;
    axioms
        .extend((1..=roles).filter(|_| is_many()).map(|role| Axiom::ManyValuedRole(RoleNo(role))));
    let many = (1..=features).filter(|_| is_many());
    axioms.extend(many.map(|feature| Axiom::ManyValuedFeature(FeatureNo(feature))));
    let mut vocabulary = Vocabulary { classes, roles, features, axioms };
    for _ in 0..rng.between(0, shape.axioms) {
        let axiom = axiom(rng, shape, &vocabulary);
        vocabulary.axioms.extend(axiom);
    }
    rng.shuffle(&mut vocabulary.axioms);
    vocabulary
}

fn axiom(rng: &mut Rng, shape: &Shape, over: &Vocabulary) -> Option<Axiom> {
    let draw = rng.below(16);
    let class = |rng: &mut Rng| ClassNo(rng.between(1, over.classes));
    let role = |rng: &mut Rng| (over.roles > 0).then(|| RoleNo(rng.between(1, over.roles)));
    if draw < shape.below {
        let (a, b) = (class(rng), class(rng));
        // Mostly upward to smaller numbers, so that cycles stay few.
        let (a, b) = if a < b && !rng.once_in(8) { (b, a) } else { (a, b) };
        return Some(Axiom::Below(a, b));
    }
    if draw < shape.below + shape.disjoint {
        let (a, b) = (class(rng), class(rng));
        return (a != b || rng.once_in(8)).then_some(Axiom::Disjoint(a, b));
    }
    if draw < shape.below + shape.disjoint + shape.ranges {
        return Some(Axiom::Range(role(rng)?, class(rng)));
    }
    // What is many-valued already is said to be so again.
    let unless = |many: Axiom, one: Axiom| if over.axioms.contains(&many) { many } else { one };
    if rng.once_in(2) {
        let role = role(rng)?;
        return Some(unless(Axiom::ManyValuedRole(role), Axiom::FunctionalRole(role)));
    }
    (over.features > 0).then(|| {
        let feature = FeatureNo(rng.between(1, over.features));
        unless(Axiom::ManyValuedFeature(feature), Axiom::FunctionalFeature(feature))
    })
}

/// A random policy of this shape.
#[must_use]
pub fn policy(rng: &mut Rng, shape: &Shape, over: &Vocabulary) -> Vec<Term> {
    let count = if rng.once_in(12) { 0 } else { rng.between(1, shape.terms) };
    (0..count)
        .map(|_| {
            let mut left = rng.between(0, shape.size);
            chain(rng, shape, over, shape.depth, &mut left)
        })
        .collect()
}

fn chain(rng: &mut Rng, shape: &Shape, over: &Vocabulary, depth: u32, left: &mut u32) -> Term {
    let mut conjuncts = Vec::new();
    let fewest = u32::from(!rng.once_in(6));
    for _ in 0..rng.between(fewest, shape.width) {
        if *left == 0 {
            break;
        }
        *left -= 1;
        conjuncts.push(conjunct(rng, shape, over, depth, left));
    }
    conjuncts
}

fn conjunct(
    rng: &mut Rng,
    shape: &Shape,
    over: &Vocabulary,
    depth: u32,
    left: &mut u32,
) -> Conjunct {
    let draw = rng.below(16);
    if draw < shape.reaches && over.roles > 0 && depth > 1 {
        let role = RoleNo(rng.between(1, over.roles));
        return Conjunct::Reaches(role, chain(rng, shape, over, depth - 1, left));
    }
    if draw < shape.reaches + shape.spans && over.features > 0 {
        let (lo, hi) = span(rng, shape);
        return Conjunct::Within(FeatureNo(rng.between(1, over.features)), lo, hi);
    }
    if rng.once_in(40) {
        return Conjunct::Nothing;
    }
    Conjunct::Class(ClassNo(rng.between(1, over.classes)))
}

fn span(rng: &mut Rng, shape: &Shape) -> (u32, u32) {
    let (a, b) = (rng.below(shape.values), rng.below(shape.values));
    let (lo, hi) = if a > b && !rng.once_in(16) { (b, a) } else { (a, b) };
    if shape.tidy {
        return (lo, hi);
    }
    match rng.below(12) {
        0 => (lo, u32::MAX - hi),
        1 => (u32::MAX - hi, u32::MAX - lo),
        2 => (0, u32::MAX),
        _ => (lo, hi),
    }
}

/// A second policy made from the first one's terms: wider, or cut into terms that cover a span
/// only together; some terms of its own among them.
#[must_use]
pub fn consent(rng: &mut Rng, shape: &Shape, over: &Vocabulary, first: &[Term]) -> Vec<Term> {
    let mut terms = Vec::new();
    for term in first {
        if rng.once_in(10) {
            continue;
        }
        let mut wide = term.clone();
        if !rng.once_in(4) {
            widen(rng, over, &mut wide);
        }
        if rng.once_in(2) {
            terms.push(wide);
        } else {
            terms.extend(cut(rng, &wide));
        }
    }
    if rng.once_in(3) {
        terms.extend(policy(rng, shape, over));
    }
    if rng.once_in(3) {
        rng.shuffle(&mut terms);
    }
    terms
}

/// Makes a chain of conjuncts hold of more.
pub(super) fn widen(rng: &mut Rng, over: &Vocabulary, conjuncts: &mut Vec<Conjunct>) {
    conjuncts.retain(|_| !rng.once_in(6));
    for conjunct in conjuncts.iter_mut() {
        match conjunct {
            Conjunct::Class(class) => {
                let parents = parents(over, *class);
                if !parents.is_empty() && rng.once_in(2) {
                    *class = *rng.pick(&parents);
                }
            }
            Conjunct::Within(_, lo, hi) => {
                if *lo <= *hi && rng.once_in(3) {
                    *lo = lo.saturating_sub(rng.below(3));
                    *hi = hi.saturating_add(rng.below(3));
                }
            }
            Conjunct::Nothing => {}
            Conjunct::Reaches(_, inner) => widen(rng, over, inner),
        }
    }
}

fn parents(over: &Vocabulary, class: ClassNo) -> Vec<ClassNo> {
    let above = |axiom: &Axiom| match axiom {
        Axiom::Below(a, b) if *a == class => Some(*b),
        _ => None,
    };
    over.axioms.iter().filter_map(above).collect()
}

/// Cuts one span of a term in two or three; once in four one number is left out, and once in four
/// the parts overlap.
pub(super) fn cut(rng: &mut Rng, term: &Term) -> Vec<Term> {
    let spans = count_spans(term);
    if spans == 0 {
        return vec![term.clone()];
    }
    let chosen = rng.below(spans);
    let parts = rng.between(2, 3);
    let gap = rng.below(4);
    let mut copies = vec![term.clone(); parts as usize];
    let Some((lo, hi)) = nth_span(&mut copies[0], chosen).map(|(lo, hi)| (*lo, *hi)) else {
        return copies;
    };
    if hi <= lo {
        return copies;
    }
    let mut from = lo;
    for (copy, at) in copies.iter_mut().zip(1..) {
        let to = if at == parts { hi } else { rng.between(from, hi) };
        if let Some((low, high)) = nth_span(copy, chosen) {
            (*low, *high) = (from, to);
        }
        from = match gap {
            0 => to.saturating_add(2),
            1 => to,
            _ => to.saturating_add(1),
        };
    }
    copies
}

fn count_spans(conjuncts: &[Conjunct]) -> u32 {
    conjuncts
        .iter()
        .map(|conjunct| match conjunct {
            Conjunct::Within(..) => 1,
            Conjunct::Reaches(_, inner) => count_spans(inner),
            Conjunct::Class(_) | Conjunct::Nothing => 0,
        })
        .sum()
}

fn nth_span(conjuncts: &mut [Conjunct], mut n: u32) -> Option<(&mut u32, &mut u32)> {
    for conjunct in conjuncts {
        let inside = count_spans(std::slice::from_ref(conjunct));
        if n >= inside {
            n -= inside;
            continue;
        }
        return match conjunct {
            Conjunct::Within(_, lo, hi) => Some((lo, hi)),
            Conjunct::Reaches(_, inner) => nth_span(inner, n),
            Conjunct::Class(_) | Conjunct::Nothing => None,
        };
    }
    None
}

/// The words of a vocabulary, sometimes with records that no link reaches.
#[must_use]
pub fn vocabulary_layout(rng: &mut Rng, shape: &Shape, vocabulary: &Vocabulary) -> Vec<u32> {
    let mut words = vocabulary_words(vocabulary);
    if shape.tidy || !rng.once_in(3) {
        return words;
    }
    for _ in 0..rng.between(1, 4) {
        if words.len() + 4 <= 4_100 {
            insert_unreached(rng, &mut words, 4, &[3]);
        }
    }
    words
}

/// Puts a record of any words before a record, or at the end, and moves the links over it.
pub fn insert_unreached(rng: &mut Rng, words: &mut Vec<u32>, width: usize, links: &[usize]) {
    let before = rng.between(1, (words.len() / width) as u32);
    for (number, record) in words.chunks_exact_mut(width).enumerate() {
        let places = if number == 0 { header_links(width) } else { links };
        for &place in places {
            if record[place] >= before {
                record[place] = record[place].wrapping_add(1);
            }
        }
    }
    let filler: Vec<u32> = (0..width).map(|_| rng.word()).collect();
    let start = before as usize * width;
    words.splice(start..start, filler);
}

/// Where a table's header has its link: word 3 of a vocabulary, word 0 of the others.
#[must_use]
pub fn header_links(width: usize) -> &'static [usize] {
    if width == 4 {
        &[3]
    } else {
        &[0]
    }
}

/// The words of a policy: in walk order, or in any order that the link rule allows, sometimes with
/// records that no link reaches.
#[must_use]
pub fn policy_layout(rng: &mut Rng, shape: &Shape, terms: &[Term]) -> Vec<u32> {
    let mut words = policy_words(terms);
    if shape.tidy {
        return words;
    }
    if rng.once_in(2) {
        words = any_order(rng, &words);
    }
    if rng.once_in(3) {
        for _ in 0..rng.between(1, 4) {
            if words.len() + 6 <= 3_078 {
                insert_unreached(rng, &mut words, 6, &[4, 5]);
            }
        }
    }
    words
}

/// The same policy with its records in another legal order.
#[must_use]
pub fn any_order(rng: &mut Rng, words: &[u32]) -> Vec<u32> {
    let total = (words.len() / 6 - 1) as u32;
    let mut places = vec![0; total as usize];
    let mut open = vec![words[0]];
    let mut next = 1;
    open.retain(|&link| link != 0);
    while !open.is_empty() {
        let at = rng.place(open.len());
        let record = open.swap_remove(at) as usize;
        places[record - 1] = next;
        next += 1;
        open.extend(
            [words[record * 6 + 4], words[record * 6 + 5]].iter().filter(|&&link| link != 0),
        );
    }
    move_records(words, &places, total)
}
