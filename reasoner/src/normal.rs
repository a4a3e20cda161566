//! Normal form by Table 1's seven rules, as a tree of individuals.

use crate::classes::{ClassSet, FeatureNo, RoleNo};
use crate::policy::Conjunct;
use crate::vocabulary::Rules;

/// A normalised constraint "feature has a value from lo to hi".
#[derive(Clone, Copy, Debug, PartialEq, Eq)]
pub struct Span {
    /// The feature.
    pub feature: FeatureNo,
    /// Lower end.
    pub lo: u32,
    /// Upper end, never below the lower one.
    pub hi: u32,
}

/// One individual of a normal form and all below it.
#[derive(Clone, Debug, PartialEq, Eq)]
pub struct Individual {
    /// Its number: "from 1, parent first, then each child's subtree in place order".
    pub number: u32,
    /// Its classes as they are stated, the role's range too.
    pub stated: ClassSet,
    /// The same closed upward.
    pub classes: ClassSet,
    /// Its constraints in place order.
    pub spans: Vec<Span>,
    /// The place of its first constraint among all of the term's.
    pub first_slot: usize,
    /// Its role values in place order.
    pub children: Vec<(RoleNo, Individual)>,
}

/// The conjuncts that one role value must satisfy: several chains where rule 4 merged them.
struct Reached<'a> {
    role: RoleNo,
    first: &'a [Conjunct],
    more: Vec<&'a [Conjunct]>,
}

/// The normal form of a term, or none if it is the impossible concept.
#[must_use]
pub fn normalise(rules: &Rules, term: &[Conjunct]) -> Option<Individual> {
    let mut root = individual(rules, term, &[], ClassSet::EMPTY, ClassSet::EMPTY)?;
    number(&mut root, &mut Numbering { individuals: 0, slots: 0 });
    Some(root)
}

/// Normalises the chains `first` and `more` as one intersection, for an individual that is in
/// `stated` already, and so in `classes`.
fn individual(
    rules: &Rules,
    first: &[Conjunct],
    more: &[&[Conjunct]],
    mut stated: ClassSet,
    mut classes: ClassSet,
) -> Option<Individual> {
    let mut spans: Vec<Span> = Vec::new();
    let mut reached: Vec<Reached<'_>> = Vec::new();
    for conjunct in std::iter::once(first).chain(more.iter().copied()).flatten() {
        match conjunct {
            Conjunct::Class(class) => {
                stated.insert(*class);
                classes.absorb(rules.above(*class));
            }
            Conjunct::Nothing => return None,
            Conjunct::Within(feature, lo, hi) => {
                add_span(rules, &mut spans, Span { feature: *feature, lo: *lo, hi: *hi });
            }
            Conjunct::Reaches(role, inner) => add_reached(rules, &mut reached, *role, inner),
        }
    }
    if rules.clash(&classes) || spans.iter().any(|span| span.lo > span.hi) {
        return None;
    }
    let mut children = Vec::with_capacity(reached.len());
    for Reached { role, first, more } in &reached {
        let (stated, classes) = (*rules.stated_range(*role), *rules.range(*role));
        children.push((*role, individual(rules, first, more, stated, classes)?));
    }
    Some(Individual { number: 0, stated, classes, spans, first_slot: 0, children })
}

/// Rule 5: constraints on a functional feature meet "at the first one's place".
fn add_span(rules: &Rules, spans: &mut Vec<Span>, new: Span) {
    if rules.is_functional_feature(new.feature) {
        if let Some(old) = spans.iter_mut().find(|old| old.feature == new.feature) {
            old.lo = old.lo.max(new.lo);
            old.hi = old.hi.min(new.hi);
            return;
        }
    }
    spans.push(new);
}

/// Rule 4: "the first's inner conjuncts before the second's".
fn add_reached<'a>(
    rules: &Rules,
    reached: &mut Vec<Reached<'a>>,
    role: RoleNo,
    inner: &'a [Conjunct],
) {
    if rules.is_functional_role(role) {
        if let Some(old) = reached.iter_mut().find(|old| old.role == role) {
            old.more.push(inner);
            return;
        }
    }
    reached.push(Reached { role, first: inner, more: Vec::new() });
}

struct Numbering {
    individuals: u32,
    slots: usize,
}

/// SPECIFICATION 7.3: constraints go by individual, then by place.
fn number(individual: &mut Individual, numbering: &mut Numbering) {
    numbering.individuals += 1;
    individual.number = numbering.individuals;
    individual.first_slot = numbering.slots;
    numbering.slots += individual.spans.len();
    for (_, child) in &mut individual.children {
        number(child, numbering);
    }
}

impl Individual {
    /// Calls the visitor for this individual and all below it, in the order of their numbers.
    pub fn visit<'a>(&'a self, visitor: &mut impl FnMut(&'a Individual)) {
        visitor(self);
        for (_, child) in &self.children {
            child.visit(visitor);
        }
    }
}
