//! One spelling of a policy (SPECIFICATION 6.7), written as words (9.13).

use crate::normal::Individual;
use crate::policy::{Place, Policy, DEEPEST};
use crate::vocabulary::{Rules, Vocabulary};
use crate::{clear, fill, possible_terms, Filling};

/// As many records as a policy may have.
const MOST_RECORDS: usize = 512;

/// A record without its links: kind, a, lo, hi and depth. Two are compared field by field, and two
/// lists of them record by record, a shorter beginning first: as arrays and vectors are.
type Record = [u32; 5];

/// SPECIFICATION 9.13: the vocabulary's refusals, the policy's, 21, 43, 23.
#[must_use]
pub fn spell(v: &[u32], p: &[u32], work: &mut [u32], out: &mut [u32]) -> Filling {
    written(v, p, work, out).unwrap_or_else(Filling::Refused)
}

fn written(v: &[u32], p: &[u32], work: &mut [u32], out: &mut [u32]) -> Result<Filling, u32> {
    let vocabulary = Vocabulary::read(v)?;
    let policy = Policy::read(&vocabulary, p, Place::First)?;
    clear(work)?;
    let records = spelling(&Rules::of(&vocabulary), &policy);
    if records.len() > MOST_RECORDS || records.iter().any(|&[.., depth]| depth > DEEPEST) {
        return Err(43);
    }
    fill(&words(&records), out)
}

/// SPECIFICATION 6.7: the records of the possible terms in walk order, repeats dropped.
fn spelling(rules: &Rules, policy: &Policy) -> Vec<Record> {
    let term = |root: &Individual| headed([5, 0, 0, 0, 0], conjuncts(root, 1));
    let terms = possible_terms(rules, policy).map(|(_, root)| term(&root));
    sorted(terms.collect()).concat()
}

/// The records of an individual's conjuncts, which stand at this depth, and of all below them:
/// classes rising, then spans by feature, lo and hi, then roles by number and by what they reach.
fn conjuncts(individual: &Individual, depth: u32) -> Vec<Record> {
    let classes = individual.stated.iter().map(|class| [1, class.0, 0, 0, depth]);
    let spans = individual.spans.iter().map(|span| [4, span.feature.0, span.lo, span.hi, depth]);
    let roles = individual
        .children
        .iter()
        .map(|(role, reached)| headed([3, role.0, 0, 0, depth], conjuncts(reached, depth + 1)));
    let mut records: Vec<Record> = classes.collect();
    records.extend(sorted(spans.collect()));
    records.extend(sorted(roles.collect()).concat());
    records
}

/// A record and its child chain.
fn headed(record: Record, chain: Vec<Record>) -> Vec<Record> {
    let mut records = vec![record];
    records.extend(chain);
    records
}

/// In their order, of equal ones one.
fn sorted<T: Ord>(mut items: Vec<T>) -> Vec<T> {
    items.sort();
    items.dedup();
    items
}

/// The words of records in walk order, numbered from 1. A child stands right behind its record; a
/// next is the first record behind that is no deeper, if it is as deep.
fn words(records: &[Record]) -> Vec<u32> {
    let depth_at = |at: usize| records.get(at).map(|&[.., depth]| depth);
    let mut words = vec![u32::from(!records.is_empty()), 0, 0, 0, 0, 0];
    for (at, &[kind, a, lo, hi, depth]) in records.iter().enumerate() {
        let link_to = |at: usize, wanted: u32| {
            if depth_at(at) == Some(wanted) {
                at as u32 + 1
            } else {
                0
            }
        };
        let child = link_to(at + 1, depth + 1);
        let mut behind = at + 1;
        while depth_at(behind).is_some_and(|other| other > depth) {
            behind += 1;
        }
        words.extend([kind, a, lo, hi, child, link_to(behind, depth)]);
    }
    words
}
