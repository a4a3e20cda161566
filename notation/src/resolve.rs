//! From the names of a text to their numbers, and what is wrong with the names.

use crate::forms::{OWL, PREFIXES, VALUES};
use crate::left_out::{LeftOut, Mute};
use crate::mistake::{Mistake, Place};
use crate::names::{Names, Sort};
use crate::owl::{Found, Name};
use crate::scan::say;
use std::borrow::Cow;
use std::collections::hash_map::Entry;
use std::collections::{HashMap, HashSet};

const MOST_RECORDS: usize = 1_024;

/// The numbers of names by their whole IRIs, so that a name may be spelled in several ways.
#[derive(Clone, Debug, Default)]
pub(crate) struct Iris {
    /// What a prefix, with its colon, stands for.
    prefixes: HashMap<Vec<u8>, Vec<u8>>,
    numbers: [HashMap<Vec<u8>, u32>; 3],
}

impl Iris {
    fn new(declared: &HashMap<&[u8], &[u8]>) -> Self {
        let declared = declared.iter().map(|(&prefix, &iri)| (prefix, iri));
        let all = PREFIXES.into_iter().chain(declared);
        let prefixes = all.map(|(prefix, iri)| (prefix.to_vec(), iri.to_vec())).collect();
        Self { prefixes, ..Self::default() }
    }

    /// The whole IRI, as `<..>`. A name whose prefix is not known stands for itself.
    fn whole<'n>(&self, name: &'n [u8]) -> Cow<'n, [u8]> {
        let colon = name.iter().position(|&byte| byte == b':');
        let known = colon.and_then(|colon| {
            let (prefix, rest) = name.split_at(colon + 1);
            Some([b"<", &self.prefixes.get(prefix)?[..], rest, b">"].concat())
        });
        known.map_or(Cow::Borrowed(name), Cow::Owned)
    }

    pub fn number(&self, sort: Sort, name: &[u8]) -> Option<u32> {
        self.numbers[sort as usize].get(&*self.whole(name)).copied()
    }

    /// Names of OWL's own have a meaning, and stand for no other.
    fn is_owls(&self, name: &[u8]) -> bool {
        self.whole(name).strip_prefix(b"<").is_some_and(|iri| iri.starts_with(OWL))
    }
}

/// What a text's names say: each sort in its order, and the axioms as kind, a and b.
#[derive(Default)]
pub(crate) struct Resolved {
    pub names: Names,
    pub axioms: Vec<[u32; 3]>,
    pub iris: Iris,
    pub left_out: LeftOut,
}

/// Something wrong with the names, or with how many records there would be.
#[derive(Clone, Copy)]
enum Wrong<'a> {
    Owls(Name<'a>),
    Twice(Sort, Name<'a>),
    TooMany(Sort, Name<'a>),
    Undeclared(Sort, Name<'a>),
    NoClass(usize),
    TooManyRecords(usize),
}

/// The numbers of refusals in the order in which they are told.
const ORDER: [u32; 3] = [41, 42, 1];

impl Wrong<'_> {
    /// The place of its refusal in the order.
    fn rank(&self) -> usize {
        match self {
            Wrong::Owls(_) => 0,
            Wrong::TooManyRecords(_) => 2,
            _ => 1,
        }
    }

    fn at(&self) -> usize {
        match *self {
            Wrong::Owls(name) | Wrong::Twice(_, name) => name.at,
            Wrong::TooMany(_, name) | Wrong::Undeclared(_, name) => name.at,
            Wrong::NoClass(at) | Wrong::TooManyRecords(at) => at,
        }
    }
}

/// Finds out which name is which. Of several mistakes the one is told that the proved operation tells,
/// and of these the first in the text.
pub(crate) fn resolve(text: &[u8], mut found: Found<'_>) -> Result<Resolved, Mistake> {
    let mut iris = Iris::new(&found.prefixes);
    leave_out_owls(&iris, &mut found);
    let mut wrong = declare(&mut iris, &found);
    wrong.extend(undeclared(&iris, &found));
    let left = MOST_RECORDS.saturating_sub(many_valued(&iris, &found));
    wrong.extend(found.stated.get(left).map(|axiom| Wrong::TooManyRecords(axiom.at)));
    if let Some(first) = wrong.into_iter().min_by_key(|one| (one.rank(), one.at())) {
        let place = Place::START.behind(&text[..first.at()]);
        return Err(place.refused(ORDER[first.rank()], message(text, &found, &iris, first)));
    }
    let axioms = found.stated.iter().map(|axiom| {
        let numbers = axiom.form.sorts.iter().zip(&axiom.names);
        let mut numbers = numbers.filter_map(|(&sort, name)| iris.number(sort, name.text));
        [axiom.kind, numbers.next().unwrap_or(0), numbers.next().unwrap_or(0)]
    });
    let axioms = axioms.collect();
    let names = Names::each(|sort| {
        let declared = found.declared.iter().filter(|declared| declared.0 == sort);
        declared.map(|(_, name)| String::from_utf8_lossy(name.text).into_owned()).collect()
    });
    Ok(Resolved { names, axioms, iris, left_out: found.left_out })
}

/// Leaves out declarations of OWL's own names: what they mean is known without.
fn leave_out_owls(iris: &Iris, found: &mut Found<'_>) {
    let Found { declared, left_out, .. } = found;
    declared.retain(|(_, name)| {
        let is_owls = iris.is_owls(name.text);
        if is_owls {
            left_out.add(Mute::OwlsOwn);
        }
        !is_owls
    });
}

/// Numbers the names; gives what is wrong with their declarations.
fn declare<'a>(iris: &mut Iris, found: &Found<'a>) -> Vec<Wrong<'a>> {
    let mut wrong = Vec::new();
    for &(sort, name) in &found.declared {
        let whole = iris.whole(name.text).into_owned();
        let numbers = &mut iris.numbers[sort as usize];
        let next = numbers.len() + 1;
        match numbers.entry(whole) {
            Entry::Occupied(_) => wrong.push(Wrong::Twice(sort, name)),
            Entry::Vacant(entry) => {
                entry.insert(next as u32);
                if next > sort.most() {
                    wrong.push(Wrong::TooMany(sort, name));
                }
            }
        }
    }
    if iris.numbers[Sort::Class as usize].is_empty() {
        wrong.push(Wrong::NoClass(found.end));
    }
    wrong
}

/// How many roles and features no axiom states functional: the proved operation adds a record for each.
fn many_valued(iris: &Iris, found: &Found<'_>) -> usize {
    let is_functional = |kind: u32| VALUES.iter().any(|&(_, functional, _)| functional == kind);
    let functional = found.stated.iter().filter(|axiom| is_functional(axiom.kind));
    let functional = functional.flat_map(|axiom| axiom.form.sorts.iter().zip(&axiom.names));
    let functional: HashSet<(Sort, u32)> = functional
        .filter_map(|(&sort, name)| Some((sort, iris.number(sort, name.text)?)))
        .collect();
    let all = VALUES.iter().map(|&(sort, ..)| iris.numbers[sort as usize].len());
    all.sum::<usize>() - functional.len()
}

/// What is wrong with the names of axioms.
fn undeclared<'a>(iris: &Iris, found: &Found<'a>) -> Vec<Wrong<'a>> {
    let mut wrong = Vec::new();
    for axiom in &found.stated {
        for (&sort, &name) in axiom.form.sorts.iter().zip(&axiom.names) {
            if iris.is_owls(name.text) {
                wrong.push(Wrong::Owls(name));
            } else if iris.number(sort, name.text).is_none() {
                wrong.push(Wrong::Undeclared(sort, name));
            }
        }
    }
    wrong
}

fn message(text: &[u8], found: &Found<'_>, iris: &Iris, wrong: Wrong<'_>) -> String {
    match wrong {
        Wrong::Owls(name) => {
            format!("{} has a meaning of its own, and is no name of a vocabulary", say(name.text))
        }
        Wrong::Twice(sort, name) => {
            let whole = iris.whole(name.text);
            let is_same =
                |other: &&(Sort, Name<'_>)| other.0 == sort && iris.whole(other.1.text) == whole;
            let first = found.declared.iter().find(is_same).map_or(name.at, |first| first.1.at);
            let Place { line, column } = Place::START.behind(&text[..first]);
            let (what, name) = (sort.what(), say(name.text));
            format!("the {what} {name} is declared twice, first at {line}:{column}")
        }
        Wrong::TooMany(sort, name) => {
            let (what, most, name) = (sort.what(), sort.most(), say(name.text));
            format!("{name} is one {what} too many; there are at most {most}")
        }
        Wrong::Undeclared(sort, name) => {
            let hint = hint(found, iris, sort, name.text).unwrap_or_default();
            format!("the {} {} is not declared{hint}", sort.what(), say(name.text))
        }
        Wrong::NoClass(_) => "a vocabulary has at least one class; none is declared".to_owned(),
        Wrong::TooManyRecords(_) => format!(
            "a vocabulary has at most {MOST_RECORDS} records, one for each axiom and one for each \
             role or feature that is not stated functional"
        ),
    }
}

/// What may have been meant by a name that is not declared.
fn hint(found: &Found<'_>, iris: &Iris, sort: Sort, name: &[u8]) -> Option<String> {
    if let Some(other) = Sort::ALL.into_iter().find(|&sort| iris.number(sort, name).is_some()) {
        return Some(format!("; it is a {}", other.what()));
    }
    let declared = found.declared.iter().filter(|declared| declared.0 == sort);
    let near = declared.map(|(_, name)| name.text).find(|other| is_near(name, other))?;
    Some(format!("; did you mean {}?", say(near)))
}

/// Do they differ in one letter, or in two that have changed places? Of short names that says little.
fn is_near(one: &[u8], other: &[u8]) -> bool {
    const SHORT: usize = 4;
    if one.len().min(other.len()) < SHORT {
        return false;
    }
    let front = one.iter().zip(other).take_while(|(one, other)| one == other).count();
    let (one, other) = (&one[front..], &other[front..]);
    let back = one.iter().rev().zip(other.iter().rev()).take_while(|(one, other)| one == other);
    let back = back.count();
    match (&one[..one.len() - back], &other[..other.len() - back]) {
        ([] | [_], [] | [_]) => true,
        ([a, b], [c, d]) => (a, b) == (d, c),
        _ => false,
    }
}
