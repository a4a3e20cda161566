//! Reading a policy into a tree.

use crate::classes::{ClassNo, FeatureNo, RoleNo};
use crate::vocabulary::{link_fits, Vocabulary};

const RECORD: usize = 6;
const LONGEST: usize = 3_078;
/// The depth of the deepest conjunct.
pub(crate) const DEEPEST: u32 = 16;

/// A conjunct of a term, with what it holds inside.
#[derive(Clone, Debug, PartialEq, Eq)]
pub enum Conjunct {
    /// Kind 1: class a.
    Class(ClassNo),
    /// Kind 2: the impossible concept.
    Nothing,
    /// Kind 3: "role a reaches an individual in child"; no inner conjunct means every individual.
    Reaches(RoleNo, Vec<Conjunct>),
    /// Kind 4: "feature a has a value from lo to hi".
    Within(FeatureNo, u32, u32),
}

/// A term: its conjuncts in place order.
pub type Term = Vec<Conjunct>;

/// An accepted policy: its terms in the header's order.
#[derive(Clone, Debug, PartialEq, Eq)]
pub struct Policy {
    /// The terms.
    pub terms: Vec<Term>,
}

/// Which policy of the operation is read; the refusals are 4 to 8 or 14 to 18.
#[derive(Clone, Copy, Debug, PartialEq, Eq)]
pub enum Place {
    /// Refusals 4 to 8.
    First,
    /// SPECIFICATION 9.4: for a second policy these are 14 to 18.
    Second,
}

/// Why a policy is refused.
#[derive(Clone, Copy)]
enum Fault {
    Length,
    Header,
    Record,
    Reached,
    Depth,
}

impl Fault {
    fn number(self, place: Place) -> u32 {
        let first = match self {
            Self::Length => 4,
            Self::Header => 5,
            Self::Record => 6,
            Self::Reached => 7,
            Self::Depth => 8,
        };
        match place {
            Place::First => first,
            Place::Second => first + 10,
        }
    }
}

impl Policy {
    /// "Read policy", after the vocabulary.
    pub fn read(vocabulary: &Vocabulary, words: &[u32], place: Place) -> Result<Self, u32> {
        Self::walk(vocabulary, words).map_err(|fault| fault.number(place))
    }

    fn walk(vocabulary: &Vocabulary, words: &[u32]) -> Result<Self, Fault> {
        if words.len() % RECORD != 0 || words.len() < RECORD || words.len() > LONGEST {
            return Err(Fault::Length);
        }
        let last = (words.len() / RECORD - 1) as u32;
        if words[0] > last || words[1..RECORD].iter().any(|&word| word != 0) {
            return Err(Fault::Header);
        }
        let mut walk = Walk { vocabulary, words, last, reached: vec![false; last as usize + 1] };
        Ok(Self { terms: walk.terms(words[0])? })
    }
}

/// One record's words by name.
struct Record {
    kind: u32,
    a: u32,
    lo: u32,
    hi: u32,
    child: u32,
    next: u32,
}

/// The walk of a policy: "visits a record, then its child chain, then its next".
struct Walk<'a> {
    vocabulary: &'a Vocabulary,
    words: &'a [u32],
    last: u32,
    reached: Vec<bool>,
}

impl Walk<'_> {
    /// The header's chain of terms.
    fn terms(&mut self, first: u32) -> Result<Vec<Term>, Fault> {
        let mut terms = Vec::new();
        let mut at = first;
        while at != 0 {
            let record = self.arrive(at)?;
            let plain = record.kind == 5 && record.a == 0 && record.lo == 0 && record.hi == 0;
            if !plain || !self.links_fit(at, &record) {
                return Err(Fault::Record);
            }
            terms.push(self.conjuncts(record.child, 1)?);
            at = record.next;
        }
        Ok(terms)
    }

    /// A child chain, all of it at one depth; at each record 7 before 6 before 8.
    fn conjuncts(&mut self, first: u32, depth: u32) -> Result<Vec<Conjunct>, Fault> {
        let mut conjuncts = Vec::new();
        let mut at = first;
        while at != 0 {
            let record = self.arrive(at)?;
            let mut conjunct = self.conjunct(&record).ok_or(Fault::Record)?;
            if !self.links_fit(at, &record) {
                return Err(Fault::Record);
            }
            if depth > DEEPEST {
                return Err(Fault::Depth);
            }
            if let Conjunct::Reaches(_, inner) = &mut conjunct {
                *inner = self.conjuncts(record.child, depth + 1)?;
            }
            conjuncts.push(conjunct);
            at = record.next;
        }
        Ok(conjuncts)
    }

    /// "no record is reached twice"; gives the record's words.
    fn arrive(&mut self, at: u32) -> Result<Record, Fault> {
        let at = at as usize;
        if std::mem::replace(&mut self.reached[at], true) {
            return Err(Fault::Reached);
        }
        let &[kind, a, lo, hi, child, next] = &self.words[at * RECORD..(at + 1) * RECORD] else {
            unreachable!()
        };
        Ok(Record { kind, a, lo, hi, child, next })
    }

    fn links_fit(&self, at: u32, record: &Record) -> bool {
        link_fits(at, record.child, self.last) && link_fits(at, record.next, self.last)
    }

    /// SPECIFICATION 4.2: words that a kind does not use are 0. A role's inner conjuncts are still to be read.
    fn conjunct(&self, record: &Record) -> Option<Conjunct> {
        let &Record { kind, a, lo, hi, child, .. } = record;
        match kind {
            1 if lo == 0 && hi == 0 && child == 0 => self.vocabulary.class(a).map(Conjunct::Class),
            2 if a == 0 && lo == 0 && hi == 0 && child == 0 => Some(Conjunct::Nothing),
            3 if lo == 0 && hi == 0 => {
                self.vocabulary.role(a).map(|role| Conjunct::Reaches(role, Vec::new()))
            }
            4 if child == 0 => {
                self.vocabulary.feature(a).map(|feature| Conjunct::Within(feature, lo, hi))
            }
            _ => None,
        }
    }
}
