//! A vocabulary from OWL 2 functional-style text (SPECIFICATION 3.4), by recursive descent on its
//! bytes.

use crate::classes::{ClassNo, FeatureNo, RoleNo};
use crate::encode::vocabulary_words;
use crate::vocabulary::{Axiom, Vocabulary, CLASSES, FEATURES, ROLES};
use crate::{fill, Filling};
use std::collections::HashMap;
use std::ops::RangeInclusive;

const MOST_BYTES: usize = 65_536;
const MOST_RECORDS: usize = 1_024;
const LONGEST_NAME: usize = 32;

/// Read OWL: 41 of the whole text, then 42, then 1, then 23.
#[must_use]
pub fn read_owl(text: &[u8], out: &mut [u32]) -> Filling {
    written(text, out).unwrap_or_else(Filling::Refused)
}

fn written(text: &[u8], out: &mut [u32]) -> Result<Filling, u32> {
    let ontology = Ontology::read(text).ok_or(41u32)?;
    let vocabulary = ontology.vocabulary().ok_or(42u32)?.read_as_owl();
    if vocabulary.axioms.len() > MOST_RECORDS {
        return Err(1);
    }
    fill(&vocabulary_words(&vocabulary), out)
}

/// A name without its colon.
type Name<'a> = &'a [u8];

/// An axiom as the text has it.
enum Stated<'a> {
    Below(Name<'a>, Name<'a>),
    Disjoint(Name<'a>, Name<'a>),
    FunctionalRole(Name<'a>),
    FunctionalFeature(Name<'a>),
    Range(Name<'a>, Name<'a>),
}

/// What a text says: the names declared in each sort and the axioms, all in their order.
#[derive(Default)]
struct Ontology<'a> {
    classes: Vec<Name<'a>>,
    roles: Vec<Name<'a>>,
    features: Vec<Name<'a>>,
    axioms: Vec<Stated<'a>>,
}

impl<'a> Ontology<'a> {
    /// Reads a text; none where it is too long or departs from the grammar.
    fn read(text: &'a [u8]) -> Option<Self> {
        if text.len() > MOST_BYTES {
            return None;
        }
        let mut ontology = Self::default();
        let mut rest = Tokens(text);
        if rest.keyword() != b"Ontology" {
            return None;
        }
        rest.sign(b'(')?;
        while rest.sign(b')').is_none() {
            ontology.read_form(&mut rest)?;
        }
        rest.is_at_end().then_some(ontology)
    }

    /// One of the eight forms.
    fn read_form(&mut self, rest: &mut Tokens<'a>) -> Option<()> {
        let keyword = rest.keyword();
        rest.sign(b'(')?;
        match keyword {
            b"Declaration" => self.read_declared(rest)?,
            b"SubClassOf" => self.axioms.push(Stated::Below(rest.name()?, rest.name()?)),
            b"DisjointClasses" => self.axioms.push(Stated::Disjoint(rest.name()?, rest.name()?)),
            b"FunctionalObjectProperty" => self.axioms.push(Stated::FunctionalRole(rest.name()?)),
            b"FunctionalDataProperty" => self.axioms.push(Stated::FunctionalFeature(rest.name()?)),
            b"ObjectPropertyRange" => self.axioms.push(Stated::Range(rest.name()?, rest.name()?)),
            _ => return None,
        }
        rest.sign(b')')
    }

    /// What stands in a declaration.
    fn read_declared(&mut self, rest: &mut Tokens<'a>) -> Option<()> {
        let names = match rest.keyword() {
            b"Class" => &mut self.classes,
            b"ObjectProperty" => &mut self.roles,
            b"DataProperty" => &mut self.features,
            _ => return None,
        };
        rest.sign(b'(')?;
        names.push(rest.name()?);
        rest.sign(b')')
    }

    /// The vocabulary; none where a count is out of range, or a name is declared twice in a sort or
    /// not in the sort that its place needs.
    fn vocabulary(&self) -> Option<Vocabulary> {
        let classes = numbered(&self.classes, CLASSES)?;
        let roles = numbered(&self.roles, ROLES)?;
        let features = numbered(&self.features, FEATURES)?;
        let class = |name| classes.get(name).copied().map(ClassNo);
        let role = |name| roles.get(name).copied().map(RoleNo);
        let feature = |name| features.get(name).copied().map(FeatureNo);
        let axiom = |stated: &Stated<'a>| {
            Some(match *stated {
                Stated::Below(a, b) => Axiom::Below(class(a)?, class(b)?),
                Stated::Disjoint(a, b) => Axiom::Disjoint(class(a)?, class(b)?),
                Stated::FunctionalRole(a) => Axiom::FunctionalRole(role(a)?),
                Stated::FunctionalFeature(a) => Axiom::FunctionalFeature(feature(a)?),
                Stated::Range(a, b) => Axiom::Range(role(a)?, class(b)?),
            })
        };
        Some(Vocabulary {
            classes: classes.len() as u32,
            roles: roles.len() as u32,
            features: features.len() as u32,
            axioms: self.axioms.iter().map(axiom).collect::<Option<_>>()?,
        })
    }
}

/// The names of a sort with their numbers; none where there are too few or too many, or one stands
/// there twice.
fn numbered<'a>(names: &[Name<'a>], counts: RangeInclusive<u32>) -> Option<HashMap<Name<'a>, u32>> {
    let numbers: HashMap<_, _> = names.iter().copied().zip(1..).collect();
    let fits = numbers.len() == names.len() && counts.contains(&(names.len() as u32));
    fits.then_some(numbers)
}

/// What is left of a text. Blanks before a token are passed over, and none is within a token.
struct Tokens<'a>(&'a [u8]);

impl<'a> Tokens<'a> {
    /// The longest run of such bytes, which may have none.
    fn run(&mut self, is_in: impl Fn(u8) -> bool) -> &'a [u8] {
        let end = self.0.iter().position(|&byte| !is_in(byte)).unwrap_or(self.0.len());
        let (run, rest) = self.0.split_at(end);
        self.0 = rest;
        run
    }

    fn pass_blanks(&mut self) {
        self.run(|byte| matches!(byte, b' ' | b'\t' | b'\n'));
    }

    fn is_at_end(&mut self) -> bool {
        self.pass_blanks();
        self.0.is_empty()
    }

    /// The longest run of letters.
    fn keyword(&mut self) -> &'a [u8] {
        self.pass_blanks();
        self.run(|byte| byte.is_ascii_alphabetic())
    }

    /// Takes this byte, if it is the next.
    fn sign(&mut self, wanted: u8) -> Option<()> {
        self.pass_blanks();
        let (&first, rest) = self.0.split_first()?;
        (first == wanted).then(|| self.0 = rest)
    }

    /// A colon and 1 to 32 letters or digits, as many as stand there.
    fn name(&mut self) -> Option<Name<'a>> {
        self.sign(b':')?;
        let name = self.run(|byte| byte.is_ascii_alphanumeric());
        (1..=LONGEST_NAME).contains(&name.len()).then_some(name)
    }
}
