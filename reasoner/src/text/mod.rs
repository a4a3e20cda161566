//! A readable text of a vocabulary and two policies, in OWL 2 functional-style syntax where OWL
//! has the form, to the program's bytes and back.
//!
//! ```text
//! Declaration(Class(:Data))  Declaration(Class(:HeartRate))
//! Declaration(ObjectProperty(:has))  Declaration(DataProperty(:days))
//! SubClassOf(:HeartRate :Data)  DisjointClasses(:A :B)
//! FunctionalObjectProperty(:has)  FunctionalDataProperty(:days)  ObjectPropertyRange(:has :Data)
//! Policy(ObjectUnionOf(
//!   ObjectIntersectionOf(:Data ObjectSomeValuesFrom(:has owl:Thing)
//!     DataSomeValuesFrom(:days DatatypeRestriction(xsd:integer
//!       xsd:minInclusive 1 xsd:maxInclusive 30)))))
//! Policy(owl:Thing)
//! ```
//!
//! Declarations number the names in their order. As in OWL, a role or a feature is many-valued unless it
//! is stated functional: the words gain a record for each that is not, and what is functional by
//! default is printed as stated so. The first policy stands before the second. OWL
//! writes a number as `"30"^^xsd:integer`, and so does the printer; 30 alone is read too. A
//! policy's records are laid out in the order of the walk, unless `Annotation(:recordOrder "1 3 2")`
//! at its front gives each record of the walk another number.

mod answer;
mod lexer;
mod parser;
mod printer;

use crate::encode::{move_records, policy_words, vocabulary_words, walk_order};
use crate::policy::{Place, Policy, Term};
use crate::program::{bytes_of_parts, parts_of_bytes};
use crate::vocabulary::Vocabulary;
use std::fmt;

/// A mistake in a text, with its place.
#[derive(Clone, Debug, PartialEq, Eq)]
pub struct Mistake {
    /// The line, from 1.
    pub line: usize,
    /// The column, from 1, in characters.
    pub column: usize,
    /// What is wrong.
    pub message: String,
}

impl fmt::Display for Mistake {
    fn fmt(&self, f: &mut fmt::Formatter<'_>) -> fmt::Result {
        write!(f, "line {}, column {}: {}", self.line, self.column, self.message)
    }
}

impl std::error::Error for Mistake {}

/// The names of the three series; number 1 stands first.
#[derive(Clone, Debug, Default, PartialEq, Eq)]
pub struct Names {
    /// Class names.
    pub classes: Vec<String>,
    /// Role names.
    pub roles: Vec<String>,
    /// Feature names.
    pub features: Vec<String>,
}

impl Names {
    /// Names made of numbers, behind a beginning such as ":": then they are :C1, :r1, :f1.
    #[must_use]
    pub fn numbered(beginning: &str, vocabulary: &Vocabulary) -> Self {
        let series = |letter: &str, count: u32| {
            (1..=count).map(|number| format!("{beginning}{letter}{number}")).collect()
        };
        Self {
            classes: series("C", vocabulary.classes),
            roles: series("r", vocabulary.roles),
            features: series("f", vocabulary.features),
        }
    }
}

/// A policy as a text has it.
#[derive(Clone, Debug, Default, PartialEq, Eq)]
pub struct PolicyText {
    /// Its terms.
    pub terms: Vec<Term>,
    /// The number of each record, in the order of the walk; none when they are 1, 2, 3 and so on.
    pub order: Option<Vec<u32>>,
}

impl PolicyText {
    fn words(&self) -> Vec<u32> {
        let words = policy_words(&self.terms);
        match &self.order {
            None => words,
            Some(order) => move_records(&words, order, order.len() as u32),
        }
    }

    /// Reads back an accepted policy; records that no link reaches are left out.
    fn of(policy: Policy, words: &[u32]) -> Self {
        let mut order = walk_order(words);
        let mut sorted = order.clone();
        sorted.sort_unstable();
        for number in &mut order {
            *number = sorted.partition_point(|other| other < number) as u32 + 1;
        }
        let straight = order.is_sorted();
        Self { terms: policy.terms, order: (!straight).then_some(order) }
    }
}

/// A vocabulary with names, and two policies.
#[derive(Clone, Debug, PartialEq, Eq)]
pub struct Document {
    /// The names.
    pub names: Names,
    /// The vocabulary.
    pub vocabulary: Vocabulary,
    /// The first policy.
    pub first: PolicyText,
    /// The second policy.
    pub second: PolicyText,
}

impl Document {
    /// Reads a text.
    pub fn parse(text: &str) -> Result<Self, Mistake> {
        parser::document(text)
    }

    /// Reads the program's bytes; the error is the program's refusal.
    pub fn decode(bytes: &[u8]) -> Result<Self, u32> {
        let [v, p, q] = parts_of_bytes(bytes).ok_or(40u32)?;
        let vocabulary = Vocabulary::read(&v)?;
        let first = Policy::read(&vocabulary, &p, Place::First)?;
        let second = Policy::read(&vocabulary, &q, Place::Second)?;
        Ok(Self {
            names: Names::numbered(":", &vocabulary),
            first: PolicyText::of(first, &p),
            second: PolicyText::of(second, &q),
            vocabulary,
        })
    }

    /// The words of the vocabulary and the two policies.
    #[must_use]
    pub fn words(&self) -> [Vec<u32>; 3] {
        [vocabulary_words(&self.vocabulary), self.first.words(), self.second.words()]
    }

    /// The program's bytes.
    #[must_use]
    pub fn encode(&self) -> Vec<u8> {
        let [v, p, q] = self.words();
        bytes_of_parts(&v, &p, &q)
    }

    /// The declarations and axioms of the vocabulary, which are OWL as they stand.
    #[must_use]
    pub fn axioms(&self) -> String {
        let mut text = String::new();
        printer::vocabulary(&self.names, &self.vocabulary, &mut text)
            .expect("a string takes every line");
        text
    }

    /// The two policies as class expressions, which are OWL as they stand.
    #[must_use]
    pub fn expressions(&self) -> [String; 2] {
        [&self.first, &self.second].map(|policy| printer::union(&self.names, &policy.terms))
    }

    /// The answer that the program printed for this text, in words and with the text's names.
    pub fn aloud(&self, answer: &str) -> Result<String, String> {
        answer::aloud(&self.names, answer)
    }
}

impl fmt::Display for Document {
    /// The text, which reads back as this document if its vocabulary is one that a text has; else as one
    /// that says the same.
    fn fmt(&self, f: &mut fmt::Formatter<'_>) -> fmt::Result {
        printer::document(self, f)
    }
}

/// What a refusal's number says.
#[must_use]
pub fn refusal(number: u32) -> &'static str {
    match number {
        1 => "the vocabulary's length is no multiple of 4, under 4 words or over 4,100",
        2 => "in the vocabulary's header a count is out of range or the link is past the last record",
        3 => "a record of the vocabulary's chain has an unknown kind, a name outside its series, a b that should be 0, or a link that does not rise",
        4 => "the first policy's length is no multiple of 6, under 6 words or over 3,078",
        5 => "the first policy's header links past the last record, or another of its words is not 0",
        6 => "a record of the first policy has a wrong kind, name, zero or link, or stands where its kind may not",
        7 => "a record of the first policy is reached twice",
        8 => "a conjunct of the first policy is at depth 17",
        14 => "the second policy's length is no multiple of 6, under 6 words or over 3,078",
        15 => "the second policy's header links past the last record, or another of its words is not 0",
        16 => "a record of the second policy has a wrong kind, name, zero or link, or stands where its kind may not",
        17 => "a record of the second policy is reached twice",
        18 => "a conjunct of the second policy is at depth 17",
        21 => "the work slice has under 16,384 words",
        22 => "a possible term has over 65,536 combinations of pieces",
        23 => "what is to be written takes more words than the output has",
        31 => "the model's length is no multiple of 5, under 5 words or over 700,005",
        32 => "the model's header links past the last record, counts individuals outside 1 to 512, or has a word that should be 0",
        33 => "a record of the model's chain has an unknown kind, a name outside its series, an individual outside the header's count, a word that should be 0, or a link that does not rise",
        40 => "the input is over 65,536 bytes, cut short, or followed by more",
        41 => "the text is over 65,536 bytes, or is not one Ontology( ) of the eight forms",
        42 => "a name is declared twice in one sort or not in the sort that its place needs, or the names of a sort are too few or too many",
        43 => "the policy's spelling has over 512 records, or one at depth 17",
        44 => "a role or a feature of the vocabulary is stated both functional and many-valued",
        45 => "the load's seed is not from 1 to 2,147,483,646, its classes are not from 1 to 256, or its terms are not from 1 to 100",
        _ => "no refusal",
    }
}
