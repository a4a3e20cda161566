//! The text of people and the tables' words (`docs/SPECIFICATION.md`, 2 to 4 and 8), and a
//! countermodel told and drawn.
//!
//! A text is in OWL 2 functional-style syntax where OWL has the form:
//!
//! ```text
//! Declaration(Class(:Data))  Declaration(Class(:HeartRate))
//! Declaration(ObjectProperty(:uses))  Declaration(DataProperty(:days))
//! SubClassOf(:HeartRate :Data)  DisjointClasses(:A :B)
//! FunctionalObjectProperty(:uses)  FunctionalDataProperty(:days)  ObjectPropertyRange(:uses :Data)
//! Policy(Annotation(rdfs:label "alice") ObjectUnionOf(
//!   ObjectIntersectionOf(:Data ObjectSomeValuesFrom(:uses owl:Thing)
//!     DataSomeValuesFrom(:days DatatypeRestriction(xsd:integer
//!       xsd:minInclusive 1 xsd:maxInclusive "30"^^xsd:integer)))))
//! Policy(owl:Thing)
//! ```
//!
//! Declarations number the names in their order. `#` begins a comment. A policy may have a name,
//! `Annotation(rdfs:label "..")` at its front. Its records are laid out in the order of the walk,
//! unless `Annotation(:recordOrder "1 3 2")` there gives each record of the walk another number. Words
//! are ASCII; comments and strings may hold other bytes.
//!
//! # Vocabularies
//!
//! The words of a vocabulary are those that the proved operation `read_owl` writes. As in OWL, a role or
//! a feature of a text is many-valued unless it is stated functional: the words have a record for each
//! that is not. What the operation reads is narrow (SPECIFICATION 3.4), so that a vocabulary's text is
//! first taken to it:
//!
//! - `Ontology( )` may stand around the declarations and axioms, with an IRI, a version's IRI and
//!   annotations; `Prefix( )` before it. Declarations and axioms may have annotations. There may be
//!   axioms of annotations, and declarations of annotation properties, datatypes, individuals and
//!   names of OWL's own. All this states nothing, and is left out: [`Vocabulary::left_out`] says what
//!   there was.
//! - What else there is may state something. It is a mistake, and never left out.
//! - A name may be spelled `:A`, `prefix:A` or `<whole IRI>`, and is the same where the whole IRI is. A
//!   prefix that is not declared stands for itself. A name that the operation has no spelling for is
//!   handed to it in another, and told as it is declared.
//! - A mistake has the number with which the operation refuses such a text: 41, 42 or 1.
//!
//! [`Vocabulary::exact`] hands a text to the operation as it is, and says where and why it is refused.
//!
//! ```
//! use notation::{policy, policy_at, print_policy, Mistake, Policies, Vocabulary};
//!
//! # fn main() -> Result<(), Mistake> {
//! let vocabulary = Vocabulary::parse(b"Declaration(Class(:Data)) Declaration(Class(:Secret))")?;
//! assert_eq!(vocabulary.words(), [2, 0, 0, 0]);
//! let buyer = policy(&vocabulary, b"Policy(:Secret)")?;
//! assert_eq!(buyer.words, [1, 0, 0, 0, 0, 0, 5, 0, 0, 0, 2, 0, 1, 2, 0, 0, 0, 0]);
//!
//! // A file of consents: the second has a mistake, and the third is read all the same.
//! let file = &b"Policy(Annotation(rdfs:label \"alice\") :Data)\nPolicy(:Date)\nPolicy(:Data)"[..];
//! let mut read = Vec::new();
//! for piece in Policies::new(file) {
//!     let piece = piece.expect("each is a Policy(..)");
//!     read.push(policy_at(&vocabulary, &piece.bytes, piece.line, piece.column));
//! }
//! assert_eq!(read[0].as_ref().unwrap().name.as_deref(), Some("alice"));
//! let mistake = read[1].as_ref().unwrap_err();
//! assert_eq!((mistake.line, mistake.column), (2, 8));
//! assert_eq!(read[2].as_ref().unwrap().words, read[0].as_ref().unwrap().words);
//!
//! // Words are printed as a text that reads back.
//! let text = print_policy(vocabulary.names(), &buyer.words).expect("an accepted policy");
//! assert_eq!(policy(&vocabulary, text.as_bytes())?, buyer);
//! # Ok(())
//! # }
//! ```
//!
//! Nothing here is proved. What is read is handed to the proved library, which reads it, or accepts or
//! refuses its words.

#![forbid(unsafe_code)]

mod forms;
mod left_out;
mod mistake;
mod model;
mod names;
mod owl;
mod picture;
mod policy;
mod print;
mod resolve;
mod scan;
mod stream;
mod vocabulary;

pub use left_out::LeftOut;
pub use mistake::{Mistake, Trouble};
pub use model::{facts, model};
pub use names::Names;
pub use picture::picture;
pub use policy::Policy;
pub use print::{print_owl, print_policy, print_vocabulary};
pub use stream::{Piece, Policies, LONGEST};
pub use vocabulary::Vocabulary;

use mistake::Place;
use scan::{Scanned, Scanner};

/// Reads one policy: the text holds one `Policy(..)` and nothing else but comments.
///
/// # Errors
///
/// The first mistake of the text.
pub fn policy(vocabulary: &Vocabulary, text: &[u8]) -> Result<Policy, Mistake> {
    policy_at(vocabulary, text, 1, 1)
}

/// Does as [`policy`], for a text that begins at this line and column of its file.
///
/// # Errors
///
/// The first mistake of the text, with its place in the file.
pub fn policy_at(
    vocabulary: &Vocabulary,
    text: &[u8],
    line: usize,
    column: usize,
) -> Result<Policy, Mistake> {
    let mut scanner = Scanner::new(text);
    let read = one_policy(vocabulary, &mut scanner);
    told(read.map_err(|found| scanner.first(found)), text, Place { line, column })
}

fn next_policy(vocabulary: &Vocabulary, scanner: &mut Scanner<'_>) -> Scanned<Policy> {
    scanner.this_word("Policy")?;
    policy::read(vocabulary, scanner)
}

fn one_policy(vocabulary: &Vocabulary, scanner: &mut Scanner<'_>) -> Scanned<Policy> {
    let read = next_policy(vocabulary, scanner)?;
    match scanner.peek() {
        None => Ok(read),
        Some(_) => Err(scanner.unexpected("nothing behind the policy")),
    }
}

/// A vocabulary and policies in one text.
#[derive(Clone, Debug)]
pub struct Document {
    /// The vocabulary.
    pub vocabulary: Vocabulary,
    /// The policies, in the order of the text.
    pub policies: Vec<Policy>,
}

/// Reads a vocabulary and any number of policies beside it.
///
/// # Errors
///
/// The first mistake of the vocabulary, or else of the policies.
pub fn document(text: &[u8]) -> Result<Document, Mistake> {
    let (vocabulary, places) = Vocabulary::read(text, true)?;
    let policies = places.into_iter().map(|at| {
        let mut scanner = Scanner::new(text);
        scanner.go_to(at);
        told(next_policy(&vocabulary, &mut scanner), text, Place::START)
    });
    let policies = policies.collect::<Result<_, _>>()?;
    Ok(Document { vocabulary, policies })
}

/// What was read of a text that begins at this place, or the mistake with its line and column.
fn told<T>(read: Scanned<T>, text: &[u8], start: Place) -> Result<T, Mistake> {
    read.map_err(|fault| start.behind(&text[..fault.at]).mistake(fault.message))
}
