//! OWL texts that are made to be slow, and an everyday one.

use super::directed::padded;
use super::source::{around, lay_out, Layout, Source, CHARACTERS, SORTS};
use super::{Text, MOST_BYTES};
use crate::random::{everyday, Rng};
use crate::text::Names;
use crate::vocabulary::Vocabulary;

/// Every text with its name, the everyday one first.
#[must_use]
pub fn texts() -> Vec<(&'static str, Text)> {
    const FILL: usize = MOST_BYTES;
    vec![
        ("everyday: 256 classes, 20 roles, 5 features, 300 axioms", everyday_text()),
        ("256 classes alike in 30 of 32, axioms of the last", text(30, 256, 256, FILL)),
        ("256 classes alike in 30 of 32, axioms of the first", text(30, 256, 1, FILL)),
        ("256 classes of 2, 1,024 axioms of the last", text(0, 256, 256, 1_024)),
        ("256 classes of 2, axioms of the last: 1", text(0, 256, 256, FILL)),
        ("1 class of 2, axioms: 1", text(0, 1, 1, FILL)),
        (
            "256 classes of one sum in base 31, axioms of the last",
            text_of(&one_sum, 256, 256, FILL),
        ),
        ("978 classes alike in 30 of 32, axioms of the last: 42", text(30, 978, 978, FILL)),
        ("1,236 classes alike in 30 of 32: 42", text(30, 1_236, 1, 0)),
        ("2,848 classes of 2: 42", text(0, 2_848, 1, 0)),
        ("64 roles and 64 features, 896 axioms, none of them functional", many_valued(896)),
        ("64 roles and 64 features, as many axioms as fit, none functional: 1", many_valued(FILL)),
        ("1 class and blanks", Text::of(padded(MOST_BYTES, 0))),
    ]
}

fn everyday_text() -> Text {
    let vocabulary = everyday::vocabulary(&mut Rng::new(1), 256);
    let axioms = vocabulary.said_in_owl();
    let vocabulary = Vocabulary { roles: 20, features: 5, axioms, ..vocabulary };
    let names = Names::numbered(":", &vocabulary);
    let tokens = around(Source { vocabulary, names }.forms().concat());
    Text::of(lay_out(&mut Rng::new(1), Layout::Lines, &tokens))
}

/// The name of a class, which has two characters of its own.
fn name(alike: usize, number: usize) -> String {
    let own = [number / 62, number % 62].map(|digit| char::from(CHARACTERS[digit]));
    format!(":{}{}{}", "a".repeat(alike), own[0], own[1])
}

/// The name of one of 256 classes that the sum of the bytes in base 31, a common hash, does not tell apart: "Aa" and "BB" have one.
fn one_sum(number: usize) -> String {
    let block = |bit: usize| if number >> bit & 1 == 0 { "Aa" } else { "BB" };
    format!(":{}{}", "a".repeat(16), (0..8).rev().map(block).collect::<String>())
}

/// A text of 64 roles and 64 features, each of which makes a record, and so many axioms, or as many as
/// fit.
fn many_valued(axioms: usize) -> Text {
    let sorts = [SORTS[1], SORTS[2]];
    let declaration = |sort, number| format!("Declaration({sort}({}))", name(0, number));
    let declarations = sorts.iter().flat_map(|sort| (1..=64).map(move |at| declaration(sort, at)));
    let front = format!("Declaration(Class(:A)){}", declarations.collect::<String>());
    let axiom = "SubClassOf(:A:A)";
    let room = MOST_BYTES - "Ontology()".len() - front.len();
    Text::of(format!("Ontology({front}{})", axiom.repeat(axioms.min(room / axiom.len()))))
}

/// A text of so many classes whose names begin alike, and so many axioms of one of them, or as many as fit.
fn text(alike: usize, classes: usize, used: usize, axioms: usize) -> Text {
    text_of(&|number| name(alike, number), classes, used, axioms)
}

/// The same of classes with these names.
fn text_of(name: &dyn Fn(usize) -> String, classes: usize, used: usize, axioms: usize) -> Text {
    let declaration = |number| format!("Declaration(Class({}))", name(number));
    let declarations: String = (1..=classes).map(declaration).collect();
    let used = name(used);
    let axiom = format!("SubClassOf({used}{used})");
    let room = MOST_BYTES - "Ontology()".len() - declarations.len();
    let axioms = axiom.repeat(axioms.min(room / axiom.len()));
    Text::of(format!("Ontology({declarations}{axioms})"))
}
