//! OWL texts with something wrong: forms, tokens or bytes changed, and texts of any kind.

use super::source::{around, form as within, lay_out, name, Form, Layout, Token, SORTS};
use super::MOST_BYTES;
use crate::random::Rng;

/// Keywords and signs of the eight forms.
const OWN: [&str; 13] = [
    "Ontology",
    "Declaration",
    SORTS[0],
    SORTS[1],
    SORTS[2],
    "SubClassOf",
    "DisjointClasses",
    "FunctionalObjectProperty",
    "FunctionalDataProperty",
    "ObjectPropertyRange",
    "(",
    ")",
    ":",
];

/// What OWL or an editor has besides, and what is nearly a token.
const STRANGE: [&str; 24] = [
    "# a comment\n",
    "<urn:example>",
    "Import(<urn:example>)",
    "Annotation(rdfs:label \"a\")",
    "EquivalentClasses(:a :b)",
    "DataPropertyRange",
    "FunctionalProperty",
    "NamedIndividual",
    "owl:Thing",
    "ontology",
    "CLASS",
    "SubclassOf",
    "Class1",
    ":a_b",
    ":a-b",
    ":\u{e9}",
    "\"a\"",
    "\u{a0}",
    "\u{feff}",
    "\r",
    "\r\n",
    "\u{b}",
    ",",
    "()",
];

/// Bytes that an end of a token, a limit of letters and digits, or an editor's text has.
const LIKELY: &[u8] = b"()::  \t\n\r\x0b\x0c\0aAzZ09/;@[`{#<>\"'=_-.,\\\x7f\x80\xa0\xc3\xff";

/// One change of the forms, each of which stays as it should be; so it is the names that may be wrong.
pub fn form(rng: &mut Rng, forms: &mut Vec<Form>) {
    if forms.is_empty() {
        return;
    }
    let (at, other) = (rng.place(forms.len()), rng.place(forms.len()));
    match rng.below(6) {
        0 => {
            forms.remove(at);
        }
        1 => forms.insert(at, forms[other].clone()),
        2 => forms.swap(at, other),
        3 => {
            let fresh = name(rng).into();
            put_name(rng, &mut forms[at], fresh);
        }
        4 => {
            let there = names(&forms[other]);
            let taken = forms[other][*rng.pick(&there)].clone();
            put_name(rng, &mut forms[at], taken);
        }
        _ => {
            let sort = *rng.pick(&SORTS);
            if let Some(own) = forms[at].iter_mut().find(|token| SORTS.contains(&token.as_ref())) {
                *own = sort.into();
            }
        }
    }
}

/// Where a form has its names.
fn names(form: &Form) -> Vec<usize> {
    (0..form.len()).filter(|&at| form[at].starts_with(':')).collect()
}

fn put_name(rng: &mut Rng, form: &mut Form, name: Token) {
    let at = *rng.pick(&names(form));
    form[at] = name;
}

/// One change of the tokens.
pub fn token(rng: &mut Rng, tokens: &mut Vec<Token>) {
    if tokens.is_empty() {
        return;
    }
    let (at, other) = (rng.place(tokens.len()), rng.place(tokens.len()));
    match rng.below(9) {
        0 => {
            tokens.remove(at);
        }
        1 => tokens.insert(at, tokens[at].clone()),
        2 => tokens.swap(at, other),
        3 => tokens[at] = tokens[other].clone(),
        4 => tokens[at] = any_token(rng),
        5 => tokens.insert(at, any_token(rng)),
        6 => tokens.insert(0, "Prefix(:=<urn:example#>)\n".into()),
        7 => tokens.insert(at, (*rng.pick(&STRANGE)).into()),
        _ => tokens[at] = respelled(rng, &tokens[at]).into(),
    }
}

fn any_token(rng: &mut Rng) -> Token {
    match rng.below(3) {
        0 => name(rng).into(),
        1 => (*rng.pick(&OWN)).into(),
        _ => (*rng.pick(&STRANGE)).into(),
    }
}

/// A token with a letter of the other case, cut in two, without its end, or too long for a name.
fn respelled(rng: &mut Rng, token: &str) -> String {
    let mut letters: Vec<char> = token.chars().collect();
    // A change before this one may have left none.
    if letters.is_empty() {
        return String::new();
    }
    let at = rng.place(letters.len());
    match rng.below(4) {
        0 => letters[at] = flipped(letters[at]),
        1 => letters.insert(at, ' '),
        2 => letters.truncate(at),
        _ => letters.resize(34, '0'),
    }
    letters.into_iter().collect()
}

fn flipped(letter: char) -> char {
    if letter.is_ascii_lowercase() {
        letter.to_ascii_uppercase()
    } else {
        letter.to_ascii_lowercase()
    }
}

/// One change of the bytes.
pub fn byte(rng: &mut Rng, bytes: &mut Vec<u8>) {
    if bytes.is_empty() {
        return;
    }
    let at = rng.place(bytes.len());
    if rng.once_in(200) {
        let length = *rng.pick(&[MOST_BYTES - 1, MOST_BYTES, MOST_BYTES + 1]);
        let blanks = vec![b' '; length - length.min(bytes.len())];
        bytes.splice(at..at, blanks);
        return;
    }
    match rng.below(7) {
        0 => bytes[at] = any_byte(rng),
        1 => {
            bytes.remove(at);
        }
        2 => bytes.insert(at, bytes[at]),
        3 => bytes.insert(at, any_byte(rng)),
        4 => bytes.swap(at, at.saturating_sub(1)),
        5 => bytes.truncate(at),
        _ => bytes[at] ^= 1 << rng.below(8),
    }
}

fn any_byte(rng: &mut Rng) -> u8 {
    if rng.once_in(4) {
        rng.bits() as u8
    } else {
        *rng.pick(LIKELY)
    }
}

/// Tokens in any order, mostly with the brackets where a form has them.
pub fn random_tokens(rng: &mut Rng) -> Vec<u8> {
    let mut forms: Vec<Form> = (0..rng.below(8)).map(|_| random_form(rng)).collect();
    if rng.once_in(2) {
        forms.insert(0, within("Declaration", within("Class", [":a".into()])));
    }
    let tokens = if rng.once_in(4) { forms.concat() } else { around(forms) };
    let layout = *rng.pick(&Layout::ALL);
    lay_out(rng, layout, &tokens)
}

/// A form with up to three names, or any tokens.
fn random_form(rng: &mut Rng) -> Form {
    let few: [Token; 3] = [":a".into(), ":b".into(), ":0".into()];
    let count = rng.below(4);
    let inner: Form = if rng.once_in(4) {
        (0..count).map(|_| any_token(rng)).collect()
    } else {
        (0..count).map(|_| rng.pick(&few).clone()).collect()
    };
    let keyword = *rng.pick(&OWN[..10]);
    if rng.once_in(2) {
        within("Declaration", within(keyword, inner))
    } else {
        within(keyword, inner)
    }
}

/// Bytes of any kind, or likely ones, few or about as many as may be.
pub fn random_bytes(rng: &mut Rng) -> Vec<u8> {
    let most = MOST_BYTES as u32;
    let length = if rng.once_in(200) { rng.between(most - 2, most + 2) } else { rng.below(100) };
    if rng.once_in(2) {
        (0..length).map(|_| rng.bits() as u8).collect()
    } else {
        (0..length).map(|_| any_byte(rng)).collect()
    }
}
