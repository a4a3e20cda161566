//! From a vocabulary with names to a text that says it, in any order and any layout.

use crate::classes::{ClassNo, FeatureNo, RoleNo};
use crate::encode::vocabulary_words;
use crate::random::valid::{vocabulary, Shape};
use crate::random::Rng;
use crate::text::Names;
use crate::vocabulary::{Axiom, Vocabulary};
use std::borrow::Cow;
use std::collections::HashSet;
use std::iter;

/// A keyword, a sign, or a name with its colon.
pub type Token = Cow<'static, str>;

/// The tokens of a declaration or an axiom.
pub type Form = Vec<Token>;

/// The keywords of the sorts: classes, roles and features.
pub const SORTS: [&str; 3] = ["Class", "ObjectProperty", "DataProperty"];

/// What a name is made of.
pub const CHARACTERS: &[u8; 62] = b"0123456789ABCDEFGHIJKLMNOPQRSTUVWXYZabcdefghijklmnopqrstuvwxyz";

/// What a text says.
#[derive(Clone, Debug)]
pub struct Source {
    /// The names' counts and the axioms, as OWL has them.
    pub vocabulary: Vocabulary,
    /// Its names, each with its colon.
    pub names: Names,
}

impl Source {
    /// A few names and axioms; one in some hundreds has as many as it may, or a few more.
    pub fn random(rng: &mut Rng) -> Self {
        let said = |whole: Vocabulary| Vocabulary { axioms: whole.said_in_owl(), ..whole };
        let vocabulary = match rng.below(600) {
            0 => full(rng),
            1..20 => said(vocabulary(rng, &Shape::medium())),
            _ => said(vocabulary(rng, &Shape::small())),
        };
        let names = names(rng, &vocabulary);
        Self { vocabulary, names }
    }

    /// The words that the text is read to.
    #[must_use]
    pub fn words(&self) -> Vec<u32> {
        vocabulary_words(&self.vocabulary.clone().read_as_owl())
    }

    /// The declarations of classes, of roles and of features, and the axioms.
    #[must_use]
    pub fn forms(&self) -> [Vec<Form>; 4] {
        let Names { classes, roles, features } = &self.names;
        let declared = |sort: &'static str, names: &[String]| -> Vec<Form> {
            names.iter().map(|name| declaration(sort, name)).collect()
        };
        let [class, role, feature] = SORTS;
        let axioms = self.vocabulary.axioms.iter().map(|&one| axiom(&self.names, one)).collect();
        [declared(class, classes), declared(role, roles), declared(feature, features), axioms]
    }

    /// The forms as an editor has them, the other way round, or mixed; those of a list keep their
    /// order, so that each of these texts says the same.
    pub fn forms_in_any_order(&self, rng: &mut Rng) -> Vec<Form> {
        let lists = self.forms();
        let turns = lists.iter().zip(0..).flat_map(|(list, at)| iter::repeat_n(at, list.len()));
        let mut turns: Vec<usize> = turns.collect();
        match rng.below(3) {
            0 => {}
            1 => turns.reverse(),
            _ => rng.shuffle(&mut turns),
        }
        let mut lists = lists.map(Vec::into_iter);
        turns.into_iter().filter_map(|at| lists[at].next()).collect()
    }
}

/// As many of something as a vocabulary may have, or about as many.
fn full(rng: &mut Rng) -> Vocabulary {
    let most = |rng: &mut Rng, most: u32| {
        if rng.once_in(2) {
            rng.between(1, 4)
        } else {
            rng.between(most - 2, most + 1)
        }
    };
    let (classes, roles, features) = (most(rng, 256), most(rng, 64), most(rng, 64));
    let mut axioms = Vec::new();
    let stated = (1..=roles).filter(|_| rng.once_in(2));
    axioms.extend(stated.map(|role| Axiom::FunctionalRole(RoleNo(role))));
    let stated = (1..=features).filter(|_| rng.once_in(2));
    axioms.extend(stated.map(|feature| Axiom::FunctionalFeature(FeatureNo(feature))));
    // Stated or not, each role and feature has a record of its own.
    let rest = most(rng, 1_024).saturating_sub(roles + features);
    let class = |rng: &mut Rng| ClassNo(rng.between(1, classes));
    axioms.extend((0..rest).map(|_| Axiom::Below(class(rng), class(rng))));
    rng.shuffle(&mut axioms);
    Vocabulary { classes, roles, features, axioms }
}

/// Names for a vocabulary. One in three stands in another sort too.
fn names(rng: &mut Rng, vocabulary: &Vocabulary) -> Names {
    let mut drawn: Vec<String> = Vec::new();
    let mut sort = |count: u32| -> Vec<String> {
        let mut own = Vec::new();
        let mut seen = HashSet::new();
        while own.len() < count as usize {
            let again = !drawn.is_empty() && rng.once_in(3);
            let name = if again { rng.pick(&drawn).clone() } else { name(rng) };
            if seen.insert(name.clone()) {
                own.push(name);
            }
        }
        drawn.extend_from_slice(&own);
        own
    };
    Names {
        classes: sort(vocabulary.classes),
        roles: sort(vocabulary.roles),
        features: sort(vocabulary.features),
    }
}

/// A name: of one character, of 32 that are like others but for the last two, a keyword, or a few
/// characters, often like others but for the case.
pub fn name(rng: &mut Rng) -> String {
    let mut some = |from: &[u8], count: u32| -> String {
        (0..count).map(|_| char::from(*rng.pick(from))).collect()
    };
    let one = some(CHARACTERS, 1);
    let few = some(b"aAbB01", 4);
    match rng.below(8) {
        0 => format!(":{one}"),
        1 => format!(":{}{}", "Abcdefghijklmnopqrstuvwxyz0123", &few[..2]),
        2 => format!(":{}", rng.pick(&[SORTS[0], SORTS[1], SORTS[2], "Ontology", "SubClassOf"])),
        3 => format!(":{one}{}{one}", few.repeat(rng.between(0, 7) as usize)),
        _ => format!(":{few}"),
    }
}

/// A form: what stands in brackets behind a keyword.
pub fn form(keyword: &'static str, inner: impl IntoIterator<Item = Token>) -> Form {
    let front = [Token::from(keyword), Token::from("(")];
    front.into_iter().chain(inner).chain([Token::from(")")]).collect()
}

fn declaration(sort: &'static str, name: &str) -> Form {
    form("Declaration", form(sort, [Token::from(name.to_owned())]))
}

fn axiom(names: &Names, axiom: Axiom) -> Form {
    let one = |names: &[String], number: u32| Token::from(names[number as usize - 1].clone());
    let class = |class: ClassNo| one(&names.classes, class.0);
    let role = |role: RoleNo| one(&names.roles, role.0);
    match axiom {
        Axiom::Below(a, b) => form("SubClassOf", [class(a), class(b)]),
        Axiom::Disjoint(a, b) => form("DisjointClasses", [class(a), class(b)]),
        Axiom::FunctionalRole(a) => form("FunctionalObjectProperty", [role(a)]),
        Axiom::FunctionalFeature(a) => form("FunctionalDataProperty", [one(&names.features, a.0)]),
        Axiom::Range(a, b) => form("ObjectPropertyRange", [role(a), class(b)]),
        Axiom::ManyValuedRole(_) | Axiom::ManyValuedFeature(_) => {
            unreachable!("OWL has no axiom for what is many-valued")
        }
    }
}

/// The forms within `Ontology( )`.
#[must_use]
pub fn around(forms: Vec<Form>) -> Vec<Token> {
    form("Ontology", forms.into_iter().flatten())
}

/// Where blanks stand.
#[derive(Clone, Copy, Debug, PartialEq, Eq)]
pub enum Layout {
    /// Nowhere: no token needs them.
    Tight,
    /// A line for each form, as an editor writes it.
    Lines,
    /// Here and there.
    Some,
    /// Before, between and after all tokens.
    Everywhere,
}

impl Layout {
    /// Every layout.
    pub const ALL: [Layout; 4] = [Layout::Tight, Layout::Lines, Layout::Some, Layout::Everywhere];

    /// What stands between two tokens; before the first and behind the last one of them is empty.
    fn gap(self, rng: &mut Rng, left: &str, right: &str) -> String {
        let some = match self {
            Layout::Tight => false,
            Layout::Some => rng.once_in(4),
            Layout::Everywhere => true,
            Layout::Lines => {
                let behind_form = left == ")" && right != ")";
                let between_names = left.starts_with(':') && right.starts_with(':');
                return if behind_form {
                    "\n"
                } else if between_names {
                    " "
                } else {
                    ""
                }
                .to_owned();
            }
        };
        let count = if some { rng.between(1, 3) } else { 0 };
        (0..count).map(|_| *rng.pick(&[' ', ' ', '\t', '\n'])).collect()
    }
}

/// The bytes of a text.
pub fn lay_out(rng: &mut Rng, layout: Layout, tokens: &[Token]) -> Vec<u8> {
    let mut text = String::new();
    let mut left = "";
    for token in tokens {
        text += &layout.gap(rng, left, token);
        text += token;
        left = token;
    }
    text += &layout.gap(rng, left, "");
    text.into_bytes()
}
