//! An OWL text for every reading of SPECIFICATION 3.4, at every limit and for every refusal and
//! their order, each with its answer.

use super::source::{around, lay_out, Layout, Source};
use super::{Text, MOST_BYTES, ROOM};
use crate::classes::{ClassNo, FeatureNo, RoleNo};
use crate::encode::vocabulary_words;
use crate::random::Rng;
use crate::text::Names;
use crate::vocabulary::{Axiom, Vocabulary};

/// A text that no seed makes.
pub struct Directed {
    /// What it is.
    pub name: String,
    /// The text, and what it is lent.
    pub text: Text,
    /// The words written, or the number of the refusal.
    pub answer: Result<Vec<u32>, u32>,
}

/// Every directed text.
#[must_use]
pub fn texts() -> Vec<Directed> {
    let readings = READINGS.iter().zip(1..).map(|(&(text, answer), number)| {
        directed(&format!("reading {number}"), text, answer.map(<[u32]>::to_vec))
    });
    let limits = [lengths(), names(), counts(), outputs(), orders()];
    readings.chain(limits.into_iter().flatten()).collect()
}

/// A text with its words or its refusal; room is lent for all that it may say.
type Reading = (&'static [u8], Result<&'static [u32], u32>);

const READINGS: &[Reading] = &[
    // Axioms become records in text order, chained 1, 2, 3 and so on. No blank is needed: `:A:B` is two names.
    (
        b"Ontology(Declaration(Class(:A))Declaration(Class(:B))Declaration(ObjectProperty(:r))\
        Declaration(DataProperty(:f))SubClassOf(:A:B)DisjointClasses(:B:A)\
        FunctionalObjectProperty(:r)FunctionalDataProperty(:f)ObjectPropertyRange(:r:B))",
        Ok(&[2, 1, 1, 1, 1, 1, 2, 2, 2, 2, 1, 3, 3, 1, 0, 4, 4, 1, 0, 5, 5, 1, 2, 0]),
    ),
    // The header's link is 0 if there are none.
    (b"Ontology(Declaration(Class(:A)))", Ok(&[1, 0, 0, 0])),
    // Records are added after the axioms for each name not stated functional: roles rising, then features rising.
    (
        b"Ontology(Declaration(Class(:A))Declaration(ObjectProperty(:r)))",
        Ok(&[1, 1, 0, 1, 6, 1, 0, 0]),
    ),
    (
        b"Ontology(Declaration(Class(:A))Declaration(DataProperty(:f)))",
        Ok(&[1, 0, 1, 1, 7, 1, 0, 0]),
    ),
    (
        b"Ontology(Declaration(DataProperty(:a))Declaration(ObjectProperty(:b))Declaration(Class(:A))\
        Declaration(DataProperty(:b))Declaration(ObjectProperty(:a)))",
        Ok(&[1, 2, 2, 1, 6, 1, 0, 2, 6, 2, 0, 3, 7, 1, 0, 4, 7, 2, 0, 0]),
    ),
    (
        b"Ontology(Declaration(ObjectProperty(:r))Declaration(ObjectProperty(:s))\
        Declaration(ObjectProperty(:t))Declaration(DataProperty(:f))Declaration(DataProperty(:g))\
        FunctionalObjectProperty(:s)SubClassOf(:A:A)FunctionalDataProperty(:f)Declaration(Class(:A)))",
        Ok(&[
            1, 3, 2, 1, 3, 2, 0, 2, 1, 1, 1, 3, 4, 1, 0, 4, 6, 1, 0, 5, 6, 3, 0, 6, 7, 2, 0, 0,
        ]),
    ),
    // A range does not state a role functional, and a role's axiom states nothing of the feature of its name or number.
    (
        b"Ontology(Declaration(Class(:A))Declaration(ObjectProperty(:a))Declaration(DataProperty(:a))\
        ObjectPropertyRange(:a:A)FunctionalObjectProperty(:a))",
        Ok(&[1, 1, 1, 1, 5, 1, 1, 2, 3, 1, 0, 3, 7, 1, 0, 0]),
    ),
    (
        b"Ontology(Declaration(Class(:A))Declaration(ObjectProperty(:a))Declaration(DataProperty(:a))\
        FunctionalDataProperty(:a)ObjectPropertyRange(:a:A)FunctionalDataProperty(:a))",
        Ok(&[1, 1, 1, 1, 4, 1, 0, 2, 5, 1, 1, 3, 4, 1, 0, 4, 6, 1, 0, 0]),
    ),
    // Declarations, anywhere in the text, number the names of each sort in order: names may be used before.
    (
        b"Ontology(SubClassOf(:B:A)Declaration(Class(:A))FunctionalObjectProperty(:r)\
        Declaration(ObjectProperty(:q))Declaration(Class(:B))Declaration(ObjectProperty(:r)))",
        Ok(&[2, 2, 0, 1, 1, 2, 1, 2, 3, 2, 0, 3, 6, 1, 0, 0]),
    ),
    (
        b"Ontology(FunctionalDataProperty(:g)Declaration(DataProperty(:f))Declaration(Class(:A))\
        Declaration(DataProperty(:g)))",
        Ok(&[1, 0, 2, 1, 4, 2, 0, 2, 7, 1, 0, 0]),
    ),
    // Space, tab and line feed may stand before, between and after tokens.
    (
        b"\n\t Ontology \t( \n Declaration ( Class\t(\n:A ) ) SubClassOf ( :A\t\t:A ) ) \n\t ",
        Ok(&[1, 0, 0, 1, 1, 1, 1, 0]),
    ),
    (b"Ontology (Declaration(Class(:A)))", Ok(&[1, 0, 0, 0])),
    (b"Ontology(Declaration(Class(: A)))", Err(41)),
    (b"Ontology(Declaration(Class(:\nA)))", Err(41)),
    (b"Ontology(Declaration(Class(:A B)))", Err(41)),
    (b"Onto logy(Declaration(Class(:A)))", Err(41)),
    (b"Ontology(Declaration(Object Property(:A)))", Err(41)),
    // Nothing else is a blank.
    (b"Ontology(Declaration(Class(:A))\r\n)", Err(41)),
    (b"Ontology(Declaration(Class(:A)))\r\n", Err(41)),
    (b"Ontology(Declaration(Class(:A))\x0b)", Err(41)),
    (b"Ontology(\x0cDeclaration(Class(:A)))", Err(41)),
    (b"Ontology(Declaration(Class(:A)))\0", Err(41)),
    (b"Ontology(Declaration(Class(:A))\xc2\xa0)", Err(41)),
    // A keyword is the longest run of letters, told by case.
    (b"ontology(Declaration(Class(:A)))", Err(41)),
    (b"Ontology(declaration(Class(:A)))", Err(41)),
    (b"Ontology(Declaration(class(:A)))", Err(41)),
    (b"Ontology(Declaration(Objectproperty(:A)))", Err(41)),
    (b"Ontology(Declaration(Class(:A))SubclassOf(:A:A))", Err(41)),
    (b"OntologyOntology(Declaration(Class(:A)))", Err(41)),
    (b"Ontology1(Declaration(Class(:A)))", Err(41)),
    (b"Ontology(Declaration(Class1(:A)))", Err(41)),
    (b"Ontology(Declaration(Classes(:A)))", Err(41)),
    (b"Ontology(Declaration(Clas(:A)))", Err(41)),
    (b"Ontology(Declaration((:A)))", Err(41)),
    // Letters and digits are ASCII's, and a name may be of digits or like a keyword.
    (b"Ontology(Declaration(Class(:0))Declaration(Class(:Class)))", Ok(&[2, 0, 0, 0])),
    (b"Ontology(Declaration(Class(:z9)))", Ok(&[1, 0, 0, 0])),
    (b"Ontology(Declaration(Class(:\xc3\xa9)))", Err(41)),
    (b"Ontology(Declaration(Class(:\xe9)))", Err(41)),
    (b"Ontology(Declaration(Class(:A\xff)))", Err(41)),
    (b"Ontology(Declaration(Class(:A_B)))", Err(41)),
    (b"Ontology(Declaration(Class(:A-B)))", Err(41)),
    (b"Ontology(Declaration(Class(:A.B)))", Err(41)),
    (b"Ontology(Declaration(Class(:/)))", Err(41)),
    (b"Ontology(Declaration(Class(:@)))", Err(41)),
    (b"Ontology(Declaration(Class(:[)))", Err(41)),
    (b"Ontology(Declaration(Class(:`)))", Err(41)),
    (b"Ontology(Declaration(Class(:{)))", Err(41)),
    // A name begins with a colon, and has one.
    (b"Ontology(Declaration(Class(A)))", Err(41)),
    (b"Ontology(Declaration(Class(::A)))", Err(41)),
    (b"Ontology(Declaration(Class(:A:)))", Err(41)),
    (b"Ontology(Declaration(Class(owl:Thing)))", Err(41)),
    (b"Ontology(Declaration(Class(<urn:A>)))", Err(41)),
    // Exactly one Ontology( ).
    (b"", Err(41)),
    (b" ", Err(41)),
    (b" \t\n", Err(41)),
    (b"()", Err(41)),
    (b"Ontology", Err(41)),
    (b"Ontology(", Err(41)),
    (b"Ontology)", Err(41)),
    (b"Ontology(Declaration(Class(:A))", Err(41)),
    (b"Ontology(Declaration(Class(:A))))", Err(41)),
    (b"Ontology(Declaration(Class(:A)))a", Err(41)),
    (b"Ontology(Declaration(Class(:A)))Ontology()", Err(41)),
    (b"Ontology(Ontology(Declaration(Class(:A))))", Err(41)),
    (b"Declaration(Class(:A))", Err(41)),
    (b"Ontology(Declaration(Class(:A)))SubClassOf(:A:A)", Err(41)),
    (b"(Declaration(Class(:A)))", Err(41)),
    // In it only the eight forms.
    (b"Ontology(Class(:A))", Err(41)),
    (b"Ontology(Declaration(Declaration(Class(:A))))", Err(41)),
    (b"Ontology(Declaration(SubClassOf(:A:A)))", Err(41)),
    (b"Ontology(Declaration(Class(:A))Declaration(NamedIndividual(:a)))", Err(41)),
    (b"Ontology(Declaration(Class(:A))Declaration(AnnotationProperty(:a)))", Err(41)),
    (b"Ontology(Declaration(Class(:A))EquivalentClasses(:A:A))", Err(41)),
    (b"Ontology(Declaration(Class(:A))ObjectPropertyDomain(:r:A))", Err(41)),
    (b"Ontology(Declaration(Class(:A))DataPropertyRange(:f:A))", Err(41)),
    (b"Ontology(Declaration(Class(:A))SubObjectPropertyOf(:r:r))", Err(41)),
    (b"Ontology(Declaration(Class(:A))FunctionalProperty(:r))", Err(41)),
    (b"Ontology(Declaration(Class(:A)):A)", Err(41)),
    (b"Ontology(Declaration(Class(:A))())", Err(41)),
    (b"Ontology((Declaration(Class(:A))))", Err(41)),
    (b"Ontology(Declaration(Class(:A)),SubClassOf(:A:A))", Err(41)),
    (b"Ontology(Declaration(Class(:A))SubClassOf(:A,:A))", Err(41)),
    (b"Ontology(Declaration(Class(:A))SubClassOf(:A(:A)))", Err(41)),
    (b"Ontology(Declaration(Class(:A))SubClassOf((:A):A))", Err(41)),
    (b"Ontology(Declaration(Class(:A))SubClassOf(ObjectIntersectionOf(:A:A):A))", Err(41)),
    // No prefix, IRI, import, annotation, comment, quote, carriage return or byte over 127.
    (b"Prefix(:=<urn:a#>)\nOntology(Declaration(Class(:A)))", Err(41)),
    (b"Ontology(<urn:a>Declaration(Class(:A)))", Err(41)),
    (b"Ontology(Import(<urn:a>)Declaration(Class(:A)))", Err(41)),
    (b"Ontology(Annotation(rdfs:label \"a\")Declaration(Class(:A)))", Err(41)),
    (b"Ontology(Declaration(Annotation(:a:b)Class(:A)))", Err(41)),
    (b"# a\nOntology(Declaration(Class(:A)))", Err(41)),
    (b"Ontology(Declaration(Class(:A)) # a\n)", Err(41)),
    (b"Ontology(Declaration(Class(\":A\")))", Err(41)),
    (b"\rOntology(Declaration(Class(:A)))", Err(41)),
    (b"\xef\xbb\xbfOntology(Declaration(Class(:A)))", Err(41)),
    (b"Ontology(Declaration(Class(:A))\x80)", Err(41)),
    // DisjointClasses of two; and the other forms of as many names as they have.
    (b"Ontology(Declaration(Class(:A))DisjointClasses())", Err(41)),
    (b"Ontology(Declaration(Class(:A))DisjointClasses(:A))", Err(41)),
    (b"Ontology(Declaration(Class(:A))DisjointClasses(:A:A:A))", Err(41)),
    (b"Ontology(Declaration(Class(:A))SubClassOf(:A))", Err(41)),
    (b"Ontology(Declaration(Class(:A))SubClassOf(:A:A:A))", Err(41)),
    (b"Ontology(Declaration(Class(:A))FunctionalObjectProperty())", Err(41)),
    (b"Ontology(Declaration(Class(:A))FunctionalObjectProperty(:A:A))", Err(41)),
    (b"Ontology(Declaration(Class(:A))FunctionalDataProperty())", Err(41)),
    (b"Ontology(Declaration(Class(:A))FunctionalDataProperty(:A:A))", Err(41)),
    (b"Ontology(Declaration(Class(:A))ObjectPropertyRange(:A))", Err(41)),
    (b"Ontology(Declaration(Class(:A))ObjectPropertyRange(:A:A:A))", Err(41)),
    (b"Ontology(Declaration())", Err(41)),
    (b"Ontology(Declaration(:A))", Err(41)),
    (b"Ontology(Declaration(Class()))", Err(41)),
    (b"Ontology(Declaration(Class(:A:B)))", Err(41)),
    (b"Ontology(Declaration(Class(:A)Class(:B)))", Err(41)),
    // One class twice is legal.
    (b"Ontology(Declaration(Class(:A))DisjointClasses(:A :A))", Ok(&[1, 0, 0, 1, 2, 1, 1, 0])),
    (b"Ontology(Declaration(Class(:A))SubClassOf(:A :A))", Ok(&[1, 0, 0, 1, 1, 1, 1, 0])),
    // Equal axioms are two records.
    (
        b"Ontology(Declaration(Class(:A))SubClassOf(:A:A)SubClassOf(:A:A))",
        Ok(&[1, 0, 0, 1, 1, 1, 1, 2, 1, 1, 1, 0]),
    ),
    // One name may stand in several sorts.
    (
        b"Ontology(Declaration(ObjectProperty(:B))Declaration(Class(:A))Declaration(Class(:B))\
        Declaration(DataProperty(:A))Declaration(DataProperty(:B))ObjectPropertyRange(:B:B)\
        FunctionalObjectProperty(:B)FunctionalDataProperty(:B))",
        Ok(&[2, 1, 2, 1, 5, 1, 2, 2, 3, 1, 0, 3, 4, 2, 0, 4, 7, 1, 0, 0]),
    ),
    // A name declared twice in one sort, whatever stands between.
    (b"Ontology(Declaration(Class(:A))Declaration(Class(:A)))", Err(42)),
    (
        b"Ontology(Declaration(Class(:A))Declaration(ObjectProperty(:r))SubClassOf(:A:A)\
        Declaration(ObjectProperty(:r)))",
        Err(42),
    ),
    (
        b"Ontology(Declaration(DataProperty(:f))Declaration(DataProperty(:g))\
        Declaration(Class(:f))Declaration(DataProperty(:f)))",
        Err(42),
    ),
    // A name not declared in the sort its place needs, though it is in others.
    (b"Ontology(Declaration(Class(:A))SubClassOf(:B:A))", Err(42)),
    (b"Ontology(Declaration(Class(:A))SubClassOf(:A:B))", Err(42)),
    (b"Ontology(Declaration(Class(:A))Declaration(ObjectProperty(:B))SubClassOf(:B:A))", Err(42)),
    (b"Ontology(Declaration(Class(:A))Declaration(DataProperty(:B))SubClassOf(:A:B))", Err(42)),
    (
        b"Ontology(Declaration(Class(:A))Declaration(ObjectProperty(:B))DisjointClasses(:B:A))",
        Err(42),
    ),
    (
        b"Ontology(Declaration(Class(:A))Declaration(DataProperty(:B))DisjointClasses(:A:B))",
        Err(42),
    ),
    (
        b"Ontology(Declaration(Class(:A))Declaration(DataProperty(:A))FunctionalObjectProperty(:A))",
        Err(42),
    ),
    (
        b"Ontology(Declaration(Class(:A))Declaration(ObjectProperty(:A))FunctionalDataProperty(:A))",
        Err(42),
    ),
    (
        b"Ontology(Declaration(Class(:A))Declaration(DataProperty(:A))ObjectPropertyRange(:A:A))",
        Err(42),
    ),
    (
        b"Ontology(Declaration(Class(:A))Declaration(ObjectProperty(:r))ObjectPropertyRange(:r:r))",
        Err(42),
    ),
    // Names are told by case and by length.
    (
        b"Ontology(Declaration(Class(:a))Declaration(Class(:A))SubClassOf(:a:A))",
        Ok(&[2, 0, 0, 1, 1, 1, 2, 0]),
    ),
    (
        b"Ontology(Declaration(Class(:AB))Declaration(Class(:A))SubClassOf(:A:AB))",
        Ok(&[2, 0, 0, 1, 1, 2, 1, 0]),
    ),
    (b"Ontology(Declaration(Class(:A))SubClassOf(:a:A))", Err(42)),
    (b"Ontology(Declaration(Class(:AB))SubClassOf(:A:AB))", Err(42)),
    (b"Ontology(Declaration(Class(:A))SubClassOf(:A:AB))", Err(42)),
    (b"Ontology(Declaration(Class(:1))SubClassOf(:01:1))", Err(42)),
    // No class.
    (b"Ontology()", Err(42)),
    (b" Ontology ( ) ", Err(42)),
    (b"Ontology(Declaration(ObjectProperty(:r))Declaration(DataProperty(:f)))", Err(42)),
];

fn directed(name: &str, text: impl Into<Vec<u8>>, answer: Result<Vec<u32>, u32>) -> Directed {
    Directed { name: name.to_owned(), text: Text::of(text), answer }
}

/// The text of a vocabulary with numbered names, `:C1`, `:r1`, `:f1`, and the words that it is read to.
fn plain(vocabulary: Vocabulary, layout: Layout) -> (Vec<u8>, Vec<u32>) {
    let source = Source { names: Names::numbered(":", &vocabulary), vocabulary };
    let text = lay_out(&mut Rng::new(0), layout, &around(source.forms().concat()));
    (text, source.words())
}

/// A vocabulary with so many names and so many axioms, of every kind that it has names for.
fn stating(classes: u32, roles: u32, features: u32, axioms: u32) -> Vocabulary {
    let class = |at: u32| ClassNo(at % classes + 1);
    let axiom = |at: u32| match at % 5 {
        1 => Axiom::Disjoint(class(at + 1), class(at * 7)),
        2 if roles > 0 => Axiom::FunctionalRole(RoleNo(at % roles + 1)),
        3 if roles > 0 => Axiom::Range(RoleNo(at % roles + 1), class(at)),
        4 if features > 0 => Axiom::FunctionalFeature(FeatureNo(at % features + 1)),
        _ => Axiom::Below(class(at), class(at / 2)),
    };
    Vocabulary { classes, roles, features, axioms: (0..axioms).map(axiom).collect() }
}

/// A text of one class, with so many bytes in all: the rest are blanks at this place.
pub(super) fn padded(length: usize, at: usize) -> Vec<u8> {
    let mut text = b"Ontology(Declaration(Class(:A)))".to_vec();
    text.splice(at..at, b" \t\n".iter().copied().cycle().take(length - 32));
    text
}

/// As many bytes as are read, and no blank among them: 839 axioms of a class of 32 characters, and a class of 10.
fn crowded() -> Vec<u8> {
    let long = ":Abcdefghijklmnopqrstuvwxyz012345";
    let axioms = format!("SubClassOf({long}{long})").repeat(839);
    format!("Ontology(Declaration(Class({long})){axioms}Declaration(Class(:0123456789)))").into()
}

/// The words of [`crowded`].
fn crowded_words() -> Vec<u32> {
    let below = Axiom::Below(ClassNo(1), ClassNo(1));
    vocabulary_words(&Vocabulary { classes: 2, roles: 0, features: 0, axioms: vec![below; 839] })
}

fn lengths() -> Vec<Directed> {
    let one_class = || Ok(vec![1, 0, 0, 0]);
    let longer = |mut text: Vec<u8>, byte: u8| {
        text.push(byte);
        text
    };
    vec![
        directed("65,536 bytes, blanks in front", padded(MOST_BYTES, 0), one_class()),
        directed("65,536 bytes, blanks within", padded(MOST_BYTES, 9), one_class()),
        directed("65,536 bytes, blanks behind", padded(MOST_BYTES, 32), one_class()),
        directed("65,536 bytes, no blank", crowded(), Ok(crowded_words())),
        directed("65,537 bytes, blanks in front", padded(MOST_BYTES + 1, 0), Err(41)),
        directed("65,537 bytes, blanks within", padded(MOST_BYTES + 1, 9), Err(41)),
        directed("65,537 bytes, blanks behind", padded(MOST_BYTES + 1, 32), Err(41)),
        directed("65,537 bytes, the last a blank", longer(crowded(), b' '), Err(41)),
        directed("65,537 bytes, the last a bracket", longer(crowded(), b')'), Err(41)),
        directed("200,000 bytes", padded(200_000, 32), Err(41)),
        directed("65,536 blanks", vec![b' '; MOST_BYTES], Err(41)),
        directed("65,537 blanks", vec![b'\n'; MOST_BYTES + 1], Err(41)),
        directed("65,536 times 0", vec![0; MOST_BYTES], Err(41)),
        directed("65,536 brackets", vec![b'('; MOST_BYTES], Err(41)),
        directed("65,536 letters", vec![b'O'; MOST_BYTES], Err(41)),
        directed("65,536 bytes, a name of all but 31", long_name(MOST_BYTES - 31), Err(41)),
    ]
}

/// A text of one class whose name has so many characters.
fn long_name(length: usize) -> Vec<u8> {
    format!("Ontology(Declaration(Class(:{})))", "a".repeat(length)).into()
}

fn names() -> Vec<Directed> {
    let [full, over] = [32, 33].map(|length| format!(":{}", "x".repeat(length)));
    let used = |name: &str| {
        format!(
            "Ontology(Declaration(Class({name}))Declaration(ObjectProperty({name}))\
             Declaration(DataProperty({name}))SubClassOf({name}{name})\
             ObjectPropertyRange({name}{name})FunctionalDataProperty({name}))"
        )
    };
    let undeclared = |name: &str| format!("Ontology(SubClassOf({name}{name}))");
    let words = vec![1, 1, 1, 1, 1, 1, 1, 2, 5, 1, 1, 3, 4, 1, 0, 4, 6, 1, 0, 0];
    // Alike in their first 31 characters.
    let [one, other] = ['0', '1'].map(|last| format!(":{}{last}", "x".repeat(31)));
    let alike = format!(
        "Ontology(Declaration(Class({one}))Declaration(Class({other}))SubClassOf({other}{one}))"
    );
    vec![
        directed("names of 32 characters", used(&full), Ok(words)),
        directed("names of 33 characters", used(&over), Err(41)),
        directed("names of no character", used(":"), Err(41)),
        directed("names of 33 characters that are not declared", undeclared(&over), Err(41)),
        directed("names of no character that are not declared", undeclared(":"), Err(41)),
        directed("names of 32 characters that are not declared", undeclared(&full), Err(42)),
        directed("names alike in 31 characters", alike, Ok(vec![2, 0, 0, 1, 1, 2, 1, 0])),
    ]
}

fn counts() -> Vec<Directed> {
    let case = |[classes, roles, features, axioms]: [u32; 4], refusal: Option<u32>| {
        let (text, words) = plain(stating(classes, roles, features, axioms), Layout::Lines);
        Directed {
            name: format!("classes {classes}, roles {roles}, features {features}, axioms {axioms}"),
            text: Text::of(text),
            answer: refusal.map_or(Ok(words), Err),
        }
    };
    // None of the axioms states a role or a feature functional, or these many of each do.
    let added = |[roles, features, axioms]: [u32; 3], stated: u32, refusal: Option<u32>| {
        let mut vocabulary = stating(1, 0, 0, axioms);
        for at in 1..=stated {
            vocabulary.axioms[at as usize * 3] = Axiom::FunctionalRole(RoleNo(at));
            vocabulary.axioms[at as usize * 3 + 1] = Axiom::FunctionalFeature(FeatureNo(at));
        }
        let (text, words) = plain(Vocabulary { roles, features, ..vocabulary }, Layout::Lines);
        let records = axioms + roles + features - 2 * stated;
        let names = format!("{roles} roles and {features} features");
        let name =
            format!("{records} records of {axioms} axioms, {names}, {stated} of each functional");
        let answer = refusal.map_or(Ok(words), Err);
        Directed { name, text: Text::of(text), answer }
    };
    vec![
        added([64, 64, 896], 0, None),
        added([64, 64, 897], 0, Some(1)),
        added([64, 0, 960], 0, None),
        added([64, 0, 961], 0, Some(1)),
        added([0, 64, 960], 0, None),
        added([0, 64, 961], 0, Some(1)),
        added([1, 0, 1_023], 0, None),
        added([1, 0, 1_024], 0, Some(1)),
        added([0, 1, 1_024], 0, Some(1)),
        added([1, 1, 1_024], 1, None),
        added([2, 1, 1_024], 1, Some(1)),
        added([1, 2, 1_024], 1, Some(1)),
        added([64, 64, 1_022], 63, None),
        added([64, 64, 1_023], 63, Some(1)),
        added([64, 64, 2_000], 0, Some(1)),
        // By axioms alone it would be read.
        added([65, 0, 1_024], 0, Some(42)),
        case([1, 0, 0, 0], None),
        case([0, 64, 64, 0], Some(42)),
        case([256, 0, 0, 0], None),
        case([257, 0, 0, 0], Some(42)),
        case([1, 64, 0, 9], None),
        case([1, 65, 0, 9], Some(42)),
        case([1, 0, 64, 9], None),
        case([1, 0, 65, 9], Some(42)),
        case([256, 64, 64, 1_024], None),
        case([256, 64, 64, 1_025], Some(1)),
        case([1, 0, 0, 1_024], None),
        case([1, 0, 0, 1_025], Some(1)),
        case([1, 0, 0, 2_000], Some(1)),
        case([1, 0, 0, 1_023], None),
    ]
}

fn outputs() -> Vec<Directed> {
    let mut all = Vec::new();
    for axioms in [0, 1, 2, 1_024] {
        let (text, words) = plain(stating(2, 1, 1, axioms), Layout::Tight);
        let enough = words.len();
        for length in [0, enough - 2, enough - 1, enough, enough + 1, enough + 9] {
            let mut case = directed("", text.clone(), Ok(words.clone()));
            case.name = format!("{enough} words, an output of {length}");
            case.text.out_len = length;
            if length < enough {
                case.answer = Err(23);
            }
            all.push(case);
        }
    }
    all
}

/// More than one fault: 41 before 42, that before 1, that before 23, wherever they stand.
fn orders() -> Vec<Directed> {
    let inside = |forms: &str| format!("Ontology({forms})");
    let declared = "Declaration(Class(:A))";
    let unknown = "SubClassOf(:A:B)";
    let many = "SubClassOf(:A:A)".repeat(1_025);
    let (most, role) = ("SubClassOf(:A:A)".repeat(1_024), "Declaration(ObjectProperty(:A))");
    let classes: String = (0..257).map(|at| format!("Declaration(Class(:C{at}))")).collect();
    let faults = [
        ("41 and 42", inside(&format!("{unknown}{declared}Import()")), 41),
        ("42 and 41", inside(&format!("Import(){unknown}{declared}")), 41),
        ("twice, then cut", format!("Ontology({declared}{declared}"), 41),
        ("twice, then more", format!("Ontology({declared}{declared})a"), 41),
        ("257 classes, then cut", format!("Ontology({classes}"), 41),
        ("no class, then more", "Ontology())".to_owned(), 41),
        ("1,025 axioms, then cut", format!("Ontology({declared}{many}"), 41),
        (
            "1,025 axioms, then a form of three",
            inside(&format!("{declared}{many}SubClassOf(:A:A:A)")),
            41,
        ),
        ("1,025 axioms, nothing declared", inside(&many), 42),
        ("1,025 axioms, then another class", inside(&format!("{declared}{many}{unknown}")), 42),
        ("another class, then 1,025 axioms", inside(&format!("{declared}{unknown}{many}")), 42),
        ("1,025 axioms, then twice", inside(&format!("{declared}{many}{declared}")), 42),
        ("1,025 axioms, 258 classes", inside(&format!("{declared}{classes}{many}")), 42),
        ("1,025 axioms", inside(&format!("{many}{declared}")), 1),
        ("1,024 axioms and a record more", inside(&format!("{most}{declared}{role}")), 1),
        (
            "1,024 axioms and a record more, then cut",
            format!("Ontology({most}{declared}{role}"),
            41,
        ),
        (
            "1,024 axioms and a record more, then another class",
            inside(&format!("{declared}{role}{most}{unknown}")),
            42,
        ),
    ];
    let lent = |(name, text, number): &(&str, String, u32), out_len| {
        let mut case = directed("", text.as_str(), Err(*number));
        case.name = format!("{name}, an output of {out_len}");
        case.text.out_len = out_len;
        case
    };
    faults.iter().flat_map(|fault| [0, ROOM].map(|out_len| lent(fault, out_len))).collect()
}
