//! What the proved operation reads, and where and why it refuses the rest: the exact reading beside the
//! operation on seeded texts, whole and damaged.

use gimbuka::{read_owl, MOST_VOCABULARY_WORDS};
use notation::{print_owl, Mistake, Vocabulary};
use reasoner::random::owl::source::{around, Source, Token, SORTS};
use reasoner::random::owl::{directed, slow, Text};
use reasoner::random::Rng;
use reasoner::Filling;
use std::collections::BTreeMap;
use std::mem;

const TEXTS: u64 = 40_000;

/// The tokens of a text that is read.
fn whole(rng: &mut Rng) -> Vec<Token> {
    loop {
        let tokens = around(Source::random(rng).forms_in_any_order(rng));
        let read = reasoner::read_owl(tokens.concat().as_bytes(), &mut [0; MOST_VOCABULARY_WORDS]);
        if let Filling::Written(_) = read {
            return tokens;
        }
    }
}

/// The tokens with blanks around them, or none, and where each begins.
fn styled(rng: &mut Rng, tokens: &[Token]) -> (Vec<u8>, Vec<usize>) {
    const BLANKS: [&str; 6] = ["", "", " ", "\n", "\t", "\n\n \t"];
    let (mut text, mut places) = (String::new(), Vec::new());
    for token in tokens {
        text.push_str(BLANKS[rng.place(BLANKS.len())]);
        places.push(text.len());
        text.push_str(token);
    }
    text.push_str(BLANKS[rng.place(BLANKS.len())]);
    (text.into_bytes(), places)
}

/// Holds the exact reading of a text to the operation's; gives the refusal's number, or 0.
fn hold(text: &[u8]) -> u32 {
    let mut words = vec![0; MOST_VOCABULARY_WORDS];
    let told = || String::from_utf8_lossy(text).into_owned();
    match (read_owl(text, &mut words), Vocabulary::exact(text)) {
        (Ok(count), Ok(found)) => {
            assert_eq!(found.words(), &words[..count], "{}", told());
            let names = found.names();
            let counts =
                [&names.classes, &names.roles, &names.features].map(|one| one.len() as u32);
            assert_eq!(counts, words[..3], "{}", told());
            assert!(found.left_out().is_empty());
            0
        }
        (Err(refusal), Err(mistake)) => {
            assert_eq!(mistake.refusal, Some(refusal.number()), "{mistake}\n{}", told());
            // The refusal's own sentence would say that the reading has found nothing.
            assert_ne!(mistake.message, refusal.to_string(), "{}", told());
            refusal.number()
        }
        (answer, found) => panic!("{answer:?}\n{found:?}\n{}", told()),
    }
}

#[test]
fn the_exact_reading_is_the_operations() {
    let mut counts: BTreeMap<u32, usize> = BTreeMap::new();
    let directed = directed::texts().into_iter().map(|directed| directed.text);
    let slow = slow::texts().into_iter().map(|(_, text)| text);
    for text in directed.chain(slow).chain((0..TEXTS).map(Text::any)) {
        *counts.entry(hold(&text.bytes)).or_default() += 1;
    }
    let count = |number: u32| counts.get(&number).copied().unwrap_or_default();
    assert!(count(0) > 5_000 && count(41) > 5_000 && count(42) > 3_000, "{counts:?}");
    assert!(count(1) > 4, "{counts:?}");
}

#[test]
fn what_the_operation_reads_is_read_as_it_is() {
    let mut rng = Rng::new(42);
    for _ in 0..2_000 {
        let tokens = whole(&mut rng);
        let (text, _) = styled(&mut rng, &tokens);
        let exact = Vocabulary::exact(&text).expect("a vocabulary");
        let read = Vocabulary::parse(&text).expect("a vocabulary");
        assert_eq!((read.words(), read.names()), (exact.words(), exact.names()));
        assert!(read.left_out().is_empty());
        let printed = print_owl(&read);
        let again = Vocabulary::exact(printed.as_bytes()).expect("a vocabulary");
        assert_eq!((again.words(), again.names()), (exact.words(), exact.names()));
    }
}

fn mistake(text: &[u8]) -> Mistake {
    Vocabulary::exact(text).expect_err("a mistake")
}

/// The line and column of a byte, counted here.
fn place(text: &[u8], at: usize) -> (usize, usize) {
    let before = &text[..at];
    let line = before.iter().filter(|&&byte| byte == b'\n').count();
    let column = before.iter().rev().take_while(|&&byte| byte != b'\n').count();
    (line + 1, column + 1)
}

#[track_caller]
fn is_at(text: &[u8], at: usize, number: u32) {
    let found = mistake(text);
    let told = String::from_utf8_lossy(text);
    let found_at = (found.line, found.column);
    assert_eq!((found_at, found.refusal), (place(text, at), Some(number)), "{found}\n{told}");
}

#[test]
fn a_token_that_is_missing_is_told_where_the_next_one_stands() {
    let mut rng = Rng::new(43);
    for _ in 0..2_000 {
        let mut tokens = whole(&mut rng);
        let gone = rng.place(tokens.len());
        let removed = mem::replace(&mut tokens[gone], " ".into());
        // One name or parenthesis is as good as the next: what stands behind them is wrong.
        let is_alike = |token: &&Token| {
            [")", ":"].iter().any(|kind| token.starts_with(kind) && removed.starts_with(kind))
        };
        let passed = tokens[gone + 1..].iter().take_while(is_alike).count();
        let (text, places) = styled(&mut rng, &tokens);
        let next = places.get(gone + 1 + passed).copied();
        is_at(&text, next.unwrap_or(text.len()), 41);
    }
}

#[test]
fn a_byte_that_no_token_has_is_told_where_it_stands() {
    let mut rng = Rng::new(44);
    for _ in 0..2_000 {
        let tokens = whole(&mut rng);
        let (mut text, places) = styled(&mut rng, &tokens);
        let at = *rng.pick(&places);
        text.insert(at, *rng.pick(b"#\"<>=\r_-;,.\0\x7f\x80\xff*@^/\\"));
        is_at(&text, at, 41);
    }
}

#[test]
fn a_name_that_is_not_declared_is_told_where_it_stands() {
    let mut rng = Rng::new(45);
    let mut tried = 0;
    while tried < 1_000 {
        let mut tokens = whole(&mut rng);
        let is_used = |at: usize| {
            let open = tokens[..at].iter().rposition(|token| token == "(").expect("a parenthesis");
            tokens[at].starts_with(':') && !SORTS.contains(&&*tokens[open - 1])
        };
        let used: Vec<usize> = (2..tokens.len()).filter(|&at| is_used(at)).collect();
        if used.is_empty() {
            continue;
        }
        // Of two the first is told.
        let mut changed = [*rng.pick(&used), *rng.pick(&used)];
        changed.sort_unstable();
        changed.into_iter().for_each(|at| tokens[at] = ":unknown".into());
        let (text, places) = styled(&mut rng, &tokens);
        is_at(&text, places[changed[0]], 42);
        tried += 1;
    }
}

#[test]
fn reasons() {
    let class = "Declaration(Class(:A))";
    let cases = [
        ("", "line 1, column 1: refused 41: expected Ontology, found the end of the text"),
        (" \n\t ", "line 2, column 3: refused 41: expected Ontology, found the end of the text"),
        ("Declaration(Class(:A))", "line 1, column 1: refused 41: expected Ontology, found \"Declaration\""),
        ("ontology()", "line 1, column 1: refused 41: expected Ontology, found \"ontology\""),
        ("Ontology2()", "line 1, column 9: refused 41: \"2\" cannot stand here"),
        (":Ontology()", "line 1, column 1: refused 41: expected Ontology, found \":Ontology\""),
        ("Ontology", "line 1, column 9: refused 41: expected \"(\" after Ontology, found the end of the text"),
        ("Ontology(", "line 1, column 10: refused 41: expected Declaration, an axiom or \")\", found the end of the text"),
        ("Ontology())", "line 1, column 11: refused 41: expected nothing behind Ontology( ), found \")\""),
        ("Ontology() Ontology()", "line 1, column 12: refused 41: a text has one Ontology( ), and this is the second"),
        ("Ontology() x", "line 1, column 12: refused 41: \"x\" stands behind Ontology( )"),
        ("Ontology() :x", "line 1, column 12: refused 41: expected nothing behind Ontology( ), found \":x\""),
        ("Ontology()#", "line 1, column 11: refused 41: a comment cannot stand here"),
        ("Ontology(<http://x>)", "line 1, column 10: refused 41: a whole IRI cannot stand here"),
        ("Ontology(\"x\")", "line 1, column 10: refused 41: a string cannot stand here"),
        ("Ontology(\r\n)", "line 1, column 10: refused 41: a carriage return cannot stand here"),
        ("Ontology(é)", "line 1, column 10: refused 41: byte 195 cannot stand here"),
        ("Ontology(EquivalentClasses(:A :B))", "line 1, column 10: refused 41: \"EquivalentClasses\" is none of the eight forms: Declaration of Class, ObjectProperty or DataProperty, SubClassOf, DisjointClasses, FunctionalObjectProperty, FunctionalDataProperty and ObjectPropertyRange"),
        ("Ontology(Annotation(:A :B))", "line 1, column 10: refused 41: \"Annotation\" is none of the eight forms: Declaration of Class, ObjectProperty or DataProperty, SubClassOf, DisjointClasses, FunctionalObjectProperty, FunctionalDataProperty and ObjectPropertyRange"),
        ("Ontology(AnnotationAssertion(:A :B :C))", "line 1, column 10: refused 41: \"AnnotationAssertion\" is none of the eight forms: Declaration of Class, ObjectProperty or DataProperty, SubClassOf, DisjointClasses, FunctionalObjectProperty, FunctionalDataProperty and ObjectPropertyRange"),
        ("Prefix(:=<x>) Ontology()", "line 1, column 1: refused 41: expected Ontology, found \"Prefix\""),
        ("Ontology(Declaration(NamedIndividual(:A)))", "line 1, column 22: refused 41: \"NamedIndividual\" cannot be declared; Class, ObjectProperty and DataProperty can"),
        ("Ontology(Declaration(Class(A)))", "line 1, column 28: refused 41: expected a name, found \"A\""),
        ("Ontology(Declaration(Class(: A)))", "line 1, column 28: refused 41: a name is a colon and 1 to 32 letters or digits, and this one has 0"),
        ("Ontology(Declaration(Class(:123456789012345678901234567890123)))", "line 1, column 28: refused 41: a name is a colon and 1 to 32 letters or digits, and this one has 33"),
        ("Ontology(Declaration(Class(:A_B)))", "line 1, column 30: refused 41: \"_\" cannot stand here"),
        ("Ontology(SubClassOf(:A owl:Thing))", "line 1, column 24: refused 41: expected the name of a class, found \"owl\""),
        ("Ontology(SubClassOf(:A ObjectUnionOf(:A :B)))", "line 1, column 24: refused 41: expected the name of a class, found \"ObjectUnionOf\""),
        ("Ontology(DisjointClasses(:A))", "line 1, column 28: refused 41: expected the name of a class, found \")\""),
        ("Ontology(DisjointClasses(:A:B:C))", "line 1, column 30: refused 41: expected \")\" behind the two names of DisjointClasses, found \":C\""),
        ("Ontology()", "line 1, column 10: refused 42: a vocabulary has at least one class; none is declared"),
        ("Ontology(\n Declaration(DataProperty(:A)) )", "line 2, column 32: refused 42: a vocabulary has at least one class; none is declared"),
        ("Ontology(CLASS CLASS)", "line 1, column 51: refused 42: the class :A is declared twice, first at 1:28"),
        ("Ontology(SubClassOf(:A :B) CLASS)", "line 1, column 24: refused 42: the class :B is not declared"),
        ("Ontology(SubClassOf(:Data :A) Declaration(Class(:data)) CLASS)", "line 1, column 21: refused 42: the class :Data is not declared; did you mean :data?"),
        ("Ontology(SubClassOf(:A :BBB) CLASS)", "line 1, column 24: refused 42: the class :BBB is not declared"),
        ("Ontology(FunctionalDataProperty(:A) CLASS)", "line 1, column 33: refused 42: the feature :A is not declared; it is a class"),
        ("Ontology(ObjectPropertyRange(:A :A) CLASS)", "line 1, column 30: refused 42: the role :A is not declared; it is a class"),
    ];
    for (text, expected) in cases {
        let text = text.replace("CLASS", class);
        assert_eq!(mistake(text.as_bytes()).to_string(), expected, "{text}");
    }
}

#[test]
fn limits() {
    let ontology = |inside: &str| format!("Ontology({inside}\n)");
    let two = "Declaration(Class(:A)) Declaration(Class(:B))";
    let axioms = |count: usize| ontology(&format!("{two}{}", "\nSubClassOf(:A:B)".repeat(count)));
    let most = Vocabulary::exact(axioms(1_024).as_bytes()).expect("a vocabulary");
    assert_eq!(most.words().len(), MOST_VOCABULARY_WORDS);
    let told = "refused 1: a vocabulary has at most 1024 records, one for each axiom and one for each role \
                or feature that is not stated functional";
    assert_eq!(
        mistake(axioms(1_025).as_bytes()).to_string(),
        format!("line 1026, column 1: {told}")
    );
    // A role and a feature take a record each, unless they are stated functional.
    let names = "Declaration(ObjectProperty(:r)) Declaration(DataProperty(:f)) ";
    let functional = "FunctionalObjectProperty(:r) FunctionalObjectProperty(:r) ";
    for (stated, most) in [("", 1_022), (functional, 1_021)] {
        let front = format!("Ontology({names}{stated}");
        let with_names = |count: usize| axioms(count).replace("Ontology(", &front);
        let read = Vocabulary::exact(with_names(most).as_bytes()).expect("a vocabulary");
        assert_eq!(read.words().len(), MOST_VOCABULARY_WORDS);
        let refused = mistake(with_names(most + 1).as_bytes()).to_string();
        assert_eq!(refused, format!("line {}, column 1: {told}", most + 2));
    }
    // What comes before 1 is told before it, wherever it stands.
    let twice = axioms(1_025).replace("\n)", "\nDeclaration(Class(:A))\n)");
    is_at(twice.as_bytes(), twice.rfind(":A").expect("a name"), 42);
    let open = twice.replace("\n)", "");
    is_at(open.as_bytes(), open.len(), 41);
    // 65,536 bytes are read, and one more is the only thing that is told.
    let long =
        |bytes: usize| format!("{}{}", ontology(two), " ".repeat(bytes - ontology(two).len()));
    assert!(Vocabulary::exact(long(65_536).as_bytes()).is_ok());
    assert_eq!(
        mistake(long(65_537).as_bytes()).to_string(),
        "line 2, column 65482: refused 41: the text goes on here, and 65536 bytes are the most"
    );
    is_at("#".repeat(65_537).as_bytes(), 65_536, 41);
}
