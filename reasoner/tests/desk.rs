//! The desk's texts.

mod common;

use reasoner::random::{limits, Case, Family};
use reasoner::text::Document;
use reasoner::{bytes_of_parts, program, read_policy, read_second_policy, Reading};

const DESK: &str = r#"
# The consent desk's vocabulary.
Declaration(Class(:Data)) Declaration(Class(:HeartRate))
Declaration(Class(:Secret)) Declaration(Class(:Both))
Declaration(ObjectProperty(:has)) Declaration(ObjectProperty(:in)) Declaration(ObjectProperty(:shows))
Declaration(DataProperty(:days))
SubClassOf(:HeartRate :Data) SubClassOf(:Both :Data) SubClassOf(:Both :Secret)
DisjointClasses(:Data :Secret)
FunctionalObjectProperty(:has) FunctionalObjectProperty(:in) FunctionalDataProperty(:days)
ObjectPropertyRange(:shows :Data)
"#;

fn desk(policies: &str) -> Document {
    Document::parse(&format!("{DESK}{policies}")).unwrap_or_else(|mistake| panic!("{mistake}"))
}

/// The answer to a text, read aloud.
fn explained(document: &Document) -> String {
    let answer = String::from_utf8(program(&document.encode())).expect("text");
    document.aloud(&answer).expect("an answer of the program")
}

#[test]
fn what_is_no_answer_is_not_read() {
    let document = desk("Policy(:Data) Policy()");
    let silent = |answer: &str| document.aloud(answer).expect_err("a mistake");
    assert_eq!(silent(""), "this is no answer");
    assert_eq!(silent("outside 1"), "this is no answer");
    assert_eq!(silent("outside 1 x"), "\"x\" is no number");
    assert_eq!(silent("equal"), "this is no answer");
    assert_eq!(silent("outside 1 1\nmember 1"), "\"member 1\" is no line of a countermodel");
    assert_eq!(silent("outside 1 1\nmember 9 1"), "the text has no name for number 9");
    assert_eq!(
        document.aloud("refused 22\n").as_deref(),
        Ok("Refused 22: a possible term has over 65,536 combinations of pieces.\n")
    );
}

fn mistake(text: &str) -> String {
    Document::parse(text).expect_err("a mistake").to_string()
}

#[test]
fn the_papers_words() {
    let document = desk(
        "Policy(ObjectSomeValuesFrom(:has :Data))
         Policy(ObjectUnionOf(ObjectIntersectionOf(ObjectSomeValuesFrom(:has :HeartRate))))",
    );
    let [v, p, q] = document.words();
    assert_eq!(v, common::desk_vocabulary(true));
    assert_eq!(p, common::words(&[vec![common::r(1, vec![common::c(1)])]]));
    assert_eq!(q, common::words(&[vec![common::r(1, vec![common::c(2)])]]));
    assert_eq!(program(&document.encode()), b"outside 1 1\nedge 1 1 2\nmember 1 2\n");
    assert_eq!(
        explained(&document),
        "Outside: term 1 of the first policy, combination 1, is not in the second.\n\
         In this case, of 2 individuals, x1 is in the first policy and outside the second:\n  \
         x1 has :has x2\n  x2 is in :Data\n"
    );
}

#[test]
fn spans_and_special_classes() {
    let document = desk(
        "Policy(DataSomeValuesFrom(:days DatatypeRestriction(xsd:integer
            xsd:minInclusive \"0\"^^xsd:integer xsd:maxInclusive 4294967295))
          owl:Nothing owl:Thing ObjectSomeValuesFrom(:has owl:Thing))
         Policy()",
    );
    let terms = [
        vec![common::f(1, 0, u32::MAX)],
        vec![reasoner::policy::Conjunct::Nothing],
        vec![],
        vec![common::r(1, vec![])],
    ];
    assert_eq!(document.first.terms, terms);
    assert_eq!(document.second.terms, Vec::<reasoner::policy::Term>::new());
    assert!(explained(&document).starts_with("Outside: term 1"));
    let same = explained(&desk("Policy(:Both) Policy()"));
    assert_eq!(same, "Compliant: whatever is in the first policy is in the second.\n");
    let nothing_known = explained(&desk("Policy(owl:Thing) Policy()"));
    assert!(nothing_known.ends_with("nothing is known of x1\n"));
}

#[test]
fn policies_are_owl_classes() {
    let document = desk(
        "Policy(ObjectIntersectionOf(:Data ObjectSomeValuesFrom(:has owl:Thing)) owl:Nothing
          DataSomeValuesFrom(:days DatatypeRestriction(xsd:integer
            xsd:minInclusive 1 xsd:maxInclusive 30)))
         Policy()",
    );
    let span = r#"DatatypeRestriction(xsd:integer xsd:minInclusive "1"^^xsd:integer xsd:maxInclusive "30"^^xsd:integer)"#;
    let inside = format!(
        "ObjectUnionOf(ObjectIntersectionOf(:Data ObjectSomeValuesFrom(:has owl:Thing)) \
         owl:Nothing DataSomeValuesFrom(:days {span}))"
    );
    assert_eq!(document.expressions(), [inside, "owl:Nothing".to_owned()]);
    assert!(document.axioms().starts_with("Declaration(Class(:Data))\n"));
    assert!(document.axioms().ends_with("ObjectPropertyRange(:shows :Data)\n"));
}

#[test]
fn mistakes_have_a_place() {
    let cases = [
        ("Policy()", "line 1, column 9: a text has two policies, the first and the second; this one has 1"),
        ("Policy() Policy()", "line 1, column 18: a vocabulary has at least one class; none is declared"),
        ("Declaration(Class(:A))\nPolicy(:B)", "line 2, column 8: :B is no class declared above; write Declaration(Class(:B)) before it"),
        ("SubClassOf(:A", "line 1, column 12: :A is no class declared above; write Declaration(Class(:A)) before it"),
        ("Declaration(Class(:A))\n  Declaration(Class(:A))", "line 2, column 21: the class :A is declared twice"),
        ("Declaration(Class(owl:Thing))", "line 1, column 19: owl:Thing is always there and is not declared"),
        ("Declaration(Individual(:A))", "line 1, column 13: \"Individual\" cannot be declared; Class, ObjectProperty and DataProperty can"),
        ("Declaration(Class(:A)) Policy(:A", "line 1, column 33: expected a class or a restriction, found the end of the text"),
        ("Declaration(Class(:A)) Policy(:A))", "line 1, column 34: expected Declaration, an axiom or Policy, found \")\""),
        ("Declaration Class", "line 1, column 13: expected \"(\" after Declaration, found \"Class\""),
        ("Policy() Policy() Policy()", "line 1, column 19: a text has two policies, and this is the third"),
        ("Policy(ObjectIntersectionOf(ObjectUnionOf()))", "line 1, column 29: a union can stand only outside the terms"),
        ("Declaration(DataProperty(:d)) Policy(DataSomeValuesFrom(:d DatatypeRestriction(xsd:integer xsd:minInclusive -1", "line 1, column 109: expected a whole number from 0 to 4294967295, found \"-1\""),
        ("Declaration(DataProperty(:d)) Policy(DataSomeValuesFrom(:d xsd:integer))", "line 1, column 60: expected \"DatatypeRestriction\", found \"xsd:integer\""),
        ("Policy(Annotation(:recordOrder \"1\"))", "line 1, column 8: :recordOrder must have each number from 1 to 0 once"),
        ("Declaration(Class(:A)) Policy(Annotation(:recordOrder \"2 1\") :A)", "line 1, column 31: :recordOrder makes record 2 link back to 1; links lead to greater numbers"),
        ("Policy(\"x", "line 1, column 8: no closing \" on this line"),
    ];
    for (text, expected) in cases {
        assert_eq!(mistake(text), expected, "{text}");
    }
    let nested = format!("Policy({}", "ObjectIntersectionOf(".repeat(100_000));
    assert!(mistake(&nested).ends_with("parentheses are nested too deep"));
    assert!(mistake("Foo(:A)").starts_with("line 1, column 1: \"Foo\" is not known here"));
}

#[test]
fn limits_are_mistakes_with_a_place() {
    let declare = |count: u32| -> String {
        (1..=count).map(|number| format!("Declaration(Class(:C{number}))\n")).collect()
    };
    let policies = "Policy() Policy()";
    assert!(Document::parse(&format!("{}{policies}", declare(256))).is_ok());
    assert_eq!(
        mistake(&format!("{}{policies}", declare(257))),
        "line 257, column 19: :C257 is one class too many; there are at most 256"
    );
    let deep = |depth: usize| {
        let restriction = "ObjectSomeValuesFrom(:r ".repeat(depth - 1);
        let close = ")".repeat(depth - 1);
        format!(
            "Declaration(Class(:A)) Declaration(ObjectProperty(:r))\n\
             Policy({restriction}:A{close}) Policy()"
        )
    };
    assert!(Document::parse(&deep(16)).is_ok());
    assert_eq!(
        mistake(&deep(17)),
        "line 2, column 392: restrictions can be nested 16 deep, and this is deeper"
    );
    let wide = |count: usize| {
        format!(
            "Declaration(Class(:A)) Policy(ObjectIntersectionOf({})) Policy()",
            ":A ".repeat(count)
        )
    };
    assert!(Document::parse(&wide(511)).is_ok());
    assert!(mistake(&wide(512)).contains("at most 512 records"));
    // 1,024 records are one for each axiom, and one for each role and feature that is many-valued.
    let stating = |names: &str, axioms: usize| {
        let axioms = "\nSubClassOf(:A :A)".repeat(axioms);
        format!("Declaration(Class(:A)) {names}{axioms} Policy() Policy()")
    };
    let two = "Declaration(ObjectProperty(:r)) Declaration(DataProperty(:f))";
    let functional = format!("{two} FunctionalObjectProperty(:r)");
    for (names, most) in [("", 1_024), (two, 1_022), (&functional, 1_022)] {
        assert!(Document::parse(&stating(names, most)).is_ok(), "{names}");
        let told = mistake(&stating(names, most + 1));
        let place = format!("line {}, column 1: a vocabulary has at most 1024 records", most + 2);
        assert!(told.starts_with(&place), "{told}");
    }
}

/// The words of an accepted case after they were decoded, printed, read and encoded again.
fn round_trip(case: &Case) -> Option<[Vec<u32>; 3]> {
    let accepted = read_policy(&case.v, &case.p) == Reading::Accepted
        && read_second_policy(&case.v, &case.q) == Reading::Accepted;
    let decoded = Document::decode(&case.bytes());
    assert_eq!(accepted, decoded.is_ok(), "{case}");
    let text = decoded.ok()?.to_string();
    let again = Document::parse(&text).unwrap_or_else(|mistake| panic!("{mistake}\n{text}"));
    Some(again.words())
}

/// The same answer is printed, and what was read comes back as it is. The policies' words come back from
/// the first, if all of their records are reached.
fn hold_round_trip(case: &Case) -> Option<bool> {
    let [v, p, q] = round_trip(case)?;
    let again = Case { v, p, q, ..case.clone() };
    assert_eq!(program(&case.bytes()), program(&again.bytes()), "{case}");
    assert_eq!(round_trip(&again), Some([again.v.clone(), again.p.clone(), again.q.clone()]));
    let is_reached =
        |words: &[u32]| reasoner::encode::walk_order(words).len() == words.len() / 6 - 1;
    let all_reached = is_reached(&case.p) && is_reached(&case.q);
    if all_reached {
        assert_eq!((&case.p, &case.q), (&again.p, &again.q), "{case}");
    }
    Some(all_reached)
}

#[test]
fn decoding_and_encoding_gives_back_what_is_said() {
    let (mut exact, mut moved, mut shortened) = (0, 0, 0);
    let families =
        [Family::Small, Family::Merges, Family::Coverage, Family::Hierarchy, Family::Damaged];
    for family in families {
        for seed in 20_000..20_400 {
            let case = Case::generate(family, seed);
            match hold_round_trip(&case) {
                Some(true) => {
                    exact += 1;
                    let decoded = Document::decode(&case.bytes()).unwrap();
                    moved += u32::from(decoded.first.order.is_some());
                }
                Some(false) => shortened += 1,
                None => {}
            }
        }
    }
    assert!(exact > 400 && moved > 150 && shortened > 300, "{exact} {moved} {shortened}");
    for (_, case) in limits::cases() {
        hold_round_trip(&case);
    }
}

/// OWL has no name that is functional unless it is said to be many-valued: so the text says which are
/// functional, and the words which are many-valued.
#[test]
fn a_text_says_what_is_functional() {
    let policies = [1, 0, 0, 0, 0, 0, 5, 0, 0, 0, 0, 0];
    let vocabulary = [2, 3, 3, 1, 6, 2, 0, 2, 3, 3, 0, 3, 7, 1, 0, 4, 1, 2, 1, 0];
    let bytes = bytes_of_parts(&vocabulary, &policies, &policies);
    let document = Document::decode(&bytes).unwrap();
    let (_, axioms) =
        document.axioms().rsplit_once("))\n").map(|(a, b)| (a.len(), b.to_owned())).unwrap();
    assert_eq!(
        axioms,
        "FunctionalObjectProperty(:r3)\nSubClassOf(:C2 :C1)\nFunctionalObjectProperty(:r1)\n\
         FunctionalDataProperty(:f2)\nFunctionalDataProperty(:f3)\n"
    );
    let [v, ..] = Document::parse(&document.to_string()).unwrap().words();
    let expected = [
        [2, 3, 3, 1],
        [3, 3, 0, 2],
        [1, 2, 1, 3],
        [3, 1, 0, 4],
        [4, 2, 0, 5],
        [4, 3, 0, 6],
        [6, 2, 0, 7],
        [7, 1, 0, 0],
    ];
    assert_eq!(v, expected.concat());
}
