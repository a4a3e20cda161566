//! What is wrong with a text is told with its line and column.

use notation::{document, policy, policy_at, Mistake, Vocabulary};

const DESK: &[u8] = b"Declaration(Class(:A)) Declaration(Class(:B)) Declaration(ObjectProperty(:r))
    Declaration(DataProperty(:d))";

fn desk() -> Vocabulary {
    Vocabulary::parse(DESK).expect("a vocabulary")
}

fn in_document(text: &[u8]) -> String {
    document(text).expect_err("a mistake").to_string()
}

fn in_policy(text: &[u8]) -> String {
    policy(&desk(), text).expect_err("a mistake").to_string()
}

fn in_vocabulary(text: &[u8]) -> String {
    Vocabulary::parse(text).expect_err("a mistake").to_string()
}

#[test]
fn documents() {
    let cases = [
        ("Policy()", "line 1, column 9: refused 42: a vocabulary has at least one class; none is declared"),
        ("Declaration(Class(:A))\nPolicy(:B)", "line 2, column 8: :B is no class declared above; write Declaration(Class(:B)) before it"),
        ("Declaration(Class(:A))\n  Declaration(Class(:A))", "line 2, column 21: refused 42: the class :A is declared twice, first at 1:19"),
        ("Declaration(Class(owl:Thing))", "line 1, column 30: refused 42: a vocabulary has at least one class; none is declared"),
        ("Declaration(Individual(:A))", "line 1, column 13: refused 41: \"Individual\" cannot be declared; Class, ObjectProperty and DataProperty can"),
        ("Declaration(Class(:A)) Policy(:A", "line 1, column 33: expected a class or a restriction, found the end of the text"),
        ("Declaration(Class(:A)) Policy(:A))", "line 1, column 34: refused 41: expected Declaration, an axiom or Policy, found \")\""),
        ("Declaration Class", "line 1, column 13: refused 41: expected \"(\" after Declaration, found \"Class\""),
        ("Policy(\"x", "line 1, column 8: no closing \" on this line"),
        ("Policy(<x\n>)", "line 1, column 8: no closing > on this line"),
        // First what the text is made of, in its order: a policy is no better than an axiom there.
        ("SubClassOf(:A :B) Policy(:A)\nSubClassOf(:A", "line 2, column 14: refused 41: expected the name of a class, found the end of the text"),
        ("SubClassOf(:A :B) Policy(:A\nSubClassOf(:A", "line 2, column 11: expected a class or a restriction, found \"(\""),
        // Then the names of the vocabulary, and then those of policies.
        ("Policy(:B) SubClassOf(:A :A)", "line 1, column 23: refused 42: the class :A is not declared"),
    ];
    for (text, expected) in cases {
        assert_eq!(in_document(text.as_bytes()), expected, "{text}");
    }
    assert!(
        in_document(b"Foo(:A)").starts_with("line 1, column 1: refused 41: \"Foo\" is none of the")
    );
}

#[test]
fn a_string_of_the_vocabulary_is_no_mistake_of_a_policy() {
    let text =
        b"Policy(:B) Ontology(Annotation(rdfs:comment \"two\nlines\") Declaration(Class(:A)))";
    assert!(in_document(text).starts_with("line 1, column 8: :B is no class"));
}

#[test]
fn a_name_may_be_used_before_it_is_declared() {
    let text = b"Policy(:B) SubClassOf(:B :A) Declaration(Class(:A)) Declaration(Class(:B))";
    let read = document(text).expect("a document");
    assert_eq!(read.vocabulary.words(), [2, 0, 0, 1, 1, 2, 1, 0]);
    assert_eq!(read.policies, [policy(&desk(), b"Policy(:B)").expect("a policy")]);
}

#[test]
fn policies() {
    let cases = [
        ("", "line 1, column 1: expected \"Policy\", found the end of the text"),
        ("\n Policies(:A)", "line 2, column 2: expected \"Policy\", found \"Policies\""),
        ("Policy(:A) # and\nPolicy(:B)", "line 2, column 1: expected nothing behind the policy, found \"Policy\""),
        ("Policy(:A\nPolicy(:B))", "line 2, column 1: another policy begins here, and the one before is not closed"),
        ("Policy(ObjectIntersectionOf(ObjectUnionOf()))", "line 1, column 29: a union can stand only outside the terms"),
        ("Policy(ObjectSomeValuesFrom(:d :A))", "line 1, column 29: :d is no role declared above; write Declaration(ObjectProperty(:d)) before it"),
        ("Policy(ObjectSomeValuesFrom(:r :A :B))", "line 1, column 35: expected \")\" at the end of ObjectSomeValuesFrom, found \":B\""),
        ("Policy(DataSomeValuesFrom(:d xsd:integer))", "line 1, column 30: expected \"DatatypeRestriction\", found \"xsd:integer\""),
        ("Policy(DataSomeValuesFrom(:d DatatypeRestriction(xsd:integer xsd:minInclusive -1", "line 1, column 79: expected a whole number from 0 to 4294967295, found \"-1\""),
        ("Policy(DataSomeValuesFrom(:d DatatypeRestriction(xsd:integer xsd:minInclusive 4294967296", "line 1, column 79: expected a whole number from 0 to 4294967295, found \"4294967296\""),
        ("Policy(DataSomeValuesFrom(:d DatatypeRestriction(xsd:integer xsd:minInclusive \"1\"", "line 1, column 82: expected \"^^xsd:integer\", found the end of the text"),
        ("Policy(Annotation(:recordOrder \"1\"))", "line 1, column 8: :recordOrder must have each number from 1 to 0 once"),
        ("Policy(Annotation(:recordOrder \"1 x\") :A)", "line 1, column 8: :recordOrder holds numbers with blanks between them"),
        ("Policy(Annotation(:recordOrder \"2 1\") :A)", "line 1, column 8: :recordOrder makes record 2 link back to 1; links lead to greater numbers"),
        ("Policy(Annotation(rdfs:label :A) :A)", "line 1, column 30: expected a name in quotes, found \":A\""),
        ("Policy(Annotation(rdfs:label \"a\") Annotation(rdfs:label \"b\"))", "line 1, column 35: a policy has one name, and this is the second"),
        ("Policy(Annotation(rdfs:comment \"a\"))", "line 1, column 19: expected rdfs:label or :recordOrder, found \"rdfs:comment\""),
    ];
    for (text, expected) in cases {
        assert_eq!(in_policy(text.as_bytes()), expected, "{text}");
    }
}

#[test]
fn a_policy_in_its_file() {
    let place = |text: &[u8]| {
        let Mistake { line, column, .. } = policy_at(&desk(), text, 40, 9).expect_err("a mistake");
        (line, column)
    };
    assert_eq!(place(b"Policy(:C)"), (40, 16));
    assert_eq!(place(b"Policy(\n  :C)"), (41, 3));
}

#[test]
fn vocabularies() {
    assert_eq!(
        in_vocabulary(b"Declaration(Class(:A))\nPolicy(:A)"),
        "line 2, column 1: refused 41: a policy stands in a text of its own, not in a vocabulary"
    );
    assert_eq!(
        in_vocabulary(b"# nothing\n"),
        "line 2, column 1: refused 42: a vocabulary has at least one class; none is declared"
    );
}

#[test]
fn bytes_over_127() {
    // In comments and strings they may stand, and a character is one column.
    let text = "Policy(Annotation(rdfs:label \"Zoë Ångström\") # größer\n :A)";
    let read = policy(&desk(), text.as_bytes()).expect("a policy");
    assert_eq!(read.name.as_deref(), Some("Zoë Ångström"));
    assert_eq!(
        in_policy("Policy(Annotation(rdfs:label \"Zoë\") :C)".as_bytes()),
        "line 1, column 37: :C is no class declared above; write Declaration(Class(:C)) before it"
    );
    let cases: [(&[u8], &str); 7] = [
        ("Policy(:Gerät)".as_bytes(), "line 1, column 12: byte 195"),
        ("Policy(<http://x/ä>)".as_bytes(), "line 1, column 18: byte 195"),
        ("Policy(\u{a0}:A)".as_bytes(), "line 1, column 8: byte 194"),
        ("\u{feff}Policy(:A)".as_bytes(), "line 1, column 1: byte 239"),
        (b"Policy(:A) # \xff\n\xff", "line 2, column 1: byte 255"),
        // It is told before what is wrong in front of it.
        (b"Polcy(:A)\n :B\x80", "line 2, column 4: byte 128"),
        (b"Policy(Annotation(rdfs:label \"\xff\") :A)", "line 1, column 30: a name is UTF-8"),
    ];
    for (text, expected) in cases {
        let found = in_policy(text);
        assert!(found.starts_with(expected), "{found}\n{expected}");
    }
}

#[test]
fn names_and_records_are_limited() {
    let declare = |keyword: &str, count: u32| -> String {
        (1..=count).map(|number| format!("Declaration({keyword}(:N{number}))\n")).collect()
    };
    for (keyword, what, most) in
        [("Class", "class", 256), ("ObjectProperty", "role", 64), ("DataProperty", "feature", 64)]
    {
        let text = |count: u32| format!("Declaration(Class(:A))\n{}", declare(keyword, count));
        let most_here = if keyword == "Class" { most - 1 } else { most };
        assert!(Vocabulary::parse(text(most_here).as_bytes()).is_ok());
        let (line, name) = (most_here + 2, most_here + 1);
        let column = "Declaration(".len() + keyword.len() + 2;
        assert_eq!(
            in_vocabulary(text(most_here + 1).as_bytes()),
            format!("line {line}, column {column}: refused 42: :N{name} is one {what} too many; there are at most {most}")
        );
    }
    let axioms = |count: usize| [DESK, "\nSubClassOf(:A :B)".repeat(count).as_bytes()].concat();
    // The role and the feature, which are not stated functional, take a record each.
    assert!(Vocabulary::parse(&axioms(1_022)).is_ok());
    assert_eq!(
        in_vocabulary(&axioms(1_023)),
        "line 1025, column 1: refused 1: a vocabulary has at most 1024 records, one for each axiom and \
         one for each role or feature that is not stated functional"
    );
    let wide = |count: usize| format!("Policy(ObjectIntersectionOf({}))", ":A ".repeat(count));
    assert_eq!(policy(&desk(), wide(511).as_bytes()).expect("a policy").words.len(), 513 * 6);
    assert_eq!(
        in_policy(wide(512).as_bytes()),
        "line 1, column 1562: a policy has at most 512 records, one for each term and conjunct"
    );
}

#[test]
fn depth_is_limited() {
    let deep = |depth: usize| {
        let (front, back) = ("ObjectSomeValuesFrom(:r ".repeat(depth - 1), ")".repeat(depth - 1));
        format!("Policy({front}:A{back})")
    };
    assert!(policy(&desk(), deep(16).as_bytes()).is_ok());
    assert_eq!(
        in_policy(deep(17).as_bytes()),
        "line 1, column 392: restrictions can be nested 16 deep, and this is deeper"
    );
    let nested = |depth: usize| {
        let (front, back) = ("ObjectIntersectionOf(".repeat(depth), ")".repeat(depth));
        format!("Policy({front}:A{back})")
    };
    assert!(policy(&desk(), nested(199).as_bytes()).is_ok());
    assert_eq!(
        in_policy(nested(200).as_bytes()),
        "line 1, column 4208: parentheses are nested too deep"
    );
    assert!(in_policy(nested(100_000).as_bytes()).ends_with("nested too deep"));
}

#[test]
fn a_long_word_is_cut_in_a_message() {
    let text = format!("Policy({})", "x".repeat(100_000));
    assert!(in_policy(text.as_bytes()).len() < 300);
}
