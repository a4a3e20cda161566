//! Vocabularies as people write them and as OWL editors save them: what is left out, what is not, and
//! which name is which.

use notation::{facts, policy, print_owl, Names, Vocabulary};
use reasoner::random::owl::source::{around, Form, Source};
use reasoner::random::Rng;
use std::fs;

const WORDS: [u32; 12] = [2, 1, 0, 1, 1, 1, 2, 2, 6, 1, 0, 0];
const DESK: &str = "Declaration(Class(:A)) Declaration(Class(:B)) Declaration(ObjectProperty(:r))
    SubClassOf(:A :B)";

fn read(text: &str) -> Vocabulary {
    Vocabulary::parse(text.as_bytes()).unwrap_or_else(|mistake| panic!("{mistake}\n{text}"))
}

#[test]
fn what_states_nothing_is_left_out() {
    let cases = [
        ("DESK", ""),
        ("Ontology(DESK)", ""),
        ("# Ontology(\r\n# \"\r\nOntology ( # é <\r\n\x0bDESK\x0c)\r\n", ""),
        ("Prefix(:=<http://x#>) DESK", "1 prefix"),
        ("Prefix(:=<http://x#>)Prefix( x-1: = # the other\n<http://x/1#> )\nOntology(DESK)", "2 prefixes"),
        ("Ontology(DESK) Prefix(:=<http://x#>)", "1 prefix"),
        ("Ontology(<http://x> DESK)", "the ontology's IRI"),
        ("Ontology(x:o DESK)", "the ontology's IRI"),
        ("Ontology(<http://x><http://x/1> DESK)", "the ontology's IRI, its version"),
        ("Ontology(Annotation(rdfs:label \"x\") DESK)", "1 annotation"),
        ("Ontology(<http://x> Annotation(rdfs:seeAlso <http://y>) Annotation(x:by _:b) DESK)", "the ontology's IRI, 2 annotations"),
        ("Ontology(DESK Annotation(x:y x:z))", "1 annotation"),
        ("Ontology(Annotation(Annotation(Annotation(x:a x:b) x:a x:b) Annotation(x:a \"\") x:a x:b) DESK)", "4 annotations"),
        ("DESK AnnotationAssertion(rdfs:label :A \"a\")", "1 annotation"),
        ("DESK AnnotationAssertion(Annotation(x:a x:b) rdfs:label <http://x#A> x:c)", "2 annotations"),
        ("DESK AnnotationAssertion(rdfs:label _:someone _:other)", "1 annotation"),
        ("DESK SubAnnotationPropertyOf(x:a x:b)", "1 axiom of annotation properties"),
        ("DESK AnnotationPropertyDomain(x:a :A) AnnotationPropertyRange(Annotation(x:a x:b) x:a :A)", "1 annotation, 2 axioms of annotation properties"),
        ("Declaration(AnnotationProperty(x:a)) DESK", "1 annotation property"),
        ("Declaration(Annotation(x:a x:b) Datatype(x:a)) DESK", "1 annotation, 1 declared datatype"),
        ("DESK Declaration(NamedIndividual(:A)) Declaration(NamedIndividual(:A))", "2 declared individuals"),
        ("Declaration(Class(owl:Thing)) DESK Declaration(ObjectProperty(<http://www.w3.org/2002/07/owl#topObjectProperty>))", "2 declared names of OWL's own"),
    ];
    for (text, left_out) in cases {
        let text = text.replace("DESK", DESK);
        let found = read(&text);
        assert_eq!(found.words(), WORDS, "{text}");
        assert_eq!(found.left_out().to_string(), left_out, "{text}");
        assert_eq!(found.left_out().is_empty(), left_out.is_empty());
    }
    let counts: Vec<_> =
        read("Prefix(:=<x>) Ontology(x:y Declaration(Class(:A)))").left_out().counts().collect();
    assert_eq!(counts[..3], [("prefixes", 1), ("iri", 1), ("version_iri", 0)]);
    assert_eq!(counts.len(), 9);
}

#[test]
fn annotations_inside() {
    let text = "Ontology(
        Declaration(Annotation(rdfs:label \"a\"@en) Class(:A)) Declaration(Class(:B))
        Declaration(ObjectProperty(:r))
        SubClassOf(Annotation(rdfs:comment \"why\") Annotation(rdfs:comment \"how\") :A :B))";
    let found = read(text);
    assert_eq!(found.words(), WORDS);
    assert_eq!(found.left_out().to_string(), "3 annotations");
    // A class may be called so.
    let named = read("Declaration(Class(Annotation)) SubClassOf(Annotation Annotation)");
    assert_eq!((named.words(), named.left_out().is_empty()), (&[1, 0, 0, 1, 1, 1, 1, 0][..], true));
}

#[test]
fn literals() {
    for literal in [
        r#""""#,
        r#""a""#,
        r#""a"@en"#,
        r#""a" @en-GB"#,
        r#""a"^^xsd:string"#,
        r#""a"^^<http://www.w3.org/2001/XMLSchema#string>"#,
        r#""a" ^^ # of what
            xsd:string"#,
        r#""\"""#,
        r#""\\""#,
        r#""\\\" )""#,
        "\"SubClassOf(:B :A) # \r\n \n DisjointClasses(:A :A) <\"",
        "\"Größe 😀\"@de",
        "<http://x#y>",
    ] {
        let text = format!("Ontology(Annotation(rdfs:comment {literal}){DESK}\n)");
        assert_eq!(read(&text).words(), WORDS, "{text}");
    }
}

/// What is refused of a vocabulary.
fn refused(text: &str) -> String {
    Vocabulary::parse(text.as_bytes()).expect_err("a mistake").to_string()
}

#[test]
fn what_states_something_is_never_left_out() {
    let keywords = [
        "Import",
        "EquivalentClasses",
        "DisjointUnion",
        "SubObjectPropertyOf",
        "EquivalentObjectProperties",
        "DisjointObjectProperties",
        "ObjectPropertyDomain",
        "InverseObjectProperties",
        "InverseFunctionalObjectProperty",
        "ReflexiveObjectProperty",
        "IrreflexiveObjectProperty",
        "SymmetricObjectProperty",
        "AsymmetricObjectProperty",
        "TransitiveObjectProperty",
        "SubDataPropertyOf",
        "EquivalentDataProperties",
        "DisjointDataProperties",
        "DataPropertyDomain",
        "DataPropertyRange",
        "DatatypeDefinition",
        "HasKey",
        "SameIndividual",
        "DifferentIndividuals",
        "ClassAssertion",
        "ObjectPropertyAssertion",
        "NegativeObjectPropertyAssertion",
        "DataPropertyAssertion",
        "NegativeDataPropertyAssertion",
        "DLSafeRule",
    ];
    for keyword in keywords {
        for text in
            [format!("{DESK}\n {keyword}(:A :B)"), format!("Ontology({DESK}\n {keyword}(:A :B))")]
        {
            let told = refused(&text);
            assert!(told.starts_with("line 3, column 2: refused 41: "), "{told}\n{text}");
            assert!(told.contains(keyword) || told.contains("import"), "{told}");
        }
    }
}

/// Each with its place, before which there is a sign.
#[test]
fn reasons() {
    let owls = "has a meaning of its own, and is no name of a vocabulary";
    let forms = "is none of the eight forms: Declaration of Class, ObjectProperty or DataProperty, SubClassOf, \
                 DisjointClasses, FunctionalObjectProperty, FunctionalDataProperty and ObjectPropertyRange";
    let cases = [
        (
            "Ontology(§Import(<http://y>))",
            "41: an import is not followed: put what it has into this text",
        ),
        (
            "DESK DisjointClasses(:A :B §:C)",
            "41: expected \")\" behind the two names of DisjointClasses, found \":C\"",
        ),
        ("DESK DisjointClasses(:A§)", "41: expected the name of a class, found \")\""),
        (
            "DESK SubClassOf(:A §ObjectSomeValuesFrom(:r :B))",
            "41: expected the name of a class, found a compound one, \"ObjectSomeValuesFrom( )\"",
        ),
        (
            "DESK SubClassOf(§ObjectUnionOf (:A :B) :B)",
            "41: expected the name of a class, found a compound one, \"ObjectUnionOf( )\"",
        ),
        (
            "DESK FunctionalObjectProperty(§ObjectInverseOf(:r))",
            "41: expected the name of a role, found a compound one, \"ObjectInverseOf( )\"",
        ),
        ("DESK SubClassOf(:A §owl:Thing)", "41: owl:Thing OWLS"),
        (
            "DESK SubClassOf(§<http://www.w3.org/2002/07/owl#Nothing> :A)",
            "41: <http://www.w3.org/2002/07/owl#Nothing> OWLS",
        ),
        (
            "Declaration(Class(o:Thing)) SubClassOf(:A §o:Thing) DESK Prefix(o:=<http://www.w3.org/2002/07/owl#>)",
            "41: o:Thing OWLS",
        ),
        ("DESK ObjectPropertyRange(§owl:topObjectProperty :A)", "41: owl:topObjectProperty OWLS"),
        ("DESK §ClassAssertion(:A :x)", "41: \"ClassAssertion\" FORMS"),
        (
            "DESK Declaration(§Foo(:x))",
            "41: \"Foo\" cannot be declared; Class, ObjectProperty and DataProperty can",
        ),
        // What is left out is read all the same: nothing hides in it.
        (
            "DESK AnnotationAssertion(rdfs:label :A SubClassOf§(:A :B))",
            "41: expected \")\" at the end of AnnotationAssertion, found \"(\"",
        ),
        (
            "DESK AnnotationAssertion(rdfs:label :A \"a\" §SubClassOf(:A :B))",
            "41: expected \")\" at the end of AnnotationAssertion, found \"SubClassOf\"",
        ),
        (
            "DESK AnnotationAssertion(rdfs:label :A§)",
            "41: expected an IRI or a literal, found \")\"",
        ),
        (
            "SubClassOf(Annotation(rdfs:label :A §:A :B)",
            "41: expected \")\" at the end of Annotation, found \":A\"",
        ),
        ("§Annotation(rdfs:label \"a\") DESK", "41: \"Annotation\" FORMS"),
        ("Ontology(Annotation(rdfs:label §\"a\n) DESK)", "41: no closing \" behind this one"),
        ("Ontology(Annotation(rdfs:label §\"a\\\") DESK)", "41: no closing \" behind this one"),
        ("SubClassOf(§\"a\" :B)", "41: expected the name of a class, found the string \"a\""),
        (
            "Declaration(Class(:Ger§ät))",
            "41: byte 195 is no ASCII character; only comments and strings can have others",
        ),
        ("Prefix(:=<a>)\nPrefix(§:=<b>)", "41: the prefix : is declared twice"),
        (
            "Prefix(§owl:=<b>)",
            "41: the prefix owl: stands for <http://www.w3.org/2002/07/owl#> in every text",
        ),
        ("Prefix(§a=<b>)", "41: expected a prefix that ends in a colon, found \"a=<b>\""),
        ("Prefix(a:§<b>)", "41: expected \"=\" after a:, found \"<b>\""),
        ("Prefix(a:=§b:)", "41: expected a whole IRI, as <..>, found \"b:\""),
        ("Prefix(a:=<b>§", "41: expected \")\" at the end of Prefix, found the end of the text"),
        (
            "Ontology(DESK) §Ontology(DESK)",
            "41: a text has one Ontology( ), and this is the second",
        ),
        ("Ontology(DESK) §SubClassOf(:A :B)", "41: \"SubClassOf\" stands behind Ontology( )"),
        (
            "DESK §Ontology(DESK)",
            "41: Ontology( ) holds every declaration and axiom, and some stand before it",
        ),
        ("Ontology(DESK §Prefix(:=<a>))", "41: \"Prefix\" FORMS"),
        ("Ontology(<a> <b> §<c> DESK)", "41: \"<c>\" FORMS"),
        (
            "Ontology(DESK§",
            "41: expected Declaration, an axiom or \")\", found the end of the text",
        ),
        (
            "Ontology(DESK) §Policy(:A)",
            "41: a policy stands in a text of its own, not in a vocabulary",
        ),
        // By whole IRIs, and by sorts.
        (
            "Prefix(:=<x#>) DESK Declaration(Class(§<x#A>))",
            "42: the class <x#A> is declared twice, first at 1:34",
        ),
        ("Prefix(p:=<x#>) DESK SubClassOf(§p:A :B)", "42: the class p:A is not declared"),
        ("DESK SubClassOf(:A §:C)", "42: the class :C is not declared"),
        ("DESK SubClassOf(:A §:r)", "42: the class :r is not declared; it is a role"),
        ("DESK ObjectPropertyRange(§:A :A)", "42: the role :A is not declared; it is a class"),
        (
            "Declaration(DataProperty(:Data)) FunctionalDataProperty(§:Dtaa) DESK",
            "42: the feature :Dtaa is not declared; did you mean :Data?",
        ),
        (
            "Declaration(DataProperty(:r))\n§",
            "42: a vocabulary has at least one class; none is declared",
        ),
        (
            "Prefix(:=<x#>) Ontology(x:o\n§)",
            "42: a vocabulary has at least one class; none is declared",
        ),
    ];
    for (marked, expected) in cases {
        let marked = marked.replace("DESK", DESK);
        let (before, behind) = marked.split_once('§').expect("a sign");
        let line = before.split('\n').count();
        let column = before.chars().rev().take_while(|&letter| letter != '\n').count() + 1;
        let expected = expected.replace("FORMS", forms).replace("OWLS", owls);
        let expected = format!("line {line}, column {column}: refused {expected}");
        assert_eq!(refused(&format!("{before}{behind}")), expected);
    }
}

#[test]
fn of_several_mistakes_the_operations_first_is_told() {
    let axioms = "\nSubClassOf(:A :B)".repeat(1_024);
    let many = format!("{DESK}{axioms}");
    // The role takes a record, too.
    assert!(refused(&many).starts_with("line 1025, column 1: refused 1: "));
    let unknown = format!("{many}\nSubClassOf(:A :X) SubClassOf(:X :A)");
    assert!(refused(&unknown).starts_with("line 1027, column 15: refused 42: "));
    let owls = format!("{unknown}\nSubClassOf(:A owl:Thing)");
    assert!(refused(&owls).starts_with("line 1028, column 15: refused 41: "));
    let other = format!("{unknown}\nClassAssertion(:A :B) Foo(");
    assert!(refused(&other).starts_with("line 1028, column 1: refused 41: "));
}

#[test]
fn a_name_is_its_whole_iri() {
    let text = "Prefix(:=<http://x.y/#>) Prefix(p:=<http://x.y/>) Ontology(
        Declaration(Class(:A)) Declaration(Class(p:#B)) Declaration(Class(<http://x.y/#C>))
        Declaration(Class(<http://z/#A>)) Declaration(Class(q:A)) Declaration(ObjectProperty(<http://x.y/r>))
        SubClassOf(<http://x.y/#A> :B) SubClassOf(p:#C <http://z/#A>) ObjectPropertyRange(p:r q:A))";
    // A sign # begins a comment, but not in an IRI.
    let text =
        text.replace("p:#", "h:").replace("Ontology(", "Prefix(h:=<http://x.y/#>) Ontology(");
    let found = read(&text);
    assert_eq!(found.words(), [5, 1, 0, 1, 1, 1, 2, 2, 1, 3, 4, 3, 5, 1, 5, 4, 6, 1, 0, 0]);
    // They are told as they were declared.
    let Names { classes, roles, .. } = found.names();
    assert_eq!(classes[..], [":A", "h:B", "<http://x.y/#C>", "<http://z/#A>", "q:A"]);
    assert_eq!(roles[..], ["<http://x.y/r>"]);
    assert_eq!(facts(found.names(), &[1, 1, 0, 0, 0, 1, 3, 1, 0, 0]), ["x1 is in <http://x.y/#C>"]);
    // And a policy may call them by any name.
    let words = |text: &str| policy(&found, text.as_bytes()).expect("a policy").words;
    assert_eq!(words("Policy(:B)"), words("Policy(h:B)"));
    assert_eq!(words("Policy(<http://x.y/#B>)"), words("Policy(h:B)"));
    assert_eq!(
        words("Policy(ObjectSomeValuesFrom(p:r :C))"),
        words("Policy(ObjectSomeValuesFrom(<http://x.y/r> <http://x.y/#C>))")
    );
    assert!(policy(&found, b"Policy(<q:A>)").is_err());
}

#[test]
fn names_are_spelled_for_the_operation() {
    let long = "n".repeat(33);
    let names = [
        ":heart-rate",
        ":heartrate",
        ":heart_rate",
        "p:heartrate",
        "<http://x.y/z#heart%20rate>",
        "<http://x.y/heartrate2>",
        ":-",
        "<>",
        ":2",
        &format!(":{long}"),
        &format!(":{long}x"),
        &format!("p:{}", &long[..32]),
        "Annotation",
    ];
    let mut text = String::new();
    for name in names {
        text += &format!("Declaration(Class({name})) SubClassOf({name} :heartrate)\n");
    }
    let found = read(&text);
    assert_eq!(found.names().classes, names);
    let printed = print_owl(&found);
    let exact = Vocabulary::exact(printed.as_bytes()).unwrap_or_else(|m| panic!("{m}\n{printed}"));
    assert_eq!(exact.words(), found.words());
    let n = &long[..29];
    assert_eq!(
        exact.names().classes,
        [
            ":heartrate2",
            ":heartrate",
            ":heartrate3",
            ":heartrate4",
            ":heart20rate",
            ":heartrate22",
            ":3",
            ":4",
            ":2",
            &format!(":{n}"),
            &format!(":{n}2"),
            &format!(":{n}3"),
            ":Annotation",
        ]
    );
}

#[test]
fn the_largest_vocabularies_are_read() {
    let mut text = String::new();
    let name = |letter: char, number: usize| {
        format!("<http://example.org/a/long/way/to/a/name/{letter}{}{number}>", "n".repeat(40))
    };
    for (letter, sort, count) in
        [('c', "Class", 256), ('r', "ObjectProperty", 64), ('f', "DataProperty", 64)]
    {
        for number in 0..count {
            text += &format!("Declaration({sort}({}))\n", name(letter, number));
        }
    }
    // And a record for each role and feature.
    for number in 0..1_024 - 64 - 64 {
        text += &format!(
            "ObjectPropertyRange({} {})\n",
            name('r', number % 64),
            name('c', number % 256)
        );
    }
    assert!(text.len() > 200_000);
    let found = read(&text);
    assert_eq!(found.words().len(), 4_100);
    assert_eq!(found.words()[4 * 800..][..4], [5, 799 % 64 + 1, 799 % 256 + 1, 801]);
    assert_eq!(found.words()[4 * 1_024..], [7, 64, 0, 0]);
    assert_eq!(found.axioms(), 896);
    assert_eq!(found.many_valued().len(), 64 + 64);
    assert_eq!(found.names().roles[63], name('r', 63));
    let exact = Vocabulary::exact(print_owl(&found).as_bytes()).expect("a vocabulary");
    assert_eq!(exact.words(), found.words());
}

/// One of the spellings of a name `:N`.
fn spelled(rng: &mut Rng, name: &str) -> String {
    match rng.below(4) {
        0 => format!("<http://example.org/v#{}>", &name[1..]),
        1 => format!("other-one{name}"),
        _ => name.to_owned(),
    }
}

/// A form as an editor may write it, with other spellings and an annotation, and whether that is there.
fn written(rng: &mut Rng, form: &Form) -> (String, bool) {
    let is_annotated = rng.once_in(4);
    let mut text = String::new();
    for (token, at) in form.iter().zip(0..) {
        if at == 2 && is_annotated {
            text.push_str("Annotation(rdfs:comment \"A \\\"sign\\\" (:\n\"@en) ");
        }
        match token.starts_with(':') {
            true => text.push_str(&format!("{} ", spelled(rng, token))),
            false => text.push_str(token),
        }
        text.push_str(["", " ", "\r\n", " # a comment ( \" <\n"][rng.place(4)]);
    }
    (text, is_annotated)
}

/// What an editor adds between forms: each is counted as one annotation but the last.
const BETWEEN: [&str; 4] = [
    "AnnotationAssertion(rdfs:label :N1 \"one\"@en)\n",
    "AnnotationAssertion(<http://purl.org/dc/terms/creator> <http://example.org/v#N1> _:b0)\n",
    "AnnotationAssertion(rdfs:comment :N1 \"1\"^^<http://www.w3.org/2001/XMLSchema#string>)\n",
    "\n############################\n#   Classes\n############################\r\n\n# Class: :N1 (one)\n",
];

#[test]
fn random_vocabularies_as_an_editor_writes_them() {
    let mut rng = Rng::new(46);
    let mut all = 0;
    for _ in 0..5_000 {
        let forms = Source::random(&mut rng).forms_in_any_order(&mut rng);
        let Ok(wanted) = Vocabulary::exact(around(forms.clone()).concat().as_bytes()) else {
            continue;
        };
        let mut annotations = 0;
        let mut text = "Prefix(:=<http://example.org/v#>)\nPrefix(other-one:=<http://example.org/v#>)\n\n\nOntology(<http://example.org/v>\n".to_owned();
        for form in &forms {
            let (written, is_annotated) = written(&mut rng, form);
            let between = rng.place(2 * BETWEEN.len());
            text += &written;
            text += BETWEEN.get(between).copied().unwrap_or_default();
            annotations += usize::from(is_annotated) + usize::from(between + 1 < BETWEEN.len());
        }
        text += ")\n";
        let found = read(&text);
        assert_eq!(found.words(), wanted.words(), "{text}");
        let told = match annotations {
            0 => String::new(),
            1 => ", 1 annotation".to_owned(),
            many => format!(", {many} annotations"),
        };
        assert_eq!(
            found.left_out().to_string(),
            format!("2 prefixes, the ontology's IRI{told}"),
            "{text}"
        );
        all += annotations;
        let again = Vocabulary::exact(print_owl(&found).as_bytes()).expect("a vocabulary");
        assert_eq!(again.words(), wanted.words());
        let Names { classes, .. } = found.names();
        for (class, name) in classes.iter().zip(&wanted.names().classes) {
            let [class, name] = [class, name].map(|name| {
                policy(&found, format!("Policy({name})").as_bytes()).expect("a policy")
            });
            assert_eq!(class, name);
        }
    }
    assert!(all > 10_000, "{all}");
}

/// One change of a few bytes, of which some stand in the text elsewhere.
fn damage(rng: &mut Rng, text: &mut Vec<u8>) {
    let at = rng.place(text.len());
    let end = text.len().min(at + rng.place(12));
    let from = rng.place(text.len());
    let part = text[from..text.len().min(from + rng.place(12))].to_vec();
    match rng.below(4) {
        0 => drop(text.drain(at..end)),
        1 => drop(text.splice(at..end, part)),
        2 => drop(text.splice(at..at, part)),
        _ => text[at] = *rng.pick(b"()()\"\\<>#:=^@ \n\r\0A\xc3"),
    }
}

#[test]
fn a_damaged_file_is_read_or_refused() {
    let whole = fs::read("../examples/editor.ofn").expect("the file");
    let mut rng = Rng::new(47);
    let (mut accepted, mut refused) = (0, 0);
    for _ in 0..20_000 {
        let mut text = whole.clone();
        (0..=rng.below(2)).for_each(|_| damage(&mut rng, &mut text));
        match Vocabulary::parse(&text) {
            Ok(found) => {
                // What the library is handed is all that there is.
                let again = Vocabulary::exact(print_owl(&found).as_bytes()).expect("a vocabulary");
                assert_eq!(again.words(), found.words());
                accepted += 1;
            }
            Err(mistake) => {
                let told = String::from_utf8_lossy(&text);
                assert!(matches!(mistake.refusal, Some(41 | 42)), "{mistake}\n{told}");
                let line = text.split(|&byte| byte == b'\n').nth(mistake.line - 1).expect("a line");
                assert!(mistake.column <= line.len() + 1, "{mistake}\n{told}");
                refused += 1;
            }
        }
    }
    assert!(accepted > 4_000 && refused > 4_000, "{accepted} {refused}");
}
