//! `vocabulary`, and vocabularies as OWL editors save them.

mod common;

use common::{bytes, days, objects, run_in, unnamed, Desk, EXAMPLES, VOCABULARY};
use serde_json::{json, Value};

/// The desk's vocabulary as an editor saves it. Names are spelled as the library does not spell them.
const SAVED: &str = "Prefix(:=<http://example.org/desk/>)
Prefix(owl:=<http://www.w3.org/2002/07/owl#>)


Ontology(<http://example.org/desk>
Annotation(rdfs:comment \"A desk\"@en)

Declaration(Class(:Data))
Declaration(Class(:At-Place))
Declaration(ObjectProperty(:uses))
Declaration(DataProperty(:days))

# Class: :At-Place (location)

AnnotationAssertion(rdfs:label :At-Place \"location\"@en)
SubClassOf(:At-Place :Data)
FunctionalDataProperty(<http://example.org/desk/days>)
)
";
const LEFT_OUT: &str =
    "gimbuka: saved.ofn: left out: 2 prefixes, the ontology's IRI, 2 annotations\n";

fn desk() -> Desk {
    let desk = Desk::new();
    desk.put("saved.ofn", SAVED);
    desk
}

#[test]
fn what_it_holds() {
    let desk = desk();
    let told = "vocabulary.txt: 2 classes, 1 role, 1 feature, 2 axioms; many-valued: :uses\n";
    desk.run(&["vocabulary", "vocabulary.txt"]).is(0, told, "");
    let told = "saved.ofn: 2 classes, 1 role, 1 feature, 2 axioms; many-valued: :uses\n";
    desk.run(&["vocabulary", "saved.ofn"]).is(0, told, LEFT_OUT);
    let told = "-: 1 class, 0 roles, 0 features, 0 axioms\n";
    desk.run_with(&["vocabulary", "-"], b"Declaration(Class(:A))").is(0, told, "");
    // Of words, what the chain has counts; that a name is many-valued is no axiom.
    desk.put("words", bytes(&[2, 1, 0, 2, 9, 9, 9, 9, 1, 2, 1, 3, 6, 1, 0, 0]));
    let told = "words: 2 classes, 1 role, 0 features, 1 axiom; many-valued: :r1\n";
    desk.run(&["vocabulary", "words"]).is(0, told, "");
    run_in(EXAMPLES, &["vocabulary", "editor.ofn"]).is(
        0,
        "editor.ofn: 6 classes, 3 roles, 1 feature, 8 axioms; many-valued: :uses\n",
        "gimbuka: editor.ofn: left out: 6 prefixes, the ontology's IRI, its version, 16 annotations, \
         1 annotation property\n",
    );
}

#[test]
fn the_fragment_is_read_exactly() {
    let desk = desk();
    let fragment = "Ontology(\nDeclaration(Class(:Data))\nDeclaration(Class(:AtPlace))\n\
        Declaration(ObjectProperty(:uses))\nDeclaration(DataProperty(:days))\n\
        SubClassOf(:AtPlace :Data)\nFunctionalDataProperty(:days)\n)\n";
    desk.run(&["vocabulary", "--fragment", "saved.ofn"]).is(0, fragment, LEFT_OUT);
    desk.put("fragment.ofn", fragment);
    desk.run(&["vocabulary", "--exact", "--fragment", "fragment.ofn"]).is(0, fragment, "");
    let told = "fragment.ofn: 2 classes, 1 role, 1 feature, 2 axioms; many-valued: :uses\n";
    desk.run(&["vocabulary", "--exact", "fragment.ofn"]).is(0, told, "");
    // Names that are numbers have a spelling, too.
    desk.put("words", bytes(&[1, 1, 0, 1, 5, 1, 1, 2, 6, 1, 0, 0]));
    let fragment = "Ontology(\nDeclaration(Class(:C1))\nDeclaration(ObjectProperty(:r1))\n\
        ObjectPropertyRange(:r1 :C1)\n)\n";
    desk.run(&["vocabulary", "--fragment", "words"]).is(0, fragment, "");
    // A role that words leave functional is stated so.
    desk.put("words", bytes(&[1, 1, 0, 1, 5, 1, 1, 0]));
    let fragment = fragment.replace(":C1)\n)", ":C1)\nFunctionalObjectProperty(:r1)\n)");
    desk.run(&["vocabulary", "--fragment", "words"]).is(0, &fragment, "");
}

#[test]
fn exact_bytes() {
    let desk = desk();
    let exact = |bytes: &[u8], err: &str| {
        desk.put("v", bytes);
        desk.run(&["vocabulary", "--exact", "v"]).is(2, "", &format!("gimbuka: v:{err}\n"));
    };
    exact(b"", "1:1: refused 41: expected Ontology, found the end of the text");
    exact(SAVED.as_bytes(), "1:1: refused 41: expected Ontology, found \"Prefix\"");
    exact(b"Ontology(\n \0)", "2:2: refused 41: byte 0 cannot stand here");
    exact(b"\xff\xfeO\0", "1:1: refused 41: byte 255 cannot stand here");
    exact(b"Ontology()", "1:10: refused 42: a vocabulary has at least one class; none is declared");
    let long = format!("Ontology(Declaration(Class(:A))){}", " ".repeat(65_536));
    exact(
        long.as_bytes(),
        "1:65537: refused 41: the text goes on here, and 65536 bytes are the most",
    );
    // Without it, blanks are no trouble.
    let told = "v: 1 class, 0 roles, 0 features, 0 axioms\n";
    desk.run(&["vocabulary", "v"]).is(0, told, "");
}

#[test]
fn a_mistake_is_told_by_every_verb_that_reads_it() {
    let desk = desk();
    let cases = [
        (
            "SubClassOf(:Data owl:Thing)",
            "18: refused 41: owl:Thing has a meaning of its own, and is no name of a vocabulary",
        ),
        (
            "SubClassOf(:Dtaa :Data)",
            "12: refused 42: the class :Dtaa is not declared; did you mean :Data?",
        ),
        (
            "Declaration(ObjectProperty(:uses))",
            "28: refused 42: the role :uses is declared twice, first at 10:28",
        ),
    ];
    for (line, told) in cases {
        desk.put("saved.ofn", SAVED.replace("SubClassOf(:At-Place :Data)", line));
        let err = format!("gimbuka: saved.ofn:16:{told}\n");
        desk.run(&["vocabulary", "saved.ofn"]).is(2, "", &err);
        desk.run(&["check", "saved.ofn", "buyer.txt", "buyer.txt"]).is(2, "", &err);
        desk.run(&["aloud", "saved.ofn", "buyer.txt"]).is(2, "", &err);
    }
    desk.put("many.txt", VOCABULARY.to_owned() + &"SubClassOf(:Data :Data)\n".repeat(1_023));
    let err =
        "gimbuka: many.txt:1025:1: refused 1: a vocabulary has at most 1024 records, one for each \
        axiom and one for each role or feature that is not stated functional\n";
    desk.run(&["vocabulary", "many.txt"]).is(2, "", err);
    desk.put("all.txt", format!("{VOCABULARY}{}", unnamed(0, 1)));
    let err = "gimbuka: all.txt:4:1: refused 41: a policy stands in a text of its own, not in a vocabulary\n";
    desk.run(&["vocabulary", "all.txt"]).is(2, "", err);
    desk.put("words", bytes(&[0, 0, 0, 0]));
    let err = "gimbuka: words: refused 2: in the vocabulary's header a count is out of range or the link is past the last record\n";
    desk.run(&["vocabulary", "words"]).is(2, "", err);
    desk.put("words", bytes(&[1, 1, 0, 1, 3, 1, 0, 2, 6, 1, 0, 0]));
    let err = "gimbuka: words: refused 44: a role or a feature of the vocabulary is stated both functional and many-valued\n";
    desk.run(&["vocabulary", "words"]).is(2, "", err);
    desk.run(&["check", "words", "buyer.txt", "buyer.txt"]).is(2, "", err);
}

#[test]
fn objects_for_programs() {
    let desk = desk();
    let object = |words: &[&str]| -> (Option<i32>, Value) {
        let ran = desk.run(&[&["vocabulary", "--json"], words].concat());
        let mut all = objects(&ran.out);
        assert_eq!(all.len(), 1, "{ran:?}");
        (ran.status, all.remove(0))
    };
    let left_out = json!({
        "prefixes": 2, "iri": 1, "version_iri": 0, "annotations": 2, "annotation_axioms": 0,
        "annotation_properties": 0, "datatypes": 0, "individuals": 0, "owls_own": 0,
    });
    let mut held = json!({
        "file": "saved.ofn", "verdict": "read", "classes": 2, "roles": 1, "features": 1, "axioms": 2,
        "many_valued": [":uses"], "left_out": left_out,
    });
    assert_eq!(object(&["saved.ofn"]), (Some(0), held.clone()));
    let printed = desk.run(&["vocabulary", "--fragment", "saved.ofn"]).out;
    held["fragment"] = printed.into();
    assert_eq!(object(&["--fragment", "saved.ofn"]), (Some(0), held));
    let message = "expected Ontology, found \"Prefix\"";
    let refused = json!({
        "file": "saved.ofn", "verdict": "refused", "line": 1, "column": 1, "refusal": 41, "message": message,
    });
    assert_eq!(object(&["--exact", "saved.ofn"]), (Some(2), refused));
    let message = "No such file or directory (os error 2)";
    let unread = json!({ "file": "none", "verdict": "unread", "message": message });
    assert_eq!(object(&["none"]), (Some(2), unread));
}

#[test]
fn an_editors_file_is_as_good_as_another() {
    let desk = desk();
    desk.put("consents.txt", [days("alice", 0, 90), days("bob", 0, 30)].concat());
    let place = "Policy(ObjectSomeValuesFrom(:uses <http://example.org/desk/At-Place>))";
    desk.put("place.txt", place);
    desk.put("data.txt", "Policy(ObjectSomeValuesFrom(<http://example.org/desk/uses> :Data))");
    desk.put("case", "value 1 1 59\n");
    let verbs: [(&[&str], &str); 8] = [
        (&["check", "--why"], "buyer.txt consents.txt"),
        (&["equal"], "buyer.txt consents.txt"),
        (&["possible"], "consents.txt"),
        (&["group"], "consents.txt"),
        (&["verify", "--name", "bob"], "buyer.txt consents.txt case"),
        (&["picture", "--name", "bob"], "buyer.txt consents.txt"),
        (&["encode", "--name", "bob"], "buyer.txt consents.txt"),
        (&["aloud"], "answer"),
    ];
    desk.put("answer", "outside 1 4\nvalue 1 1 59\n");
    for (verb, files) in verbs {
        let words = |vocabulary| {
            let files = files.split(' ').collect();
            [verb.to_vec(), vec![vocabulary], files].concat()
        };
        let plain = desk.run(&words("vocabulary.txt"));
        let saved = desk.run(&words("saved.ofn"));
        assert_eq!((saved.status, &saved.out), (plain.status, &plain.out), "{verb:?}");
        assert_eq!((plain.err.as_str(), saved.err.as_str()), ("", LEFT_OUT), "{verb:?}");
    }
    // By whole IRIs, and told as they are declared.
    let ran = desk.run(&["check", "saved.ofn", "place.txt", "data.txt"]);
    ran.is(0, "data.txt: compliant\n1 consent: 1 compliant\n", LEFT_OUT);
    let ran = desk.run(&["check", "--why", "saved.ofn", "place.txt", "buyer.txt"]);
    assert!(ran.out.contains("\n    x2 is in :At-Place\n"), "{ran:?}");
    // And with policies behind it.
    desk.put("all.ofn", format!("{SAVED}{}{}", unnamed(0, 30), unnamed(0, 60)));
    let ran = desk.run(&["check", "all.ofn"]);
    let err = LEFT_OUT.replace("saved", "all");
    ran.is(0, "all.ofn: compliant\n1 consent: 1 compliant\n", &err);
}
