//! The examples, read as the reasoner reads them.

use notation::{document, facts, model, policy_at, print_vocabulary, Policies, Vocabulary};
use reasoner::text::Document;
use std::fs;

/// The text without the policies' names, which the reasoner does not read.
fn without_names(text: &str) -> String {
    let mut parts = text.split("Annotation(rdfs:label \"");
    let first = parts.next().expect("a part").to_owned();
    parts.fold(first, |text, part| text + part.split_once("\") ").expect("the name's end").1)
}

#[test]
fn the_examples_have_the_reasoners_words() {
    let mut read = 0;
    for entry in fs::read_dir("../examples").expect("the examples") {
        let path = entry.expect("an entry").path();
        if path.extension().is_none_or(|extension| extension != "txt") {
            continue;
        }
        let text = fs::read_to_string(&path).expect("a text");
        let [v, p, q] =
            Document::parse(&without_names(&text)).expect("the reasoner reads it").words();
        let found = document(text.as_bytes()).unwrap_or_else(|mistake| panic!("{mistake}"));
        assert_eq!(found.vocabulary.words(), v);
        let words: Vec<_> = found.policies.iter().map(|policy| policy.words.clone()).collect();
        assert_eq!(words, [p, q]);
        let (_, policies) = text.split_at(text.find("\nPolicy(").expect("a policy"));
        let mut pieces = Policies::new(policies.as_bytes());
        for words in words {
            let piece = pieces.next_text().expect("a piece").expect("a policy");
            let one = policy_at(&found.vocabulary, &piece.bytes, piece.line, piece.column);
            assert_eq!(one.unwrap_or_else(|mistake| panic!("{mistake}")).words, words);
        }
        assert!(pieces.next_text().is_none());
        read += 1;
    }
    assert!(read >= 7);
}

#[test]
fn the_editors_file_has_the_reasoners_words() {
    let text = fs::read_to_string("../examples/editor.ofn").expect("the file");
    let found = Vocabulary::parse(text.as_bytes()).unwrap_or_else(|mistake| panic!("{mistake}"));
    // Its declarations and axioms stand on a line each, the former first; one axiom has an annotation.
    let kept = ["Declaration", "SubClassOf", "Disjoint", "Functional", "ObjectPropertyRange"];
    let is_kept = |line: &&str| kept.iter().any(|kept| line.starts_with(kept));
    let lines: Vec<&str> = text.lines().filter(is_kept).collect();
    let lines = lines.into_iter().filter(|line| !line.contains("AnnotationProperty"));
    let bare: String = lines.map(|line| format!("{line}\n")).collect();
    let bare = bare.replace("Annotation(rdfs:comment \"Asked for by the hospitals.\"@en) ", "");
    let judge =
        Document::parse(&format!("{bare}Policy() Policy()")).expect("the reasoner reads it");
    assert_eq!(found.words(), judge.words()[0]);
    assert_eq!(print_vocabulary(&found), judge.axioms());
    assert_eq!(found.axioms(), 8);
    assert_eq!(found.many_valued(), [":uses"]);
}

#[test]
fn the_stored_answers_are_told_as_they_are_stored() {
    let mut told = 0;
    for entry in fs::read_dir("../examples/answers").expect("the answers") {
        let path = entry.expect("an entry").path();
        let name = path.file_name().and_then(|name| name.to_str()).expect("a name");
        let answer = fs::read_to_string(&path).expect("an answer");
        // The others are the command's, which tells no lines of the program.
        if !name.ends_with(".comply.txt") || !answer.starts_with("outside") {
            continue;
        }
        let (printed, said) = answer.split_once("\n\n").expect("what is printed and what is said");
        let example = name.split_once('.').expect("an operation").0;
        let text = fs::read(format!("../examples/{example}.txt")).expect("the example");
        let vocabulary = document(&text).expect("a document").vocabulary;
        let words = model(&vocabulary, printed.as_bytes()).expect("a model");
        let lines: Vec<&str> = said.lines().skip(2).map(str::trim_start).collect();
        assert_eq!(facts(vocabulary.names(), &words), lines, "{name}");
        told += 1;
    }
    assert!(told >= 1);
}
