//! The verbs on one pair, one model or one answer; help and usage.

mod common;

use common::{bytes, days, objects, part, run_in, run_with, unnamed, Desk, COLLECTION, EXAMPLES};
use common::{command, VOCABULARY};
use reasoner::text::Document;
use std::fs;

#[test]
fn help_goes_to_standard_output() {
    let desk = Desk::new();
    for words in [&["help"][..], &["--help"], &["help", "check"], &["group", "--help"]] {
        let ran = desk.run(words);
        assert_eq!((ran.status, ran.err.as_str()), (Some(0), ""), "{words:?}");
        assert!(ran.out.contains("Usage: gimbuka") && ran.out.contains("Example"), "{words:?}");
    }
    let verbs = "check equal possible verify group vocabulary picture aloud encode decode";
    for verb in verbs.split(' ') {
        let ran = desk.run(&[verb, "--help"]);
        assert!(ran.out.contains("Exit status: 0 ") && ran.out.contains("2 trouble"), "{verb}");
    }
    let ran = desk.run(&["--version"]);
    ran.is(0, &format!("gimbuka {}\n", env!("CARGO_PKG_VERSION")), "");
}

#[test]
fn wrong_usage_goes_to_standard_error() {
    let desk = Desk::new();
    let wrong: [&[&str]; 10] = [
        &[],
        &["chekc"],
        &["check"],
        &["check", "--wyh", "vocabulary.txt"],
        &["check", "vocabulary.txt", "buyer.txt"],
        &["group"],
        &["vocabulary"],
        &["vocabulary", "vocabulary.txt", "vocabulary.txt"],
        &["verify", "vocabulary.txt", "buyer.txt", "buyer.txt"],
        &["picture", "--model", "m", "vocabulary.txt", "buyer.txt", "buyer.txt"],
    ];
    for words in wrong {
        let ran = desk.run(words);
        assert_eq!((ran.status, ran.out.as_str()), (Some(2), ""), "{words:?}");
        assert!(ran.err.contains("gimbuka"), "{words:?}: {ran:?}");
    }
}

/// A desk with a consent for 0 to 30 days, which the buyer's 60 are outside of.
fn desk() -> Desk {
    let desk = Desk::new();
    desk.put("consents.txt", [days("alice", 0, 90), days("bob", 0, 30)].concat());
    desk
}

const PAIR: [&str; 6] = ["verify", "--name", "bob", "vocabulary.txt", "buyer.txt", "consents.txt"];

#[test]
fn a_case_is_verified() {
    let desk = desk();
    let verify = |model: &str| desk.run(&[&PAIR[..], &[model]].concat());
    let yes = |model: &str| {
        let line = format!("{model}: yes, x1 is in the buyer's policy and outside the consent\n");
        verify(model).is(0, &line, "");
    };
    desk.put("lines", "value 1 1 59\n");
    desk.put("answer", "outside 1 4\nvalue 1 1 31\n");
    desk.put("words", bytes(&[1, 1, 0, 0, 0, 3, 1, 1, 60, 0]));
    let check = ["check", "--why", "--json", "--name", "bob", "vocabulary.txt", "buyer.txt"];
    let ran = desk.run(&[&check[..], &["consents.txt"]].concat());
    desk.put("object", ran.lines()[0]);
    ["lines", "answer", "words", "object"].into_iter().for_each(yes);
    // Thirty days are inside the consent, and two numbers of days are against the vocabulary.
    desk.put("thirty", "value 1 1 30\n");
    desk.put("two", "value 1 1 59\nvalue 1 1 1\n");
    verify("thirty").is(1, "thirty: no\n", "");
    verify("two").is(1, "two: no\n", "");
    let ran = desk.run(&[&["verify", "--json"], &PAIR[1..], &["two"]].concat());
    assert_eq!(objects(&ran.out), [serde_json::json!({"model": "two", "verdict": "no"})]);
    // Alice's consent holds it.
    let mut alice = PAIR;
    alice[2] = "alice";
    desk.run(&[&alice[..], &["lines"]].concat()).is(1, "lines: no\n", "");
}

#[test]
fn a_case_that_is_none() {
    let desk = desk();
    let verify = |model: &str| desk.run(&[&PAIR[..], &[model]].concat());
    desk.put("name", "member 3 1\n");
    desk.put("line", "value 1 1 59\nvalue 1 1\n");
    desk.put("count", bytes(&[0, 0, 0, 0, 0]));
    desk.put("cut", &bytes(&[0, 1, 0, 0, 0])[..19]);
    desk.put("object", "{\"verdict\":\"compliant\"}\n");
    let told = |model: &str, start: &str| {
        let ran = verify(model);
        assert_eq!((ran.status, ran.out.as_str()), (Some(2), ""), "{model}");
        assert!(ran.err.starts_with(&format!("gimbuka: {model}{start}")), "{ran:?}");
    };
    told("name", ":1:8: expected the number of a class");
    told("line", ":2:1: expected \"member CLASS INDIVIDUAL\"");
    told("count", ": refused 32: ");
    told("cut", ": damaged words: 19 bytes");
    told("object", ": this object has no countermodel");
    told("none", ": No such file");
    // Which consent is meant must be clear.
    let pair = ["verify", "vocabulary.txt", "buyer.txt", "consents.txt", "name"];
    desk.run(&pair).is(
        2,
        "",
        "gimbuka: consents.txt: one policy is wanted, and there are several\n",
    );
    let mut nobody = PAIR;
    nobody[2] = "carol";
    desk.run(&[&nobody[..], &["name"]].concat()).is(
        2,
        "",
        "gimbuka: consents.txt: no policy is named carol\n",
    );
}

#[test]
fn pictures() {
    let desk = desk();
    let picture = ["picture", "--name", "bob", "vocabulary.txt", "buyer.txt", "consents.txt"];
    let ran = desk.run(&picture);
    assert_eq!((ran.status, ran.err.as_str()), (Some(0), ""));
    assert!(ran.out.starts_with("<svg") && ran.out.trim_end().ends_with("</svg>"), "{ran:?}");
    assert!(ran.out.contains("59") && ran.out.contains("days"), "{ran:?}");
    desk.put("answer", "outside 1 4\nvalue 1 1 59\n");
    let of_model = desk.run(&["picture", "--model", "answer", "vocabulary.txt"]);
    assert_eq!(of_model, ran);
    let mut compliant = picture;
    compliant[2] = "alice";
    desk.run(&compliant).is(1, "", "gimbuka: compliant, so there is no case to draw\n");
    let ran = run_in(EXAMPLES, &["picture", "heart_rate.txt"]);
    assert!(ran.status == Some(0) && ran.out.contains("HeartRate"), "{ran:?}");
    run_in(EXAMPLES, &["picture", "refused.txt"]).is(
        2,
        "",
        "gimbuka: refused.txt: refused 22: a possible term has over 65,536 combinations of pieces\n",
    );
    let ran = run_in(
        COLLECTION,
        &["picture", "--name", "bob", "vocabulary.txt", "buyer.txt", "consents.txt"],
    );
    assert!(ran.status == Some(0) && ran.out.contains("CancerResearch"), "{ran:?}");
}

/// What is stored of the program `comply` for a text: the answer, an empty line, and the answer read aloud.
#[test]
fn the_stored_answers_read_aloud() {
    let mut read = 0;
    for entry in fs::read_dir(format!("{EXAMPLES}/answers")).expect("answers") {
        let path = entry.expect("an answer").path();
        let name = path.file_name().and_then(|name| name.to_str()).expect("a name");
        let Some(text) = name.strip_suffix(".comply.txt").map(|text| format!("{text}.txt")) else {
            continue;
        };
        let stored = fs::read_to_string(&path).expect("an answer");
        let (answer, aloud) = stored.split_once("\n\n").expect("an answer and its words");
        let command = command(EXAMPLES, &["aloud", &text]);
        run_with(command, format!("{answer}\n").as_bytes()).is(0, aloud, "");
        read += 1;
    }
    assert!(read > 0);
}

#[test]
fn what_is_no_answer_is_not_read() {
    let desk = Desk::new();
    let aloud = |answer: &str| desk.run_with(&["aloud", "vocabulary.txt"], answer.as_bytes());
    let silent =
        |answer: &str, message: &str| aloud(answer).is(2, "", &format!("gimbuka: -:{message}\n"));
    silent("", "1:1: this is no answer");
    silent("outside 1", "1:1: this is no answer");
    silent("outside 1 x", "1:1: \"x\" is no number");
    silent("differs 3 1 1", "1:1: this is no answer");
    silent("outside 1 1\n\0\0\0", "1:1: this is no answer");
    silent("refused 9", "1:1: 9 is the number of no refusal");
    silent("compliant\nmember 1 1\n", "2:1: nothing stands behind such an answer");
    assert_eq!(aloud("outside 1 1\nmember 9 1\n").status, Some(2));
    let said = |answer: &str, words: &str| aloud(answer).is(0, words, "");
    said("impossible\n", "Impossible: no individual can be in the first policy.\n");
    said("possible 3\n", "Possible: some individual can be in term 3 of the first policy.\n");
    said(
        "refused 40\n",
        "Refused 40: the input is over 65,536 bytes, cut short, or followed by more.\n",
    );
    said(
        "differs 2 1 4\nmember 1 1\n",
        "Different: term 1 of the second policy, combination 4, is not in the first.\n\
         In this case, of 1 individual, x1 is in the second policy and outside the first:\n  \
         x1 is in :Data\n",
    );
    said(
        "outside 1 1\n",
        "Outside: term 1 of the first policy, combination 1, is not in the second.\n\
         In this case, of 1 individual, x1 is in the first policy and outside the second:\n  \
         nothing is known of x1\n",
    );
}

/// The text without the policies' names, which the reasoner does not read.
fn without_names(text: &str) -> String {
    let mut parts = text.split("Annotation(rdfs:label \"");
    let first = parts.next().expect("a part").to_owned();
    parts.fold(first, |text, part| text + part.split_once("\") ").expect("the name's end").1)
}

#[test]
fn texts_to_bytes_and_back() {
    for entry in fs::read_dir(EXAMPLES).expect("texts") {
        let path = entry.expect("a text").path();
        if path.extension().is_none_or(|extension| extension != "txt") {
            continue;
        }
        let text = path.to_str().expect("a name");
        let nameless = without_names(&fs::read_to_string(&path).expect("a text"));
        let words = Document::parse(&nameless).expect("the reasoner reads it").words();
        let wanted = words.map(|part_words| part(&part_words)).concat();
        let encoded = command(EXAMPLES, &["encode", text]).output().expect("the command");
        assert_eq!((encoded.status.code(), &encoded.stdout), (Some(0), &wanted), "{text}");
        let decoded = run_with(command(EXAMPLES, &["decode"]), &wanted);
        assert_eq!((decoded.status, decoded.err.as_str()), (Some(0), ""));
        let mut again = command(EXAMPLES, &["encode"]);
        let desk = Desk::new();
        desk.put("again.txt", &decoded.out);
        again.stdin(fs::File::open(desk.path("again.txt")).expect("a text"));
        assert_eq!(again.output().expect("the command").stdout, wanted, "{text}");
    }
}

#[test]
fn three_files_to_bytes() {
    let desk = desk();
    let words = ["encode", "--name", "bob", "vocabulary.txt", "buyer.txt", "consents.txt"];
    let encoded = desk.command(&words).output().expect("the command").stdout;
    desk.put("all.txt", [VOCABULARY, &unnamed(1, 60), &unnamed(0, 30)].concat());
    let whole = desk.command(&["encode", "all.txt"]).output().expect("the command").stdout;
    assert_eq!(encoded, whole);
    desk.put("one.txt", [VOCABULARY, &unnamed(1, 60)].concat());
    let message = "gimbuka: one.txt: two policies are wanted, and there are 1\n";
    desk.run(&["encode", "one.txt"]).is(2, "", message);
}

#[test]
fn bytes_that_are_no_question() {
    let desk = Desk::new();
    let message =
        "gimbuka: -: refused 40: the input is over 65,536 bytes, cut short, or followed by more\n";
    let good = [part(&[1, 0, 0, 0]), part(&[0; 6]), part(&[0; 6])].concat();
    assert_eq!(desk.run_with(&["decode"], &good).status, Some(0));
    desk.run_with(&["decode"], &good[..good.len() - 1]).is(2, "", message);
    desk.run_with(&["decode"], &[&good[..], &[0; 4]].concat()).is(2, "", message);
    desk.run_with(&["decode"], b"").is(2, "", message);
    let refused = [part(&[1, 0, 0, 0]), part(&[0; 6]), part(&[9; 6])].concat();
    desk.run_with(&["decode"], &refused).is(
        2,
        "",
        "gimbuka: -: refused 15: the second policy's header links past the last record, or another of its words is not 0\n",
    );
}
