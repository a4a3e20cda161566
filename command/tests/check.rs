//! `check`, `equal` and `possible` of a collection.

mod common;

use common::{bytes, days, days_words, full_disk, objects, part, run_in, unnamed, Desk, Ran};
use common::{COLLECTION, EXAMPLES, VOCABULARY};
use std::fmt::Write as _;
use std::io::{BufRead, BufReader, Read};
use std::process::{Command, Stdio};

#[test]
fn the_collection_of_the_examples() {
    let check = ["check", "vocabulary.txt", "buyer.txt", "consents.txt"];
    run_in(COLLECTION, &check).is(
        1,
        "alice: compliant\nbob: outside\ncarol: compliant\ndave: compliant\nerin: outside\nfrank: outside\n\
         6 consents: 3 compliant, 3 outside\n",
        "",
    );
    let why = ["check", "--why", "--name", "bob", "vocabulary.txt", "buyer.txt", "consents.txt"];
    run_in(COLLECTION, &why).is(
        1,
        "bob: outside\n  \
         Term 1 of the buyer's policy, combination 4, is not in the consent.\n  \
         In this case, of 4 individuals, x1 is in the buyer's policy and outside the consent:\n    \
         x1 has :purpose x2\n    x1 has :uses x3\n    x1 has :storage x4\n    \
         x2 is in :Research\n    x2 is in :CancerResearch\n    x3 is in :Data\n    x3 is in :HeartRate\n    \
         x4 has :days 59\n\
         1 consent: 1 outside\n",
        "",
    );
}

#[test]
fn a_consent_is_called_by_its_name_its_file_or_its_line() {
    let desk = Desk::new();
    desk.put("one.txt", unnamed(0, 90));
    desk.put("named.txt", days("alice", 0, 90));
    desk.put(
        "many.txt",
        format!("{}# another\n{}{}", unnamed(0, 90), unnamed(0, 30), days("bob", 0, 70)),
    );
    desk.check(&["one.txt", "named.txt", "many.txt"]).is(
        1,
        "one.txt: compliant\nalice: compliant\nmany.txt:1: compliant\nmany.txt:3: outside\nbob: compliant\n\
         5 consents: 4 compliant, 1 outside\n",
        "",
    );
}

#[test]
fn all_compliant_is_status_0() {
    let desk = Desk::new();
    desk.put("alice.txt", days("alice", 0, 90));
    desk.check(&["alice.txt"]).is(0, "alice: compliant\n1 consent: 1 compliant\n", "");
}

#[test]
fn words_and_parts() {
    let desk = Desk::new();
    desk.put("consent", bytes(&days_words(0, 90)));
    let collection = [part(&days_words(0, 30)), part(&days_words(0, 60)), part(&[7])].concat();
    desk.put("collection.parts", collection);
    let vocabulary = [2, 1, 1, 1, 1, 2, 1, 2, 4, 1, 0, 0];
    desk.put("vocabulary", bytes(&vocabulary));
    desk.put("buyer", bytes(&days_words(1, 60)));
    let expected = "consent: compliant\ncollection.parts#1: outside\ncollection.parts#2: compliant\n\
        collection.parts#3: refused 14: the second policy's length is no multiple of 6, under 6 words or over 3,078\n\
        4 consents: 2 compliant, 1 outside, 1 refused\n";
    desk.check(&["consent", "collection.parts"]).is(2, expected, "");
    desk.run(&["check", "vocabulary", "buyer", "consent", "collection.parts"]).is(2, expected, "");
    // Words have numbers for names, and a text may use them.
    desk.put("text", "Policy(ObjectSomeValuesFrom(:r1 :C2))");
    desk.run(&["possible", "vocabulary", "text"]).is(
        0,
        "text: possible\n1 policy: 1 possible\n",
        "",
    );
}

#[test]
fn a_folder_is_read_in_the_order_of_its_names() {
    let desk = Desk::new();
    for (name, to) in [("b.txt", 90), ("a.txt", 30), ("c", 60)] {
        desk.put(&format!("consents/{name}"), unnamed(0, to));
    }
    desk.check(&["consents"]).is(
        1,
        "consents/a.txt: outside\nconsents/b.txt: compliant\nconsents/c: compliant\n\
         3 consents: 2 compliant, 1 outside\n",
        "",
    );
}

#[test]
fn what_in_a_folder_cannot_be_read_is_told() {
    let desk = Desk::new();
    desk.put("consents/a.txt", unnamed(0, 90));
    desk.put("consents/b.txt", "Policy(:Nobody)");
    desk.folder("consents/c");
    std::os::unix::fs::symlink("nowhere", desk.path("consents/d")).expect("a link");
    let made = Command::new("mkfifo").arg(desk.path("consents/e")).status().expect("mkfifo");
    assert!(made.success());
    desk.put("consents/f.txt", "# nothing\n");
    desk.put("consents/g.txt", unnamed(0, 30));
    desk.check(&["consents"]).is(
        2,
        "consents/a.txt: compliant\nconsents/g.txt: outside\n\
         2 consents: 1 compliant, 1 outside; 5 could not be read\n",
        "gimbuka: consents/b.txt:1:8: :Nobody is no class declared above; write Declaration(Class(:Nobody)) before it\n\
         gimbuka: consents/c: a folder in a folder is not read; name it too\n\
         gimbuka: consents/d: No such file or directory (os error 2)\n\
         gimbuka: consents/e: this is no file, and is not read\n\
         gimbuka: consents/f.txt: there is no policy in it\n",
    );
}

#[test]
fn no_such_file() {
    let desk = Desk::new();
    desk.put("alice.txt", days("alice", 0, 90));
    let line = |name: &str| format!("gimbuka: {name}: No such file or directory (os error 2)\n");
    desk.run(&["check", "none", "buyer.txt", "alice.txt"]).is(2, "", &line("none"));
    desk.run(&["check", "vocabulary.txt", "none", "alice.txt"]).is(2, "", &line("none"));
    desk.check(&["none", "alice.txt"]).is(
        2,
        "alice: compliant\n1 consent: 1 compliant; 1 could not be read\n",
        &line("none"),
    );
}

#[test]
fn a_folder_without_consents() {
    let desk = Desk::new();
    desk.folder("empty");
    desk.check(&["empty"]).is(
        2,
        "0 consents; 1 could not be read\n",
        "gimbuka: empty: there is no file in this folder\n",
    );
}

#[test]
fn damaged_words() {
    let desk = Desk::new();
    let words = bytes(&days_words(0, 90));
    desk.put("cut", &words[..71]);
    desk.put("short", &words[..68]);
    desk.put(
        "cut.parts",
        [part(&days_words(0, 90)), part(&days_words(0, 30))[..70].to_vec()].concat(),
    );
    desk.put("count.parts", [1, 0, 0]);
    desk.put("empty.parts", "");
    desk.put("long.parts", [part(&vec![0; 200_000]), part(&days_words(0, 90))].concat());
    desk.put("good.txt", days("good", 0, 90));
    let length = "the second policy's length is no multiple of 6, under 6 words or over 3,078";
    let files =
        ["cut", "short", "cut.parts", "count.parts", "empty.parts", "long.parts", "good.txt"];
    desk.check(&files).is(
        2,
        &format!(
            "short: refused 14: {length}\ncut.parts#1: compliant\nlong.parts#1: refused 14: {length}\n\
             long.parts#2: compliant\ngood: compliant\n\
             5 consents: 3 compliant, 2 refused; 4 could not be read\n"
        ),
        "gimbuka: cut: damaged words: 71 bytes are no multiple of 4\n\
         gimbuka: cut.parts: damaged words: part 2 is cut short\n\
         gimbuka: count.parts: damaged words: part 1 is cut short\n\
         gimbuka: empty.parts: there is no policy in it\n",
    );
    // What the whole check rests on must be right.
    desk.put("vocabulary", bytes(&[0, 0, 0, 0]));
    desk.run(&["check", "vocabulary", "buyer.txt", "good.txt"]).is(
        2,
        "",
        "gimbuka: vocabulary: refused 2: in the vocabulary's header a count is out of range or the link is past the last record\n",
    );
    desk.run(&["check", "vocabulary.txt", "short", "good.txt"]).is(
        2,
        "",
        "gimbuka: short: refused 4: the first policy's length is no multiple of 6, under 6 words or over 3,078\n",
    );
}

#[test]
fn a_byte_over_127_is_told_with_line_and_column() {
    let desk = Desk::new();
    let good = days("zo\u{eb}", 0, 90);
    desk.put(
        "a.txt",
        format!("# na\u{ef}ve comments are fine\n{good}\n  Policy(:D\u{e4}ta)\n{good}"),
    );
    let message = "byte 195 is no ASCII character; only comments and strings can have others";
    desk.check(&["a.txt"]).is(
        2,
        "zo\u{eb}: compliant\nzo\u{eb}: compliant\n2 consents: 2 compliant; 1 could not be read\n",
        &format!("gimbuka: a.txt:4:12: {message}\n"),
    );
    desk.put("v.txt", format!("{VOCABULARY}Declaration(Class(:\u{e4}))\n"));
    desk.run(&["check", "v.txt", "buyer.txt", "a.txt"]).is(
        2,
        "",
        &format!("gimbuka: v.txt:4:20: refused 41: {message}\n"),
    );
    desk.put("wide.txt", [0xff, 0xfe, b'P', 0]);
    desk.check(&["wide.txt"]).is(
        2,
        "0 consents; 1 could not be read\n",
        "gimbuka: wide.txt: this is UTF-16; save the text as ASCII or UTF-8\n",
    );
}

#[test]
fn the_rest_of_a_file_goes_on_behind_a_mistake() {
    let desk = Desk::new();
    let text = [
        &days("a", 0, 90),
        "nonsense\n",
        &days("b", 0, 30),
        "Policy(ObjectIntersectionOf(:Data\n",
        &days("c", 0, 90),
        "Policy(\"open\n)\n",
        &days("d", 0, 90),
    ];
    desk.put("a.txt", text.concat());
    desk.check(&["a.txt"]).is(
        2,
        "a: compliant\nb: outside\nc: compliant\nd: compliant\n\
         4 consents: 3 compliant, 1 outside; 3 could not be read\n",
        "gimbuka: a.txt:2:1: expected Policy, found \"nonsense\"\n\
         gimbuka: a.txt:5:1: another policy begins here, and the one before is not closed\n\
         gimbuka: a.txt:6:8: no closing \" on this line\n",
    );
}

#[test]
fn refusals() {
    let ran = run_in(EXAMPLES, &["check", "refused.txt"]);
    ran.is(
        2,
        "refused.txt: refused 22: a possible term has over 65,536 combinations of pieces\n1 consent: 1 refused\n",
        "",
    );
}

#[test]
fn a_text_with_all() {
    let check = |text: &str| run_in(EXAMPLES, &["check", text]);
    check("class_above.txt").is(0, "class_above.txt: compliant\n1 consent: 1 compliant\n", "");
    check("heart_rate.txt").is(1, "heart_rate.txt: outside\n1 consent: 1 outside\n", "");
    let equal = |text: &str| run_in(EXAMPLES, &["equal", text]);
    equal("same.txt").is(0, "bob: equal\n1 policy: 1 equal\n", "");
    run_in(EXAMPLES, &["equal", "--why", "not_same.txt"]).is(
        1,
        "bob: different\n  \
         Term 1 of alice, combination 4, is not in bob.\n  \
         In this case, of 3 individuals, x1 is in alice and outside bob:\n    \
         x1 has :uses x2\n    x1 has :storage x3\n    x2 is in :Data\n    x2 is in :Location\n    x3 has :days 31\n\
         1 policy: 1 different\n",
        "",
    );
    run_in(EXAMPLES, &["possible", "--why", "impossible.txt"]).is(
        1,
        "impossible.txt#1: impossible\n  No individual can be in any of its terms.\n\
         impossible.txt#2: possible\n  Some individual can be in term 1.\n\
         2 policies: 1 possible, 1 impossible\n",
        "",
    );
    let desk = Desk::new();
    desk.put("none.txt", VOCABULARY);
    let no_policy = "gimbuka: none.txt: there is no policy in it\n";
    desk.run(&["check", "none.txt"]).is(2, "", no_policy);
    desk.put("one.txt", format!("{VOCABULARY}{}", unnamed(1, 2)));
    let nothing = "gimbuka: one.txt: there is no policy to ask about in it\n";
    desk.run(&["check", "one.txt"]).is(2, "", nothing);
}

#[test]
fn equal_says_which_side() {
    let desk = Desk::new();
    desk.put(
        "others.txt",
        [days("less", 1, 30), days("same", 1, 60), days("more", 1, 90)].concat(),
    );
    let ran = desk.run(&["equal", "--json", "vocabulary.txt", "buyer.txt", "others.txt"]);
    assert_eq!(ran.status, Some(1));
    let sides: Vec<_> = objects(&ran.out).iter().map(|object| object["side"].clone()).collect();
    assert_eq!(sides, [1.into(), serde_json::Value::Null, 2.into(), serde_json::Value::Null]);
    let ran = desk.run(&[
        "equal",
        "--why",
        "--name",
        "more",
        "vocabulary.txt",
        "buyer.txt",
        "others.txt",
    ]);
    assert!(ran.out.contains("x1 is in more and outside buyer:\n    x1 has :days 89\n"), "{ran:?}");
}

#[test]
fn names_choose() {
    let desk = Desk::new();
    let three = [days("alice", 0, 90), days("bob", 0, 30), days("carol", 0, 90)].concat();
    desk.put("a.txt", three);
    desk.check(&["--name", "alice", "--name", "carol", "a.txt"]).is(
        0,
        "alice: compliant\ncarol: compliant\n2 consents: 2 compliant\n",
        "",
    );
    desk.check(&["--name", "dora", "a.txt"]).is(2, "", "gimbuka: no policy is named dora\n");
}

#[test]
fn a_name_does_not_reach_the_terminal_as_it_is() {
    let desk = Desk::new();
    desk.put("a.txt", days("red \u{1b}[31m\r", 0, 90));
    desk.check(&["a.txt"]).is(0, "red \\u{1b}[31m\\r: compliant\n1 consent: 1 compliant\n", "");
    let ran = desk.check(&["--json", "a.txt"]);
    assert_eq!(objects(&ran.out)[0]["name"], "red \u{1b}[31m\r");
}

#[test]
fn standard_input() {
    let desk = Desk::new();
    let consents = [unnamed(0, 90), unnamed(0, 30)].concat();
    let words = ["check", "vocabulary.txt", "buyer.txt", "-"];
    desk.run_with(&words, consents.as_bytes()).is(
        1,
        "-:1: compliant\n-:2: outside\n2 consents: 1 compliant, 1 outside\n",
        "",
    );
    desk.put("a.txt", unnamed(0, 90));
    desk.run_with(&["check", "-", "buyer.txt", "a.txt"], VOCABULARY.as_bytes()).is(
        0,
        "a.txt: compliant\n1 consent: 1 compliant\n",
        "",
    );
    let twice = desk.run(&["check", "vocabulary.txt", "-", "-"]);
    assert_eq!((twice.status, twice.out.as_str()), (Some(2), ""));
    assert!(twice.err.starts_with("error: standard input can be read once"), "{twice:?}");
}

/// Small consents, named by their numbers: every third is outside, every tenth behind the first cannot be read.
fn many(count: u32) -> (String, String, String) {
    let (mut text, mut out, mut err) = (String::new(), String::new(), String::new());
    for number in 0..count {
        if number % 10 == 9 {
            text.push_str("Policy(:Nobody)\n");
            let line = number + 1;
            let _ = writeln!(
                err,
                "gimbuka: many.txt:{line}:8: :Nobody is no class declared above; write Declaration(Class(:Nobody)) before it"
            );
        } else if number % 3 == 0 {
            text.push_str(&days(&format!("n{number}"), 0, 59));
            let _ = writeln!(out, "n{number}: outside");
        } else {
            text.push_str(&days(&format!("n{number}"), 0, 60 + number % 7));
            let _ = writeln!(out, "n{number}: compliant");
        }
    }
    (text, out, err)
}

#[test]
fn ten_thousand_consents_in_order() {
    let desk = Desk::new();
    let (text, out, err) = many(10_000);
    desk.put("many.txt", text);
    let expected = |ran: &Ran| {
        let (lines, last) = ran.out.trim_end().rsplit_once('\n').expect("lines");
        assert_eq!(last, "9000 consents: 6000 compliant, 3000 outside; 1000 could not be read");
        assert_eq!(format!("{lines}\n"), out);
        assert_eq!(ran.err, err);
        assert_eq!(ran.status, Some(2));
    };
    for threads in ["1", "2", "16"] {
        let words = ["check", "vocabulary.txt", "buyer.txt", "many.txt"];
        let mut command = desk.command(&words);
        command.env("RAYON_NUM_THREADS", threads);
        expected(&Ran::of(command.output().expect("the command")));
    }
}

#[test]
fn objects_for_programs() {
    let desk = Desk::new();
    let (text, _, err) = many(1_000);
    desk.put("many.txt", text);
    let ran = desk.check(&["--json", "--why", "many.txt"]);
    assert_eq!((ran.status, &ran.err), (Some(2), &err));
    let mut all = objects(&ran.out);
    let count = all.pop().expect("a count");
    assert_eq!(
        count.to_string(),
        r#"{"count":{"compliant":600,"consents":900,"outside":300,"refused":0,"unread":100}}"#
    );
    assert_eq!(all.len(), 1_000);
    for (object, number) in all.iter().zip(0..) {
        assert_eq!(object["file"], "many.txt");
        assert_eq!(object["line"], number + 1);
        if number % 10 == 9 {
            assert_eq!((&object["verdict"], &object["column"]), (&"unread".into(), &8.into()));
            assert!(object["name"].is_null() && object["message"].is_string());
        } else {
            assert_eq!(object["name"], format!("n{number}"));
            let verdict = if number % 3 == 0 { "outside" } else { "compliant" };
            assert_eq!(object["verdict"], verdict);
        }
    }
    let reason = &all[0];
    assert_eq!(reason["facts"], serde_json::json!(["x1 has :days 60"]));
    assert_eq!(reason["countermodel"], serde_json::json!([1, 1, 0, 0, 0, 3, 1, 1, 60, 0]));
    assert_eq!((&reason["term"], &reason["combination"]), (&1.into(), &4.into()));
    let ran = run_in(EXAMPLES, &["check", "--json", "refused.txt"]);
    let refused = &objects(&ran.out)[0];
    assert_eq!((&refused["verdict"], &refused["refusal"]), (&"refused".into(), &22.into()));
}

#[test]
fn a_closed_pipe_ends_it_quietly() {
    let desk = Desk::new();
    let (text, ..) = many(9);
    desk.put("many.txt", text.repeat(20_000));
    let mut child = desk
        .command(&["check", "vocabulary.txt", "buyer.txt", "many.txt"])
        .stdout(Stdio::piped())
        .stderr(Stdio::piped())
        .spawn()
        .expect("the command");
    let mut first = String::new();
    let mut out = BufReader::new(child.stdout.take().expect("its output"));
    out.read_line(&mut first).expect("a line");
    assert_eq!(first, "n0: outside\n");
    drop(out);
    let mut err = String::new();
    child.stderr.take().expect("its errors").read_to_string(&mut err).expect("text");
    assert_eq!((child.wait().expect("an end").code(), err.as_str()), (Some(2), ""));
}

#[test]
fn an_endless_input_does_not_keep_it_when_the_pipe_is_closed() {
    let desk = Desk::new();
    let mut child = desk
        .command(&["check", "vocabulary.txt", "buyer.txt", "-"])
        .stdin(Stdio::piped())
        .stdout(Stdio::piped())
        .stderr(Stdio::piped())
        .spawn()
        .expect("the command");
    drop(child.stdout.take());
    let mut input = child.stdin.take().expect("its input");
    // Goes on until the command is gone, and is never closed.
    let (text, ..) = many(9);
    while std::io::Write::write_all(&mut input, text.as_bytes()).is_ok() {}
    let mut err = String::new();
    child.stderr.take().expect("its errors").read_to_string(&mut err).expect("text");
    assert_eq!((child.wait().expect("an end").code(), err.as_str()), (Some(2), ""));
}

#[test]
fn a_full_disk_is_told() {
    let desk = Desk::new();
    desk.put("alice.txt", days("alice", 0, 90));
    let message = "gimbuka: the output cannot be written: No space left on device (os error 28)\n";
    let verbs: [&[&str]; 9] = [
        &["check", "vocabulary.txt", "buyer.txt", "alice.txt"],
        &["check", "--json", "vocabulary.txt", "buyer.txt", "alice.txt"],
        &["group", "vocabulary.txt", "alice.txt"],
        &["encode", "vocabulary.txt", "buyer.txt", "alice.txt"],
        &["picture", "vocabulary.txt", "alice.txt", "buyer.txt"],
        &["vocabulary", "vocabulary.txt"],
        &["vocabulary", "--fragment", "vocabulary.txt"],
        &["--help"],
        &["--version"],
    ];
    for words in verbs {
        let output = desk.command(words).stdout(full_disk()).stderr(Stdio::piped()).output();
        Ran::of(output.expect("the command")).is(2, "", message);
    }
}

/// The bar is drawn where standard error is a terminal. `script` gives it one.
#[test]
fn a_bar_on_a_terminal_and_none_in_a_pipe() {
    let desk = Desk::new();
    let (text, ..) = many(9);
    desk.put("many.txt", text.repeat(5_000));
    let ran = desk.check(&["many.txt"]);
    assert_eq!((ran.status, ran.err.as_str()), (Some(1), ""));
    let terminal = |redirect: &str| {
        let line = format!(
            "{} check vocabulary.txt buyer.txt many.txt {redirect}",
            env!("CARGO_BIN_EXE_gimbuka")
        );
        let shown = Command::new("script")
            .args(["-qec", &line, "/dev/null"])
            .current_dir(desk.path(""))
            .env("TERM", "xterm")
            .stdin(Stdio::null())
            .output();
        shown.map(Ran::of)
    };
    let Ok(shown) = terminal("> out.txt") else {
        println!("there is no `script` on this machine: the bar was NOT tried");
        return;
    };
    assert!(shown.out.contains('%'), "{shown:?}");
    assert_eq!(std::fs::read_to_string(desk.path("out.txt")).expect("lines"), ran.out);
    // No line is broken where both are the terminal.
    let shown = terminal("").expect("script");
    let clear = shown.out.replace("\r\n", "\n");
    let verdicts = |text: &str| {
        let ends = |line: &&str| line.ends_with(": compliant") || line.ends_with(": outside");
        text.lines().filter(ends).count()
    };
    assert_eq!(verdicts(&clear), verdicts(&ran.out));
}
