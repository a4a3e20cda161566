//! `group`: the sets, beside the library's own comparisons of every two.

mod common;

use common::{bytes, days, objects, part, run_in, Desk, COLLECTION, EXAMPLES};
use gimbuka::Comparison;
use reasoner::random::{Case, Family};
use serde_json::Value;

#[test]
fn the_collection_of_the_examples() {
    run_in(COLLECTION, &["group", "vocabulary.txt", "consents.txt"]).is(
        1,
        "set 1: 1 consent\n  alice\n\
         set 2: 1 consent\n  bob\n  differs from set 1: term 1 of alice, combination 4, is not in bob.\n\
         set 3: 2 consents\n  carol\n  dave\n  differs from set 1: term 1 of alice, combination 1, is not in carol.\n\
         set 4: 1 consent\n  erin\n  differs from set 1: term 1 of alice, combination 1, is not in erin.\n\
         set 5: 1 consent\n  frank\n  differs from set 1: term 1 of alice, combination 1, is not in frank.\n\
         6 consents in 5 sets\n",
        "",
    );
}

#[test]
fn one_set_is_status_0() {
    let desk = Desk::new();
    let halves = "Policy(Annotation(rdfs:label \"halves\") ObjectUnionOf(\
        DataSomeValuesFrom(:days DatatypeRestriction(xsd:integer xsd:minInclusive 0 xsd:maxInclusive 4)) \
        DataSomeValuesFrom(:days DatatypeRestriction(xsd:integer xsd:minInclusive 5 xsd:maxInclusive 9))))";
    desk.put("a.txt", [&days("whole", 0, 9), halves, &days("again", 0, 9)].concat());
    let words = ["group", "vocabulary.txt", "a.txt"];
    desk.run(&words).is(
        0,
        "set 1: 3 consents\n  whole\n  halves\n  again\n3 consents in 1 set\n",
        "",
    );
}

#[test]
fn a_text_with_all() {
    let ran = run_in(EXAMPLES, &["group", "same.txt"]);
    ran.is(0, "set 1: 2 consents\n  alice\n  bob\n2 consents in 1 set\n", "");
}

#[test]
fn the_reason() {
    let desk = Desk::new();
    desk.put("a.txt", [days("more", 0, 9), days("less", 0, 8), days("other", 2, 10)].concat());
    desk.run(&["group", "--why", "vocabulary.txt", "a.txt"]).is(
        1,
        "set 1: 1 consent\n  more\n\
         set 2: 1 consent\n  less\n  differs from set 1: term 1 of more, combination 4, is not in less.\n  \
         In this case, of 1 individual, x1 is in more and outside less:\n    x1 has :days 9\n\
         set 3: 1 consent\n  other\n  differs from set 1: term 1 of more, combination 1, is not in other.\n  \
         In this case, of 1 individual, x1 is in more and outside other:\n    x1 has :days 0\n\
         3 consents in 3 sets\n",
        "",
    );
}

/// Feature `number` from `lo` to `hi`.
fn span(number: u32, lo: u32, hi: u32) -> String {
    format!(
        " DataSomeValuesFrom(:f{number} DatatypeRestriction(xsd:integer xsd:minInclusive {lo} xsd:maxInclusive {hi}))"
    )
}

/// A vocabulary; seventeen intervals of two numbers each, which are too many combinations; and the same, with the last interval in
/// two halves, so that no term takes the whole.
fn too_many() -> (String, String, String) {
    let mut vocabulary = "Declaration(Class(:Data))".to_owned();
    for number in 1..=17 {
        vocabulary += &format!(" Declaration(DataProperty(:f{number}))");
    }
    let first: String = (1..=16).map(|number| span(number, 0, 1)).collect();
    let term = |lo, hi| format!("ObjectIntersectionOf({first}{})", span(17, lo, hi));
    let many = format!("Policy(Annotation(rdfs:label \"many\") {})\n", term(0, 1));
    let halves = format!(
        "Policy(Annotation(rdfs:label \"halves\") ObjectUnionOf({} {}))\n",
        term(0, 0),
        term(1, 1)
    );
    (vocabulary, many, halves)
}

#[test]
fn what_is_refused_is_told_and_stays_alone() {
    let desk = Desk::new();
    let (vocabulary, many, halves) = too_many();
    desk.put("v.txt", vocabulary);
    let one = |name: &str| format!("Policy(Annotation(rdfs:label \"{name}\"){})\n", span(1, 0, 1));
    let all = [many.as_str(), &halves, &one("a"), "Policy(:Nobody)\n", &one("b")];
    desk.put("a.txt", all.concat());
    desk.put("words", bytes(&[7; 6]));
    let ran = desk.run(&["group", "v.txt", "a.txt", "words"]);
    assert_eq!(ran.status, Some(2));
    let refused = "refused 22: a possible term has over 65,536 combinations of pieces";
    assert_eq!(
        ran.err,
        format!(
            "gimbuka: a.txt: halves: not compared with many: {refused}\n\
             gimbuka: a.txt:4:8: :Nobody is no class declared above; write Declaration(Class(:Nobody)) before it\n\
             gimbuka: words: words: refused 5: the first policy's header links past the last record, or another of its words is not 0\n"
        )
    );
    assert_eq!(
        ran.out,
        format!(
            "set 1: 1 consent\n  many\n\
             set 2: 1 consent\n  halves\n  no reason beside set 1: {refused}\n\
             set 3: 2 consents\n  a\n  b\n  differs from set 1: term 1 of a, combination 1, is not in many.\n\
             4 consents in 3 sets; 2 refused; 1 could not be read\n"
        )
    );
    let ran = desk.run(&["group", "--json", "v.txt", "a.txt", "words"]);
    let verdicts: Vec<Value> = objects(&ran.out).iter().map(|one| one["verdict"].clone()).collect();
    assert_eq!(verdicts[..3], ["refused", "unread", "refused"]);
}

/// The numbers of the policies of each set, as `group` finds them.
fn sets(desk: &Desk, threads: &str) -> Vec<Vec<usize>> {
    let mut command = desk.command(&["group", "--json", "vocabulary", "all.parts"]);
    let output = command.env("RAYON_NUM_THREADS", threads).output().expect("the command");
    let out = String::from_utf8(output.stdout).expect("text");
    let number = |consent: &Value| -> usize {
        let name = consent["name"].as_str().expect("a name");
        name.rsplit('#').next().and_then(|number| number.parse().ok()).expect("a number")
    };
    let all = objects(&out);
    let sets = all.iter().filter_map(|object| object["consents"].as_array());
    sets.map(|consents| consents.iter().map(number).collect()).collect()
}

/// The same by comparing each with the first of each set, by the library.
fn compared(v: &[u32], policies: &[Vec<u32>]) -> Vec<Vec<usize>> {
    let mut work = vec![0; gimbuka::WORK_SIZE];
    let mut out = vec![0; gimbuka::MOST_MODEL_WORDS];
    let mut sets: Vec<Vec<usize>> = Vec::new();
    for (policy, number) in policies.iter().zip(1..) {
        let set = sets.iter_mut().find(|set| {
            let first = &policies[set[0] - 1];
            let answer = gimbuka::equality(v, first, policy, &mut work, &mut out);
            answer.expect("an answer") == Comparison::Equal
        });
        match set {
            Some(set) => set.push(number),
            None => sets.push(vec![number]),
        }
    }
    sets
}

/// Random policies over one vocabulary.
fn random(family: Family, count: usize) -> (Vec<u32>, Vec<Vec<u32>>) {
    let mut work = vec![0; gimbuka::WORK_SIZE];
    let mut out = vec![0; gimbuka::MOST_MODEL_WORDS];
    let v = Case::generate(family, 3).v;
    let policies = (0..).flat_map(|seed| {
        let case = Case::generate(family, seed);
        [case.p, case.q]
    });
    let mut fits =
        |policy: &Vec<u32>| gimbuka::equality(&v, policy, policy, &mut work, &mut out).is_ok();
    let chosen = policies.filter(|policy| fits(policy)).take(count).collect();
    (v, chosen)
}

#[test]
fn random_policies_beside_all_comparisons() {
    for (family, count) in [(Family::Tiny, 1_500), (Family::Coverage, 400), (Family::Small, 400)] {
        let (v, policies) = random(family, count);
        let desk = Desk::new();
        desk.put("vocabulary", bytes(&v));
        desk.put("all.parts", policies.iter().flat_map(|policy| part(policy)).collect::<Vec<u8>>());
        let wanted = compared(&v, &policies);
        assert!(wanted.len() > 20, "{family:?}: {} sets", wanted.len());
        for threads in ["1", "4"] {
            assert_eq!(sets(&desk, threads), wanted, "{family:?}");
        }
    }
}

#[test]
fn thousands_that_differ_in_days_alone() {
    let desk = Desk::new();
    // Each twice, far from one another.
    let one = |number: u32| days(&format!("n{number}"), number % 40, 100 + number % 2_000);
    desk.put("a.txt", (0..4_000).map(one).collect::<String>());
    let ran = desk.run(&["group", "vocabulary.txt", "a.txt"]);
    assert_eq!(ran.status, Some(1));
    assert_eq!(ran.lines().last(), Some(&"4000 consents in 2000 sets"));
    assert_eq!(ran.lines()[..3], ["set 1: 2 consents", "  n0", "  n2000"]);
}
