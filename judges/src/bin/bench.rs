//! How fast: the proved library, the reasoner and Konclude on the same pairs, in one run.
//!
//! `bench` prints a table of microseconds a call; a time is the best of several rounds, each the mean over the pairs of its row.
//! Konclude's is the time of one command for the first four pairs of the row, over their number, reading and start included: it
//! answers three questions of each pair. Nothing here is a test; the answers are held to one another elsewhere.
//!
//! `bench everyday`, `bench limits`, `bench owl`, `bench spelling`, `bench rehearsal` and `bench slowest` print only a part of it.
//!
//! `bench slow SECONDS` looks for slow pairs for so long, by changing policies where that takes the library longer, and prints the slowest.
//!
//! `bench pairs SECONDS` decides everyday pairs with the library for so long, and prints how many.

use gimbuka::MOST_LOAD_WORDS;
use judges::konclude::{empty_classes, Missing};
use reasoner::random::everyday::{sized, Answer};
use reasoner::random::rehearsal::Load;
use reasoner::random::slow::{self, Pair};
use reasoner::random::{limits, owl, spelling, Case, Rng};
use reasoner::{bytes_of_words, parts_of_bytes, FULL_WORK};
use std::hint::black_box;
use std::process::{Command, Stdio};
use std::time::{Duration, Instant};
use std::{array, env};

/// Words with room for every countermodel.
const ROOM: usize = 700_005;
/// Seconds that Konclude is given for a row.
const PATIENCE: u32 = 15;
/// A row's rounds go on for so long on each side, and are at least three.
const LONG: Duration = Duration::from_millis(300);

/// The slices that a call is lent.
struct Lent {
    work: Vec<u32>,
    out: Vec<u32>,
}

/// Microseconds a case, or a text.
fn time<T>(cases: &[T], lent: &mut Lent, call: impl Fn(&T, &mut Lent)) -> f64 {
    let mut round = || {
        let start = Instant::now();
        cases.iter().for_each(|case| call(case, lent));
        start.elapsed().as_secs_f64() * 1e6 / cases.len() as f64
    };
    round();
    let start = Instant::now();
    let mut best = round().min(round()).min(round());
    while start.elapsed() < LONG {
        best = best.min(round());
    }
    best
}

/// The time of one operation on each side; both have the same functions, so one text calls either.
macro_rules! sides {
    ($cases:expr, |$side:ident, $case:ident, $lent:ident| $call:expr) => {{
        let mut slices = Lent { work: vec![0; FULL_WORK], out: vec![0; ROOM] };
        let library = {
            use gimbuka as $side;
            time($cases, &mut slices, |$case, $lent| {
                let _ = black_box($call);
            })
        };
        let reasoner = {
            use reasoner as $side;
            time($cases, &mut slices, |$case, $lent| {
                let _ = black_box($call);
            })
        };
        [library, reasoner]
    }};
}

fn heading(title: &str) {
    println!("\n{title:<58}{:>10}{:>10}{:>7}{:>10}", "library", "reasoner", "ratio", "Konclude");
}

fn row(name: &str, [library, reasoner]: [f64; 2], konclude: Option<f64>) {
    let konclude = konclude.map_or_else(|| "-".to_owned(), |time| format!("{time:.0}"));
    let ratio = library / reasoner;
    println!("{name:<58}{library:>10.1}{reasoner:>10.1}{ratio:>7.2}{konclude:>10}");
}

/// Microseconds a pair by Konclude, for the first of the row's; none without it, or where it has no answer in time.
fn konclude(cases: &[Case]) -> Option<f64> {
    let start = Instant::now();
    let few = &cases[..cases.len().min(4)];
    match empty_classes(few.iter(), PATIENCE) {
        Ok(_) => Some(start.elapsed().as_secs_f64() * 1e6 / few.len() as f64),
        Err(Missing::NotThere) => None,
        Err(Missing::Silent(why)) => {
            println!("Konclude: {why}");
            None
        }
    }
}

/// Compliance on a row's pairs, by all three.
fn compliance(name: &str, cases: &[Case]) {
    row(name, complied(cases), konclude(cases));
}

/// Compliance, by library and reasoner.
fn complied(cases: &[Case]) -> [f64; 2] {
    sides!(cases, |side, case, lent| side::compliance(
        &case.v,
        &case.p,
        &case.q,
        &mut lent.work,
        &mut lent.out
    ))
}

/// Equality, by library and reasoner.
fn compared(cases: &[Case]) -> [f64; 2] {
    sides!(cases, |side, case, lent| side::equality(
        &case.v,
        &case.p,
        &case.q,
        &mut lent.work,
        &mut lent.out
    ))
}

/// Model check, by library and reasoner.
fn checked(cases: &[Case]) -> [f64; 2] {
    sides!(cases, |side, case, lent| side::model_check(
        &case.v,
        &case.p,
        &case.q,
        &case.m,
        &mut lent.work
    ))
}

/// Spell, by library and reasoner.
fn spelled(policies: &[(&[u32], &[u32])]) -> [f64; 2] {
    sides!(policies, |side, policy, lent| side::spell(
        policy.0,
        policy.1,
        &mut lent.work,
        &mut lent.out
    ))
}

fn pairs<const N: usize>(answer: Answer, classes: u32, terms: usize) -> [Case; N] {
    array::from_fn(|seed| sized(seed as u64, answer, classes, terms))
}

fn everyday() {
    heading("everyday pairs: 256 classes, 304 records, 10 terms a side");
    let short: [Case; 50] = pairs(Answer::TermByTerm, 256, 10);
    let comply: [Case; 50] = pairs(Answer::Compliant, 256, 10);
    let fail: [Case; 50] = pairs(Answer::Outside, 256, 10);
    compliance("compliance, compliant term by term", &short);
    compliance("compliance, compliant, a term by two together", &comply);
    compliance("compliance, outside in the last term", &fail);
    let same = short.map(|case| Case { q: case.p.clone(), ..case });
    row("equality, equal", compared(&same), None);
    row("equality, different", compared(&fail), None);
    let possible =
        sides!(&comply, |side, case, lent| side::possible(&case.v, &case.p, &mut lent.work));
    row("possible", possible, None);
    row("model check of the countermodel", checked(&fail), None);
    row("spell", spelled(&comply.each_ref().map(|case| (&case.v[..], &case.p[..]))), None);
    let read = sides!(&comply, |side, case, _lent| side::read_policy(&case.v, &case.p));
    row("read policy, vocabulary first", read, None);
}

fn growth() {
    heading("with the terms a side");
    for terms in [1, 2, 4, 8, 16, 32, 64] {
        compliance(&format!("{terms}"), &pairs::<20>(Answer::Compliant, 256, terms));
    }
    heading("with the classes, 10 terms a side");
    for classes in [16, 32, 64, 128, 256] {
        compliance(&format!("{classes}"), &pairs::<20>(Answer::Compliant, classes, 10));
    }
    heading("with the combinations, which three terms cover together");
    for features in [1, 4, 8, 12, 16] {
        compliance(&format!("{}", 1 << features), &[limits::binary(features, true)]);
    }
}

fn at_limits() {
    heading("at the limits");
    let decided = [
        "65,536 combinations, all covered",
        "256 classes in one rising chain",
        "512 policy records in one term",
    ];
    let judged =
        ["512 individuals in 256 classes", "dense model, deep policies", "model of 700,005 words"];
    for (name, case) in limits::cases() {
        let case = [case];
        if decided.contains(&name) {
            row(&format!("compliance, {name}"), complied(&case), None);
        }
        if judged.contains(&name) {
            row(&format!("model check, {name}"), checked(&case), None);
        }
    }
}

fn from_text() {
    heading("vocabulary from OWL text");
    for (name, text) in owl::slow::texts() {
        let texts = [text];
        let read = sides!(&texts, |side, text, lent| side::read_owl(&text.bytes, &mut lent.out));
        row(name, read, None);
    }
}

fn to_file() {
    heading("the spelling of a policy");
    for (name, input) in spelling::slow::inputs() {
        row(&name, spelled(&[(&input.v, &input.p)]), None);
    }
}

/// The pairs of rehearsal loads, seeds 1 to 20, as the library makes them.
fn loads(classes: u32, terms: u32) -> [Case; 20] {
    array::from_fn(|at| {
        let mut out = vec![0; MOST_LOAD_WORDS];
        let words = gimbuka::rehearse(at as u32 + 1, classes, terms, &mut out).expect("a load");
        let parts = parts_of_bytes(&bytes_of_words(&out[..words]));
        let [v, p, q] = parts.expect("three parts");
        Case::of(v, p, q, Vec::new())
    })
}

fn rehearsal() {
    heading("rehearsal loads, with the terms a side, 256 classes");
    for terms in [1, 4, 16, 64, 100] {
        compliance(&format!("{terms}"), &loads(256, terms));
    }
    heading("rehearsal loads, with the classes, 10 terms a side");
    for classes in [2, 16, 64, 256] {
        compliance(&format!("{classes}"), &loads(classes, 10));
    }
    heading("making a rehearsal load");
    let longest = [Load::of(1, 256, 100)];
    let made = sides!(&longest, |side, load, lent| side::rehearse(
        load.seed,
        load.classes,
        load.terms,
        &mut lent.out
    ));
    row("256 classes, 100 terms a side", made, None);
}

fn slowest() {
    heading("the slowest inputs known");
    for (name, case) in slow::compliance(slow::MOST_EQUAL) {
        row(&format!("compliance, {name}"), complied(&[case]), None);
    }
    for (name, case) in slow::model_check() {
        row(&format!("model check, {name}"), checked(&[case]), None);
    }
}

/// Microseconds of the library for a pair; none where a policy is too long.
fn cost(pair: &Pair, lent: &mut Lent) -> Option<f64> {
    let case = pair.case()?;
    let mut round = || {
        let start = Instant::now();
        let _ = black_box(gimbuka::compliance(
            &case.v,
            &case.p,
            &case.q,
            &mut lent.work,
            &mut lent.out,
        ));
        start.elapsed().as_secs_f64() * 1e6
    };
    Some(round().min(round()))
}

/// The slowest pair that a search of so many seconds finds, from several starts.
fn search(seconds: f64) {
    let mut lent = Lent { work: vec![0; FULL_WORK], out: vec![0; ROOM] };
    for seed in 0..4 {
        let mut rng = Rng::new(seed);
        let mut pair = Pair::start(&mut rng);
        let mut slow = cost(&pair, &mut lent).unwrap_or(0.0);
        let start = Instant::now();
        while start.elapsed().as_secs_f64() < seconds / 4.0 {
            let other = pair.changed(&mut rng);
            match cost(&other, &mut lent) {
                Some(time) if time > slow => (pair, slow) = (other, time),
                _ => {}
            }
        }
        println!("from start {seed}: {slow:.0} microseconds, {pair}");
    }
}

/// Everyday pairs that the library decides in so many seconds, half of them compliant.
fn decide(seconds: f64) -> u64 {
    let cases: [[Case; 25]; 2] =
        [pairs(Answer::Compliant, 256, 10), pairs(Answer::Outside, 256, 10)];
    let (mut work, mut out) = (vec![0; FULL_WORK], vec![0; FULL_WORK]);
    let start = Instant::now();
    let mut decided = 0;
    while start.elapsed().as_secs_f64() < seconds {
        for case in cases.as_flattened() {
            let verdict = gimbuka::compliance(&case.v, &case.p, &case.q, &mut work, &mut out);
            decided += u64::from(verdict.is_ok());
        }
    }
    decided
}

/// The same by so many processes at once.
fn decide_apart(processes: usize, seconds: f64) -> u64 {
    let itself = env::current_exe().expect("a program's own path");
    let start = || {
        Command::new(&itself).args(["pairs", &seconds.to_string()]).stdout(Stdio::piped()).spawn()
    };
    let started: Vec<_> = (0..processes).map(|_| start().expect("another process")).collect();
    let output = |process: std::process::Child| {
        process.wait_with_output().expect("a process that ends").stdout
    };
    let number =
        |text: Vec<u8>| String::from_utf8_lossy(&text).trim().parse::<u64>().expect("a number");
    started.into_iter().map(|process| number(output(process))).sum()
}

fn rate() {
    println!("\neveryday pairs, half of them compliant, decided by the library");
    let cores = judges::cores();
    // One by itself, then as many as there are cores.
    for processes in [1].into_iter().chain((cores > 1).then_some(cores)) {
        let rate = decide_apart(processes, 5.0) as f64 / 5.0;
        println!("{processes} at a time: {rate:>9.0} a second, {:>11.0} a minute", rate * 60.0);
    }
}

fn main() {
    let words: Vec<String> = env::args().skip(1).collect();
    match words.iter().map(String::as_str).collect::<Vec<_>>()[..] {
        [] => {
            println!("microseconds a call");
            everyday();
            growth();
            at_limits();
            from_text();
            to_file();
            rehearsal();
            slowest();
            rate();
        }
        ["everyday"] => everyday(),
        ["limits"] => at_limits(),
        ["owl"] => from_text(),
        ["spelling"] => to_file(),
        ["rehearsal"] => rehearsal(),
        ["slowest"] => slowest(),
        ["pairs", seconds] => println!("{}", decide(seconds.parse().expect("seconds"))),
        ["slow", seconds] => search(seconds.parse().expect("seconds")),
        _ => eprintln!("usage: bench | bench everyday | bench limits | bench owl | bench spelling | bench rehearsal | bench slowest | bench slow SECONDS | bench pairs SECONDS"),
    }
}
