//! The proved library beside the reasoner, in one process.
//!
//! `cases [FIRST [COUNT]]` holds every operation's answer, and what it leaves in the lent slices, to the reasoner's: for every
//! case at a limit, every slow pair and model, every directed fault, and COUNT seeded cases from seed FIRST on (100,000 from 0). On a
//! difference it prints the case, made as small as still differs, and fails. An answer that no case has is a failure too: then the
//! cases do not reach it. Answers that need the short way, beyond 65,536 combinations, are counted apart, and each must be had too.

use judges::{by_the_short_way, library, Given, Tally, OPERATIONS};
use reasoner::has_too_many;
use reasoner::random::{shrink::shrink, Case};
use std::process::ExitCode;

/// What the operations answer for a case, and the slices that they were lent afterwards.
#[derive(PartialEq, Eq)]
struct Told {
    answers: [String; 7],
    work: [Vec<u32>; 4],
    out: [Vec<u32>; 2],
}

/// What a side answers, given the slices as they are lent. Both sides have the same functions, so one text calls either.
macro_rules! told {
    ($side:ident, $case:expr, $lent:expr) => {{
        let case: &Case = $case;
        let (lent_work, lent_out): &(Vec<u32>, Vec<u32>) = $lent;
        let mut work = [(); 4].map(|()| lent_work.clone());
        let mut out = [(); 2].map(|()| lent_out.clone());
        let answers = [
            format!("{:?}", $side::read_vocabulary(&case.v)),
            format!("{:?}", $side::read_policy(&case.v, &case.p)),
            format!("{:?}", $side::read_second_policy(&case.v, &case.q)),
            format!("{:?}", $side::possible(&case.v, &case.p, &mut work[0])),
            format!(
                "{:?}",
                $side::compliance(&case.v, &case.p, &case.q, &mut work[1], &mut out[0])
            ),
            format!("{:?}", $side::equality(&case.v, &case.p, &case.q, &mut work[2], &mut out[1])),
            format!("{:?}", $side::model_check(&case.v, &case.p, &case.q, &case.m, &mut work[3])),
        ];
        Told { answers, work, out }
    }};
}

/// What library and reasoner tell of a case. The random words of its slices are made once.
fn both(case: &Case) -> [Told; 2] {
    let lent = (case.work(), case.out());
    [told!(library, case, &lent), told!(reasoner, case, &lent)]
}

fn differs(case: &Case) -> bool {
    let [ours, theirs] = both(case);
    ours != theirs
}

/// Counts a case's answers, or gives the case where the sides differ.
fn judge(tally: &mut Tally, case: &Case) -> Result<(), Box<Case>> {
    let [ours, theirs] = both(case);
    if ours != theirs {
        return Err(Box::new(case.clone()));
    }
    for (operation, answer) in OPERATIONS.iter().zip(&ours.answers) {
        let kind = if answer.starts_with("Refused") {
            answer
        } else {
            answer.split('(').next().unwrap_or("")
        };
        tally.count(format!("{operation} {kind}"));
    }
    for answer in short_answers(case, &ours) {
        tally.count(by_the_short_way(answer));
    }
    Ok(())
}

/// The answers that need the short way, in one direction or both, where a term has over 65,536 combinations.
const SHORT: [&str; 4] = ["Compliant", "Equal", "Differs(1)", "Differs(2)"];

/// Those of them that a case has.
fn short_answers(case: &Case, told: &Told) -> impl Iterator<Item = &'static str> {
    let Case { v, p, q, .. } = case;
    let [.., verdict, comparison, _] = &told.answers;
    let first = || has_too_many(v, p, q);
    let either = || first() || has_too_many(v, q, p);
    let has = [
        verdict == "Compliant" && first(),
        comparison == "Equal" && either(),
        comparison.starts_with("Differs(1,") && either(),
        comparison.starts_with("Differs(2,") && either(),
    ];
    SHORT.into_iter().zip(has).filter_map(|(answer, has)| has.then_some(answer))
}

/// The answers that there are (SPECIFICATION 9.1), and those of the short way.
fn answers() -> impl Iterator<Item = String> {
    const READ: [u32; 4] = [1, 2, 3, 44];
    const FIRST: [u32; 5] = [4, 5, 6, 7, 8];
    const SECOND: [u32; 5] = [14, 15, 16, 17, 18];
    let expected: [(&[&str], Vec<u32>); 7] = [
        (&["Accepted"], READ.to_vec()),
        (&["Accepted"], [&READ[..], &FIRST].concat()),
        (&["Accepted"], [&READ[..], &SECOND].concat()),
        (&["Possible", "Impossible"], [&READ[..], &FIRST, &[21]].concat()),
        (&["Compliant", "Outside"], [&READ[..], &FIRST, &SECOND, &[21, 22, 23]].concat()),
        (&["Equal", "Differs"], [&READ[..], &FIRST, &SECOND, &[21, 22, 23]].concat()),
        (&["Yes", "No"], [&READ[..], &FIRST, &SECOND, &[31, 32, 33, 21]].concat()),
    ];
    let all = OPERATIONS.into_iter().zip(expected).flat_map(|(operation, (kinds, refusals))| {
        let kinds = kinds.iter().map(move |kind| format!("{operation} {kind}"));
        kinds
            .chain(refusals.into_iter().map(move |number| format!("{operation} Refused({number})")))
    });
    all.chain(SHORT.into_iter().map(by_the_short_way))
}

fn report(name: &str, small: &Case) {
    println!("{name} differs; made small:\n{small}");
    let [ours, theirs] = both(small);
    for (at, operation) in OPERATIONS.iter().enumerate() {
        println!("{operation}: library {}, reasoner {}", ours.answers[at], theirs.answers[at]);
    }
}

fn main() -> ExitCode {
    let seeds = judges::seeds(std::env::args().skip(1), 100_000);
    let count = seeds.end - seeds.start;
    let told = judges::sweep(&judges::directed_cases(), seeds, |tally, given| match given {
        Given::Directed(case) => judge(tally, case),
        Given::Seed(seed) => judge(tally, &Case::any(seed)),
    });
    match told {
        Err((name, case)) => report(&name, &shrink(&case, &mut differs)),
        Ok(tally) => {
            println!("{count} seeded cases, those at the limits, the slow ones and the directed faults: library and reasoner agree");
            for answer in SHORT.map(by_the_short_way) {
                println!("{} cases have the answer {answer}", tally.of(&answer));
            }
            if tally.has_all(answers()) {
                return ExitCode::SUCCESS;
            }
        }
    }
    ExitCode::FAILURE
}
