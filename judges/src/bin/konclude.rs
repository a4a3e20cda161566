//! Konclude, a reasoner for OWL 2 that was written elsewhere, as a judge of the proved library.
//!
//! `konclude [FIRST [COUNT]]` holds Possible, Compliance (either policy first) and Equality to it, for COUNT pairs from seed FIRST on
//! (400 from 0); a pair that the library refuses is left out. On a difference it prints the pair, made as small as still differs, as
//! words and as the desk's text, and fails. It fails too where Konclude gives no answer in time, and where fewer than one pair in five
//! complies, or fewer than one in five does not: then the pairs are no test. Without Konclude it ends with status 3.

use gimbuka::{compliance, equality, possible, Comparison, Possibility, Side, Verdict};
use judges::konclude::{empty_classes, Missing};
use judges::Tally;
use reasoner::random::{shrink::shrink, Case, Family};
use reasoner::text::Document;
use reasoner::FULL_WORK;
use std::env;
use std::ops::Range;
use std::process::ExitCode;

/// What is said of a pair: Possible, Compliance, Compliance with the policies changed over, Equality.
type Answers = [&'static str; 4];

const OPERATIONS: Answers = ["possible", "compliance", "compliance back", "equality"];

/// Pairs in one ontology.
const BATCH: usize = 200;
/// Seconds for one ontology, of which a full one takes about one.
const LIMIT: u32 = 120;
/// Words with room for every countermodel.
const ROOM: usize = 700_005;

/// Why the library is not confirmed.
enum Failure {
    /// Konclude has no answer.
    Unanswered(Missing),
    /// The answers for the pair of this seed differ.
    Differs(u64, Box<Case>),
}

fn pair(seed: u64) -> Case {
    const MIX: [Family; 12] = [
        Family::Tiny,
        Family::Small,
        Family::Merges,
        Family::Coverage,
        Family::Boxes,
        Family::Hierarchy,
        Family::Medium,
        Family::Small,
        Family::Merges,
        Family::Coverage,
        Family::Boxes,
        Family::Hierarchy,
    ];
    Case::generate(MIX[seed as usize % MIX.len()], seed)
}

/// The library's answers; none if it refuses one of the questions.
fn library(case: &Case) -> Option<Answers> {
    let Case { v, p, q, .. } = case;
    let (work, out) = (&mut [0; FULL_WORK], &mut vec![0; ROOM]);
    let possible = match possible(v, p, work).ok()? {
        Possibility::Possible { .. } => "possible",
        Possibility::Impossible => "impossible",
    };
    let forth = verdict(compliance(v, p, q, work, out).ok()?);
    let back = verdict(compliance(v, q, p, work, out).ok()?);
    let equality = match equality(v, p, q, work, out).ok()? {
        Comparison::Equal => "equal",
        Comparison::Differs { side: Side::First, .. } => "side 1",
        Comparison::Differs { side: Side::Second, .. } => "side 2",
    };
    Some([possible, forth, back, equality])
}

fn verdict(verdict: Verdict) -> &'static str {
    match verdict {
        Verdict::Compliant => "compliant",
        Verdict::Outside { .. } => "outside",
    }
}

/// What follows for the answers from which of the first policy, the first without the second and the second without the first are
/// empty in every interpretation.
fn follows([first, forth, back]: [bool; 3]) -> Answers {
    let contained = |empty| if empty { "compliant" } else { "outside" };
    let equality = match (forth, back) {
        (true, true) => "equal",
        (false, _) => "side 1",
        (true, false) => "side 2",
    };
    [if first { "impossible" } else { "possible" }, contained(forth), contained(back), equality]
}

/// Konclude's answers for all of the pairs, in their order.
fn konclude<'a>(pairs: impl ExactSizeIterator<Item = &'a Case>) -> Result<Vec<Answers>, Missing> {
    Ok(empty_classes(pairs, LIMIT)?.into_iter().map(follows).collect())
}

/// Judges the pairs of some seeds, all in one ontology.
fn judge(tally: &mut Tally, seeds: Range<u64>) -> Result<(), Failure> {
    let mut pairs = Vec::new();
    for seed in seeds {
        let case = pair(seed);
        match library(&case) {
            None => tally.count("refused".to_owned()),
            Some(answers) => pairs.push((seed, case, answers)),
        }
    }
    let told = konclude(pairs.iter().map(|(_, case, _)| case)).map_err(Failure::Unanswered)?;
    for ((seed, case, ours), theirs) in pairs.into_iter().zip(told) {
        if ours != theirs {
            return Err(Failure::Differs(seed, Box::new(case)));
        }
        for (operation, answer) in OPERATIONS.into_iter().zip(ours) {
            tally.count(format!("{operation}: {answer}"));
        }
    }
    Ok(())
}

fn run(seeds: Range<u64>) -> Result<Tally, Failure> {
    let mut tally = Tally::default();
    for start in seeds.clone().step_by(BATCH) {
        let batch = start..seeds.end.min(start + BATCH as u64);
        judge(&mut tally, batch.clone()).map_err(|failure| match failure {
            Failure::Unanswered(Missing::Silent(why)) => {
                Failure::Unanswered(Missing::Silent(format!("seeds {batch:?}: {why}")))
            }
            other => other,
        })?;
    }
    Ok(tally)
}

fn differs(case: &Case) -> bool {
    let theirs = || konclude(std::iter::once(case)).ok();
    library(case).is_some_and(|ours| theirs().is_some_and(|theirs| theirs != [ours]))
}

fn report(seed: u64, case: &Case) {
    let small = if differs(case) { shrink(case, &mut differs) } else { case.clone() };
    println!("seed {seed} differs:\n{small}");
    if let Ok(document) = Document::decode(&small.bytes()) {
        println!("{document}");
    }
    let ours = library(&small).map_or_else(Vec::new, |answers| vec![answers]);
    let theirs = konclude(std::iter::once(&small)).unwrap_or_default();
    println!("{OPERATIONS:?}: library {ours:?}, Konclude {theirs:?}");
    if ours == theirs {
        println!("asked of this pair alone, once more, Konclude agrees: it contradicts itself");
    }
}

/// Says what was judged; true if enough of it was.
fn is_enough(tally: &Tally) -> bool {
    let [inside, outside] =
        ["compliant", "outside"].map(|answer| tally.of(&format!("compliance: {answer}")));
    let [equal, impossible] =
        ["equality: equal", "possible: impossible"].map(|name| tally.of(name));
    let (judged, refused) = (inside + outside, tally.of("refused"));
    println!(
        "{judged} pairs: library and Konclude agree; {inside} comply, {outside} do not, {equal} are equal, \
         in {impossible} the first is impossible; {refused} more were refused and left out"
    );
    let enough = 5 * inside.min(outside) >= judged && judged > 0;
    if !enough {
        println!("fewer than one pair in five complies, or does not: this is no test");
    }
    enough
}

fn main() -> ExitCode {
    match run(judges::seeds(env::args().skip(1), 400)) {
        Ok(tally) if is_enough(&tally) => return ExitCode::SUCCESS,
        Ok(_) => {}
        Err(Failure::Differs(seed, case)) => report(seed, &case),
        Err(Failure::Unanswered(Missing::Silent(why))) => {
            println!("Konclude gave no answer: {why}");
        }
        Err(Failure::Unanswered(Missing::NotThere)) => {
            println!("Konclude was NOT run: it is not on this machine. This is no pass.");
            return ExitCode::from(3);
        }
    }
    ExitCode::FAILURE
}
