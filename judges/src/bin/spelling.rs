//! The proved library beside the reasoner on the spelling of policies, in one process.
//!
//! `spelling [FIRST [COUNT]]` holds the library's answer, and what it leaves in the lent slices, to the reasoner's: for every directed
//! input, every slow one, every directed fault, and COUNT seeded inputs from seed FIRST on (100,000 from 0). What is written must be a
//! policy to the library, equal to the one read where Equality answers, and spelled by the same words again; and the policy in another order
//! and with repeats must have the same spelling. On a difference it prints the input, made as small as still differs, and fails. An answer
//! that no input has is a failure too: then the inputs do not reach it.

use judges::{library, Given, Tally};
use reasoner::random::spelling::{repeats, shrink::shrink, Spelling};
use reasoner::random::Rng;
use reasoner::{Comparison, Filling, Reading, FULL_WORK};
use std::process::ExitCode;

/// Words with room for every policy.
const ROOM: usize = 3_078;

/// What a side answers, and the slices that it was lent afterwards.
type Told = (Filling, Vec<u32>, Vec<u32>);

/// The library's spelling of a policy, with room for each; none where it is refused.
fn spelled(v: &[u32], p: &[u32]) -> Option<Vec<u32>> {
    let (mut work, mut out) = (vec![0; FULL_WORK], vec![0; ROOM]);
    match library::spell(v, p, &mut work, &mut out) {
        Filling::Written(words) => {
            out.truncate(words as usize);
            Some(out)
        }
        Filling::Refused(_) => None,
    }
}

/// What is promised of the words that were written for a policy.
fn promised(v: &[u32], p: &[u32], words: &[u32]) -> Result<(), String> {
    if library::read_policy(v, words) != Reading::Accepted {
        return Err("what is written is no policy".to_owned());
    }
    if spelled(v, words).as_deref() != Some(words) {
        return Err("what is written is spelled otherwise".to_owned());
    }
    let (mut work, mut out) = (vec![0; FULL_WORK], vec![0; ROOM]);
    match library::equality(v, p, words, &mut work, &mut out) {
        Comparison::Equal | Comparison::Refused(22) => (),
        told => return Err(format!("what is written and what was read: {told:?}")),
    }
    let mut rng = Rng::new(u64::from(
        words.iter().fold(1, |hash: u32, word| hash.wrapping_mul(31).wrapping_add(*word)),
    ));
    let others = [repeats::rearranged(&mut rng, v, p), repeats::disguised(&mut rng, v, p)];
    for other in others.into_iter().flatten() {
        if spelled(v, &other).as_deref() != Some(words) {
            return Err(format!("{other:?} has another spelling"));
        }
    }
    Ok(())
}

/// The answer for an input, or what is wrong with it.
fn judged(input: &Spelling) -> Result<Filling, String> {
    let Spelling { v, p, .. } = input;
    let mut ours: Told = (Filling::Refused(0), input.work(), input.out());
    let mut theirs = ours.clone();
    ours.0 = library::spell(v, p, &mut ours.1, &mut ours.2);
    theirs.0 = reasoner::spell(v, p, &mut theirs.1, &mut theirs.2);
    if ours.0 != theirs.0 {
        return Err(format!("library {:?}, reasoner {:?}", ours.0, theirs.0));
    }
    if ours != theirs {
        return Err(format!("{:?}, and the slices differ", ours.0));
    }
    if let Filling::Written(words) = ours.0 {
        promised(v, p, &ours.2[..words as usize])?;
    }
    Ok(ours.0)
}

/// Counts an input's answer, or gives the input where something is wrong.
fn judge(tally: &mut Tally, input: &Spelling) -> Result<(), Box<Spelling>> {
    let answer = judged(input).map_err(|_| Box::new(input.clone()))?;
    tally.count(match answer {
        Filling::Written(_) => "Written".to_owned(),
        Filling::Refused(_) => format!("{answer:?}"),
    });
    Ok(())
}

/// The answers that there are.
fn answers() -> impl Iterator<Item = String> {
    let refusals = [1, 2, 3, 44, 4, 5, 6, 7, 8, 21, 43, 23].map(Filling::Refused);
    ["Written".to_owned()].into_iter().chain(refusals.map(|refusal| format!("{refusal:?}")))
}

fn report(name: &str, small: &Spelling) {
    println!("{name} differs; made small:\n{small}");
    if let Err(wrong) = judged(small) {
        println!("{wrong}");
    }
}

fn main() -> ExitCode {
    let seeds = judges::seeds(std::env::args().skip(1), 100_000);
    let count = seeds.end - seeds.start;
    let told = judges::sweep(&judges::directed_spellings(), seeds, |tally, given| match given {
        Given::Directed(input) => judge(tally, input),
        Given::Seed(seed) => judge(tally, &Spelling::any(seed)),
    });
    match told {
        Err((name, input)) => report(&name, &shrink(&input, &mut |input| judged(input).is_err())),
        Ok(tally) => {
            println!("{count} seeded policies, the directed and the slow ones: library and reasoner spell the same");
            if tally.has_all(answers()) {
                return ExitCode::SUCCESS;
            }
        }
    }
    ExitCode::FAILURE
}
