//! The proved library beside the reasoner on OWL texts, in one process.
//!
//! `owl [FIRST [COUNT]]` holds the library's answer, and what it leaves in the output, to the reasoner's: for every directed text, every
//! slow one, and COUNT seeded texts from seed FIRST on (200,000 from 0). What is written must be a vocabulary to the library, and all other
//! words must be as they were lent. On a difference it prints the text, made as short as still differs, and fails. An answer that no text
//! has is a failure too: then the texts do not reach it.

use judges::{library, Given, Tally};
use reasoner::random::owl::{shrink::shrink, Text};
use reasoner::{Filling, Reading};
use std::process::ExitCode;

/// The answer for a text, or what is wrong with it.
fn judged(text: &Text) -> Result<Filling, String> {
    let lent = text.out();
    let [mut ours, mut theirs] = [lent.clone(), lent.clone()];
    let answer = library::read_owl(&text.bytes, &mut ours);
    let wanted = reasoner::read_owl(&text.bytes, &mut theirs);
    if answer != wanted {
        return Err(format!("library {answer:?}, reasoner {wanted:?}"));
    }
    let written = match answer {
        Filling::Written(words) => words as usize,
        Filling::Refused(_) => 0,
    };
    let (words, rest) = ours.split_at(written);
    if words != &theirs[..written] {
        return Err(format!("library {words:?}, reasoner {:?}", &theirs[..written]));
    }
    if rest != &lent[written..] {
        return Err(format!("{answer:?}, and words that it has not written are changed"));
    }
    match answer {
        Filling::Written(_) if library::read_vocabulary(words) != Reading::Accepted => {
            Err(format!("{words:?} is no vocabulary"))
        }
        _ => Ok(answer),
    }
}

/// Counts a text's answer, or gives the text where something is wrong.
fn judge(tally: &mut Tally, text: &Text) -> Result<(), Box<Text>> {
    let answer = judged(text).map_err(|_| Box::new(text.clone()))?;
    tally.count(match answer {
        Filling::Written(_) => "Written".to_owned(),
        Filling::Refused(_) => format!("{answer:?}"),
    });
    Ok(())
}

/// The answers that there are.
fn answers() -> impl Iterator<Item = String> {
    let refusals = [41, 42, 1, 23].map(Filling::Refused);
    ["Written".to_owned()].into_iter().chain(refusals.map(|refusal| format!("{refusal:?}")))
}

fn report(name: &str, small: &Text) {
    println!("{name} differs; made short:\n{small}");
    if let Err(wrong) = judged(small) {
        println!("{wrong}");
    }
}

fn main() -> ExitCode {
    let seeds = judges::seeds(std::env::args().skip(1), 200_000);
    let count = seeds.end - seeds.start;
    let told = judges::sweep(&judges::directed_texts(), seeds, |tally, given| match given {
        Given::Directed(text) => judge(tally, text),
        Given::Seed(seed) => judge(tally, &Text::any(seed)),
    });
    match told {
        Err((name, text)) => report(&name, &shrink(&text, &mut |text| judged(text).is_err())),
        Ok(tally) => {
            println!(
                "{count} seeded texts, the directed and the slow ones: library and reasoner agree"
            );
            if tally.has_all(answers()) {
                return ExitCode::SUCCESS;
            }
        }
    }
    ExitCode::FAILURE
}
