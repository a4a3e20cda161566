//! The proved program as a process, beside the reasoner's function from bytes to bytes.
//!
//! `program PATH [FIRST [COUNT]]` runs the program PATH on the bytes of every case at a limit, every slow pair, every directed fault,
//! and COUNT seeds from FIRST on (5,000 from 0): cases whole and damaged, random bytes, and lengths about the longest. Standard output
//! must be the reasoner's to the byte, standard error empty and the exit status 0. On a difference it writes the input into the current
//! folder and fails. An answer that no input has is a failure too; so it is where none is compliant by the short way, beyond 65,536
//! combinations.

use judges::process::{fault, run, Input};
use judges::{by_the_short_way, Given, Tally};
use reasoner::random::{damage, Case, Rng};
use std::process::{Command, ExitCode};
use std::{env, fs};

/// The input that makes a difference is written here.
const FOUND: &str = "difference.bin";

/// The input of a seed; now and then in two parts, so that a read ends early, also inside a word.
fn input(seed: u64) -> Input {
    // Not the numbers that the case is made from.
    let mut rng = Rng::new(!seed);
    let rng = &mut rng;
    let bytes = match rng.below(20) {
        0 => random(rng),
        1 => padded(rng, &Case::any(seed)),
        _ => damage::program_bytes(rng, &Case::any(seed)),
    };
    let early = if rng.once_in(50) { rng.place(bytes.len() + 1) } else { bytes.len() };
    Input { bytes, early }
}

/// Random bytes: few, a length about the longest, or any number.
fn random(rng: &mut Rng) -> Vec<u8> {
    let length = match rng.below(3) {
        0 => rng.below(64),
        1 => *rng.pick(&[65_535, 65_536, 65_537, 65_540]),
        _ => rng.below(140_000),
    };
    (0..length).map(|_| rng.bits() as u8).collect()
}

/// A case's bytes with more behind them, to a length about the longest or beyond it.
fn padded(rng: &mut Rng, case: &Case) -> Vec<u8> {
    let mut bytes = case.bytes();
    bytes.resize(*rng.pick(&[65_535, 65_536, 65_537, 65_540, 131_072]), 0);
    bytes
}

/// The first line of an answer, without its numbers if it is "outside".
fn kind(answer: &[u8]) -> String {
    let text = String::from_utf8_lossy(answer);
    let line = text.lines().next().unwrap_or("");
    if line.starts_with("outside") { "outside" } else { line }.to_owned()
}

/// Counts an answer, and once more where it needs the short way.
fn note(tally: &mut Tally, bytes: &[u8], answer: &[u8]) {
    let kind = kind(answer);
    let has_too_many = || {
        let parts = reasoner::parts_of_bytes(bytes);
        parts.is_some_and(|[v, p, q]| reasoner::has_too_many(&v, &p, &q))
    };
    if kind == "compliant" && has_too_many() {
        tally.count(by_the_short_way(&kind));
    }
    tally.count(kind);
}

/// The answers that the program gives (SPECIFICATION 10.3), and that of the short way.
fn answers() -> impl Iterator<Item = String> {
    let refusals = (1..=8).chain(14..=18).chain([22, 23, 40, 44]);
    let words = ["compliant".to_owned(), "outside".to_owned(), by_the_short_way("compliant")];
    words.into_iter().chain(refusals.map(|number| format!("refused {number}")))
}

fn main() -> ExitCode {
    let mut words = env::args().skip(1);
    let Some(path) = words.next() else {
        eprintln!("usage: program PATH [FIRST [COUNT]]");
        return ExitCode::from(2);
    };
    let seeds = judges::seeds(words, 5_000);
    let count = seeds.end - seeds.start;
    let told = judges::sweep(&judges::directed_cases(), seeds, |tally, given| {
        let input = match given {
            Given::Directed(case) => Input::whole(case.bytes()),
            Given::Seed(seed) => input(seed),
        };
        let wanted = reasoner::program(&input.bytes);
        let wrong = match run(&mut Command::new(&path), &input) {
            Ok(output) => fault(&output, &wanted),
            Err(error) => Some(format!("could not be run: {error}")),
        };
        note(tally, &input.bytes, &wanted);
        wrong.map_or(Ok(()), |wrong| Err((wrong, input.bytes)))
    });
    match told {
        Err((name, (wrong, bytes))) => {
            println!("{name}: {wrong}");
            match fs::write(FOUND, &bytes) {
                Ok(()) => println!("its {} bytes are in {FOUND}", bytes.len()),
                Err(error) => println!("{FOUND} could not be written: {error}"),
            }
        }
        Ok(tally) => {
            println!("{count} seeded inputs, those at the limits, the slow ones and the directed faults: program and reasoner agree");
            let short = by_the_short_way("compliant");
            println!("{} inputs have the answer {short}", tally.of(&short));
            if tally.has_all(answers()) {
                return ExitCode::SUCCESS;
            }
        }
    }
    ExitCode::FAILURE
}
