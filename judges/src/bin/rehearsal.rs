//! The proved library and programs beside the reasoner on loads for rehearsals.
//!
//! `rehearsal COMPLY REHEARSE [FIRST [COUNT]]` holds the library's answer, and what it leaves in the output, to the reasoner's: for every
//! directed load, and COUNT seeded ones from seed FIRST on (100,000 from 0). What is written must be three parts as the program reads
//! them, each accepted by the library's reader; Compliance must decide them, on both sides alike, and where it says outside the model
//! check must say yes. For the directed loads, and for one seed in 500, the programs are run: REHEARSE must print the bytes of the
//! reasoner's words, or nothing and a line on standard error where the load is refused, and COMPLY must answer these bytes as the
//! reasoner does. On a difference it prints the load and fails. An answer that no load has is a failure too: then the loads do not reach
//! it.

use gimbuka::MOST_LOAD_WORDS;
use judges::process::{fault, run, told, Input};
use judges::{library, Given, Tally};
use reasoner::random::rehearsal::Load;
use reasoner::{bytes_of_words, parts_of_bytes, Checked, Filling, Reading, Verdict, FULL_WORK};
use std::env;
use std::process::{Command, ExitCode, Output};

/// The programs are run for the seeds that this divides.
const RARELY: u64 = 500;
/// What a run of the programs is counted as.
const RUN: &str = "run";

/// Where the programs are.
struct Programs {
    comply: String,
    rehearse: String,
}

/// What library and reasoner decide on the words of a load, or what is wrong with them.
fn decided(words: &[u32]) -> Result<&'static str, String> {
    let parts = parts_of_bytes(&bytes_of_words(words));
    let [v, p, q] = parts.ok_or("what is written is not three parts")?;
    let read = [
        library::read_vocabulary(&v),
        library::read_policy(&v, &p),
        library::read_second_policy(&v, &q),
    ];
    if read != [Reading::Accepted; 3] {
        return Err(format!("the parts that are written: {read:?}"));
    }
    let mut work = vec![0; FULL_WORK];
    let [mut ours, mut theirs] = [(); 2].map(|()| vec![0; FULL_WORK]);
    let verdict = library::compliance(&v, &p, &q, &mut work, &mut ours);
    let wanted = reasoner::compliance(&v, &p, &q, &mut work, &mut theirs);
    if verdict != wanted || ours != theirs {
        return Err(format!("compliance: library {verdict:?}, reasoner {wanted:?}"));
    }
    match verdict {
        Verdict::Compliant => Ok("compliant"),
        Verdict::Outside(_, _, words) => {
            let model = &ours[..words as usize];
            match library::model_check(&v, &p, &q, model, &mut work) {
                Checked::Yes => Ok("outside"),
                checked => Err(format!("the check of the countermodel: {checked:?}")),
            }
        }
        Verdict::Refused(_) => Err(format!("compliance: {verdict:?}")),
    }
}

/// The answer for a load, with what is decided on it, or what is wrong.
fn judged(load: &Load) -> Result<String, String> {
    let &Load { seed, classes, terms, .. } = load;
    let mut ours = load.out();
    let mut theirs = ours.clone();
    let answer = library::rehearse(seed, classes, terms, &mut ours);
    let wanted = reasoner::rehearse(seed, classes, terms, &mut theirs);
    if answer != wanted {
        return Err(format!("library {answer:?}, reasoner {wanted:?}"));
    }
    if ours != theirs {
        return Err(format!("{answer:?}, and the outputs differ"));
    }
    match answer {
        Filling::Written(words) => {
            decided(&ours[..words as usize]).map(|verdict| format!("Written, {verdict}"))
        }
        Filling::Refused(_) => Ok(format!("{answer:?}")),
    }
}

/// The bytes of a load, whatever output it is lent; none where it is refused.
fn bytes(load: &Load) -> Option<Vec<u8>> {
    let mut out = vec![0; MOST_LOAD_WORDS];
    match reasoner::rehearse(load.seed, load.classes, load.terms, &mut out) {
        Filling::Written(words) => Some(bytes_of_words(&out[..words as usize])),
        Filling::Refused(_) => None,
    }
}

/// Makes a load with one program and gives what that prints to the other, or says what is wrong.
fn piped(programs: &Programs, load: &Load) -> Result<(), String> {
    let numbers = [load.seed, load.classes, load.terms].map(|number| number.to_string());
    let made = output(Command::new(&programs.rehearse).args(numbers), Vec::new())?;
    let Some(bytes) = bytes(load) else {
        let wrong = || format!("rehearse {}; wanted a line on standard error alone", told(&made));
        return is_refused(&made).then_some(()).ok_or_else(wrong);
    };
    if let Some(wrong) = fault(&made, &bytes) {
        return Err(format!("rehearse {wrong}"));
    }
    let answered = output(&mut Command::new(&programs.comply), made.stdout)?;
    let wrong = fault(&answered, &reasoner::program(&bytes));
    wrong.map_or(Ok(()), |wrong| Err(format!("comply {wrong}")))
}

fn output(command: &mut Command, bytes: Vec<u8>) -> Result<Output, String> {
    let ran = run(command, &Input::whole(bytes));
    ran.map_err(|error| format!("{command:?} could not be run: {error}"))
}

/// Nothing, and a line on standard error.
fn is_refused(Output { status, stdout, stderr }: &Output) -> bool {
    let line = stderr.iter().position(|&byte| byte == b'\n');
    status.success() && stdout.is_empty() && line.is_some_and(|end| end + 1 == stderr.len())
}

/// The answers that there are.
fn answers() -> impl Iterator<Item = String> {
    let refusals = [45, 23].map(|number| format!("{:?}", Filling::Refused(number)));
    ["compliant", "outside"]
        .map(|verdict| format!("Written, {verdict}"))
        .into_iter()
        .chain(refusals)
}

fn main() -> ExitCode {
    let mut words = env::args().skip(1);
    let (Some(comply), Some(rehearse)) = (words.next(), words.next()) else {
        eprintln!("usage: rehearsal COMPLY REHEARSE [FIRST [COUNT]]");
        return ExitCode::from(2);
    };
    let programs = Programs { comply, rehearse };
    let seeds = judges::seeds(words, 100_000);
    let count = seeds.end - seeds.start;
    let judge = |tally: &mut Tally, load: &Load, is_run: bool| {
        tally.count(judged(load)?);
        if is_run {
            piped(&programs, load)?;
            tally.count(RUN.to_owned());
        }
        Ok(())
    };
    let told = judges::sweep(&judges::directed_loads(), seeds, |tally, given| {
        let (load, is_run) = match given {
            Given::Directed(load) => (*load, true),
            Given::Seed(seed) => (Load::any(seed), seed % RARELY == 0),
        };
        judge(tally, &load, is_run).map_err(|wrong: String| (wrong, load))
    });
    match told {
        Err((name, (wrong, load))) => println!("{name} differs:\n{load}{wrong}"),
        Ok(tally) => {
            println!(
                "{count} seeded loads and the directed ones: library and reasoner agree, and so do the programs on {} of them",
                tally.of(RUN)
            );
            if tally.has_all(answers()) {
                return ExitCode::SUCCESS;
            }
        }
    }
    ExitCode::FAILURE
}
