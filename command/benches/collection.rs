//! How fast the command is on a collection, and how much memory it takes: `cargo bench --bench collection [-- CONSENTS..]`.
//!
//! Writes collections of everyday consents, each a file of named policies, over one vocabulary and with one buyer; half of them are
//! compliant. Runs `gimbuka check` on them, on all cores and on one, and calls the library alone on the same pairs. A rate is by the clock,
//! which others on the machine slow down, and by the seconds that the cores gave to it.

use notation::{print_policy, print_vocabulary, Vocabulary};
use reasoner::encode::policy_words;
use reasoner::policy::{Conjunct, Place, Policy, Term};
use reasoner::random::everyday::{case, Answer};
use reasoner::random::Rng;
use std::fs::{self, File};
use std::hint::black_box;
use std::io::{self, BufWriter, Write};
use std::path::{Path, PathBuf};
use std::process::{Child, Command, Stdio};
use std::thread;
use std::time::{Duration, Instant};

/// What the consents are made of.
struct Everyday {
    vocabulary: Vocabulary,
    buyer: Vec<u32>,
    /// The consents from which all are made: one that is compliant, one that is not.
    consents: [Vec<Term>; 2],
}

impl Everyday {
    fn new() -> Self {
        let cases = [Answer::Compliant, Answer::Outside].map(|answer| case(0, answer));
        let over = reasoner::vocabulary::Vocabulary::read(&cases[0].v).expect("a vocabulary");
        let terms = |words: &[u32]| {
            Policy::read(&over, words, Place::Second).expect("an accepted policy").terms
        };
        Self {
            consents: [terms(&cases[0].q), terms(&cases[1].q)],
            buyer: cases[0].p.clone(),
            vocabulary: Vocabulary::of_words(cases[0].v.clone()),
        }
    }

    /// A consent: its terms in another order, and some of them for more days. It stays what it is: compliant if the seed is even.
    fn consent(&self, seed: u64) -> Vec<u32> {
        let mut rng = Rng::new(seed);
        let mut terms = self.consents[usize::from(seed % 2 == 1)].clone();
        rng.shuffle(&mut terms);
        for conjunct in terms.iter_mut().flatten() {
            let Conjunct::Reaches(_, inner) = conjunct else { continue };
            for conjunct in inner {
                match conjunct {
                    // The buyer's longest storage is what an outside consent falls short of.
                    Conjunct::Within(_, _, hi) if *hi < 900 => *hi += rng.below(60),
                    _ => {}
                }
            }
        }
        policy_words(&terms)
    }

    fn text(&self, words: &[u32], name: &str) -> String {
        let text = print_policy(self.vocabulary.names(), words).expect("an accepted policy");
        text.replacen('(', &format!("(\n  Annotation(rdfs:label \"{name}\")"), 1)
    }

    fn write(&self, folder: &Path, consents: u64) -> io::Result<[PathBuf; 3]> {
        let files = ["vocabulary.txt", "buyer.txt", "consents.txt"].map(|name| folder.join(name));
        fs::write(&files[0], print_vocabulary(&self.vocabulary))?;
        fs::write(&files[1], self.text(&self.buyer, "buyer"))?;
        let mut file = BufWriter::new(File::create(&files[2])?);
        for seed in 0..consents {
            let text = self.text(&self.consent(seed), &format!("subscriber {seed}"));
            file.write_all(text.as_bytes())?;
        }
        file.flush()?;
        Ok(files)
    }
}

/// What a run took.
struct Taken {
    seconds: f64,
    /// Of all its threads together.
    core_seconds: f64,
    peak_kb: u64,
}

/// A field of a file of /proc, by its key.
fn kb(status: &str, key: &str) -> Option<u64> {
    let line = status.lines().find(|line| line.starts_with(key))?;
    line.split_whitespace().nth(1)?.parse().ok()
}

/// The state of a process, and how many hundredths of a second it took.
fn state(process: u32) -> Option<(char, u64)> {
    let stat = fs::read_to_string(format!("/proc/{process}/stat")).ok()?;
    let fields: Vec<&str> = stat.rsplit(')').next()?.split_whitespace().collect();
    let ticks = |at: usize| fields.get(at)?.parse::<u64>().ok();
    Some((fields.first()?.chars().next()?, ticks(11)? + ticks(12)?))
}

/// Waits for a process to end. Until it is waited for, the system keeps its times; its memory is looked at until then.
fn watch(mut child: Child, start: Instant) -> Taken {
    let mut peak_kb = 0;
    let hundredths = loop {
        let status = fs::read_to_string(format!("/proc/{}/status", child.id())).unwrap_or_default();
        peak_kb = kb(&status, "VmHWM:").unwrap_or(peak_kb);
        match state(child.id()) {
            Some(('Z', hundredths)) => break hundredths,
            None => break 0,
            _ => thread::sleep(Duration::from_millis(5)),
        }
    };
    let seconds = start.elapsed().as_secs_f64();
    child.wait().expect("a process that ends");
    Taken { seconds, core_seconds: hundredths as f64 / 100.0, peak_kb }
}

fn run(files: &[PathBuf; 3], arguments: &[&str], cores: usize, output: &Path) -> Taken {
    let start = Instant::now();
    let child = Command::new(env!("CARGO_BIN_EXE_gimbuka"))
        .arg("check")
        .args(arguments)
        .args(files)
        .env("RAYON_NUM_THREADS", cores.to_string())
        .stdout(File::create(output).expect("a file for the output"))
        .stderr(Stdio::inherit())
        .spawn()
        .expect("the command");
    watch(child, start)
}

fn row(what: &str, consents: u64, cores: usize, taken: &Taken) {
    let Taken { seconds, core_seconds, peak_kb } = taken;
    let by_clock = consents as f64 / seconds / cores as f64;
    let by_core = consents as f64 / core_seconds;
    // Of a call alone there is none to tell.
    let peak = if *peak_kb == 0 { "-".to_owned() } else { format!("{}", peak_kb / 1024) };
    println!("{what:<38}{seconds:>8.2}{by_clock:>18.0}{by_core:>18.0}{peak:>10}");
}

/// Calls of the library on the first pairs, for a while.
fn library(everyday: &Everyday) -> Taken {
    const PAIRS: u64 = 10_000;
    let consents: Vec<Vec<u32>> = (0..PAIRS).map(|seed| everyday.consent(seed)).collect();
    let mut work = vec![0; gimbuka::WORK_SIZE];
    let mut out = vec![0; gimbuka::MOST_MODEL_WORDS];
    let before = state(std::process::id()).map_or(0, |(_, hundredths)| hundredths);
    let start = Instant::now();
    for consent in &consents {
        let v = everyday.vocabulary.words();
        black_box(gimbuka::compliance(v, &everyday.buyer, consent, &mut work, &mut out))
            .expect("an answer");
    }
    let seconds = start.elapsed().as_secs_f64();
    let after = state(std::process::id()).map_or(0, |(_, hundredths)| hundredths);
    Taken { seconds, core_seconds: (after - before) as f64 / 100.0, peak_kb: 0 }
}

fn main() {
    let given: Vec<u64> = std::env::args().filter_map(|word| word.parse().ok()).collect();
    let sizes = if given.is_empty() { vec![10_000, 100_000] } else { given };
    let cores = thread::available_parallelism().map_or(1, usize::from);
    let everyday = Everyday::new();
    let folder = std::env::temp_dir().join(format!("gimbuka-bench-{}", std::process::id()));
    fs::create_dir_all(&folder).expect("a folder");
    println!(
        "{:<38}{:>8}{:>18}{:>18}{:>10}",
        "gimbuka check", "seconds", "a second a core", "a core's second", "peak MB"
    );
    for consents in sizes {
        let files = everyday.write(&folder, consents).expect("a collection");
        let bytes = fs::metadata(&files[2]).map_or(0, |file| file.len());
        println!("{consents} consents of {} bytes", bytes / consents.max(1));
        let output = folder.join("answers.txt");
        for cores in [1].into_iter().chain((cores > 1).then_some(cores)) {
            let many = if cores == 1 { "core" } else { "cores" };
            let taken = run(&files, &[], cores, &output);
            row(&format!("  on {cores} {many}"), consents, cores, &taken);
        }
        let taken = run(&files, &["--why", "--json"], cores, &output);
        row(&format!("  on {cores}, with --why --json"), consents, cores, &taken);
        let answers = fs::read_to_string(&output).unwrap_or_default();
        println!("  {}", answers.lines().last().unwrap_or("no answer"));
    }
    let taken = library(&everyday);
    row("the library's calls alone, on 1 core", 10_000, 1, &taken);
    let _ = fs::remove_dir_all(&folder);
}
