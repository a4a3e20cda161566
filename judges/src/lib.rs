//! What the judges share: the library's answers as the reasoner has them, the cases, texts and loads that no seed makes, a run over
//! numbers on every core, a count of the answers, the programs as processes, Konclude.

pub mod konclude;
pub mod library;
pub mod process;

use reasoner::random::owl::{self, Text};
use reasoner::random::rehearsal::{self, Load};
use reasoner::random::spelling::{self, Spelling};
use reasoner::random::{damage, limits, slow, Case};
use std::collections::BTreeMap;
use std::num::NonZero;
use std::ops::Range;
use std::sync::atomic::{AtomicU64, Ordering};
use std::thread;

/// How many cores this process may use; 1 where that cannot be told.
#[must_use]
pub fn cores() -> usize {
    thread::available_parallelism().map_or(1, NonZero::get)
}

/// The operations on tables, in SPECIFICATION's order.
pub const OPERATIONS: [&str; 7] = [
    "read_vocabulary",
    "read_policy",
    "read_second_policy",
    "possible",
    "compliance",
    "equality",
    "model_check",
];

/// The seeds that the words of a command line ask for, `[FIRST [COUNT]]`: from 0, and `usual` many, where nothing is said.
pub fn seeds(words: impl Iterator<Item = String>, usual: u64) -> Range<u64> {
    let mut numbers = words.map(|word| word.parse::<u64>().expect("a number"));
    let (first, count) = (numbers.next().unwrap_or(0), numbers.next().unwrap_or(usual));
    first..first + count
}

/// What a judge is given: a case, a text or a load that no seed makes, or a seed.
pub enum Given<'a, T> {
    /// One at a limit, one made to be slow, or one with a directed fault.
    Directed(&'a T),
    /// A seed, to make one of.
    Seed(u64),
}

/// How many equal terms the slow pairs have here: with as many as fit some take seconds.
const EQUAL: usize = 3;

/// The cases at every limit, the slow pairs and models, and one for every directed fault, with their names.
#[must_use]
pub fn directed_cases() -> Vec<(String, Case)> {
    let limits =
        limits::cases().into_iter().map(|(name, case)| (format!("limit \"{name}\""), case));
    let faults = damage::faults().into_iter().map(|fault| {
        let mut case = damage::base();
        (fault.apply)(&mut case);
        (format!("fault \"{}\"", fault.name), case)
    });
    let pairs = slow::compliance(EQUAL).into_iter().chain(slow::uncovered(EQUAL));
    let models = slow::model_check().into_iter().map(|(name, case)| (name.to_owned(), case));
    let slow = pairs.chain(models).map(|(name, case)| (format!("slow \"{name}\""), case));
    limits.chain(slow).chain(faults).collect()
}

/// The OWL texts for every reading, at every limit and for every refusal, and the slow ones, with their names.
#[must_use]
pub fn directed_texts() -> Vec<(String, Text)> {
    let directed = owl::directed::texts().into_iter().map(|one| (one.name, one.text));
    let slow = owl::slow::texts().into_iter().map(|(name, text)| (name.to_owned(), text));
    directed.chain(slow).collect()
}

/// The policies to spell for every reading, at every limit and for every refusal, and the slow ones, with their names.
#[must_use]
pub fn directed_spellings() -> Vec<(String, Spelling)> {
    let directed = spelling::directed::inputs().into_iter().map(|one| (one.name, one.input));
    let faults = spelling::damage::faults().into_iter().map(|fault| {
        let mut case = spelling::damage::base();
        (fault.apply)(&mut case);
        (format!("fault \"{}\"", fault.name), Spelling::from(case))
    });
    directed.chain(spelling::slow::inputs()).chain(faults).collect()
}

/// The loads at every limit and for every refusal, with their names.
#[must_use]
pub fn directed_loads() -> Vec<(String, Load)> {
    rehearsal::directed::loads().into_iter().map(|one| (one.name, one.load)).collect()
}

/// The answers so far, with how many cases had each.
#[derive(Default)]
pub struct Tally(BTreeMap<String, u64>);

impl Tally {
    /// One more case with this answer.
    pub fn count(&mut self, answer: String) {
        *self.0.entry(answer).or_default() += 1;
    }

    /// How many cases had this answer.
    #[must_use]
    pub fn of(&self, answer: &str) -> u64 {
        self.0.get(answer).copied().unwrap_or(0)
    }

    fn add(&mut self, other: Tally) {
        for (answer, times) in other.0 {
            *self.0.entry(answer).or_default() += times;
        }
    }

    /// Says which of these answers no case had; true if there is none such.
    #[must_use]
    pub fn has_all(&self, answers: impl Iterator<Item = String>) -> bool {
        let missing: Vec<String> = answers.filter(|answer| self.of(answer) == 0).collect();
        for answer in &missing {
            println!("no case has the answer {answer}");
        }
        missing.is_empty()
    }
}

/// What an answer is counted as where it needs the short way, since a term has over 65,536 combinations.
#[must_use]
pub fn by_the_short_way(answer: &str) -> String {
    format!("{answer} by the short way, beyond 65,536 combinations")
}

/// Judges what no seed makes, then the seeds, on every core. What fails is told with its name, and of several the first, so that
/// a run tells the same every time.
pub fn sweep<T: Sync, E: Send>(
    directed: &[(String, T)],
    seeds: Range<u64>,
    judge: impl Fn(&mut Tally, Given<'_, T>) -> Result<(), E> + Sync,
) -> Result<Tally, (String, E)> {
    let before = directed.len() as u64;
    let given = |number: u64| match directed.get(number as usize) {
        Some((_, one)) => Given::Directed(one),
        None => Given::Seed(seeds.start + number - before),
    };
    let told =
        numbers(before + seeds.end - seeds.start, |tally, number| judge(tally, given(number)));
    told.map_err(|(number, failure)| match given(number) {
        Given::Directed(_) => (directed[number as usize].0.clone(), failure),
        Given::Seed(seed) => (format!("seed {seed}"), failure),
    })
}

/// Judges the numbers from 0 to `count`, in rising order; of those that fail the lowest is told.
fn numbers<E: Send>(
    count: u64,
    judge: impl Fn(&mut Tally, u64) -> Result<(), E> + Sync,
) -> Result<Tally, (u64, E)> {
    let next = AtomicU64::new(0);
    let end = AtomicU64::new(count);
    let work = || {
        let mut tally = Tally::default();
        loop {
            let number = next.fetch_add(1, Ordering::Relaxed);
            if number >= end.load(Ordering::Relaxed) {
                return Ok(tally);
            }
            if let Err(failure) = judge(&mut tally, number) {
                // Lower numbers are all taken and will be judged; higher ones need not be.
                end.fetch_min(number, Ordering::Relaxed);
                return Err((number, failure));
            }
        }
    };
    let told: Vec<_> = thread::scope(|scope| {
        let threads: Vec<_> = (0..cores()).map(|_| scope.spawn(work)).collect();
        threads.into_iter().map(|thread| thread.join().expect("a judge that ends")).collect()
    });
    merged(told)
}

/// All tallies together, or the failure with the lowest number.
fn merged<E>(told: Vec<Result<Tally, (u64, E)>>) -> Result<Tally, (u64, E)> {
    let mut all = Tally::default();
    let mut lowest = None;
    for one in told {
        match (one, &lowest) {
            (Ok(tally), _) => all.add(tally),
            (Err((number, _)), Some((least, _))) if number > *least => {}
            (Err(failure), _) => lowest = Some(failure),
        }
    }
    lowest.map_or(Ok(all), Err)
}

#[cfg(test)]
mod tests {
    use super::numbers;

    #[test]
    fn the_lowest_failure_is_told() {
        for _ in 0..200 {
            let told =
                numbers(1_000, |_, number| if number % 97 == 96 { Err(number) } else { Ok(()) });
            assert_eq!(told.err(), Some((96, 96)));
        }
    }

    #[test]
    fn every_number_is_judged_once() {
        let tally = numbers(1_000, |tally, number| {
            tally.count((number % 10).to_string());
            Ok::<_, ()>(())
        });
        let tally = tally.unwrap_or_else(|_| unreachable!());
        assert!((0..10).all(|digit: u64| tally.of(&digit.to_string()) == 100));
    }
}
