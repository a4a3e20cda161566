//! Seeded inputs for differential tests of the operations.
//!
//! [`Case::generate`] makes one case of a [`Family`]; [`Case::any`] picks the family by the seed;
//! [`everyday::case`] makes the pairs of the benchmarks; [`limits::cases`] lists the cases at every
//! limit; [`slow::compliance`], [`slow::uncovered`] and [`slow::model_check`] list those that are
//! made to be slow; [`damage::faults`] lists one fault for every refusal; [`shrink::shrink`] makes
//! a case smaller while it still differs. A case prints itself as words. [`owl`] has the same for
//! texts that a vocabulary is read from, and [`spelling`] for policies that are spelled;
//! [`rehearsal`] has what loads are asked with.

pub mod boxes;
pub mod crowded;
pub mod damage;
pub mod everyday;
pub mod limits;
pub mod models;
pub mod owl;
pub mod rehearsal;
pub mod rng;
pub mod shrink;
pub mod slow;
pub mod spelling;
pub mod valid;

use crate::FULL_WORK;
pub use rng::Rng;
use std::fmt;

/// The inputs of every operation: each takes what it needs.
#[derive(Clone, Debug, PartialEq, Eq)]
pub struct Case {
    /// The vocabulary.
    pub v: Vec<u32>,
    /// The first policy.
    pub p: Vec<u32>,
    /// The second policy.
    pub q: Vec<u32>,
    /// The model handed to the model check.
    pub m: Vec<u32>,
    /// The length of the work slice.
    pub work_len: usize,
    /// The length of the output.
    pub out_len: usize,
    /// What the work slice holds before: random words from this seed, or 0 throughout if it is 0.
    pub work_seed: u64,
    /// What the output holds before, in the same way.
    pub out_seed: u64,
}

/// A kind of case.
#[derive(Clone, Copy, Debug, PartialEq, Eq)]
pub enum Family {
    /// Two classes, one role, one feature, values 0 to 2: for exhaustive search.
    Tiny,
    /// A few names, terms of up to four conjuncts, three deep.
    Small,
    /// Up to 60 classes, ten terms, six deep.
    Medium,
    /// Functional roles nested several deep, functional features with several spans.
    Merges,
    /// Spans covered by several consent terms together, or with one number left out.
    Coverage,
    /// A box of spans against a partition of it into boxes.
    Boxes,
    /// Long hierarchies: cycles, disjointness through several steps, ranges.
    Hierarchy,
    /// Terms of about 65,536 combinations and more, which consent terms take whole or nearly do.
    Crowded,
    /// One of the cases at a limit.
    Limits,
    /// A valid case with one to three mutations.
    Damaged,
    /// Two directed faults at once: their order.
    Faulty,
    /// Words and lengths of any kind.
    Garbage,
}

impl Family {
    /// Every family.
    pub const ALL: [Family; 12] = [
        Family::Tiny,
        Family::Small,
        Family::Medium,
        Family::Merges,
        Family::Coverage,
        Family::Boxes,
        Family::Hierarchy,
        Family::Crowded,
        Family::Limits,
        Family::Damaged,
        Family::Faulty,
        Family::Garbage,
    ];
}

impl Case {
    /// The case of this family and seed.
    #[must_use]
    pub fn generate(family: Family, seed: u64) -> Self {
        let mut rng = Rng::new(seed);
        let rng = &mut rng;
        match family {
            Family::Tiny => valid::pair(rng, &valid::Shape::tiny()),
            Family::Small => valid::pair(rng, &valid::Shape::small()),
            Family::Medium => valid::pair(rng, &valid::Shape::medium()),
            Family::Merges => valid::pair(rng, &valid::Shape::merges()),
            Family::Coverage => valid::pair(rng, &valid::Shape::coverage()),
            Family::Boxes => boxes::case(rng),
            Family::Hierarchy => valid::pair(rng, &valid::Shape::hierarchy()),
            Family::Crowded => crowded::case(rng),
            Family::Limits => limits::pick(rng),
            Family::Damaged => damage::damaged(rng),
            Family::Faulty => damage::two_faults(rng),
            Family::Garbage => damage::garbage(rng),
        }
    }

    /// A case of any family, the cheap ones more often than those at a limit.
    #[must_use]
    pub fn any(seed: u64) -> Self {
        const MIX: [Family; 21] = [
            Family::Tiny,
            Family::Small,
            Family::Small,
            Family::Small,
            Family::Merges,
            Family::Merges,
            Family::Merges,
            Family::Coverage,
            Family::Boxes,
            Family::Boxes,
            Family::Hierarchy,
            Family::Hierarchy,
            Family::Crowded,
            Family::Medium,
            Family::Medium,
            Family::Damaged,
            Family::Damaged,
            Family::Damaged,
            Family::Damaged,
            Family::Faulty,
            Family::Garbage,
        ];
        let family = if seed % 1_009 == 1_008 { Family::Limits } else { MIX[(seed % 21) as usize] };
        Self::generate(family, seed)
    }

    /// The work slice as it is lent.
    #[must_use]
    pub fn work(&self) -> Vec<u32> {
        filled(self.work_len, self.work_seed)
    }

    /// The output as it is lent.
    #[must_use]
    pub fn out(&self) -> Vec<u32> {
        filled(self.out_len, self.out_seed)
    }

    /// The bytes that the program reads for this case.
    #[must_use]
    pub fn bytes(&self) -> Vec<u8> {
        crate::bytes_of_parts(&self.v, &self.p, &self.q)
    }

    /// A case of these words with full slices of random contents.
    #[must_use]
    pub fn of(v: Vec<u32>, p: Vec<u32>, q: Vec<u32>, m: Vec<u32>) -> Self {
        Self { v, p, q, m, work_len: FULL_WORK, out_len: FULL_WORK, work_seed: 1, out_seed: 2 }
    }

    /// Chooses the lengths and contents of the slices: mostly full work slices, and outputs that
    /// are empty, a header long, exactly enough, one short, or plenty.
    pub fn lend(&mut self, rng: &mut Rng) {
        self.work_len = match rng.below(12) {
            0 => *rng.pick(&[0, 1, FULL_WORK - 1]),
            1..4 => FULL_WORK + rng.place(40),
            _ => FULL_WORK,
        };
        let enough = enough_output(self);
        self.out_len = match rng.below(8) {
            0 => *rng.pick(&[0, 4, 5]),
            1 | 2 => enough,
            3 => enough.saturating_sub(1),
            4 => enough + 1 + rng.place(9),
            _ => FULL_WORK,
        };
        self.work_seed = if rng.once_in(4) { 0 } else { rng.bits() };
        self.out_seed = if rng.once_in(4) { 0 } else { rng.bits() };
    }
}

/// The words that the countermodel of an equality takes, or 5 if there is none.
fn enough_output(case: &Case) -> usize {
    let model = models::countermodel(case);
    model.map_or(5, |model| model.len())
}

/// An output for so many words: too short, a word short, exactly long enough, or more than enough. It
/// is given by its length and what it holds before.
fn lent(rng: &mut Rng, enough: usize) -> (usize, u64) {
    let length = match rng.below(8) {
        0 => rng.place(enough),
        1 => enough - 1,
        2 | 3 => enough,
        _ => enough + rng.place(40),
    };
    (length, if rng.once_in(4) { 0 } else { rng.bits() })
}

fn filled(length: usize, seed: u64) -> Vec<u32> {
    if seed == 0 {
        return vec![0; length];
    }
    let mut rng = Rng::new(seed);
    (0..length).map(|_| rng.bits() as u32).collect()
}

impl fmt::Display for Case {
    /// The words, one record a line, with the record's number in front.
    fn fmt(&self, f: &mut fmt::Formatter<'_>) -> fmt::Result {
        let parts = [("v", &self.v, 4), ("p", &self.p, 6), ("q", &self.q, 6), ("m", &self.m, 5)];
        for (name, words, width) in parts {
            print_table(f, name, words, width)?;
        }
        writeln!(f, "work: {} words, seed {}", self.work_len, self.work_seed)?;
        writeln!(f, "out: {} words, seed {}", self.out_len, self.out_seed)
    }
}

fn print_table(f: &mut fmt::Formatter<'_>, name: &str, words: &[u32], width: usize) -> fmt::Result {
    writeln!(f, "{name}: {} words", words.len())?;
    for (number, record) in words.chunks(width).enumerate() {
        let line: Vec<String> = record.iter().map(u32::to_string).collect();
        writeln!(f, "  {number:>4}: {}", line.join(" "))?;
    }
    Ok(())
}
