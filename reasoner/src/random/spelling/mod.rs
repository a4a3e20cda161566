//! Seeded inputs for differential tests of the spelling of a policy.
//!
//! [`Spelling::generate`] makes one input of a [`Family`]; [`Spelling::any`] picks the family by
//! the seed; [`directed::inputs`] lists those at every limit and for every reading of SPECIFICATION
//! 6.7 and 9.13, with their answers; [`slow::inputs`] lists those that are made to be slow;
//! [`damage::faults`] lists one fault for every refusal; [`repeats::rearranged`] and
//! [`repeats::disguised`] make another policy with the same spelling; [`shrink::shrink`] makes an
//! input smaller while it still differs. An input prints itself as words.

pub mod damage;
pub mod directed;
mod impossible;
mod limits;
mod nearly;
pub mod repeats;
pub mod shrink;
pub mod slow;

use super::valid::{policy_layout, vocabulary_layout, Shape};
use super::{filled, print_table, Case, Rng};
use crate::policy::Term;
use crate::vocabulary::Vocabulary;
use crate::{spell, Filling, FULL_WORK};
use repeats::Disguise;
use std::fmt;

/// Words with room for every policy.
const ROOM: usize = 3_078;

/// What the spelling of a policy is given.
#[derive(Clone, Debug, PartialEq, Eq)]
pub struct Spelling {
    /// The vocabulary.
    pub v: Vec<u32>,
    /// The policy.
    pub p: Vec<u32>,
    /// The length of the work slice.
    pub work_len: usize,
    /// The length of the output.
    pub out_len: usize,
    /// What the work slice holds before: random words from this seed, or 0 throughout if it is 0.
    pub work_seed: u64,
    /// What the output holds before, in the same way.
    pub out_seed: u64,
}

/// A kind of input.
#[derive(Clone, Copy, Debug, PartialEq, Eq)]
pub enum Family {
    /// The first policy of a case of any family.
    Plain,
    /// Conjuncts and terms that stand there several times, at several depths and in any order.
    Repeats,
    /// The same, some of them equal only by a range.
    Ranges,
    /// The same, some of them equal only once functional roles are merged and spans met.
    Merges,
    /// All of this at once.
    Mixed,
    /// Conjuncts and terms that differ in one record.
    Nearly,
    /// Impossible terms, some of them deep or long by ranges; every other time no others.
    Impossible,
    /// Spellings of about 512 records, by ranges, or about 16 deep.
    Limits,
    /// A valid input with one to three mutations.
    Damaged,
    /// Two directed faults at once: their order.
    Faulty,
    /// Words and lengths of any kind.
    Garbage,
}

impl Family {
    /// Every family.
    pub const ALL: [Family; 11] = [
        Family::Plain,
        Family::Repeats,
        Family::Ranges,
        Family::Merges,
        Family::Mixed,
        Family::Nearly,
        Family::Impossible,
        Family::Limits,
        Family::Damaged,
        Family::Faulty,
        Family::Garbage,
    ];
}

impl Spelling {
    /// The input of this family and seed.
    #[must_use]
    pub fn generate(family: Family, seed: u64) -> Self {
        let mut rng = Rng::new(seed);
        let rng = &mut rng;
        match family {
            Family::Plain => Self::from(Case::any(rng.bits())).lent(rng),
            Family::Repeats => repeats::input(rng, Disguise::REPEATS),
            Family::Ranges => repeats::input(rng, Disguise::RANGES),
            Family::Merges => repeats::input(rng, Disguise::MERGES),
            Family::Mixed => repeats::input(rng, Disguise::ALL),
            Family::Nearly => nearly::input(rng),
            Family::Impossible => impossible::input(rng),
            Family::Limits => limits::input(rng),
            Family::Damaged => damage::damaged(rng),
            Family::Faulty => damage::two_faults(rng),
            Family::Garbage => damage::garbage(rng),
        }
    }

    /// An input of any family.
    #[must_use]
    pub fn any(seed: u64) -> Self {
        const MIX: [Family; 18] = [
            Family::Plain,
            Family::Plain,
            Family::Repeats,
            Family::Repeats,
            Family::Ranges,
            Family::Ranges,
            Family::Merges,
            Family::Merges,
            Family::Mixed,
            Family::Mixed,
            Family::Nearly,
            Family::Nearly,
            Family::Impossible,
            Family::Limits,
            Family::Damaged,
            Family::Damaged,
            Family::Faulty,
            Family::Garbage,
        ];
        Self::generate(MIX[(seed % 18) as usize], seed)
    }

    /// The work slice as it is lent.
    #[must_use]
    pub fn work(&self) -> Vec<u32> {
        filled(self.work_len, self.work_seed)
    }

    /// The output as it is lent.
    #[must_use]
    pub fn out(&self) -> Vec<u32> {
        filled(self.out_len, self.out_seed)
    }

    /// An input of these words with a full work slice and room for every policy.
    #[must_use]
    pub fn of(v: Vec<u32>, p: Vec<u32>) -> Self {
        Self { v, p, work_len: FULL_WORK, out_len: ROOM, work_seed: 1, out_seed: 2 }
    }

    /// The terms in a random layout, and the slices.
    fn laid_out(rng: &mut Rng, vocabulary: &Vocabulary, terms: &[Term]) -> Self {
        let shape = Shape::repeats();
        let v = vocabulary_layout(rng, &shape, vocabulary);
        let p = policy_layout(rng, &shape, terms);
        Self::of(v, p).lent(rng)
    }

    /// Chooses the lengths and contents of the slices: mostly full work slices, and outputs that
    /// are empty, one word short, exactly long enough, or more than enough.
    #[must_use]
    fn lent(mut self, rng: &mut Rng) -> Self {
        self.work_len = match rng.below(12) {
            0 => *rng.pick(&[0, FULL_WORK - 1, FULL_WORK - 1]),
            1..4 => FULL_WORK + rng.place(40),
            _ => FULL_WORK,
        };
        let enough = self.enough();
        self.out_len = match rng.below(8) {
            0 => *rng.pick(&[0, 5, 6]),
            1 => enough - 1,
            2 | 3 => enough,
            4 => enough + 1 + rng.place(9),
            _ => ROOM,
        };
        self.work_seed = if rng.once_in(4) { 0 } else { rng.bits() };
        self.out_seed = if rng.once_in(4) { 0 } else { rng.bits() };
        self
    }

    /// The words that the spelling takes, or a header's if there is none.
    fn enough(&self) -> usize {
        match spell(&self.v, &self.p, &mut [0; FULL_WORK], &mut [0; ROOM]) {
            Filling::Written(words) => words as usize,
            Filling::Refused(_) => 6,
        }
    }

    /// The same as a case without a second policy and a model.
    fn case(&self) -> Case {
        Case {
            v: self.v.clone(),
            p: self.p.clone(),
            q: Vec::new(),
            m: Vec::new(),
            work_len: self.work_len,
            out_len: self.out_len,
            work_seed: self.work_seed,
            out_seed: self.out_seed,
        }
    }
}

impl From<Case> for Spelling {
    /// The vocabulary, the first policy and the slices.
    fn from(case: Case) -> Self {
        let Case { v, p, work_len, out_len, work_seed, out_seed, .. } = case;
        Self { v, p, work_len, out_len, work_seed, out_seed }
    }
}

impl fmt::Display for Spelling {
    /// The words, one record a line, with the record's number in front.
    fn fmt(&self, f: &mut fmt::Formatter<'_>) -> fmt::Result {
        print_table(f, "v", &self.v, 4)?;
        print_table(f, "p", &self.p, 6)?;
        writeln!(f, "work: {} words, seed {}", self.work_len, self.work_seed)?;
        writeln!(f, "out: {} words, seed {}", self.out_len, self.out_seed)
    }
}
