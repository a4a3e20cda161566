//! What loads for rehearsals are asked with, for differential tests of making them.
//!
//! [`Load::any`] makes one by a seed; [`directed::loads`] lists those at every limit, with their
//! answers. A load prints itself.

pub mod directed;

use super::{filled, lent, Rng};
use crate::rehearsal::{SEEDS, TERMS};
use crate::vocabulary::CLASSES;
use crate::{rehearse, Filling};
use std::fmt;
use std::ops::RangeInclusive;

/// Words with room for every load.
const ROOM: usize = 4_643;

/// What making a load is given.
#[derive(Clone, Copy, Debug, PartialEq, Eq)]
pub struct Load {
    /// Where the draws begin.
    pub seed: u32,
    /// The number of classes.
    pub classes: u32,
    /// The number of terms of each policy.
    pub terms: u32,
    /// The length of the output.
    pub out_len: usize,
    /// What the output holds before: random words from this seed, or 0 throughout if it is 0.
    pub out_seed: u64,
}

impl Load {
    /// The load of this seed. Three in four are made where the output is long enough; of the others
    /// one number or several are out of range.
    #[must_use]
    pub fn any(seed: u64) -> Self {
        let mut rng = Rng::new(seed);
        let rng = &mut rng;
        // A bit for each number.
        let wrong = if rng.once_in(4) { rng.between(1, 7) } else { 0 };
        let mut number = |bit: u32, range: RangeInclusive<u32>| {
            if wrong & bit == 0 {
                inside(rng, range)
            } else {
                outside(rng, range)
            }
        };
        let (seed, classes, terms) = (number(1, SEEDS), number(2, CLASSES), number(4, TERMS));
        let enough = match rehearse(seed, classes, terms, &mut [0; ROOM]) {
            Filling::Written(words) => words as usize,
            Filling::Refused(_) => ROOM,
        };
        let (out_len, out_seed) = lent(rng, enough);
        Self { seed, classes, terms, out_len, out_seed }
    }

    /// The output as it is lent.
    #[must_use]
    pub fn out(&self) -> Vec<u32> {
        filled(self.out_len, self.out_seed)
    }

    /// A load with room for all that is written.
    #[must_use]
    pub fn of(seed: u32, classes: u32, terms: u32) -> Self {
        Self { seed, classes, terms, out_len: ROOM, out_seed: 1 }
    }
}

/// A number of the range: at an end of it, among its first, or any.
fn inside(rng: &mut Rng, range: RangeInclusive<u32>) -> u32 {
    let (least, most) = range.into_inner();
    match rng.below(8) {
        0 => least,
        1 => most,
        2..5 => rng.between(least, least + 9),
        _ => rng.between(least, most),
    }
}

/// A number below the range, right behind it, or anywhere behind it.
fn outside(rng: &mut Rng, range: RangeInclusive<u32>) -> u32 {
    let (least, most) = range.into_inner();
    match rng.below(4) {
        0 => rng.below(least),
        1 => most + 1,
        2 => u32::MAX,
        _ => rng.between(most + 1, u32::MAX),
    }
}

impl fmt::Display for Load {
    fn fmt(&self, f: &mut fmt::Formatter<'_>) -> fmt::Result {
        writeln!(f, "seed {}, classes {}, terms {}", self.seed, self.classes, self.terms)?;
        writeln!(f, "out: {} words, seed {}", self.out_len, self.out_seed)
    }
}
