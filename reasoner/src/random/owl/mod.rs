//! Seeded OWL texts for differential tests of reading a vocabulary from one.
//!
//! [`Text::generate`] makes one text of a [`Family`]; [`Text::any`] picks the family by the seed;
//! [`directed::texts`] lists those at every limit and for every reading of SPECIFICATION 3.4, with
//! their answers; [`slow::texts`] lists those that take longest; [`shrink::shrink`] makes a text
//! shorter while it still differs. A text prints itself escaped.

mod damage;
pub mod directed;
pub mod shrink;
pub mod slow;
pub mod source;

use super::{filled, lent, Rng};
use crate::{read_owl, Filling};
use source::{around, lay_out, Layout, Source};
use std::fmt;

/// The most bytes that are read.
const MOST_BYTES: usize = 65_536;
/// Words with room for every vocabulary.
const ROOM: usize = 4_100;

/// What reading a vocabulary from OWL text is given.
#[derive(Clone, Debug, PartialEq, Eq)]
pub struct Text {
    /// The text.
    pub bytes: Vec<u8>,
    /// The length of the output.
    pub out_len: usize,
    /// What the output holds before: random words from this seed, or 0 throughout if it is 0.
    pub out_seed: u64,
}

/// A kind of text.
#[derive(Clone, Copy, Debug, PartialEq, Eq)]
pub enum Family {
    /// As it should be; one in some hundreds has as much as there may be, or a little more.
    Whole,
    /// A form dropped, doubled or moved, or a name exchanged: mostly 42.
    Forms,
    /// A token dropped, doubled, exchanged, respelled or put in.
    Tokens,
    /// A byte changed, dropped, doubled or put in.
    Bytes,
    /// Forms, tokens and bytes, each perhaps: 41 beside 42.
    Mixed,
    /// Tokens in any order.
    RandomTokens,
    /// Bytes of any kind.
    RandomBytes,
}

impl Family {
    /// Every family.
    pub const ALL: [Family; 7] = [
        Family::Whole,
        Family::Forms,
        Family::Tokens,
        Family::Bytes,
        Family::Mixed,
        Family::RandomTokens,
        Family::RandomBytes,
    ];
}

impl Text {
    /// The text of this family and seed.
    #[must_use]
    pub fn generate(family: Family, seed: u64) -> Self {
        let mut rng = Rng::new(seed);
        let rng = &mut rng;
        let [forms, tokens, bytes] = match family {
            Family::Whole => [0; 3],
            Family::Forms => [rng.between(1, 2), 0, 0],
            Family::Tokens => [0, rng.between(1, 2), 0],
            Family::Bytes => [0, 0, rng.between(1, 2)],
            Family::Mixed => [(); 3].map(|()| rng.below(2)),
            Family::RandomTokens => return Self::lend(rng, damage::random_tokens),
            Family::RandomBytes => return Self::lend(rng, damage::random_bytes),
        };
        Self::lend(rng, |rng| damaged(rng, forms, tokens, bytes))
    }

    /// A text of any family.
    #[must_use]
    pub fn any(seed: u64) -> Self {
        const MIX: [Family; 12] = [
            Family::Whole,
            Family::Whole,
            Family::Whole,
            Family::Forms,
            Family::Forms,
            Family::Tokens,
            Family::Tokens,
            Family::Bytes,
            Family::Bytes,
            Family::Mixed,
            Family::RandomTokens,
            Family::RandomBytes,
        ];
        Self::generate(MIX[(seed % 12) as usize], seed)
    }

    /// The output as it is lent.
    #[must_use]
    pub fn out(&self) -> Vec<u32> {
        filled(self.out_len, self.out_seed)
    }

    /// A text with room for all that it may say.
    #[must_use]
    pub fn of(bytes: impl Into<Vec<u8>>) -> Self {
        Self { bytes: bytes.into(), out_len: ROOM, out_seed: 1 }
    }

    /// A text with an output that need not be long enough.
    fn lend(rng: &mut Rng, make: impl FnOnce(&mut Rng) -> Vec<u8>) -> Self {
        let bytes = make(rng);
        let enough = match read_owl(&bytes, &mut [0; ROOM]) {
            Filling::Written(words) => words as usize,
            Filling::Refused(_) => 4,
        };
        let (out_len, out_seed) = lent(rng, enough);
        Self { bytes, out_len, out_seed }
    }
}

/// A text that had so many changes of its forms, its tokens and its bytes.
fn damaged(rng: &mut Rng, forms: u32, tokens: u32, bytes: u32) -> Vec<u8> {
    let source = Source::random(rng);
    let mut all = source.forms_in_any_order(rng);
    for _ in 0..forms {
        damage::form(rng, &mut all);
    }
    let mut all = around(all);
    for _ in 0..tokens {
        damage::token(rng, &mut all);
    }
    let layout = *rng.pick(&Layout::ALL);
    let mut all = lay_out(rng, layout, &all);
    for _ in 0..bytes {
        damage::byte(rng, &mut all);
    }
    all
}

impl fmt::Display for Text {
    /// The text as a literal of bytes.
    fn fmt(&self, f: &mut fmt::Formatter<'_>) -> fmt::Result {
        writeln!(f, "text: {} bytes\n  b\"{}\"", self.bytes.len(), self.bytes.escape_ascii())?;
        writeln!(f, "out: {} words, seed {}", self.out_len, self.out_seed)
    }
}
