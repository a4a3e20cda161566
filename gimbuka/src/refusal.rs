//! The refusals, and what each one says.

use std::error::Error;
use std::fmt;

/// Why an operation declines. Its text says what is wrong; `docs/REFUSALS.md` says what to do.
///
/// ```
/// let refusal = gimbuka::read_vocabulary(&[1, 0, 0]).unwrap_err();
/// assert_eq!(refusal.number(), 1);
/// assert!(refusal.to_string().starts_with("the vocabulary's length"));
/// ```
#[derive(Clone, Copy, Debug, PartialEq, Eq, PartialOrd, Ord, Hash)]
pub struct Refusal {
    number: u32,
    sentence: &'static str,
}

/// A row for each number that an operation can refuse with, in rising order.
const TABLE: [(u32, &str); 24] = [
    (1, "the vocabulary's length is no multiple of 4, under 4 words or over 4,100"),
    (2, "in the vocabulary's header a count is out of range or the link is past the last record"),
    (3, "a record of the vocabulary's chain has an unknown kind, a name outside its series, a b that should be 0, or a link that does not rise"),
    (4, "the first policy's length is no multiple of 6, under 6 words or over 3,078"),
    (5, "the first policy's header links past the last record, or another of its words is not 0"),
    (6, "a record of the first policy has a wrong kind, name, zero or link, or stands where its kind may not"),
    (7, "a record of the first policy is reached twice"),
    (8, "a conjunct of the first policy is at depth 17"),
    (14, "the second policy's length is no multiple of 6, under 6 words or over 3,078"),
    (15, "the second policy's header links past the last record, or another of its words is not 0"),
    (16, "a record of the second policy has a wrong kind, name, zero or link, or stands where its kind may not"),
    (17, "a record of the second policy is reached twice"),
    (18, "a conjunct of the second policy is at depth 17"),
    (21, "the work slice has under 16,384 words"),
    (22, "a possible term has over 65,536 combinations of pieces"),
    (23, "what is to be written takes more words than the output has"),
    (31, "the model's length is no multiple of 5, under 5 words or over 700,005"),
    (32, "the model's header links past the last record, counts individuals outside 1 to 512, or has a word that should be 0"),
    (33, "a record of the model's chain has an unknown kind, a name outside its series, an individual outside the header's count, a word that should be 0, or a link that does not rise"),
    (41, "the text is over 65,536 bytes, or is not one Ontology( ) of the eight forms"),
    (42, "a name is declared twice in one sort or not in the sort that its place needs, or the names of a sort are too few or too many"),
    (43, "the policy's spelling has over 512 records, or one at depth 17"),
    (44, "a role or a feature of the vocabulary is stated both functional and many-valued"),
    (45, "the load's seed is not from 1 to 2,147,483,646, its classes are not from 1 to 256, or its terms are not from 1 to 100"),
];

impl Refusal {
    /// Every refusal, in the order of the numbers.
    pub fn all() -> impl Iterator<Item = Self> {
        TABLE.into_iter().map(|(number, sentence)| Self { number, sentence })
    }

    /// The refusal with a number that the library gave.
    pub(crate) fn of(number: u32) -> Self {
        let refusal = Self::all().find(|refusal| refusal.number == number);
        refusal
            .unwrap_or(Self { number, sentence: "a refusal that this version has no sentence for" })
    }

    /// Its number.
    #[must_use]
    pub fn number(self) -> u32 {
        self.number
    }
}

impl fmt::Display for Refusal {
    fn fmt(&self, f: &mut fmt::Formatter<'_>) -> fmt::Result {
        f.write_str(self.sentence)
    }
}

impl Error for Refusal {}
