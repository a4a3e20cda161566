//! A vocabulary: its words, which are the proved operation's, and its names with a quick look-up.

use crate::forms::VALUES;
use crate::left_out::LeftOut;
use crate::mistake::{Mistake, Place};
use crate::names::{Index, Names, Sort};
use crate::owl::{self, Found};
use crate::policy::Numbers;
use crate::print;
use crate::resolve::{resolve, Iris, Resolved};
use crate::scan::{Of, Scanned};
use gimbuka::{read_owl, MOST_VOCABULARY_WORDS};
use std::mem;

/// A vocabulary with names. The words of one that is read from a text are those that the proved
/// operation `read_owl` writes.
#[derive(Clone, Debug)]
pub struct Vocabulary {
    words: Vec<u32>,
    names: Names,
    indexes: [Index; 3],
    /// For a name that is spelled otherwise than where it is declared.
    iris: Iris,
    left_out: LeftOut,
}

impl Vocabulary {
    /// Reads a vocabulary as people write it or as an OWL editor saves it. What states nothing is left
    /// out. A text that the proved operation reads is handed to it as it is.
    ///
    /// # Errors
    ///
    /// The first mistake of the text, of 41 before 42 before 1. A policy in it is one.
    pub fn parse(text: &[u8]) -> Result<Self, Mistake> {
        Self::read(text, false).map(|(vocabulary, _)| vocabulary)
    }

    /// Hands these bytes to the proved operation.
    ///
    /// # Errors
    ///
    /// The operation's refusal, with the place and the reason of it.
    pub fn exact(text: &[u8]) -> Result<Self, Mistake> {
        let words = proved(text);
        let read = placed(text, owl::read_exact(text)).and_then(|found| resolve(text, found));
        match (words, read) {
            (Ok(words), Ok(read)) => Ok(Self::of(words, read)),
            // The operation has the last word.
            (Err(refused), Err(mistake)) if refused.refusal != mistake.refusal => Err(refused),
            (_, Err(mistake)) | (Err(mistake), _) => Err(mistake),
        }
    }

    /// Reads a vocabulary, and where the policies begin that stand beside it, if there may be some.
    pub(crate) fn read(text: &[u8], takes_policies: bool) -> Result<(Self, Vec<usize>), Mistake> {
        if let Ok(exact) = Self::exact(text) {
            return Ok((exact, Vec::new()));
        }
        let mut found = placed(text, owl::read(text, takes_policies))?;
        let policies = mem::take(&mut found.policies);
        let read = resolve(text, found)?;
        let words = proved(print::owl(&read.names, &read.axioms).as_bytes())?;
        Ok((Self::of(words, read), policies))
    }

    fn of(words: Vec<u32>, read: Resolved) -> Self {
        let Resolved { names, iris, left_out, .. } = read;
        let indexes = Sort::ALL.map(|sort| Index::of(names.of(sort)));
        Self { words, names, indexes, iris, left_out }
    }

    /// A vocabulary of words, whose names are :C1, :r1 and :f1. The words may be any: let the proved
    /// library accept them first.
    #[must_use]
    pub fn of_words(words: Vec<u32>) -> Self {
        let count = |sort: Sort| {
            let count = words.get(sort as usize).map_or(0, |&count| count as usize);
            count.min(sort.most())
        };
        let names = Names::numbered(Sort::ALL.map(count));
        Self::of(words, Resolved { names, ..Resolved::default() })
    }

    /// The words of the table.
    #[must_use]
    pub fn words(&self) -> &[u32] {
        &self.words
    }

    /// The names.
    #[must_use]
    pub fn names(&self) -> &Names {
        &self.names
    }

    /// How many axioms the words state. A record that makes a name many-valued is none.
    #[must_use]
    pub fn axioms(&self) -> usize {
        let records = print::records(&self.words);
        records.iter().filter(|&&[kind, ..]| print::is_axiom(kind)).count()
    }

    /// The names that may have several values, roles before features, in the order of their numbers.
    #[must_use]
    pub fn many_valued(&self) -> Vec<&str> {
        let records = print::records(&self.words);
        let of = |&(sort, _, many_valued): &(Sort, u32, u32)| {
            let names = self.names.of(sort).iter().zip(1..);
            let named = names.filter(|&(_, number)| records.contains(&[many_valued, number, 0]));
            named.map(|(name, _)| name.as_str()).collect::<Vec<_>>()
        };
        VALUES.iter().flat_map(of).collect()
    }

    /// What the text has beside what the words state.
    #[must_use]
    pub fn left_out(&self) -> LeftOut {
        self.left_out
    }
}

impl Numbers for Vocabulary {
    /// By its spelling, or else by its whole IRI.
    fn number(&self, sort: Sort, name: &[u8]) -> Option<u32> {
        let number = self.indexes[sort as usize].number(self.names.of(sort), name);
        number.or_else(|| self.iris.number(sort, name))
    }
}

/// The words that the proved operation writes for a text.
fn proved(text: &[u8]) -> Result<Vec<u32>, Mistake> {
    let mut words = vec![0; MOST_VOCABULARY_WORDS];
    let count = read_owl(text, &mut words)
        .map_err(|refusal| Place::START.refused(refusal.number(), refusal.to_string()))?;
    words.truncate(count);
    Ok(words)
}

/// What was found in a text, or where it departs from what is read.
fn placed<'a>(text: &[u8], found: Scanned<Found<'a>>) -> Result<Found<'a>, Mistake> {
    found.map_err(|fault| {
        let place = Place::START.behind(&text[..fault.at]);
        match fault.of {
            Of::Policy => place.mistake(fault.message),
            Of::Words | Of::Bytes => place.refused(41, fault.message),
        }
    })
}
