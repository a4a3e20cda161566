//! An independent reasoner for policy containment over a consent vocabulary (`docs/SPECIFICATION.md`).
//!
//! The operations read slices of 32-bit words, or a text, and answer exactly as it says, for every
//! input. The work slice is only ever zeroed; the reasoning uses trees on the heap.

#![forbid(unsafe_code)]

pub mod classes;
pub mod countermodel;
pub mod cover;
pub mod encode;
pub mod model;
pub mod normal;
pub mod owl;
pub mod policy;
pub mod program;
pub mod random;
pub mod rehearsal;
pub mod spell;
pub mod split;
pub mod text;
pub mod vocabulary;
pub mod whole;

pub use owl::read_owl;
pub use program::{bytes_of_parts, bytes_of_words, parts_of_bytes, program};
pub use rehearsal::rehearse;
pub use spell::spell;

use countermodel::Countermodel;
use model::Interpretation;
use normal::Individual;
use policy::{Place, Policy, Term};
use split::{Ends, Split};
use vocabulary::{Rules, Vocabulary};

/// SPECIFICATION 9.9: a work slice is full from 16,384 words on.
pub const FULL_WORK: usize = 16_384;

/// The answer of a reader.
#[derive(Clone, Copy, Debug, PartialEq, Eq, Hash)]
pub enum Reading {
    /// The words are a legal table.
    Accepted,
    /// The number of the refusal.
    Refused(u32),
}

/// The answer of an operation that fills an output.
#[derive(Clone, Copy, Debug, PartialEq, Eq, Hash)]
pub enum Filling {
    /// The number of words written.
    Written(u32),
    /// The number of the refusal.
    Refused(u32),
}

/// The answer of [`possible`].
#[derive(Clone, Copy, Debug, PartialEq, Eq, Hash)]
pub enum Possibility {
    /// The first term whose normal form is not impossible, counted from 1.
    Possible(u32),
    /// Every term is impossible.
    Impossible,
    /// The number of the refusal.
    Refused(u32),
}

/// The answer of [`compliance`].
#[derive(Clone, Copy, Debug, PartialEq, Eq, Hash)]
pub enum Verdict {
    /// The first policy is inside the second.
    Compliant,
    /// Term s, combination q and the number of words written.
    Outside(u32, u32, u32),
    /// The number of the refusal.
    Refused(u32),
}

/// The answer of [`equality`].
#[derive(Clone, Copy, Debug, PartialEq, Eq, Hash)]
pub enum Comparison {
    /// Each policy is inside the other.
    Equal,
    /// Side, term s, combination q and the number of words written.
    Differs(u32, u32, u32, u32),
    /// The number of the refusal.
    Refused(u32),
}

/// The answer of [`model_check`].
#[derive(Clone, Copy, Debug, PartialEq, Eq, Hash)]
pub enum Checked {
    /// The interpretation satisfies the vocabulary, and individual 1 is in the first policy and
    /// not in the second.
    Yes,
    /// It does not.
    No,
    /// The number of the refusal.
    Refused(u32),
}

/// Read vocabulary: refusals 1 to 3, then 44.
#[must_use]
pub fn read_vocabulary(v: &[u32]) -> Reading {
    accepted(Vocabulary::read(v))
}

/// Read policy, vocabulary first: refusals 1 to 3 and 44, then 4 to 8.
#[must_use]
pub fn read_policy(v: &[u32], p: &[u32]) -> Reading {
    accepted(Vocabulary::read(v).and_then(|vocabulary| Policy::read(&vocabulary, p, Place::First)))
}

/// Read a second policy, vocabulary first: refusals 1 to 3 and 44, then 14 to 18.
#[must_use]
pub fn read_second_policy(v: &[u32], q: &[u32]) -> Reading {
    accepted(Vocabulary::read(v).and_then(|vocabulary| Policy::read(&vocabulary, q, Place::Second)))
}

fn accepted<T>(read: Result<T, u32>) -> Reading {
    read.map_or_else(Reading::Refused, |_| Reading::Accepted)
}

/// SPECIFICATION 9.5.
#[must_use]
pub fn possible(v: &[u32], p: &[u32], work: &mut [u32]) -> Possibility {
    first_possible(v, p, work).unwrap_or_else(Possibility::Refused)
}

fn first_possible(v: &[u32], p: &[u32], work: &mut [u32]) -> Result<Possibility, u32> {
    let vocabulary = Vocabulary::read(v)?;
    let policy = Policy::read(&vocabulary, p, Place::First)?;
    clear(work)?;
    let rules = Rules::of(&vocabulary);
    let first = possible_terms(&rules, &policy).next();
    Ok(first.map_or(Possibility::Impossible, |(s, _)| Possibility::Possible(s)))
}

/// Compliance: vocabulary, first policy, second, 21, 22 if the short way fails, and 23 if not
/// compliant.
#[must_use]
pub fn compliance(v: &[u32], p: &[u32], q: &[u32], work: &mut [u32], out: &mut [u32]) -> Verdict {
    decide(v, p, q, work, out).unwrap_or_else(Verdict::Refused)
}

fn decide(
    v: &[u32],
    p: &[u32],
    q: &[u32],
    work: &mut [u32],
    out: &mut [u32],
) -> Result<Verdict, u32> {
    let Question { vocabulary, first, second } = Question::read(v, p, q)?;
    clear(work)?;
    let direction = Direction::of(&vocabulary, &Rules::of(&vocabulary), &first, &second)?;
    let Some(difference) = direction.first_difference() else {
        return Ok(Verdict::Compliant);
    };
    let words = difference.report(out)?;
    Ok(Verdict::Outside(difference.s, difference.q, words))
}

/// Equality: the order of compliance; 22 looks at both directions before the first is decided.
#[must_use]
pub fn equality(v: &[u32], p: &[u32], q: &[u32], work: &mut [u32], out: &mut [u32]) -> Comparison {
    compare(v, p, q, work, out).unwrap_or_else(Comparison::Refused)
}

fn compare(
    v: &[u32],
    p: &[u32],
    q: &[u32],
    work: &mut [u32],
    out: &mut [u32],
) -> Result<Comparison, u32> {
    let Question { vocabulary, first, second } = Question::read(v, p, q)?;
    clear(work)?;
    let rules = Rules::of(&vocabulary);
    let forth = Direction::of(&vocabulary, &rules, &first, &second)?;
    let back = Direction::of(&vocabulary, &rules, &second, &first)?;
    for (side, direction) in [(1, forth), (2, back)] {
        if let Some(difference) = direction.first_difference() {
            let words = difference.report(out)?;
            return Ok(Comparison::Differs(side, difference.s, difference.q, words));
        }
    }
    Ok(Comparison::Equal)
}

/// Model check: vocabulary, policies, 31 to 33, then 21, then yes or no.
#[must_use]
pub fn model_check(v: &[u32], p: &[u32], q: &[u32], m: &[u32], work: &mut [u32]) -> Checked {
    check(v, p, q, m, work).unwrap_or_else(Checked::Refused)
}

fn check(v: &[u32], p: &[u32], q: &[u32], m: &[u32], work: &mut [u32]) -> Result<Checked, u32> {
    let Question { vocabulary, first, second } = Question::read(v, p, q)?;
    let model = Interpretation::read(&vocabulary, m)?;
    clear(work)?;
    let yes = model.satisfies(&vocabulary) && model.is_in(1, &first) && !model.is_in(1, &second);
    Ok(if yes { Checked::Yes } else { Checked::No })
}

/// Has a possible term of the first policy over 65,536 combinations? Then only the short way can say
/// "compliant". Tables that are refused have none.
#[must_use]
pub fn has_too_many(v: &[u32], p: &[u32], q: &[u32]) -> bool {
    let Ok(Question { vocabulary, first, second }) = Question::read(v, p, q) else {
        return false;
    };
    let rules = Rules::of(&vocabulary);
    let ends = Ends::of(&second, vocabulary.features);
    let mut terms = possible_terms(&rules, &first);
    terms.any(|(_, root)| ends.are_too_many(&root))
}

/// 21, or the first 16,384 work words are made 0 and later ones left.
fn clear(work: &mut [u32]) -> Result<(), u32> {
    work.get_mut(..FULL_WORK).ok_or(21u32)?.fill(0);
    Ok(())
}

/// 23, or the words are at the front of the output and its later ones left.
fn fill(words: &[u32], out: &mut [u32]) -> Result<Filling, u32> {
    out.get_mut(..words.len()).ok_or(23u32)?.copy_from_slice(words);
    Ok(Filling::Written(words.len() as u32))
}

/// A vocabulary and two policies, read in the operations' order.
struct Question {
    vocabulary: Vocabulary,
    first: Policy,
    second: Policy,
}

impl Question {
    fn read(v: &[u32], p: &[u32], q: &[u32]) -> Result<Self, u32> {
        let vocabulary = Vocabulary::read(v)?;
        let first = Policy::read(&vocabulary, p, Place::First)?;
        let second = Policy::read(&vocabulary, q, Place::Second)?;
        Ok(Self { vocabulary, first, second })
    }
}

/// The possible terms of a policy, each with its number s, in normal form.
fn possible_terms<'a>(
    rules: &'a Rules,
    policy: &'a Policy,
) -> impl Iterator<Item = (u32, Individual)> + 'a {
    let normalised = |(term, s): (&'a Term, u32)| Some((s, normal::normalise(rules, term)?));
    policy.terms.iter().zip(1..).filter_map(normalised)
}

/// One direction of a comparison: the left policy's possible terms that do not pass whole, each with
/// its number s, split against the right policy's ends. Where there is none the short way succeeds.
struct Direction<'a> {
    open: Vec<(u32, Split)>,
    right: &'a Policy,
}

impl<'a> Direction<'a> {
    /// Normalises, and splits where the short way fails; 22 is then looked for "in those that pass
    /// whole too".
    fn of(
        vocabulary: &Vocabulary,
        rules: &Rules,
        left: &Policy,
        right: &'a Policy,
    ) -> Result<Self, u32> {
        let (whole, open): (Vec<_>, Vec<_>) = possible_terms(rules, left)
            .partition(|(_, root)| whole::passes_whole(root, &right.terms));
        if open.is_empty() {
            return Ok(Self { open: Vec::new(), right });
        }
        let ends = Ends::of(right, vocabulary.features);
        let mut all = whole.iter().chain(&open);
        if all.any(|(_, root)| ends.are_too_many(root)) {
            return Err(22);
        }
        let open = open.into_iter().map(|(s, root)| (s, Split::of(root, &ends))).collect();
        Ok(Self { open, right })
    }

    /// The first term and combination to fail, "in that order".
    fn first_difference(&self) -> Option<Difference<'_>> {
        self.open.iter().find_map(|(s, split)| {
            let uncovered = cover::first_uncovered(split, &self.right.terms)?;
            Some(Difference { split, s: *s, q: uncovered.combination, choice: uncovered.choice })
        })
    }
}

/// A combination of the left policy that is outside the right one.
struct Difference<'a> {
    split: &'a Split,
    s: u32,
    q: u32,
    choice: Vec<usize>,
}

impl Difference<'_> {
    /// Writes the countermodel, or 23.
    fn report(&self, out: &mut [u32]) -> Result<u32, u32> {
        let model = Countermodel::of(self.split, &self.choice);
        model.write(out).map(|words| words as u32).ok_or(23)
    }
}
