//! The operations of the proved library, for Rust.
//!
//! A vocabulary, a policy and a model are slices of words, laid out as `docs/SPECIFICATION.md` says. A slice may hold anything: an
//! operation takes any words and ends, with an answer that is right or with a [`Refusal`] that says what is wrong.
//!
//! ```
//! use gimbuka::{compliance, model_check, Checked, Refusal, Verdict, WORK_SIZE};
//!
//! # fn main() -> Result<(), Refusal> {
//! // One class, no role, one feature, and nothing stated of them.
//! let v = [1, 0, 1, 0];
//! // A buyer keeps data for 1 to 60 days, a subscriber consents to 0 to 30: each is one term, of one conjunct on feature 1.
//! let p = [1, 0, 0, 0, 0, 0, 5, 0, 0, 0, 2, 0, 4, 1, 1, 60, 0, 0];
//! let q = [1, 0, 0, 0, 0, 0, 5, 0, 0, 0, 2, 0, 4, 1, 0, 30, 0, 0];
//! let mut work = vec![0; WORK_SIZE];
//! let mut out = vec![0; 1_000];
//!
//! let verdict = compliance(&v, &p, &q, &mut work, &mut out)?;
//! assert_eq!(verdict, Verdict::Outside { term: 1, combination: 4, words: 10 });
//! // The countermodel has one individual, whose feature 1 has the value 59.
//! let countermodel = &out[..10];
//! assert_eq!(countermodel, [1, 1, 0, 0, 0, 3, 1, 1, 59, 0]);
//! assert_eq!(model_check(&v, &p, &q, countermodel, &mut work)?, Checked::Yes);
//!
//! // A consent to 0 to 90 days has room for the buyer.
//! let q = [1, 0, 0, 0, 0, 0, 5, 0, 0, 0, 2, 0, 4, 1, 0, 90, 0, 0];
//! assert_eq!(compliance(&v, &p, &q, &mut work, &mut out)?, Verdict::Compliant);
//!
//! // The second policy is cut short.
//! let refusal = compliance(&v, &p, &q[..17], &mut work, &mut out).unwrap_err();
//! assert_eq!(refusal.number(), 14);
//! println!("refused {}: {refusal}", refusal.number());
//! # Ok(())
//! # }
//! ```
//!
//! # What is lent
//!
//! A work slice has at least [`WORK_SIZE`] words. After an answer its first [`WORK_SIZE`] words are 0, and after the refusals 22, 43
//! and 23; any other refusal writes nothing. The output takes the countermodel: as many words as the answer says, and no others. One of
//! [`MOST_MODEL_WORDS`] has room for each.
//!
//! A call takes nothing of the heap. A thread with 128 KB of stack has room for each (`crates/exports/gimbuka.h` says more).
//!
//! # What is linked
//!
//! `scripts/build exports` proves the library and writes it to `target/staticlib`, where this package finds it. The environment variable
//! `GIMBUKA_LIBRARY` names another folder. The library is proved; this package, which calls it, is not.

#![expect(unsafe_code, reason = "the static library's functions are called")]

mod c;
mod refusal;

pub use refusal::Refusal;

/// The least words of a work slice.
pub const WORK_SIZE: usize = 16_384;

/// The most bytes of an OWL text that is read.
pub const MOST_OWL_BYTES: usize = 65_536;

/// The most words of a vocabulary. None that [`read_owl`] writes has more.
pub const MOST_VOCABULARY_WORDS: usize = 4_100;

/// The most words of a policy. None that [`spell`] writes has more.
pub const MOST_POLICY_WORDS: usize = 3_078;

/// The most words of a model. No countermodel has more.
pub const MOST_MODEL_WORDS: usize = 700_005;

/// The most words that [`rehearse`] writes.
pub const MOST_LOAD_WORDS: usize = 4_643;

/// The answer of [`possible`].
#[derive(Clone, Copy, Debug, PartialEq, Eq, Hash)]
pub enum Possibility {
    /// Some interpretation has an individual in the policy.
    Possible {
        /// The first term that is possible, counted from 1.
        term: u32,
    },
    /// No term is possible.
    Impossible,
}

/// The answer of [`compliance`].
#[derive(Clone, Copy, Debug, PartialEq, Eq, Hash)]
pub enum Verdict {
    /// The first policy lies inside the second.
    Compliant,
    /// It does not, and the output begins with a countermodel.
    Outside {
        /// The first term to fail, counted from 1.
        term: u32,
        /// Its first combination to fail, counted from 1.
        combination: u32,
        /// How many words the countermodel has.
        words: usize,
    },
}

/// The answer of [`equality`].
#[derive(Clone, Copy, Debug, PartialEq, Eq, Hash)]
pub enum Comparison {
    /// No interpretation tells the policies apart.
    Equal,
    /// One does: the output begins with a countermodel.
    Differs {
        /// The policy that is not inside the other.
        side: Side,
        /// Its first term to fail, counted from 1.
        term: u32,
        /// The first combination of that to fail, counted from 1.
        combination: u32,
        /// How many words the countermodel has.
        words: usize,
    },
}

/// Which policy has an individual that the other has not.
#[derive(Clone, Copy, Debug, PartialEq, Eq, Hash)]
pub enum Side {
    /// Individual 1 of the countermodel is in the first policy and outside the second.
    First = 1,
    /// It is in the second and outside the first. [`model_check`] says yes with the policies changed over.
    Second = 2,
}

/// The answer of [`model_check`].
#[derive(Clone, Copy, Debug, PartialEq, Eq, Hash)]
pub enum Checked {
    /// The model satisfies the vocabulary, and its individual 1 is in the first policy and outside the second.
    Yes,
    /// It does not, or the individual is not.
    No,
}

/// A reader's answer, from a call that is given where the refusal's number goes.
fn read(call: impl FnOnce(&mut u32) -> u32) -> Result<(), Refusal> {
    let mut number = 0;
    match call(&mut number) {
        0 => Err(Refusal::of(number)),
        _ => Ok(()),
    }
}

/// The answer of an operation that fills an output, from a call that is given where the refusal's number and the count of words go.
fn fill(call: impl FnOnce(&mut u32, &mut usize) -> u32) -> Result<usize, Refusal> {
    let (mut number, mut words) = (0, 0);
    match call(&mut number, &mut words) {
        0 => Err(Refusal::of(number)),
        _ => Ok(words),
    }
}

/// Reads a vocabulary from OWL 2 functional-style text, and writes its words to the output: `Ok` with how many. In OWL a role or a
/// feature is many-valued unless it is stated functional: behind the axioms there is a record for each that is not.
///
/// ```
/// let text = b"Ontology( SubClassOf(:HeartRate :Data) Declaration(Class(:Data)) Declaration(Class(:HeartRate))
///     Declaration(ObjectProperty(:uses)) )";
/// let mut out = [0; 12];
/// assert_eq!(gimbuka::read_owl(text, &mut out), Ok(12));
/// // Two classes and a role, and two records: class 2 is below class 1, and role 1 is many-valued.
/// assert_eq!(out, [2, 1, 0, 1, 1, 2, 1, 2, 6, 1, 0, 0]);
/// ```
///
/// # Errors
///
/// 41 of the text, 42 of its names, 1 where it needs over 1,024 records, then 23. Nothing is written then.
pub fn read_owl(text: &[u8], out: &mut [u32]) -> Result<usize, Refusal> {
    // SAFETY: the exclusive slice and the numbers overlap nothing.
    fill(|number, words| unsafe {
        c::gimbuka_read_owl(text.as_ptr(), text.len(), out.as_mut_ptr(), out.len(), number, words)
    })
}

/// Reads a vocabulary: `Ok` where the words are one.
///
/// # Errors
///
/// Refusals 1 to 3, then 44.
pub fn read_vocabulary(v: &[u32]) -> Result<(), Refusal> {
    // SAFETY: the pointer and length are a slice's, and `number` overlaps nothing.
    read(|number| unsafe { c::gimbuka_read_vocabulary(v.as_ptr(), v.len(), number) })
}

/// Reads a vocabulary, then a policy over it: `Ok` where the words are both.
///
/// # Errors
///
/// Refusals 1 to 3 and 44 of the vocabulary, then 4 to 8.
pub fn read_policy(v: &[u32], p: &[u32]) -> Result<(), Refusal> {
    // SAFETY: as in `read_vocabulary`.
    read(|number| unsafe {
        c::gimbuka_read_policy(v.as_ptr(), v.len(), p.as_ptr(), p.len(), number)
    })
}

/// Does as [`read_policy`], with a second policy's numbers.
///
/// # Errors
///
/// Refusals 1 to 3 and 44 of the vocabulary, then 14 to 18.
pub fn read_second_policy(v: &[u32], q: &[u32]) -> Result<(), Refusal> {
    // SAFETY: as in `read_vocabulary`.
    read(|number| unsafe {
        c::gimbuka_read_second_policy(v.as_ptr(), v.len(), q.as_ptr(), q.len(), number)
    })
}

/// Whether an individual can be in the policy `p`.
///
/// # Errors
///
/// Those of [`read_policy`], then 21.
pub fn possible(v: &[u32], p: &[u32], work: &mut [u32]) -> Result<Possibility, Refusal> {
    let mut number = 0;
    // SAFETY: the exclusive slices and `number` overlap nothing.
    let kind = unsafe {
        c::gimbuka_possible(
            v.as_ptr(),
            v.len(),
            p.as_ptr(),
            p.len(),
            work.as_mut_ptr(),
            work.len(),
            &mut number,
        )
    };
    match kind {
        0 => Err(Refusal::of(number)),
        1 => Ok(Possibility::Possible { term: number }),
        _ => Ok(Possibility::Impossible),
    }
}

/// Whether the policy `p` lies inside the policy `q`: in every interpretation that satisfies the vocabulary, each individual of `p`
/// is in `q`.
///
/// # Errors
///
/// Those of [`read_policy`] for `p` and of [`read_second_policy`] for `q`, then 21, 22, and 23 where the answer is not "compliant".
/// 22 is looked for only where some possible term of `p` is inside no single term of `q`, its intervals whole.
pub fn compliance(
    v: &[u32],
    p: &[u32],
    q: &[u32],
    work: &mut [u32],
    out: &mut [u32],
) -> Result<Verdict, Refusal> {
    let (mut number, mut combination, mut words) = (0, 0, 0);
    // SAFETY: the exclusive slices and the numbers overlap nothing.
    let kind = unsafe {
        c::gimbuka_compliance(
            v.as_ptr(),
            v.len(),
            p.as_ptr(),
            p.len(),
            q.as_ptr(),
            q.len(),
            work.as_mut_ptr(),
            work.len(),
            out.as_mut_ptr(),
            out.len(),
            &mut number,
            &mut combination,
            &mut words,
        )
    };
    match kind {
        0 => Err(Refusal::of(number)),
        1 => Ok(Verdict::Compliant),
        _ => Ok(Verdict::Outside { term: number, combination, words }),
    }
}

/// Whether each of the policies `p` and `q` lies inside the other. A difference of `p` is reported before one of `q`.
///
/// # Errors
///
/// Those of [`compliance`]; 22 looks at both directions, each by itself, and 23 comes where the answer is not "equal".
pub fn equality(
    v: &[u32],
    p: &[u32],
    q: &[u32],
    work: &mut [u32],
    out: &mut [u32],
) -> Result<Comparison, Refusal> {
    let (mut number, mut term, mut combination, mut words) = (0, 0, 0, 0);
    // SAFETY: the exclusive slices and the numbers overlap nothing.
    let kind = unsafe {
        c::gimbuka_equality(
            v.as_ptr(),
            v.len(),
            p.as_ptr(),
            p.len(),
            q.as_ptr(),
            q.len(),
            work.as_mut_ptr(),
            work.len(),
            out.as_mut_ptr(),
            out.len(),
            &mut number,
            &mut term,
            &mut combination,
            &mut words,
        )
    };
    let side = if number == 1 { Side::First } else { Side::Second };
    match kind {
        0 => Err(Refusal::of(number)),
        1 => Ok(Comparison::Equal),
        _ => Ok(Comparison::Differs { side, term, combination, words }),
    }
}

/// Whether the model `m` is a countermodel to "`p` lies inside `q`".
///
/// # Errors
///
/// Those of [`read_policy`] for `p` and of [`read_second_policy`] for `q`, then 31 to 33, then 21.
pub fn model_check(
    v: &[u32],
    p: &[u32],
    q: &[u32],
    m: &[u32],
    work: &mut [u32],
) -> Result<Checked, Refusal> {
    let mut number = 0;
    // SAFETY: the exclusive slice and `number` overlap nothing.
    let kind = unsafe {
        c::gimbuka_model_check(
            v.as_ptr(),
            v.len(),
            p.as_ptr(),
            p.len(),
            q.as_ptr(),
            q.len(),
            m.as_ptr(),
            m.len(),
            work.as_mut_ptr(),
            work.len(),
            &mut number,
        )
    };
    match kind {
        0 => Err(Refusal::of(number)),
        1 => Ok(Checked::Yes),
        _ => Ok(Checked::No),
    }
}

/// Spells a policy: writes its possible terms in normal form, in one order and without repeats. The answer is the number of words
/// written.
///
/// Two policies with one spelling are equal, so that one filed copy serves both. The reverse does not hold: a span from 0 to 9, and one
/// from 0 to 4 or from 5 to 9, are equal and have two spellings; [`equality`] tells.
///
/// ```
/// use gimbuka::{spell, Refusal, WORK_SIZE};
///
/// # fn main() -> Result<(), Refusal> {
/// // Two classes, no role, no feature, and nothing stated of them.
/// let v = [2, 0, 0, 0];
/// // One term: class 2, class 1 and class 2 again.
/// let p = [1, 0, 0, 0, 0, 0, 5, 0, 0, 0, 2, 0, 1, 2, 0, 0, 0, 3, 1, 1, 0, 0, 0, 4, 1, 2, 0, 0, 0, 0];
/// let mut work = vec![0; WORK_SIZE];
/// let mut out = [0; 24];
/// assert_eq!(spell(&v, &p, &mut work, &mut out)?, 24);
/// // Class 1, then class 2.
/// assert_eq!(out, [1, 0, 0, 0, 0, 0, 5, 0, 0, 0, 2, 0, 1, 1, 0, 0, 0, 3, 1, 2, 0, 0, 0, 0]);
/// # Ok(())
/// # }
/// ```
///
/// # Errors
///
/// Refusals 1 to 8, 21, 43 where the spelling has over 512 records or one at depth 17, and 23 where it does not fit the output.
pub fn spell(v: &[u32], p: &[u32], work: &mut [u32], out: &mut [u32]) -> Result<usize, Refusal> {
    // SAFETY: each pointer and length are a slice's; the exclusive slices and the numbers overlap nothing.
    fill(|number, words| unsafe {
        c::gimbuka_spell(
            v.as_ptr(),
            v.len(),
            p.as_ptr(),
            p.len(),
            work.as_mut_ptr(),
            work.len(),
            out.as_mut_ptr(),
            out.len(),
            number,
            words,
        )
    })
}

/// Makes a load for rehearsals from a seed: a vocabulary of so many classes, and two policies of so many terms each. The answer is the
/// number of words written: 3 + 4 (classes + 1) + 12 (3 terms + 1).
///
/// The same three numbers make the same load everywhere. Its three parts stand one after another, each behind its word count, as the
/// program `comply` reads them. Each class but the first is below one before it; a term is a class and an interval on the one feature,
/// which is functional. Every load is read, and [`compliance`] decides it.
///
/// ```
/// let mut out = [0; 63];
/// assert_eq!(gimbuka::rehearse(1, 2, 1, &mut out), Ok(63));
/// // 12 words of a vocabulary: class 2 is below class 1, and feature 1 is functional.
/// assert_eq!(out[..13], [12, 2, 0, 1, 1, 1, 2, 1, 2, 4, 1, 0, 0]);
/// // 24 words of a policy, class 1 with 86 to 123; and 24 of another, class 2 with 83 to 144.
/// let term = |class, lo, hi| [24, 1, 0, 0, 0, 0, 0, 5, 0, 0, 0, 2, 0, 1, class, 0, 0, 0, 3, 4, 1, lo, hi, 0, 0];
/// assert_eq!(out[13..38], term(1, 86, 123));
/// assert_eq!(out[38..], term(2, 83, 144));
/// ```
///
/// # Errors
///
/// 45 where the seed is not from 1 to 2,147,483,646, the classes are not from 1 to 256 or the terms are not from 1 to 100, then 23.
/// Nothing is written then.
pub fn rehearse(seed: u32, classes: u32, terms: u32, out: &mut [u32]) -> Result<usize, Refusal> {
    // SAFETY: the exclusive slice and the numbers overlap nothing.
    fill(|number, words| unsafe {
        c::gimbuka_rehearse(seed, classes, terms, out.as_mut_ptr(), out.len(), number, words)
    })
}
