//! Each refusal of each operation, their order, and what they leave in the slices.

mod common;

use common::{binary, deep, is_cleared, owl, policy, work, MODEL, NARROW, NONE, V, WIDE};
use gimbuka::{
    compliance, equality, model_check, possible, read_owl, read_policy, read_second_policy,
    read_vocabulary, rehearse, spell, Refusal, MOST_LOAD_WORDS, MOST_OWL_BYTES, WORK_SIZE,
};
use std::collections::BTreeSet;
use std::fmt::Debug;

/// The number of what must be a refusal.
fn number<T: Debug>(answer: Result<T, Refusal>) -> u32 {
    answer.expect_err("a refusal").number()
}

/// The words with one of them changed.
fn with(words: &[u32], at: usize, word: u32) -> Vec<u32> {
    let mut words = words.to_vec();
    words[at] = word;
    words
}

/// Texts that are refused whatever the output.
fn bad_texts() -> [(u32, String); 5] {
    let long = format!("{}{}", owl(1), " ".repeat(MOST_OWL_BYTES));
    [
        (41, long),
        (41, owl(1).replace(")", "")),
        (42, owl(1).replace("Class(:A)", "Class(:B)")),
        (1, owl(1_025)),
        // The role is not stated functional, and needs a record besides.
        (1, owl(1_024).replace("))", ")) Declaration(ObjectProperty(:r))")),
    ]
}

/// Vocabularies that are refused.
fn bad_vocabularies() -> [(u32, Vec<u32>); 6] {
    // Role 3, which is many-valued, is stated functional.
    let both_ways = with(&V, 21, 3);
    [
        (1, V[..39].to_vec()),
        (2, with(&V, 0, 257)),
        (3, with(&V, 4, 8)),
        (3, with(&V, 38, 1)),
        (3, with(&both_ways, 4, 8)),
        (44, both_ways),
    ]
}

/// Policies that are refused, with the numbers of a first one.
fn bad_policies() -> [(u32, Vec<u32>); 5] {
    let mut twice = policy(&[&[[1, 1, 0, 0]], &[[1, 2, 0, 0]]]);
    // Both terms have record 4 for their first conjunct.
    twice[10] = 4;
    [
        (4, WIDE[..23].to_vec()),
        (5, with(&WIDE, 0, 4)),
        (6, with(&WIDE, 12, 9)),
        (7, twice),
        (8, deep(17)),
    ]
}

/// Models that are refused.
fn bad_models() -> [(u32, Vec<u32>); 3] {
    [(31, MODEL[..14].to_vec()), (32, with(&MODEL, 1, 513)), (33, with(&MODEL, 5, 4))]
}

/// Slices of which an early refusal writes nothing.
struct Lent {
    work: Vec<u32>,
    out: [u32; 20],
}

impl Lent {
    /// A work slice of so many words.
    fn of(words: usize) -> Self {
        Self { work: vec![7; words], out: [7; 20] }
    }

    /// True where no word is another.
    fn is_left(&self) -> bool {
        self.work.iter().chain(&self.out).all(|&word| word == 7)
    }
}

/// The numbers of the four operations that are lent a work slice, which they must leave as it is.
fn four(v: &[u32], p: &[u32], q: &[u32], m: &[u32], work_words: usize) -> [u32; 4] {
    let mut lent = Lent::of(work_words);
    let Lent { work, out } = &mut lent;
    let numbers = [
        number(possible(v, p, work)),
        number(compliance(v, p, q, work, out)),
        number(equality(v, p, q, work, out)),
        number(model_check(v, p, q, m, work)),
    ];
    assert!(lent.is_left());
    numbers
}

#[test]
fn a_text() {
    for (wanted, text) in bad_texts() {
        assert_eq!(number(read_owl(text.as_bytes(), &mut [])), wanted);
        let mut out = [7; 5_000];
        assert_eq!(number(read_owl(text.as_bytes(), &mut out)), wanted);
        assert_eq!(out, [7; 5_000]);
    }
    let mut out = [7; 7];
    assert_eq!(number(read_owl(owl(1).as_bytes(), &mut out)), 23);
    assert_eq!(out, [7; 7]);
}

#[test]
fn a_vocabulary() {
    for (wanted, v) in bad_vocabularies() {
        assert_eq!(number(read_vocabulary(&v)), wanted);
        // It is read before all else.
        assert_eq!(number(read_policy(&v, &[])), wanted);
        assert_eq!(number(read_second_policy(&v, &[])), wanted);
        assert_eq!(four(&v, &[], &[], &[], 0), [wanted; 4]);
        assert_eq!(number(spell(&v, &[], &mut [], &mut [])), wanted);
    }
}

#[test]
fn a_first_policy() {
    for (wanted, p) in bad_policies() {
        assert_eq!(number(read_policy(&V, &p)), wanted);
        assert_eq!(four(&V, &p, &[], &[], 0), [wanted; 4]);
    }
    assert_eq!(read_policy(&V, &deep(16)), Ok(()));
}

#[test]
fn a_second_policy() {
    for (first, q) in bad_policies() {
        let wanted = first + 10;
        assert_eq!(number(read_second_policy(&V, &q)), wanted);
        assert_eq!(four(&V, &WIDE, &q, &[], 0), [21, wanted, wanted, wanted]);
    }
}

#[test]
fn a_model_and_then_a_short_work_slice() {
    for (wanted, m) in bad_models() {
        assert_eq!(four(&V, &WIDE, &NARROW, &m, WORK_SIZE - 1), [21, 21, 21, wanted]);
    }
    assert_eq!(four(&V, &WIDE, &NARROW, &MODEL, WORK_SIZE - 1), [21; 4]);
}

#[test]
fn too_many_combinations() {
    let (mut work, mut out) = (work(), [7; 20]);
    let (v, p) = binary(17);
    assert_eq!(number(compliance(&v, &p, &NONE, &mut work, &mut out)), 22);
    assert!(is_cleared(&work));
    work.fill(7);
    // Equality looks at both policies.
    assert_eq!(number(equality(&v, &NONE, &p, &mut work, &mut out)), 22);
    assert!(is_cleared(&work));
    assert_eq!(out, [7; 20]);
    // 65,536 are not too many: then it is the output that is too short.
    let (v, p) = binary(16);
    assert_eq!(number(compliance(&v, &p, &NONE, &mut work, &mut out)), 23);
}

#[test]
fn a_short_output() {
    let (mut work, mut out) = (work(), [7; 14]);
    assert_eq!(number(compliance(&V, &WIDE, &NARROW, &mut work, &mut out)), 23);
    assert!(is_cleared(&work));
    work.fill(7);
    assert_eq!(number(equality(&V, &NARROW, &WIDE, &mut work, &mut out)), 23);
    assert!(is_cleared(&work));
    assert_eq!(out, [7; 14]);
}

/// One class, one role, and every value of the role is in the class.
const RANGED: [u32; 8] = [1, 1, 0, 1, 5, 1, 1, 0];

/// A term with a role in a role, 16 of them: the last one's value would be written with its class, at depth 17.
fn deepest() -> Vec<u32> {
    let role = |k: u32| [3, 1, 0, 0, if k < 17 { k + 1 } else { 0 }, 0];
    let front = [[1, 0, 0, 0, 0, 0], [5, 0, 0, 0, 2, 0]];
    front.into_iter().chain((2..=17).map(role)).flatten().collect()
}

#[test]
fn a_spelling_that_is_too_deep() {
    let (mut work, mut out) = (work(), [7; 20]);
    let p = deepest();
    // 21 comes before it, and 23 after it.
    assert_eq!(number(spell(&RANGED, &p, &mut work[..WORK_SIZE - 1], &mut [])), 21);
    assert_eq!(number(spell(&RANGED, &p, &mut work, &mut [])), 43);
    assert!(is_cleared(&work));
    work.fill(7);
    // Without the range there is nothing to write at depth 17.
    assert_eq!(number(spell(&[1, 1, 0, 0], &p, &mut work, &mut out)), 23);
    assert!(is_cleared(&work));
    assert_eq!(out, [7; 20]);
}

#[test]
fn a_load() {
    let mut out = [7; MOST_LOAD_WORDS];
    let bad_numbers = [
        (0, 256, 100),
        (2_147_483_647, 256, 100),
        (u32::MAX, 256, 100),
        (1, 0, 100),
        (1, 257, 100),
        (1, 256, 0),
        (1, 256, 101),
        (0, 0, 0),
    ];
    for (seed, classes, terms) in bad_numbers {
        assert_eq!(number(rehearse(seed, classes, terms, &mut out)), 45);
        // The output is looked at last.
        assert_eq!(number(rehearse(seed, classes, terms, &mut [])), 45);
    }
    assert_eq!(number(rehearse(1, 256, 100, &mut out[1..])), 23);
    assert_eq!(number(rehearse(1, 1, 1, &mut out[..58])), 23);
    assert_eq!(number(rehearse(1, 1, 1, &mut [])), 23);
    assert_eq!(out, [7; MOST_LOAD_WORDS]);
}

/// What each refusal says, by a call that is refused so: no number is without a sentence, and no sentence without a call.
#[test]
fn every_sentence_has_its_number() {
    let (mut work, mut out) = (work(), [0; 20]);
    let (v, p) = binary(17);
    let mut refusals = vec![
        possible(&V, &WIDE, &mut []).unwrap_err(),
        compliance(&v, &p, &NONE, &mut work, &mut out).unwrap_err(),
        compliance(&V, &WIDE, &NARROW, &mut work, &mut []).unwrap_err(),
        spell(&RANGED, &deepest(), &mut work, &mut out).unwrap_err(),
        rehearse(0, 1, 1, &mut out).unwrap_err(),
    ];
    refusals.extend(bad_texts().map(|(_, text)| read_owl(text.as_bytes(), &mut out).unwrap_err()));
    refusals.extend(bad_vocabularies().map(|(_, v)| read_vocabulary(&v).unwrap_err()));
    for (_, p) in bad_policies() {
        refusals.push(read_policy(&V, &p).unwrap_err());
        refusals.push(read_second_policy(&V, &p).unwrap_err());
    }
    for (_, m) in bad_models() {
        refusals.push(model_check(&V, &WIDE, &NARROW, &m, &mut work).unwrap_err());
    }
    assert_eq!(refusals.iter().copied().collect::<BTreeSet<_>>(), Refusal::all().collect());
    let sentences: BTreeSet<String> = Refusal::all().map(|refusal| refusal.to_string()).collect();
    assert_eq!(sentences.len(), Refusal::all().count(), "no two say the same");
}

#[test]
fn a_refusal_is_an_error() {
    let refusal: Box<dyn std::error::Error> = Box::new(read_vocabulary(&[]).unwrap_err());
    assert!(refusal.to_string().starts_with("the vocabulary's length is no multiple of 4"));
}
