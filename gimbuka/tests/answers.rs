//! Each operation, with an answer of each kind, and what it leaves in the slices.

mod common;

use common::{is_cleared, owl, policy, work, MODEL, NARROW, NONE, V, WIDE};
use gimbuka::{
    compliance, equality, model_check, possible, read_owl, read_policy, read_second_policy,
    read_vocabulary, rehearse, spell, Checked, Comparison, Possibility, Side, Verdict,
    MOST_LOAD_WORDS, MOST_MODEL_WORDS, MOST_OWL_BYTES, MOST_VOCABULARY_WORDS,
};

#[test]
fn tables_are_read() {
    assert_eq!(read_vocabulary(&V), Ok(()));
    assert_eq!(read_policy(&V, &WIDE), Ok(()));
    assert_eq!(read_second_policy(&V, &WIDE), Ok(()));
}

#[test]
fn a_vocabulary_is_read_from_text() {
    let mut out = [7; 10];
    let text = b"Ontology(SubClassOf(:B :A) Declaration(Class(:A)) Declaration(Class(:B)))";
    assert_eq!(read_owl(text, &mut out), Ok(8));
    assert_eq!(out, [2, 0, 0, 1, 1, 2, 1, 0, 7, 7]);
    assert_eq!(read_vocabulary(&out[..8]), Ok(()));
}

#[test]
fn a_text_may_be_as_long_and_say_as_much_as_the_limits() {
    let mut out = vec![7; MOST_VOCABULARY_WORDS];
    let mut text = owl(1_024).into_bytes();
    text.resize(MOST_OWL_BYTES, b'\n');
    assert_eq!(read_owl(&text, &mut out), Ok(MOST_VOCABULARY_WORDS));
    assert_eq!(read_vocabulary(&out), Ok(()));
}

#[test]
fn a_policy_is_spelled() {
    let (mut work, mut out) = (work(), [7; 40]);
    // The same twice, in another order; and a term that is impossible, since class 4 is below two disjoint classes.
    let p = policy(&[
        &[[1, 2, 0, 0], [1, 1, 0, 0]],
        &[[1, 4, 0, 0]],
        &[[1, 1, 0, 0], [1, 2, 0, 0], [1, 1, 0, 0]],
    ]);
    let once = policy(&[&[[1, 1, 0, 0], [1, 2, 0, 0]]]);
    assert_eq!(spell(&V, &p, &mut work, &mut out), Ok(once.len()));
    assert!(is_cleared(&work));
    assert_eq!(out[..once.len()], once);
    assert!(out[once.len()..].iter().all(|&word| word == 7));
    assert_eq!(equality(&V, &p, &once, &mut work, &mut out), Ok(Comparison::Equal));
}

#[test]
fn a_policy_with_no_possible_term_is_spelled_as_a_header() {
    let (mut work, mut out) = (work(), [7; 7]);
    let impossible = policy(&[&[[1, 4, 0, 0]]]);
    assert_eq!(spell(&V, &impossible, &mut work, &mut out), Ok(6));
    assert_eq!(out, [0, 0, 0, 0, 0, 0, 7]);
}

#[test]
fn the_first_possible_term_is_told() {
    let mut work = work();
    // Class 4 is below two disjoint classes.
    let second = policy(&[&[[1, 4, 0, 0]], &[[1, 2, 0, 0]]]);
    assert_eq!(possible(&V, &second, &mut work), Ok(Possibility::Possible { term: 2 }));
    assert!(is_cleared(&work));
}

#[test]
fn a_policy_may_be_impossible() {
    let mut work = work();
    // Feature 1 is functional.
    let apart = policy(&[&[[4, 1, 0, 4], [4, 1, 6, 9]]]);
    assert_eq!(possible(&V, &apart, &mut work), Ok(Possibility::Impossible));
    assert_eq!(possible(&V, &NONE, &mut work), Ok(Possibility::Impossible));
    assert!(is_cleared(&work));
    // It is so where nothing is stated, too, and is not where it is many-valued.
    assert_eq!(possible(&[1, 0, 1, 0], &apart, &mut work), Ok(Possibility::Impossible));
    let mut many_valued = V;
    many_valued[28] = 7;
    let answer = possible(&many_valued, &apart, &mut work);
    assert_eq!(answer, Ok(Possibility::Possible { term: 1 }));
}

#[test]
fn a_policy_may_comply() {
    let (mut work, mut out) = (work(), [7; 20]);
    assert_eq!(compliance(&V, &NARROW, &WIDE, &mut work, &mut out), Ok(Verdict::Compliant));
    assert!(is_cleared(&work));
    assert_eq!(out, [7; 20]);
    // No output is asked for.
    assert_eq!(compliance(&V, &NARROW, &WIDE, &mut work, &mut []), Ok(Verdict::Compliant));
}

#[test]
fn a_countermodel_is_written() {
    let (mut work, mut out) = (work(), [7; 20]);
    let verdict = compliance(&V, &WIDE, &NARROW, &mut work, &mut out);
    assert_eq!(verdict, Ok(Verdict::Outside { term: 1, combination: 1, words: MODEL.len() }));
    assert!(is_cleared(&work));
    let (countermodel, rest) = out.split_at(MODEL.len());
    assert_eq!(countermodel, MODEL);
    assert_eq!(rest, [7; 5]);
}

#[test]
fn the_first_term_and_combination_to_fail_are_told() {
    let (mut work, mut out) = (work(), [0; 20]);
    let p = policy(&[&[[4, 1, 0, 4]], &[[4, 1, 0, 9]]]);
    let q = policy(&[&[[4, 1, 0, 4]], &[[4, 1, 6, 9]]]);
    let verdict = compliance(&V, &p, &q, &mut work, &mut out);
    // The pieces of 0..9 are 0, 1..3, 4, 5, 6, 7..8 and 9.
    assert_eq!(verdict, Ok(Verdict::Outside { term: 2, combination: 4, words: 10 }));
    assert_eq!(out[..10], [1, 1, 0, 0, 0, 3, 1, 1, 5, 0]);
    assert_eq!(model_check(&V, &p, &q, &out[..10], &mut work), Ok(Checked::Yes));
}

#[test]
fn policies_may_be_equal() {
    let (mut work, mut out) = (work(), [7; 20]);
    let whole = policy(&[&[[4, 1, 0, 9]]]);
    let halves = policy(&[&[[4, 1, 0, 4]], &[[4, 1, 5, 9]]]);
    assert_eq!(equality(&V, &whole, &halves, &mut work, &mut out), Ok(Comparison::Equal));
    assert!(is_cleared(&work));
    assert_eq!(out, [7; 20]);
}

/// The side of a difference, whose countermodel is passed back.
fn side(p: &[u32], q: &[u32]) -> Side {
    let (mut work, mut out) = (work(), vec![7; MOST_MODEL_WORDS]);
    let answer = equality(&V, p, q, &mut work, &mut out);
    assert!(is_cleared(&work));
    let Ok(Comparison::Differs { side, term: 1, combination: 1, words: 15 }) = answer else {
        panic!("{answer:?}");
    };
    assert_eq!(out[..15], MODEL);
    assert!(out[15..].iter().all(|&word| word == 7));
    let (inside, outside) = match side {
        Side::First => (p, q),
        Side::Second => (q, p),
    };
    assert_eq!(model_check(&V, inside, outside, &out[..15], &mut work), Ok(Checked::Yes));
    assert_eq!(model_check(&V, outside, inside, &out[..15], &mut work), Ok(Checked::No));
    assert!(is_cleared(&work));
    side
}

#[test]
fn either_side_may_differ() {
    assert_eq!(side(&WIDE, &NARROW), Side::First);
    assert_eq!(side(&NARROW, &WIDE), Side::Second);
}

#[test]
fn a_model_is_checked() {
    let mut work = work();
    assert_eq!(model_check(&V, &WIDE, &NARROW, &MODEL, &mut work), Ok(Checked::Yes));
    // Individual 2 in class 4 breaks the vocabulary, which has 4 below 1 and 3.
    let mut broken = MODEL;
    broken[11] = 4;
    assert_eq!(model_check(&V, &WIDE, &NARROW, &broken, &mut work), Ok(Checked::No));
    assert!(is_cleared(&work));
}

/// The first part of a load's words, without its count, and the words behind it.
fn part(words: &[u32]) -> (&[u32], &[u32]) {
    words[1..].split_at(words[0] as usize)
}

#[test]
fn a_load_is_made() {
    let mut out = [7; 61];
    assert_eq!(rehearse(1, 1, 1, &mut out), Ok(59));
    let (v, rest) = part(&out);
    assert_eq!(v, [1, 0, 1, 1, 4, 1, 0, 0]);
    let (p, rest) = part(rest);
    assert_eq!(p, policy(&[&[[1, 1, 0, 0], [4, 1, 94, 180]]]));
    let (q, rest) = part(rest);
    assert_eq!(q, policy(&[&[[1, 1, 0, 0], [4, 1, 41, 124]]]));
    assert_eq!(rest, [7, 7]);
}

#[test]
fn loads_are_read_and_decided() {
    let (mut work, mut out) = (work(), vec![7; MOST_LOAD_WORDS + 1]);
    for (seed, classes, terms) in [(1, 256, 100), (2_147_483_646, 256, 100), (5, 3, 2)] {
        let words = rehearse(seed, classes, terms, &mut out).expect("a load");
        assert_eq!(words as u32, 3 + 4 * (classes + 1) + 12 * (3 * terms + 1));
        assert!(words <= MOST_LOAD_WORDS);
        let (v, rest) = part(&out[..words]);
        let (p, rest) = part(rest);
        let (q, rest) = part(rest);
        assert!(rest.is_empty());
        assert_eq!(read_vocabulary(v), Ok(()));
        assert_eq!(read_policy(v, p), Ok(()));
        assert_eq!(read_second_policy(v, q), Ok(()));
        assert!(compliance(v, p, q, &mut work, &mut [0; 2_000]).is_ok());
    }
    assert_eq!(out[MOST_LOAD_WORDS], 7);
}
