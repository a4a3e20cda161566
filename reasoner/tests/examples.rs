//! "The consent desk's examples", starred and not.

mod common;

use common::{c, desk_vocabulary, f, many_valued, names, r, words, work};
use reasoner::classes::FeatureNo;
use reasoner::normal::{normalise, Span};
use reasoner::policy::{Conjunct, Policy, Term};
use reasoner::split::Ends;
use reasoner::vocabulary::{Rules, Vocabulary};
use reasoner::whole::passes_whole;
use reasoner::*;

fn decide(v: &[u32], p: &[Term], q: &[Term]) -> (Verdict, Vec<u32>) {
    let mut out = vec![9; 20_000];
    let verdict = compliance(v, &words(p), &words(q), &mut work(), &mut out);
    (verdict, out)
}

/// The verdict, and the whole of the program's answer.
fn answer(p: &[Term], q: &[Term]) -> String {
    let v = desk_vocabulary(true);
    let printed = program(&bytes_of_parts(&v, &words(p), &words(q)));
    String::from_utf8(printed).unwrap()
}

fn can_be(v: &[u32], p: &[Term]) -> Possibility {
    possible(v, &words(p), &mut work())
}

#[test]
fn role_1_of_2_is_in_role_1_of_1() {
    assert_eq!(answer(&[vec![r(1, vec![c(2)])]], &[vec![r(1, vec![c(1)])]]), "compliant\n");
}

#[test]
fn role_1_of_1_is_not_in_role_1_of_2() {
    let printed = answer(&[vec![r(1, vec![c(1)])]], &[vec![r(1, vec![c(2)])]]);
    assert_eq!(printed, "outside 1 1\nedge 1 1 2\nmember 1 2\n");
}

#[test]
fn the_papers_input_words() {
    let input: [u32; 87] = [
        36, 4, 3, 1, 1, 1, 2, 1, 2, 1, 4, 1, 3, 1, 4, 3, 4, 2, 1, 3, 5, 3, 1, 0, 6, 3, 2, 0, 7, 4,
        1, 0, 8, 5, 3, 1, 0, 24, 1, 0, 0, 0, 0, 0, 5, 0, 0, 0, 2, 0, 3, 1, 0, 0, 3, 0, 1, 1, 0, 0,
        0, 0, 24, 1, 0, 0, 0, 0, 0, 5, 0, 0, 0, 2, 0, 3, 1, 0, 0, 3, 0, 1, 2, 0, 0, 0, 0,
    ];
    let bytes: Vec<u8> = input.iter().flat_map(|word| word.to_le_bytes()).collect();
    let p = words(&[vec![r(1, vec![c(1)])]]);
    let q = words(&[vec![r(1, vec![c(2)])]]);
    // They were printed before role 3 had its kind 6, and are answered as they were.
    let mut before = desk_vocabulary(true)[..36].to_vec();
    before[35] = 0;
    assert_eq!(bytes, bytes_of_parts(&before, &p, &q));
    assert_eq!(program(&bytes), b"outside 1 1\nedge 1 1 2\nmember 1 2\n");
}

#[test]
fn the_impossible_ones() {
    let v = desk_vocabulary(true);
    assert_eq!(can_be(&v, &[vec![r(1, vec![c(1)]), r(1, vec![c(3)])]]), Possibility::Impossible);
    assert_eq!(can_be(&v, &[vec![c(4)]]), Possibility::Impossible);
    assert_eq!(can_be(&v, &[vec![c(4)], vec![c(3)]]), Possibility::Possible(2));
    assert_eq!(can_be(&v, &[vec![r(3, vec![r(3, vec![c(3)])])]]), Possibility::Impossible);
    assert_eq!(can_be(&v, &[]), Possibility::Impossible);
}

#[test]
fn role_3_of_all_is_in_role_3_of_1_by_range() {
    assert_eq!(answer(&[vec![r(3, vec![])]], &[vec![r(3, vec![c(1)])]]), "compliant\n");
}

#[test]
fn two_halves_equal_the_whole() {
    let v = desk_vocabulary(true);
    let (whole, halves) = ([vec![f(1, 0, 9)]], [vec![f(1, 0, 4)], vec![f(1, 5, 9)]]);
    let mut out = [3; 10];
    let compared = equality(&v, &words(&whole), &words(&halves), &mut work(), &mut out);
    assert_eq!((compared, out), (Comparison::Equal, [3; 10]));
    // 6 combinations.
    assert_eq!(upper_ends(0, 9, &halves), [0, 3, 4, 5, 8, 9]);
}

#[test]
fn two_halves_without_the_5() {
    let printed = answer(&[vec![f(1, 0, 9)]], &[vec![f(1, 0, 4)], vec![f(1, 6, 9)]]);
    assert_eq!(printed, "outside 1 4\nvalue 1 1 5\n");
}

#[test]
fn one_to_nine_is_not_in_five_to_twelve() {
    assert_eq!(answer(&[vec![f(1, 1, 9)]], &[vec![f(1, 5, 12)]]), "outside 1 1\nvalue 1 1 1\n");
    // 5 pieces.
    assert_eq!(upper_ends(1, 9, &[vec![f(1, 5, 12)]]), [1, 4, 5, 8, 9]);
}

/// The upper ends of the pieces of lo..hi on feature 1, whose count must be theirs.
fn upper_ends(lo: u32, hi: u32, second: &[Term]) -> Vec<u32> {
    let ends = Ends::of(&Policy { terms: second.to_vec() }, 1);
    let span = Span { feature: FeatureNo(1), lo, hi };
    let pieces = ends.pieces(span);
    assert_eq!(ends.count(span), pieces.len() as u64);
    pieces
}

#[test]
fn two_spans_of_one_feature() {
    let both = [vec![f(1, 0, 4), f(1, 6, 9)]];
    assert_eq!(can_be(&desk_vocabulary(true), &both), Possibility::Impossible);
    assert_eq!(can_be(&desk_vocabulary(false), &both), Possibility::Possible(1));
}

fn policies_above() -> Vec<Vec<Term>> {
    vec![
        vec![vec![r(1, vec![c(2)])]],
        vec![vec![r(1, vec![c(1)])]],
        vec![vec![r(1, vec![c(1)]), r(1, vec![c(3)])]],
        vec![vec![c(4)]],
        vec![vec![r(3, vec![])]],
        vec![vec![r(3, vec![c(1)])]],
        vec![vec![f(1, 0, 9)]],
        vec![vec![f(1, 0, 4)], vec![f(1, 5, 9)]],
        vec![vec![f(1, 0, 4)], vec![f(1, 6, 9)]],
        vec![vec![f(1, 1, 9)]],
        vec![vec![f(1, 5, 12)]],
        vec![vec![f(1, 0, 4), f(1, 6, 9)]],
    ]
}

#[test]
fn no_simple_policy_and_the_empty_term() {
    for policy in policies_above() {
        assert_eq!(answer(&[], &policy), "compliant\n");
        assert_eq!(answer(&policy, &[vec![]]), "compliant\n");
    }
    let (verdict, out) = decide(&desk_vocabulary(true), &[vec![]], &[]);
    assert_eq!(verdict, Verdict::Outside(1, 1, 5));
    assert_eq!(out[..6], [0, 1, 0, 0, 0, 9]);
}

/// So many features, each 0..1.
fn spans(count: u32) -> Term {
    (1..=count).map(|feature| f(feature, 0, 1)).collect()
}

#[test]
fn sixteen_features_and_seventeen() {
    let v = names(1, 0, 17);
    let spans = |count| [spans(count)];
    let (verdict, out) = decide(&v, &spans(16), &[]);
    assert_eq!(verdict, Verdict::Outside(1, 1, 85));
    assert_eq!(out[5..10], [3, 1, 1, 0, 2]);
    // 65,536 combinations: the last is outside when every 0 is covered.
    let zeros: Vec<Term> = (1..=16).map(|feature| vec![f(feature, 0, 0)]).collect();
    assert_eq!(decide(&v, &spans(16), &zeros).0, Verdict::Outside(1, 65_536, 85));
    assert_eq!(decide(&v, &spans(17), &[]).0, Verdict::Refused(22));
}

#[test]
fn seventeen_features_by_the_short_way() {
    let v = names(2, 1, 17);
    let verdict = |p: &[Term], q: &[Term]| decide(&v, p, q).0;
    assert_eq!(verdict(&[spans(17)], &[spans(17)]), Verdict::Compliant);
    let behind = |inner| [vec![r(1, inner)]];
    assert_eq!(verdict(&behind(spans(17)), &behind(vec![])), Verdict::Compliant);
    // A term for each.
    let either = [vec![c(1)], spans(17)];
    assert_eq!(verdict(&[spans(17), vec![c(1)]], &either), Verdict::Compliant);
    // One term does not pass whole.
    assert_eq!(verdict(&[spans(17), vec![c(2)]], &[spans(17)]), Verdict::Refused(22));
    // The first direction differs, and yet the second is counted.
    let (one, many) = (words(&[vec![c(1)]]), words(&[spans(17)]));
    assert_eq!(verdict(&[vec![c(1)]], &[spans(17)]), Verdict::Outside(1, 1, 10));
    let compared = equality(&v, &one, &many, &mut work(), &mut [0; 100]);
    assert_eq!(compared, Comparison::Refused(22));
}

#[test]
fn what_passes_whole() {
    let read = Vocabulary::read(&desk_vocabulary(true)).unwrap();
    let passes = |term: &Term, second: &[Term]| {
        passes_whole(&normalise(&Rules::of(&read), term).unwrap(), second)
    };
    // With 4.6 the term does not, and with 1..30 in place of 1..60 it does.
    let uses = |class, lo, hi| vec![r(1, vec![c(class)]), f(1, lo, hi)];
    assert!(!passes(&uses(2, 1, 60), &[uses(1, 0, 30)]));
    assert!(passes(&uses(2, 1, 30), &[uses(1, 0, 30)]));
    // Two halves take the whole only together.
    let halves = [vec![f(1, 0, 4)], vec![f(1, 5, 9)]];
    assert!(!passes(&vec![f(1, 0, 9)], &halves));
    assert!(passes(&vec![f(1, 5, 8)], &halves));
    // What the normal form has, the range among it, and the second policy as it is given.
    assert!(passes(&vec![f(1, 0, 7), f(1, 5, 9)], &halves));
    assert!(passes(&vec![r(3, vec![])], &[vec![r(3, vec![c(1)])]]));
    assert!(passes(&vec![f(1, 3, 4)], &[vec![f(1, 0, 4), f(1, 3, 9)]]));
    // No conjuncts, at any depth; the impossible concept and lo above hi.
    let nested = vec![r(1, vec![r(2, vec![c(3)])])];
    assert!(passes(&nested, &[vec![]]) && passes(&nested, &[vec![r(1, vec![r(2, vec![])])]]));
    assert!(!passes(&nested, &[]) && !passes(&nested, &[vec![r(1, vec![Conjunct::Nothing])]]));
    assert!(!passes(&vec![f(1, 3, 3)], &[vec![f(1, 4, 3)], vec![f(1, 3, 2)]]));
}

#[test]
fn class_counts_and_depths() {
    assert_eq!(read_vocabulary(&names(256, 0, 0)), Reading::Accepted);
    assert_eq!(read_vocabulary(&names(257, 0, 0)), Reading::Refused(2));
    let deep = |depth: u32| (1..depth).fold(vec![c(1)], |inner, _| vec![r(1, inner)]);
    let v = desk_vocabulary(true);
    assert_eq!(read_policy(&v, &words(&[deep(16)])), Reading::Accepted);
    assert_eq!(read_policy(&v, &words(&[deep(17)])), Reading::Refused(8));
    assert_eq!(read_second_policy(&v, &words(&[deep(17)])), Reading::Refused(18));
}

#[test]
fn the_misreadings() {
    let v = desk_vocabulary(true);
    // A range below depth 1, at a role with child 0.
    let nested = [vec![r(3, vec![r(2, vec![r(3, vec![])])])]];
    let asked = [vec![r(3, vec![c(1), r(2, vec![r(3, vec![c(1)])])])]];
    assert_eq!(decide(&v, &nested, &asked).0, Verdict::Compliant);
    // Roles that are not functional stay apart.
    let apart = [vec![r(3, vec![c(2)]), r(3, vec![f(1, 3, 3)])]];
    let together = [vec![r(3, vec![c(2), f(1, 3, 3)])]];
    let (verdict, out) = decide(&v, &apart, &together);
    assert_eq!(verdict, Verdict::Outside(1, 1, 35));
    let expected = [
        [1, 3, 0, 0, 0],
        [2, 3, 1, 2, 2],
        [2, 3, 1, 3, 3],
        [1, 1, 2, 0, 4],
        [1, 2, 2, 0, 5],
        [1, 1, 3, 0, 6],
        [3, 1, 3, 3, 0],
    ];
    assert_eq!(out[..35], expected.concat());
    // Functional roles merge, the first's inner conjuncts before the second's.
    let merged = [vec![r(1, vec![r(3, vec![c(2)])]), c(2), r(1, vec![r(3, vec![]), r(2, vec![])])]];
    let (_, out) = decide(&v, &merged, &[]);
    let edges: Vec<[u32; 3]> = out[..55]
        .chunks(5)
        .filter(|fact| fact[0] == 2)
        .map(|fact| [fact[1], fact[2], fact[3]])
        .collect();
    assert_eq!(edges, [[1, 1, 2], [3, 2, 3], [3, 2, 4], [2, 2, 5]]);
    // The upper end of a gap.
    let (verdict, out) = decide(&v, &[vec![f(1, 0, 9)]], &[vec![f(1, 0, 3)], vec![f(1, 8, 9)]]);
    assert_eq!((verdict, out[8]), (Verdict::Outside(1, 4, 10), 7));
}

#[test]
fn constraints_go_by_individual() {
    // The walk meets the child's constraint before the parent's second one.
    let v = names(1, 1, 3);
    let p = [vec![f(1, 0, 1), r(1, vec![f(2, 0, 1)]), f(3, 0, 1)]];
    let q = [vec![r(1, vec![f(2, 0, 0)])], vec![f(1, 0, 0)], vec![f(3, 1, 1)]];
    // Outside: f1 = 1, f3 = 0, and 1 in the child: by individual 1, 0, 1 of 2 each, so number 6.
    assert_eq!(decide(&v, &p, &q).0, Verdict::Outside(1, 6, 25));
}

#[test]
fn a_pair_is_written_once() {
    let v = many_valued(1, 0, 1);
    let (verdict, out) = decide(&v, &[vec![f(1, 4, 4), f(1, 4, 4), f(1, 2, 2)]], &[]);
    assert_eq!(verdict, Verdict::Outside(1, 1, 15));
    assert_eq!(out[..16], [1, 1, 0, 0, 0, 3, 1, 1, 2, 2, 3, 1, 1, 4, 0, 9]);
}

#[test]
fn three_merge_in_order() {
    let v = desk_vocabulary(true);
    let three = [vec![
        r(1, vec![r(3, vec![c(2)])]),
        r(1, vec![r(3, vec![f(1, 1, 1)])]),
        r(1, vec![r(3, vec![f(1, 2, 2)])]),
    ]];
    let (_, out) = decide(&v, &three, &[]);
    let values: Vec<[u32; 2]> =
        out[..60].chunks(5).filter(|fact| fact[0] == 3).map(|fact| [fact[2], fact[3]]).collect();
    assert_eq!(values, [[4, 1], [5, 2]]);
}

#[test]
fn a_reason_of_an_earlier_piece_counts() {
    // 1 in the second feature is covered alone, 0 only with 0 in the first: 1 and 0 is outside.
    let v = names(1, 0, 2);
    let p = [vec![f(1, 0, 1), f(2, 0, 1)]];
    let q = [vec![f(1, 0, 0), f(2, 0, 0)], vec![f(2, 1, 1)]];
    assert_eq!(decide(&v, &p, &q).0, Verdict::Outside(1, 3, 15));
}
