//! The generators make what they promise, and the shrinker makes less of it.

mod common;

use common::literal::{normal_form, read_kb, read_simple_policies, Kb, Simple, C};
use reasoner::model::Interpretation;
use reasoner::normal::normalise;
use reasoner::policy::{Place, Policy};
use reasoner::random::everyday::{self, Answer};
use reasoner::random::shrink::shrink;
use reasoner::random::{limits, slow, Case, Family, Rng};
use reasoner::vocabulary::{Rules, Vocabulary};
use reasoner::whole::passes_whole;
use reasoner::*;
use std::collections::BTreeMap;

/// Every answer of every operation on a case.
fn answers(case: &Case) -> (Reading, Possibility, Verdict, Comparison, Checked, Vec<u8>, Vec<u32>) {
    let Case { v, p, q, m, .. } = case;
    let mut out = case.out();
    (
        read_second_policy(v, q),
        possible(v, p, &mut case.work()),
        compliance(v, p, q, &mut case.work(), &mut out),
        equality(v, p, q, &mut case.work(), &mut case.out()),
        model_check(v, p, q, m, &mut case.work()),
        program(&case.bytes()),
        out,
    )
}

#[test]
fn the_mix_has_every_answer() {
    let mut seen: BTreeMap<&str, u32> = BTreeMap::new();
    for seed in 0..8_000 {
        let case = Case::any(seed);
        let Case { v, p, q, .. } = &case;
        let (_, possibility, verdict, comparison, checked, ..) = answers(&case);
        let mut count = |what| *seen.entry(what).or_default() += 1;
        match possibility {
            Possibility::Possible(1) => count("possible 1"),
            Possibility::Possible(_) => count("possible later"),
            Possibility::Impossible => count("impossible"),
            Possibility::Refused(_) => count("possible refused"),
        }
        match verdict {
            Verdict::Compliant if has_too_many(v, p, q) => count("compliant by the short way"),
            Verdict::Compliant => count("compliant"),
            Verdict::Outside(1, 1, _) => count("outside 1 1"),
            Verdict::Outside(1, ..) => count("outside 1 later"),
            Verdict::Outside(_, 1, _) => count("outside later 1"),
            Verdict::Outside(..) => count("outside later later"),
            Verdict::Refused(22) => count("refused 22"),
            Verdict::Refused(23) => count("refused 23"),
            Verdict::Refused(_) => count("refused"),
        }
        match comparison {
            Comparison::Equal if has_too_many(v, p, q) => count("equal by the short way"),
            Comparison::Equal => count("equal"),
            Comparison::Differs(1, ..) if has_too_many(v, q, p) => count("side 1 by the short way"),
            Comparison::Differs(1, ..) => count("side 1"),
            Comparison::Differs(..) if has_too_many(v, p, q) => count("side 2 by the short way"),
            Comparison::Differs(..) => count("side 2"),
            Comparison::Refused(22) => count("equality refused 22"),
            Comparison::Refused(_) => count("equality refused"),
        }
        match checked {
            Checked::Yes => count("yes"),
            Checked::No => count("no"),
            Checked::Refused(_) => count("check refused"),
        }
    }
    let least = [
        ("possible 1", 2_000),
        ("possible later", 100),
        ("impossible", 500),
        ("possible refused", 500),
        ("compliant", 1_000),
        ("compliant by the short way", 100),
        ("outside 1 1", 700),
        ("outside 1 later", 100),
        ("outside later 1", 100),
        ("outside later later", 20),
        ("refused 22", 50),
        ("refused 23", 200),
        ("refused", 1_000),
        ("equal", 400),
        ("equal by the short way", 25),
        ("side 1", 700),
        ("side 1 by the short way", 10),
        ("side 2", 700),
        ("side 2 by the short way", 20),
        ("equality refused 22", 100),
        ("equality refused", 1_000),
        ("yes", 700),
        ("no", 1_500),
        ("check refused", 1_000),
    ];
    for (what, count) in least {
        assert!(seen.get(what).is_some_and(|&seen| seen >= count), "{what}: {seen:?}");
    }
}

/// Does every possible term of the first policy pass whole?
fn goes_the_short_way(case: &Case) -> bool {
    let vocabulary = Vocabulary::read(&case.v).unwrap();
    let [first, second] = [&case.p, &case.q]
        .map(|words| Policy::read(&vocabulary, words, Place::First).unwrap().terms);
    let rules = Rules::of(&vocabulary);
    let mut roots = first.iter().filter_map(|term| normalise(&rules, term));
    roots.all(|root| passes_whole(&root, &second))
}

#[test]
fn slow_pairs_pass_and_fail() {
    let (mut compliant, mut early, mut late) = (0, 0, 0);
    for (name, case) in slow::compliance(2).into_iter().chain(slow::uncovered(2)) {
        assert!(!goes_the_short_way(&case), "{name}");
        match compliance(&case.v, &case.p, &case.q, &mut case.work(), &mut case.out()) {
            Verdict::Compliant => compliant += 1,
            Verdict::Outside(_, combination, _) if combination > 1_000 => late += 1,
            Verdict::Outside(..) => early += 1,
            Verdict::Refused(number) => panic!("{name}: refused {number}"),
        }
    }
    assert!(compliant >= 20 && early >= 10 && late >= 8, "{compliant} {early} {late}");
}

/// A model that breaks its vocabulary would be answered before the policies are looked at.
#[test]
fn slow_models_satisfy_their_vocabularies() {
    for (name, case) in slow::model_check() {
        let vocabulary = Vocabulary::read(&case.v).unwrap();
        let model = Interpretation::read(&vocabulary, &case.m).unwrap();
        assert!(model.satisfies(&vocabulary), "{name}");
    }
}

#[test]
fn a_seed_makes_one_case() {
    for family in Family::ALL {
        for seed in 0..20 {
            assert_eq!(Case::generate(family, seed), Case::generate(family, seed));
        }
    }
}

fn read(case: &Case) -> (Kb, Vec<Simple>, Vec<Simple>) {
    let kb = read_kb(&case.v).unwrap();
    let left = read_simple_policies(&kb, &case.p, 4).unwrap();
    let right = read_simple_policies(&kb, &case.q, 14).unwrap();
    (kb, left, right)
}

/// The greatest depth at which a functional role stands twice, after the merges above it; 0 if
/// none does.
fn deepest_merge(kb: &Kb, simple: &Simple) -> u32 {
    let mut deepest = 0;
    for (at, conjunct) in simple.iter().enumerate() {
        let C::Some(role, inner) = conjunct else { continue };
        let mut all = inner.clone();
        if kb.is_functional_role(*role) {
            for other in &simple[at + 1..] {
                if let C::Some(again, more) = other {
                    if again == role {
                        deepest = deepest.max(1);
                        all.extend(more.clone());
                    }
                }
            }
        }
        let below = deepest_merge(kb, &all);
        if below > 0 {
            deepest = deepest.max(below + 1);
        }
    }
    deepest
}

fn individuals(simple: &Simple) -> u32 {
    1 + simple
        .iter()
        .map(|one| if let C::Some(_, inner) = one { individuals(inner) } else { 0 })
        .sum::<u32>()
}

#[test]
fn merges_nest() {
    let mut depths = [0; 8];
    let mut possible_ones = 0;
    for seed in 0..2_000 {
        let (kb, left, right) = read(&Case::generate(Family::Merges, seed));
        for simple in left.iter().chain(&right) {
            let depth = deepest_merge(&kb, simple) as usize;
            let form = normal_form(&kb, simple);
            if form.is_some_and(|form| individuals(&form) < individuals(simple)) {
                possible_ones += 1;
                depths[depth] += 1;
            }
        }
    }
    assert!(possible_ones > 500, "{possible_ones}");
    assert!(depths[2] > 100 && depths[3] > 40 && depths[4] > 10, "{depths:?}");
}

#[test]
fn spans_are_covered_by_terms_together() {
    let mut together = 0;
    for seed in 0..2_000 {
        let mut case = Case::generate(Family::Coverage, seed);
        case.work_len = FULL_WORK;
        let (_, _, right) = read(&case);
        if compliance(&case.v, &case.p, &case.q, &mut case.work(), &mut case.out())
            != Verdict::Compliant
        {
            continue;
        }
        // Compliant, and with no one consent term alone.
        let alone = |at: usize| {
            let mut one = case.q.clone();
            let mut links = vec![];
            let mut record = one[0];
            while record != 0 {
                links.push(record);
                record = one[record as usize * 6 + 5];
            }
            one[0] = links[at];
            one[links[at] as usize * 6 + 5] = 0;
            compliance(&case.v, &case.p, &one, &mut case.work(), &mut [0; 9_000])
                == Verdict::Compliant
        };
        let one_term = case.p[0] != 0 && case.p[case.p[0] as usize * 6 + 5] == 0;
        together += u32::from(one_term && right.len() > 1 && !(0..right.len()).any(alone));
    }
    assert!(together > 20, "{together}");
}

#[test]
fn what_no_link_reaches_has_no_effect() {
    let mut rng = Rng::new(9);
    let mut changed = 0;
    for seed in 0..1_500 {
        let case = Case::generate(Family::Small, 30_000 + seed);
        let mut other = case.clone();
        let reached = encode::walk_order(&case.p);
        for (number, record) in other.p.chunks_mut(6).enumerate().skip(1) {
            if !reached.contains(&(number as u32)) {
                record.fill_with(|| rng.word());
                changed += 1;
            }
        }
        assert_eq!(answers(&case), answers(&other), "{seed}\n{case}");
    }
    assert!(changed > 300, "{changed}");
}

#[test]
fn everyday_pairs() {
    for seed in 0..50 {
        for answer in [Answer::Compliant, Answer::Outside] {
            let case = everyday::case(seed, answer);
            assert!(
                case.v.len() / 4 - 1 == 304 && case.p.len() / 6 == 71 && case.q.len() / 6 == 78,
                "{case}"
            );
            let verdict = compliance(&case.v, &case.p, &case.q, &mut case.work(), &mut case.out());
            assert_eq!(
                matches!(verdict, Verdict::Compliant),
                answer == Answer::Compliant,
                "{case}"
            );
        }
    }
}

#[test]
fn everyday_pairs_of_other_sizes() {
    for (classes, terms) in [(16, 10), (64, 1), (256, 64)] {
        for answer in [Answer::Compliant, Answer::Outside] {
            let case = everyday::sized(7, answer, classes, terms);
            let verdict = compliance(&case.v, &case.p, &case.q, &mut case.work(), &mut case.out());
            let complies = matches!(verdict, Verdict::Compliant);
            assert_eq!(complies, answer == Answer::Compliant, "{case}");
        }
    }
}

#[test]
fn shrinking_keeps_what_differs() {
    let mut later = |case: &Case| {
        let mut out = vec![0; 100_000];
        let verdict = compliance(&case.v, &case.p, &case.q, &mut case.work(), &mut out);
        matches!(verdict, Verdict::Outside(2.., 3.., _))
    };
    let mut shrunk = 0;
    for seed in 0..1_000 {
        let case = Case::generate(Family::Coverage, seed);
        if later(&case) {
            let small = shrink(&case, &mut later);
            assert!(later(&small));
            // Two terms on the left, a span, and something on the right to split it.
            assert!(small.p.len() + small.q.len() <= 78 && small.v.len() <= 8, "{small}");
            shrunk += 1;
        }
    }
    assert!(shrunk > 5, "{shrunk}");
}

#[test]
fn shrinking_damaged_and_long_cases() {
    let mut seven = |case: &Case| read_policy(&case.v, &case.p) == Reading::Refused(7);
    let case =
        (0..).map(|seed| Case::generate(Family::Damaged, seed)).find(|case| seven(case)).unwrap();
    let small = shrink(&case, &mut seven);
    assert!(
        seven(&small) && small.p.len() <= 24 && small.q.is_empty() && small.v.len() == 4,
        "{small}"
    );
    let (_, case) =
        limits::cases().into_iter().find(|(name, _)| *name == "model of 700,005 words").unwrap();
    let mut yes = |case: &Case| {
        model_check(&case.v, &case.p, &case.q, &case.m, &mut case.work()) == Checked::Yes
    };
    let small = shrink(&case, &mut yes);
    assert!(yes(&small) && small.m.len() <= 20, "{small}");
    assert!(small.to_string().contains("v: 4 words\n     0: 1 0 0 0\n"), "{small}");
}
