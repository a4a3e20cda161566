//! Refusals: every number of every operation, their order, and what they leave in the slices.

mod common;

use common::{c, desk_vocabulary, r, words};
use reasoner::random::damage::{base, faults, put_both, Fault};
use reasoner::random::{limits, Case, Family};
use reasoner::*;
use std::collections::{BTreeMap, BTreeSet};

/// The refusals of an operation in its order; walk faults are one stage.
const VOCABULARY: &[u32] = &[1, 2, 3, 44];
const POLICY: &[u32] = &[1, 2, 3, 44, 4, 5, 6];
const SECOND: &[u32] = &[1, 2, 3, 44, 14, 15, 16];
const POSSIBLE: &[u32] = &[1, 2, 3, 44, 4, 5, 6, 21];
const COMPLIANCE: &[u32] = &[1, 2, 3, 44, 4, 5, 6, 14, 15, 16, 21, 22, 23];
const MODEL: &[u32] = &[1, 2, 3, 44, 4, 5, 6, 14, 15, 16, 31, 32, 33, 21];

/// What an operation refused, if it did.
fn refusals(case: &Case) -> [Option<u32>; 7] {
    let Case { v, p, q, m, .. } = case;
    let reading = |reading| match reading {
        Reading::Refused(number) => Some(number),
        Reading::Accepted => None,
    };
    let possibility = match possible(v, p, &mut case.work()) {
        Possibility::Refused(number) => Some(number),
        _ => None,
    };
    let verdict = match compliance(v, p, q, &mut case.work(), &mut case.out()) {
        Verdict::Refused(number) => Some(number),
        _ => None,
    };
    let comparison = match equality(v, p, q, &mut case.work(), &mut case.out()) {
        Comparison::Refused(number) => Some(number),
        _ => None,
    };
    let checked = match model_check(v, p, q, m, &mut case.work()) {
        Checked::Refused(number) => Some(number),
        _ => None,
    };
    [
        reading(read_vocabulary(v)),
        reading(read_policy(v, p)),
        reading(read_second_policy(v, q)),
        possibility,
        verdict,
        comparison,
        checked,
    ]
}

const ORDERS: [&[u32]; 7] = [VOCABULARY, POLICY, SECOND, POSSIBLE, COMPLIANCE, COMPLIANCE, MODEL];

/// The first of the faults in the operation's order.
fn expected(order: &[u32], faults: &[Fault]) -> Option<u32> {
    order.iter().find_map(|stage| {
        faults.iter().find(|fault| fault.stage() == *stage).map(|fault| fault.number)
    })
}

#[test]
fn the_base_is_refused_by_none() {
    assert_eq!(refusals(&base()), [None; 7]);
}

#[test]
fn one_fault() {
    for fault in faults() {
        let mut case = base();
        (fault.apply)(&mut case);
        let expected = ORDERS.map(|order| expected(order, &[fault]));
        assert_eq!(refusals(&case), expected, "{}\n{case}", fault.name);
    }
}

#[test]
fn two_faults_give_the_earlier() {
    let all = faults();
    let mut pairs = 0;
    for &first in &all {
        for &second in &all {
            let mut case = base();
            if !put_both(&mut case, first, second) {
                continue;
            }
            pairs += 1;
            let expected = ORDERS.map(|order| expected(order, &[first, second]));
            assert_eq!(refusals(&case), expected, "{} and {}\n{case}", first.name, second.name);
        }
    }
    assert!(pairs > 3_000, "{pairs}");
}

#[test]
fn the_walk_finds_7_then_6_then_8_at_one_record() {
    let v = desk_vocabulary(true);
    let deep = |depth: u32| words(&[(1..depth).fold(vec![c(1)], |inner, _| vec![r(1, inner)])]);
    let read = |p: &[u32]| read_policy(&v, p);
    // The record at depth 17 is number 18.
    let last = 18 * 6;
    let mut p = deep(17);
    assert_eq!(read(&p), Reading::Refused(8));
    p[last] = 9;
    assert_eq!(read(&p), Reading::Refused(6));
    // The same depth, a bad link besides: 6.
    let mut p = deep(17);
    p[last + 5] = 18;
    assert_eq!(read(&p), Reading::Refused(6));
    // A bad next of a record whose child chain is too deep: the record comes first.
    let mut p = deep(17);
    p[6 + 5] = 1;
    assert_eq!(read(&p), Reading::Refused(6));
    // A good next to a bad record, and a child chain too deep: the child chain comes first.
    let mut p = deep(17);
    p.extend([9; 6]);
    p[6 + 5] = 19;
    assert_eq!(read(&p), Reading::Refused(8));
    // Reached before wins over a kind out of place.
    let mut p = deep(3);
    p[6 + 5] = 2;
    assert_eq!(read(&p), Reading::Refused(7));
    // Reached before wins over depth: record 20 is reached from the first term, and then
    // again at depth 17 from the second.
    let shared = [
        vec![1, 0, 0, 0, 0, 0],
        vec![5, 0, 0, 0, 20, 2],
        vec![5, 0, 0, 0, 3, 0],
        (3..19).flat_map(|own| [3, 1, 0, 0, own + 1, 0]).collect(),
        vec![0; 6],
        vec![1, 1, 0, 0, 0, 0],
    ];
    let mut p = shared.concat();
    p[18 * 6 + 4] = 20;
    assert_eq!(read(&p), Reading::Refused(7));
    p[6 + 4] = 0;
    assert_eq!(read(&p), Reading::Refused(8));
}

#[test]
fn unreached_records_have_no_effect() {
    let v = desk_vocabulary(true);
    let mut p = words(&[vec![c(1)]]);
    p.extend([u32::MAX; 6]);
    assert_eq!(read_policy(&v, &p), Reading::Accepted);
    p[0] = 0;
    assert_eq!(read_policy(&v, &p), Reading::Accepted);
    assert_eq!(possible(&v, &p, &mut common::work()), Possibility::Impossible);
    let long = vec![0; 3_084];
    assert_eq!(read_policy(&v, &long), Reading::Refused(4));
    assert_eq!(read_policy(&v, &long[..3_078]), Reading::Accepted);
    let mut long = vec![0; 4_104];
    long[0] = 1;
    assert_eq!(read_vocabulary(&long), Reading::Refused(1));
    assert_eq!(read_vocabulary(&long[..4_100]), Reading::Accepted);
}

#[test]
fn what_refusals_leave_in_the_slices() {
    for fault in faults() {
        let mut case = base();
        case.work_len = FULL_WORK + 3;
        (fault.apply)(&mut case);
        let (mut work, mut out) = (case.work(), case.out());
        let verdict = compliance(&case.v, &case.p, &case.q, &mut work, &mut out);
        let Verdict::Refused(number) = verdict else { continue };
        let mut expected = case.work();
        if matches!(number, 22 | 23) {
            expected[..FULL_WORK].fill(0);
        }
        assert!(work == expected && out == case.out(), "{}", fault.name);
    }
}

#[test]
fn what_results_leave_in_the_slices() {
    let mut case = base();
    case.work_len = FULL_WORK + 3;
    let mut cleared = case.work();
    cleared[..FULL_WORK].fill(0);
    let (mut work, mut out) = (case.work(), case.out());
    let verdict = compliance(&case.v, &case.p, &case.q, &mut work, &mut out);
    let Verdict::Outside(1, _, length) = verdict else { panic!("{verdict:?}") };
    assert!(work == cleared && out[length as usize..] == case.out()[length as usize..]);
    let (mut work, mut out) = (case.work(), case.out());
    assert_eq!(compliance(&case.v, &case.q, &case.q, &mut work, &mut out), Verdict::Compliant);
    assert!(work == cleared && out == case.out());
    let (mut work, mut out) = (case.work(), case.out());
    assert_eq!(equality(&case.v, &case.p, &case.p, &mut work, &mut out), Comparison::Equal);
    assert!(work == cleared && out == case.out());
    let mut work = case.work();
    assert_eq!(possible(&case.v, &case.p, &mut work), Possibility::Possible(1));
    assert!(work == cleared);
    let mut work = case.work();
    assert_eq!(model_check(&case.v, &case.p, &case.q, &case.m, &mut work), Checked::Yes);
    assert!(work == cleared);
    // Exactly enough output, and one word short of it.
    let mut exact = vec![5; length as usize];
    let verdict = compliance(&case.v, &case.p, &case.q, &mut case.work(), &mut exact);
    assert_eq!(verdict, Verdict::Outside(1, 4, length));
    let mut short = vec![5; length as usize - 1];
    let verdict = compliance(&case.v, &case.p, &case.q, &mut case.work(), &mut short);
    assert_eq!(verdict, Verdict::Refused(23));
    assert_eq!(short, vec![5; length as usize - 1]);
}

#[test]
fn limits_answer_as_the_paper_says() {
    let cases: BTreeMap<&str, Case> = limits::cases().into_iter().collect();
    let of = |name: &str| cases.get(name).unwrap_or_else(|| panic!("no case {name}"));
    let verdict = |name: &str| {
        let case = of(name);
        compliance(&case.v, &case.p, &case.q, &mut case.work(), &mut case.out())
    };
    let comparison = |name: &str| {
        let case = of(name);
        equality(&case.v, &case.p, &case.q, &mut case.work(), &mut case.out())
    };
    let checked = |name: &str| {
        let case = of(name);
        model_check(&case.v, &case.p, &case.q, &case.m, &mut case.work())
    };
    let refused = [
        ("257 classes", 2),
        ("0 classes", 2),
        ("65 roles", 2),
        ("65 features", 2),
        ("1,025 vocabulary records", 1),
        ("many-valued role 65 of 64", 3),
        ("many-valued feature 65 of 64", 3),
        ("1,024 vocabulary records, a role both ways by the first and the last", 44),
        ("1,025 vocabulary records, a role both ways by the first and the last", 1),
        ("513 policy records in one term", 4),
        ("513 terms", 4),
        ("depth 17", 8),
        ("depth 17 in the second", 18),
        ("131,072 combinations", 22),
        ("65,538 combinations", 22),
        ("combinations past 64 bits", 22),
        ("2 to the 32nd combinations", 22),
        ("2 to the 64th combinations", 22),
        ("131,072 combinations after a failing term", 22),
        ("131,072 combinations that are not merged", 22),
        ("65,538 combinations taken whole, then a term that fails", 22),
        ("131,072 combinations taken whole, first a term that fails", 22),
        ("131,072 combinations taken whole, between them a term that fails", 22),
        ("131,072 combinations taken whole, last a term that fails", 22),
        ("131,072 combinations taken whole, an impossible and a failing term", 22),
        ("131,072 combinations in the only term that fails", 22),
        ("131,072 combinations taken whole, then a term that two cover", 22),
        ("131,072 combinations, all covered", 22),
        ("131,072 combinations beside the impossible concept", 22),
        ("131,072 combinations behind a role that reaches the impossible concept", 22),
        ("131,072 combinations beside lo above hi", 22),
        ("131,072 combinations behind a role, lo above hi", 22),
        ("countermodel of 16,385 words", 23),
    ];
    for (name, number) in refused {
        assert_eq!(verdict(name), Verdict::Refused(number), "{name}");
    }
    let outside = [
        ("65,536 combinations", (1, 1, 85)),
        ("65,536 combinations in the last one only outside", (1, 65_536, 85)),
        ("65,535 combinations", (1, 1, 25)),
        ("65,536 combinations times one piece", (1, 1, 85)),
        ("131,072 combinations in an impossible term", (2, 1, 10)),
        ("131,072 combinations in the second only", (1, 1, 10)),
        ("131,072 combinations in the second, taken whole", (1, 1, 10)),
        ("65,536 combinations taken whole, then a term that fails", (2, 1, 10)),
        ("countermodel of 16,380 words", (1, 1, 16_380)),
        ("512 individuals in 256 classes", (1, 1, 656_640)),
        ("whole line of values", (1, 7, 15)),
    ];
    for (name, (s, q, length)) in outside {
        assert_eq!(verdict(name), Verdict::Outside(s, q, length), "{name}");
    }
    let compliant = [
        "65,536 combinations, all covered",
        "65,536 combinations taken whole, then a term that two cover",
        "65,536 combinations taken whole",
        "65,538 combinations taken whole",
        "131,072 combinations taken whole",
        "2 to the 64th combinations taken whole",
        "131,072 combinations taken whole by a wider term",
        "131,072 combinations taken whole, each term by another",
        "131,072 combinations taken whole, an impossible term between",
        "131,072 combinations taken whole, behind terms that none is in",
        "131,072 combinations taken whole once merged",
        "131,072 combinations in the first, taken whole",
        "131,072 combinations in both, the first taken whole",
        "131,072 combinations in a term without conjuncts",
        "131,072 combinations behind a role that reaches any",
        "131,072 combinations behind 15 roles that reach any",
    ];
    for name in compliant {
        assert_eq!(verdict(name), Verdict::Compliant, "{name}");
    }
    let compared = [
        ("512 terms", Comparison::Equal),
        ("65,536 combinations taken whole", Comparison::Equal),
        ("131,072 combinations taken whole", Comparison::Equal),
        ("2 to the 64th combinations taken whole", Comparison::Equal),
        ("131,072 combinations taken whole, each term by another", Comparison::Equal),
        ("131,072 combinations taken whole, an impossible term between", Comparison::Equal),
        ("131,072 combinations taken whole, behind terms that none is in", Comparison::Equal),
        ("131,072 combinations taken whole once merged", Comparison::Equal),
        ("131,072 combinations in the second only", Comparison::Refused(22)),
        ("131,072 combinations in the second, taken whole", Comparison::Differs(1, 1, 1, 10)),
        ("131,072 combinations in the first, taken whole", Comparison::Differs(2, 1, 1, 10)),
        ("131,072 combinations in both, the first taken whole", Comparison::Refused(22)),
        ("131,072 combinations taken whole by a wider term", Comparison::Refused(22)),
        ("131,072 combinations taken whole, last a term that fails", Comparison::Refused(22)),
        ("131,072 combinations beside the impossible concept", Comparison::Refused(22)),
        ("131,072 combinations in a term without conjuncts", Comparison::Differs(2, 1, 1, 5)),
        ("131,072 combinations behind a role that reaches any", Comparison::Differs(2, 1, 1, 10)),
        ("131,072 combinations behind 15 roles that reach any", Comparison::Differs(2, 1, 1, 80)),
    ];
    for (name, answer) in compared {
        assert_eq!(comparison(name), answer, "{name}");
    }
    assert_eq!(checked("model of 700,005 words"), Checked::Yes);
    assert_eq!(checked("model of 700,010 words"), Checked::Refused(31));
    assert_eq!(checked("dense model of one role"), Checked::Yes);
    assert_eq!(checked("dense model, deep policies"), Checked::Yes);
}

#[test]
fn random_cases_reach_every_refusal_of_every_operation() {
    let walk = |first: u32| [first, first + 1, first + 2];
    let mut missing: Vec<BTreeSet<u32>> = ORDERS
        .iter()
        .map(|order| {
            let stages = order.iter().copied();
            stages
                .flat_map(|stage| if stage % 10 == 6 { walk(stage).to_vec() } else { vec![stage] })
                .collect()
        })
        .collect();
    for seed in 0..6_000 {
        let family = if seed % 2 == 0 { Family::Damaged } else { Family::Faulty };
        for (missing, refused) in missing.iter_mut().zip(refusals(&Case::generate(family, seed))) {
            refused.map(|number| missing.remove(&number));
        }
    }
    assert!(missing.iter().all(BTreeSet::is_empty), "never reached: {missing:?}");
}

#[test]
fn the_program_refuses_40() {
    let bytes = base().bytes();
    let forty = b"refused 40\n";
    assert_eq!(program(&[]), forty);
    for length in 0..bytes.len() {
        assert_eq!(program(&bytes[..length]), forty, "{length} bytes");
    }
    let mut longer = bytes.clone();
    longer.push(0);
    assert_eq!(program(&longer), forty);
    assert_ne!(program(&bytes), forty);
    assert_eq!(program(&[255; 400]), forty);
    let case = base();
    // Exactly 65,536 bytes are legal; a part too long for its table is 1, 4 or 14.
    let long = |length: usize| vec![0; length];
    let room = 65_536 / 4 - 3;
    let rest = room - case.v.len();
    let full = bytes_of_parts(&case.v, &long(rest - 6), &long(6));
    assert_eq!((full.len(), program(&full)), (65_536, b"refused 4\n".to_vec()));
    let over = bytes_of_parts(&case.v, &long(rest - 5), &long(6));
    assert_eq!(program(&over), forty);
    assert_eq!(program(&bytes_of_parts(&long(room), &[], &[])), b"refused 1\n");
    assert_eq!(program(&bytes_of_parts(&[], &[], &[])), b"refused 1\n");
    assert_eq!(
        program(&bytes_of_parts(&case.v, &case.p, &long(rest - case.p.len()))),
        b"refused 14\n"
    );
}

#[test]
fn the_program_refuses_23() {
    let case_of = |name: &str| limits::cases().into_iter().find(|(own, _)| *own == name).unwrap().1;
    assert_eq!(program(&case_of("countermodel of 16,385 words").bytes()), b"refused 23\n");
    let printed = program(&case_of("countermodel of 16,380 words").bytes());
    assert_eq!(printed.iter().filter(|&&byte| byte == b'\n').count(), 3_276);
}
