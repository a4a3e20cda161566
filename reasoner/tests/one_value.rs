//! One value unless said otherwise: kinds 6 and 7 of a vocabulary, what is functional by default, and
//! 44, in every operation.

mod common;

use common::literal::{normal_form, read_kb, read_simple_policies, Kb};
use common::{c, desk_vocabulary, f, r, words, work};
use reasoner::encode::vocabulary_words;
use reasoner::policy::Term;
use reasoner::random::damage::base;
use reasoner::random::{models, Case, Family, Rng};
use reasoner::vocabulary::Vocabulary;
use reasoner::*;

/// The words of a vocabulary of 4 classes, 3 roles and 2 features with these records, chained in their
/// order.
fn stating(records: &[[u32; 3]]) -> Vec<u32> {
    let mut v = vec![4, 3, 2, u32::from(!records.is_empty())];
    for (&[kind, a, b], own) in records.iter().zip(1..) {
        v.extend([kind, a, b, if own == records.len() as u32 { 0 } else { own + 1 }]);
    }
    v
}

fn reading(records: &[[u32; 3]]) -> Reading {
    read_vocabulary(&stating(records))
}

#[test]
fn kinds_6_and_7_are_read() {
    let accepted: [&[[u32; 3]]; 8] = [
        &[[6, 1, 0]],
        &[[6, 3, 0]],
        &[[7, 1, 0]],
        &[[7, 2, 0]],
        &[[6, 3, 0], [7, 2, 0], [6, 1, 0]],
        // Twice is legal, also of what is functional.
        &[[6, 1, 0], [6, 1, 0], [7, 1, 0], [7, 1, 0]],
        &[[3, 1, 0], [3, 1, 0], [6, 2, 0], [6, 3, 0], [4, 1, 0], [7, 2, 0]],
        // A role and a feature of one number have nothing to do with each other.
        &[[3, 1, 0], [7, 1, 0], [4, 2, 0], [6, 2, 0]],
    ];
    for records in accepted {
        assert_eq!(reading(records), Reading::Accepted, "{records:?}");
    }
    let wrong = [
        [6, 0, 0],
        [6, 4, 0],
        [6, 1, 1],
        [7, 0, 0],
        [7, 3, 0],
        [7, 1, 1],
        [8, 1, 0],
        [8, 1, 1],
        [0, 1, 0],
        [u32::MAX, 1, 0],
    ];
    for record in wrong {
        assert_eq!(reading(&[record]), Reading::Refused(3), "{record:?}");
    }
}

#[test]
fn a_name_both_ways_is_44() {
    let both: [&[[u32; 3]]; 6] = [
        &[[3, 1, 0], [6, 1, 0]],
        &[[6, 1, 0], [3, 1, 0]],
        &[[4, 2, 0], [7, 2, 0]],
        &[[7, 2, 0], [4, 2, 0]],
        &[[6, 3, 0], [1, 2, 1], [5, 3, 1], [7, 1, 0], [6, 3, 0], [3, 3, 0]],
        &[[3, 1, 0], [3, 2, 0], [6, 2, 0], [4, 1, 0], [7, 1, 0]],
    ];
    for records in both {
        assert_eq!(reading(records), Reading::Refused(44), "{records:?}");
        // The whole chain is read for 3 first, wherever the fault stands.
        for place in 0..=records.len() {
            let mut faulty = records.to_vec();
            faulty.insert(place, [8, 1, 0]);
            assert_eq!(reading(&faulty), Reading::Refused(3), "{faulty:?}");
        }
    }
}

#[test]
fn records_that_no_link_reaches_say_nothing() {
    // Record 1 is passed over.
    let over = |first: [u32; 4], second: [u32; 4]| [vec![4, 3, 2, 2], first.into(), second.into()];
    let apart = [vec![f(1, 0, 4), f(1, 6, 9)], vec![r(1, vec![c(1)]), r(1, vec![c(3)])]];
    for (first, second) in [([6, 1, 0, 2], [3, 1, 0, 0]), ([3, 1, 0, 2], [6, 1, 0, 0])] {
        assert_eq!(read_vocabulary(&over(first, second).concat()), Reading::Accepted);
    }
    let unreached = over([7, 1, 0, 2], [2, 1, 3, 0]).concat();
    assert_eq!(possible(&unreached, &words(&apart), &mut work()), Possibility::Impossible);
    let reached = over([7, 1, 0, 2], [7, 1, 0, 0]).concat();
    assert_eq!(possible(&reached, &words(&apart), &mut work()), Possibility::Possible(1));
}

/// Everything that the operations answer to a case, with what they leave in the slices.
fn answers(case: &Case) -> impl PartialEq + std::fmt::Debug {
    let Case { v, p, q, m, .. } = case;
    let (mut work, mut out) = (case.work(), case.out());
    let verdict = compliance(v, p, q, &mut work, &mut out);
    let complied = (verdict, work, out);
    let (mut work, mut out) = (case.work(), case.out());
    let comparison = equality(v, p, q, &mut work, &mut out);
    let compared = (comparison, work, out);
    let (mut work, mut out) = (case.work(), case.out());
    let spelling = spell(v, p, &mut work, &mut out);
    let spelled = (spelling, work, out);
    let readings = [read_vocabulary(v), read_policy(v, p), read_second_policy(v, q)];
    let possibility = possible(v, p, &mut case.work());
    let checked = model_check(v, p, q, m, &mut case.work());
    (readings, possibility, complied, compared, spelled, checked, program(&case.bytes()))
}

#[test]
fn every_operation_refuses_44_and_writes_nothing() {
    let mut case = base();
    // Role 3 is many-valued, and role 1 functional; 21, 23 and faults of the policies come behind.
    case.v[13] = 3;
    let broken = Case { p: vec![], q: vec![], m: vec![], work_len: 0, out_len: 0, ..case.clone() };
    for case in [case, broken] {
        let Case { v, p, q, m, .. } = &case;
        assert_eq!(read_vocabulary(v), Reading::Refused(44));
        assert_eq!(read_policy(v, p), Reading::Refused(44));
        assert_eq!(read_second_policy(v, q), Reading::Refused(44));
        let (mut work, mut out) = (case.work(), case.out());
        assert_eq!(possible(v, p, &mut work), Possibility::Refused(44));
        assert_eq!(compliance(v, p, q, &mut work, &mut out), Verdict::Refused(44));
        assert_eq!(equality(v, p, q, &mut work, &mut out), Comparison::Refused(44));
        assert_eq!(model_check(v, p, q, m, &mut work), Checked::Refused(44));
        assert_eq!(spell(v, p, &mut work, &mut out), Filling::Refused(44));
        assert!(work == case.work() && out == case.out());
        // The program tells 40 before.
        let mut bytes = case.bytes();
        assert_eq!(program(&bytes), b"refused 44\n");
        bytes.push(0);
        assert_eq!(program(&bytes), b"refused 40\n");
    }
}

#[test]
fn what_nothing_is_stated_of_has_one_value() {
    let can_be = |records: &[[u32; 3]], term: &Term| {
        let p = words(std::slice::from_ref(term));
        possible(&stating(records), &p, &mut work()) == Possibility::Possible(1)
    };
    let disjoint = [2, 1, 3];
    let two_roles = vec![r(2, vec![c(1)]), r(2, vec![c(3)])];
    assert!(!can_be(&[disjoint], &two_roles));
    assert!(!can_be(&[disjoint, [3, 2, 0]], &two_roles));
    assert!(!can_be(&[disjoint, [6, 1, 0], [7, 2, 0]], &two_roles));
    assert!(can_be(&[disjoint, [6, 2, 0]], &two_roles));
    let two_spans = vec![f(2, 0, 4), f(2, 6, 9)];
    assert!(!can_be(&[], &two_spans));
    assert!(!can_be(&[[4, 2, 0]], &two_spans));
    assert!(!can_be(&[[7, 1, 0], [6, 2, 0]], &two_spans));
    assert!(can_be(&[[7, 2, 0]], &two_spans));
    // At every depth: of what a many-valued role reaches.
    let deep = vec![r(1, vec![r(2, vec![r(2, vec![c(1)]), r(2, vec![c(3)])])])];
    assert!(!can_be(&[disjoint, [6, 1, 0]], &deep));
    assert!(can_be(&[disjoint, [6, 2, 0]], &deep));
}

#[test]
fn the_desks_role_3_is_many_valued() {
    let v = desk_vocabulary(true);
    assert_eq!(v.len(), 40);
    assert_eq!(v[28..], [4, 1, 0, 8, 5, 3, 1, 9, 6, 3, 0, 0]);
    let apart = words(&[vec![r(3, vec![c(2)]), r(3, vec![f(1, 3, 3)])]]);
    let together = words(&[vec![r(3, vec![c(2), f(1, 3, 3)])]]);
    let decide = |v: &[u32]| compliance(v, &apart, &together, &mut work(), &mut [0; 100]);
    assert_eq!(decide(&v), Verdict::Outside(1, 1, 35));
    // Without its last record.
    let mut without = v[..36].to_vec();
    without[35] = 0;
    assert_eq!(decide(&without), Verdict::Compliant);
}

#[test]
fn a_model_keeps_the_default() {
    let p = words(&[vec![c(1)]]);
    let q = words(&[vec![c(2)]]);
    let check = |records: &[[u32; 3]], facts: &[[u32; 4]]| {
        let mut all = vec![[1, 1, 1, 0]];
        all.extend(facts);
        model_check(&stating(records), &p, &q, &models::words(3, &all), &mut work())
    };
    let two_edges = [[2, 3, 2, 1], [2, 3, 2, 3]];
    assert_eq!(check(&[], &two_edges), Checked::No);
    assert_eq!(check(&[[3, 3, 0]], &two_edges), Checked::No);
    assert_eq!(check(&[[6, 1, 0], [7, 2, 0]], &two_edges), Checked::No);
    assert_eq!(check(&[[6, 3, 0]], &two_edges), Checked::Yes);
    let two_values = [[3, 2, 3, 7], [3, 2, 3, 8]];
    assert_eq!(check(&[], &two_values), Checked::No);
    assert_eq!(check(&[[4, 2, 0]], &two_values), Checked::No);
    assert_eq!(check(&[[7, 1, 0], [6, 2, 0]], &two_values), Checked::No);
    assert_eq!(check(&[[7, 2, 0]], &two_values), Checked::Yes);
    // One value that is said twice, and a value each of several individuals, roles and features.
    let one = [[2, 3, 2, 1], [2, 3, 2, 1], [3, 2, 3, 7], [3, 2, 3, 7]];
    assert_eq!(check(&[], &one), Checked::Yes);
    let each = [[2, 3, 1, 1], [2, 3, 2, 1], [2, 2, 2, 3], [3, 2, 3, 7], [3, 2, 1, 8], [3, 1, 3, 9]];
    assert_eq!(check(&[], &each), Checked::Yes);
    // What lifts the default asks for no second value.
    assert_eq!(check(&[[6, 3, 0], [7, 2, 0]], &one), Checked::Yes);
}

/// The families whose cases are valid stand first.
fn valid_families() -> impl Iterator<Item = Family> {
    Family::ALL.into_iter().take_while(|&family| family != Family::Limits)
}

/// "An interpretation keeps this default as if a record stated it": so nothing changes where one does.
#[test]
fn to_state_the_default_changes_no_answer() {
    let mut rng = Rng::new(3);
    for family in valid_families() {
        let mut more = 0;
        for seed in 60_000..60_400 {
            let case = Case::generate(family, seed);
            let read = Vocabulary::read(&case.v).unwrap();
            let mut axioms = read.axioms.clone();
            let unsaid = read.said_in_owl();
            axioms.extend(unsaid.iter().filter(|axiom| !read.axioms.contains(axiom)));
            more += u32::from(axioms.len() > read.axioms.len());
            // Said again, what is many-valued is so.
            if let Some(&again) = read.axioms.first() {
                axioms.push(again);
            }
            rng.shuffle(&mut axioms);
            let v = vocabulary_words(&Vocabulary { axioms, ..read });
            let stated = Case { v, ..case.clone() };
            assert_eq!(answers(&case), answers(&stated), "{family:?} {seed}\n{case}");
        }
        assert!(more > 100, "{family:?}: {more}");
    }
}

/// How many of 600 cases have a term whose normal form is another if names are said otherwise.
fn merged_otherwise(family: Family, otherwise: impl Fn(&Kb) -> Kb) -> usize {
    let depends = |seed: &u64| {
        let case = Case::generate(family, *seed);
        let kb = read_kb(&case.v).unwrap();
        let other = otherwise(&kb);
        let terms = [(&case.p, 4), (&case.q, 14)]
            .map(|(words, base)| read_simple_policies(&kb, words, base).unwrap());
        terms.iter().flatten().any(|term| normal_form(&kb, term) != normal_form(&other, term))
    };
    (0..600).filter(depends).count()
}

/// In every family it matters what is functional by default, by a record, and not at all.
#[test]
fn every_family_has_names_of_each_kind() {
    let only_stated = |kb: &Kb| {
        let mut kb = kb.clone();
        let stated = kb.axioms.clone();
        let unsaid = |kind: u32, name: u32| !stated.contains(&(kind, name, 0));
        kb.axioms.extend((1..=kb.r).filter(|&role| unsaid(3, role)).map(|role| (6, role, 0)));
        kb.axioms.extend((1..=kb.f).filter(|&name| unsaid(4, name)).map(|name| (7, name, 0)));
        kb
    };
    let but_stated = |kb: &Kb| {
        let mut kb = kb.clone();
        kb.axioms.iter_mut().for_each(|axiom| {
            axiom.0 = match axiom.0 {
                3 => 6,
                4 => 7,
                kind => kind,
            }
        });
        kb
    };
    let all_functional = |kb: &Kb| {
        let mut kb = kb.clone();
        kb.axioms.retain(|&(kind, ..)| kind != 6 && kind != 7);
        kb
    };
    let mut seen = Vec::new();
    for family in valid_families() {
        let counts = [
            merged_otherwise(family, only_stated),
            merged_otherwise(family, but_stated),
            merged_otherwise(family, all_functional),
        ];
        seen.push((family, counts));
    }
    let enough = |[default, stated, many]: [usize; 3]| default > 20 && stated > 10 && many > 20;
    assert!(seen.iter().all(|(_, counts)| enough(*counts)), "{seen:?}");
}
