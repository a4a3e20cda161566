//! Every operation against the literal one, slices and all, on seeded random cases.

mod common;

use common::literal::{self, Way};
use reasoner::random::{damage, limits, Case, Family, Rng};
use reasoner::*;
use std::fmt::Debug;

/// What an operation answers, and what it leaves in the slices.
#[derive(PartialEq)]
struct Told<A> {
    answer: A,
    work: Vec<u32>,
    out: Vec<u32>,
}

/// The slices as they are lent, made once for a case.
struct Lent {
    work: Vec<u32>,
    out: Vec<u32>,
}

impl Lent {
    fn of(case: &Case) -> Self {
        Self { work: case.work(), out: case.out() }
    }

    fn to<A>(&self, operation: impl FnOnce(&mut [u32], &mut [u32]) -> A) -> Told<A> {
        let (mut work, mut out) = (self.work.clone(), self.out.clone());
        let answer = operation(&mut work, &mut out);
        Told { answer, work, out }
    }

    /// The library's verdict and the literal one.
    fn verdicts(&self, way: Way, Case { v, p, q, .. }: &Case) -> [Told<Verdict>; 2] {
        [
            self.to(|work, out| compliance(v, p, q, work, out)),
            self.to(|work, out| literal::compliance(way, v, p, q, work, out)),
        ]
    }

    /// The library's comparison and the literal one.
    fn comparisons(&self, way: Way, Case { v, p, q, .. }: &Case) -> [Told<Comparison>; 2] {
        [
            self.to(|work, out| equality(v, p, q, work, out)),
            self.to(|work, out| literal::equality(way, v, p, q, work, out)),
        ]
    }
}

/// Both tell the same.
fn hold<A: PartialEq + Debug>([ours, literal]: [Told<A>; 2], say: impl Fn() -> String) {
    assert_eq!(ours.answer, literal.answer, "{}", say());
    assert!(ours == literal, "{}", say());
}

/// Compares all operations on one case; the literal one lists every combination, so cases with
/// very many to try are read only.
fn agree(case: &Case, most: u128, what: &str) {
    let Case { v, p, q, m, .. } = case;
    let say = || format!("{what}\n{case}");
    assert_eq!(read_vocabulary(v), literal::read_vocabulary(v), "{}", say());
    assert_eq!(read_policy(v, p), literal::read_policy(v, p, 4), "{}", say());
    assert_eq!(read_second_policy(v, q), literal::read_policy(v, q, 14), "{}", say());
    let lent = Lent::of(case);
    let possible = lent.to(|work, _| possible(v, p, work));
    hold([possible, lent.to(|work, _| literal::possible(v, p, work))], say);
    let spelled = lent.to(|work, out| spell(v, p, work, out));
    hold([spelled, lent.to(|work, out| literal::spell(v, p, work, out))], say);
    let checked = lent.to(|work, _| model_check(v, p, q, m, work));
    hold([checked, lent.to(|work, _| literal::model_check(v, p, q, m, work))], say);
    if literal::work_of(Way::Short, v, p, q) <= most {
        hold(lent.verdicts(Way::Short, case), say);
        hold(lent.comparisons(Way::Short, case), say);
    }
}

fn run(family: Family, seeds: std::ops::Range<u64>) {
    for seed in seeds {
        agree(&Case::generate(family, seed), 5_000, &format!("{family:?} {seed}"));
    }
}

#[test]
fn tiny() {
    run(Family::Tiny, 0..1_000);
}

#[test]
fn small() {
    run(Family::Small, 0..2_000);
}

#[test]
fn medium() {
    run(Family::Medium, 0..300);
}

#[test]
fn merges() {
    run(Family::Merges, 0..2_000);
}

#[test]
fn coverage() {
    run(Family::Coverage, 0..2_500);
}

#[test]
fn boxes() {
    run(Family::Boxes, 0..2_500);
}

#[test]
fn hierarchy() {
    run(Family::Hierarchy, 0..1_000);
}

#[test]
fn crowded() {
    run(Family::Crowded, 0..1_500);
}

#[test]
fn damaged() {
    run(Family::Damaged, 0..4_000);
    run(Family::Faulty, 0..1_000);
    run(Family::Garbage, 0..2_000);
}

#[test]
fn the_program() {
    let mut forties = 0;
    let families =
        [Family::Small, Family::Merges, Family::Coverage, Family::Damaged, Family::Garbage];
    for seed in 0..3_000 {
        let case = Case::generate(families[seed as usize % 5], seed);
        let bytes = damage::program_bytes(&mut Rng::new(seed), &case);
        if literal::work_of(Way::Short, &case.v, &case.p, &case.q) > 5_000 {
            continue;
        }
        let printed = literal::program(&bytes);
        assert_eq!(String::from_utf8(program(&bytes)).unwrap(), printed, "{seed}\n{case}");
        forties += u32::from(printed == "refused 40\n");
    }
    assert!(forties > 200, "{forties}");
}

#[test]
fn limit_cases_that_the_literal_one_can_do() {
    const TOO_SLOW: [&str; 4] = [
        "dense model, deep policies",
        "dense model of one role",
        "512 individuals in 256 classes",
        "512 policy records in one term",
    ];
    for (name, case) in limits::cases() {
        if !TOO_SLOW.contains(&name) {
            agree(&case, 65_536, name);
        }
    }
}

/// What trying the combinations alone tells where the short way tells, and how often.
#[derive(Debug, Default)]
struct Compared {
    /// The same, with two combinations or more to try.
    same: u32,
    /// 22, where the short way has these.
    compliant: u32,
    equal: u32,
    different: u32,
    /// 22, which the short way does not spare.
    refused: u32,
}

impl Compared {
    fn compare(&mut self, case: &Case, what: &str) {
        let Case { v, p, q, .. } = case;
        let combinations = literal::work_of(Way::Split, v, p, q);
        if combinations > 5_000 {
            return;
        }
        let spared = combinations > 1 && literal::work_of(Way::Short, v, p, q) == 0;
        let say = || format!("{what}\n{case}");
        let lent = Lent::of(case);
        let [short, split] = lent.verdicts(Way::Split, case);
        match (&split.answer, &short.answer) {
            (Verdict::Refused(22), Verdict::Refused(22)) => self.refused += 1,
            (Verdict::Refused(22), Verdict::Compliant) => self.compliant += 1,
            (answer, _) => {
                self.same += u32::from(spared && *answer == Verdict::Compliant);
                hold([short, split], say);
            }
        }
        let [short, split] = lent.comparisons(Way::Split, case);
        match (&split.answer, &short.answer) {
            (Comparison::Refused(22), Comparison::Refused(22)) => self.refused += 1,
            (Comparison::Refused(22), Comparison::Equal) => self.equal += 1,
            // 23 is told of a difference.
            (Comparison::Refused(22), Comparison::Differs(..) | Comparison::Refused(23)) => {
                self.different += 1;
            }
            (answer, _) => {
                self.same += u32::from(spared && *answer == Comparison::Equal);
                hold([short, split], say);
            }
        }
    }
}

#[test]
fn the_short_way_changes_nothing_but_22() {
    let mut seen = Compared::default();
    let families = [
        Family::Tiny,
        Family::Small,
        Family::Merges,
        Family::Coverage,
        Family::Boxes,
        Family::Crowded,
    ];
    for family in families {
        for seed in 50_000..51_000 {
            seen.compare(&Case::generate(family, seed), &format!("{family:?} {seed}"));
        }
    }
    let Compared { same, compliant, equal, different, refused } = seen;
    assert!(same > 500 && refused > 150, "{seen:?}");
    assert!(compliant > 100 && equal > 50 && different > 40, "{seen:?}");
}

/// For a long run by hand: `cargo test --release --test literal -- --ignored`. The cases at a limit
/// are left out: the literal model check is exponential on dense models.
#[test]
#[ignore = "takes a minute or two"]
fn long_run() {
    for seed in (0..100_000).filter(|seed| seed % 1_009 != 1_008) {
        agree(&Case::any(seed), 2_000, &format!("any {seed}"));
    }
}
