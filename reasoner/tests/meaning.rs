//! Answers against the meaning alone: interpretations evaluated by the definitions.

mod common;

use common::literal::{read_kb, read_simple_policies, Kb, Simple, C};
use common::meaning::Interpretation;
use reasoner::random::{Case, Family, Rng};
use reasoner::*;

/// A case that can be decided, read without the library.
struct Question {
    case: Case,
    kb: Kb,
    left: Vec<Simple>,
    right: Vec<Simple>,
}

/// A valid case of the family, with slices long enough for every answer.
fn question(family: Family, seed: u64) -> Question {
    let mut case = Case::generate(family, seed);
    case.work_len = FULL_WORK;
    case.out_len = 100_000;
    let kb = read_kb(&case.v).expect("the vocabulary is valid");
    let left = read_simple_policies(&kb, &case.p, 4).expect("the first policy is valid");
    let right = read_simple_policies(&kb, &case.q, 14).expect("the second policy is valid");
    Question { case, kb, left, right }
}

fn decide(case: &Case) -> (Verdict, Vec<u32>) {
    let mut out = case.out();
    let verdict = compliance(&case.v, &case.p, &case.q, &mut case.work(), &mut out);
    (verdict, out)
}

const FAMILIES: [Family; 7] = [
    Family::Small,
    Family::Merges,
    Family::Coverage,
    Family::Boxes,
    Family::Hierarchy,
    Family::Crowded,
    Family::Medium,
];

/// How many cases of each family.
fn seeds(family: Family) -> std::ops::Range<u64> {
    if family == Family::Medium {
        10_000..10_150
    } else {
        10_000..11_000
    }
}

#[test]
fn every_countermodel_refutes() {
    let mut outside = 0;
    for family in FAMILIES {
        for seed in seeds(family) {
            let Question { case, kb, left, right } = question(family, seed);
            let (Verdict::Outside(s, _, words), out) = decide(&case) else { continue };
            outside += 1;
            let m = &out[..words as usize];
            let model = Interpretation::read(&kb, m).expect("a countermodel can be read back");
            let of_s = std::slice::from_ref(&left[s as usize - 1]);
            assert!(model.satisfies(&kb), "{family:?} {seed}\n{case}");
            assert!(model.is_in(1, of_s) && !model.is_in(1, &right), "{family:?} {seed}\n{case}");
            let checked = model_check(&case.v, &case.p, &case.q, m, &mut case.work());
            assert_eq!(checked, Checked::Yes, "{family:?} {seed}\n{case}");
        }
    }
    assert!(outside > 1_000, "only {outside} cases are outside");
}

#[test]
fn every_difference_refutes_on_its_side() {
    let mut sides = [0; 2];
    for family in FAMILIES {
        for seed in seeds(family) {
            let Question { case, kb, left, right } = question(family, seed);
            let mut out = case.out();
            let compared = equality(&case.v, &case.p, &case.q, &mut case.work(), &mut out);
            let Comparison::Differs(side, s, _, words) = compared else { continue };
            sides[side as usize - 1] += 1;
            let model = Interpretation::read(&kb, &out[..words as usize]).unwrap();
            let (inside, beyond) = if side == 1 { (&left, &right) } else { (&right, &left) };
            let of_s = std::slice::from_ref(&inside[s as usize - 1]);
            assert!(model.satisfies(&kb), "{family:?} {seed}\n{case}");
            assert!(model.is_in(1, of_s) && !model.is_in(1, beyond), "{family:?} {seed}\n{case}");
        }
    }
    assert!(sides[0] > 1_000 && sides[1] > 1_000, "sides {sides:?}");
}

/// Does some individual of a random interpretation around the first policy's terms refute?
fn refuted(rng: &mut Rng, question: &Question, tries: u32) -> bool {
    let Question { kb, left, right, .. } = question;
    left.iter().any(|simple| {
        (0..tries).any(|_| {
            let model = Interpretation::random_around(rng, kb, simple);
            model.satisfies(kb)
                && (1..=model.n).any(|x| model.is_in(x, left) && !model.is_in(x, right))
        })
    })
}

#[test]
fn no_interpretation_refutes_what_is_compliant() {
    let mut rng = Rng::new(5);
    let (mut compliant, mut outside, mut found) = (0, 0, 0);
    for family in FAMILIES {
        for seed in seeds(family) {
            let question = question(family, seed);
            match decide(&question.case).0 {
                Verdict::Compliant => {
                    compliant += 1;
                    let refuted = refuted(&mut rng, &question, 20);
                    assert!(!refuted, "{family:?} {seed}\n{}", question.case);
                }
                Verdict::Outside(..) => {
                    outside += 1;
                    found += u32::from(refuted(&mut rng, &question, 20));
                }
                Verdict::Refused(number) => assert_eq!(number, 22, "{family:?} {seed}"),
            }
        }
    }
    // The search has the power to refute: it does so where the answer is "outside".
    assert!(compliant > 1_000 && found * 10 > outside * 7, "{compliant} {found} of {outside}");
}

/// All interpretations of one or two individuals, two classes, one role, and values 0 to 2 of one
/// feature, one bit for each thing that can be so.
#[derive(Clone, Copy, Debug)]
struct Tiny {
    n: u32,
    bits: u32,
}

impl Tiny {
    fn all() -> impl Iterator<Item = Tiny> {
        let of = |n: u32| (0..1u32 << (2 * n + n * n + 3 * n)).map(move |bits| Tiny { n, bits });
        of(1).chain(of(2))
    }

    fn bit(self, at: u32) -> bool {
        self.bits >> at & 1 == 1
    }

    fn member(self, class: u32, x: u32) -> bool {
        self.bit((class - 1) * self.n + x)
    }

    fn edge(self, x: u32, y: u32) -> bool {
        self.bit(2 * self.n + x * self.n + y)
    }

    fn value(self, x: u32, value: u32) -> bool {
        value < 3 && self.bit(2 * self.n + self.n * self.n + 3 * x + value)
    }

    fn satisfies(self, kb: &Kb) -> bool {
        let individuals = 0..self.n;
        let one_edge = || {
            individuals
                .clone()
                .all(|x| individuals.clone().filter(|&y| self.edge(x, y)).count() < 2)
        };
        let one_value = || {
            individuals.clone().all(|x| (0..3).filter(|&value| self.value(x, value)).count() < 2)
        };
        let stated = kb.axioms.iter().all(|&(kind, a, b)| match kind {
            1 => individuals.clone().all(|x| !self.member(a, x) || self.member(b, x)),
            2 => individuals.clone().all(|x| !(self.member(a, x) && self.member(b, x))),
            3 => one_edge(),
            4 => one_value(),
            5 => individuals
                .clone()
                .all(|y| self.member(b, y) || !(0..self.n).any(|x| self.edge(x, y))),
            _ => true,
        });
        // A vocabulary without the role or the feature asks nothing of it, and no policy speaks of it.
        let default = (kb.r == 0 || !kb.is_functional_role(1) || one_edge())
            && (kb.f == 0 || !kb.is_functional_feature(1) || one_value());
        stated && default
    }

    fn is_in(self, x: u32, policy: &[Simple]) -> bool {
        policy.iter().any(|simple| self.all_hold(x, simple))
    }

    fn all_hold(self, x: u32, simple: &Simple) -> bool {
        simple.iter().all(|conjunct| match conjunct {
            C::Name(a) => self.member(*a, x),
            C::Bot => false,
            C::In(_, lo, hi) => {
                (0..3).any(|value| lo <= &value && &value <= hi && self.value(x, value))
            }
            C::Some(_, inner) => (0..self.n).any(|y| self.edge(x, y) && self.all_hold(y, inner)),
        })
    }
}

#[test]
fn tiny_cases_by_exhaustive_search() {
    let (mut compliant, mut outside, mut larger) = (0, 0, 0);
    for seed in 0..1_500 {
        let Question { case, kb, left, right } = question(Family::Tiny, seed);
        let refuting = Tiny::all()
            .find(|one| one.is_in(0, &left) && !one.is_in(0, &right) && one.satisfies(&kb));
        let (verdict, out) = decide(&case);
        match verdict {
            Verdict::Compliant => {
                compliant += 1;
                assert!(refuting.is_none(), "seed {seed}: {refuting:?}\n{case}");
            }
            Verdict::Outside(..) if out[1] <= 2 => {
                outside += 1;
                assert!(refuting.is_some(), "seed {seed}\n{case}");
            }
            Verdict::Outside(..) => larger += 1,
            Verdict::Refused(number) => panic!("refused {number}"),
        }
    }
    assert!(compliant > 300 && outside > 500 && larger < 200, "{compliant} {outside} {larger}");
}

#[test]
fn tiny_possibility_by_exhaustive_search() {
    let (mut possible_ones, mut impossible_ones) = (0, 0);
    for seed in 0..1_500 {
        let Question { case, kb, left, .. } = question(Family::Tiny, seed);
        let has_model =
            |simple: &Simple| Tiny::all().any(|one| one.all_hold(0, simple) && one.satisfies(&kb));
        let first = left.iter().position(has_model).map(|at| at as u32 + 1);
        match possible(&case.v, &case.p, &mut case.work()) {
            // A possible term may need three individuals.
            Possibility::Possible(s) => {
                possible_ones += 1;
                assert!(first.is_none_or(|first| first >= s), "seed {seed}\n{case}");
                let roles = left[s as usize - 1].iter().filter(|one| matches!(one, C::Some(..)));
                assert!(first == Some(s) || roles.count() > 1, "seed {seed}\n{case}");
            }
            Possibility::Impossible => {
                impossible_ones += 1;
                assert_eq!(first, None, "seed {seed}\n{case}");
            }
            Possibility::Refused(number) => panic!("refused {number}"),
        }
    }
    assert!(possible_ones > 700 && impossible_ones > 100, "{possible_ones} {impossible_ones}");
}

#[test]
fn tiny_spellings_by_exhaustive_search() {
    let mut changed = 0;
    for seed in 0..1_500 {
        let Question { case, kb, left, .. } = question(Family::Tiny, seed);
        let mut out = case.out();
        let answer = spell(&case.v, &case.p, &mut case.work(), &mut out);
        let Filling::Written(words) = answer else { panic!("seed {seed}: {answer:?}") };
        let spelled = read_simple_policies(&kb, &out[..words as usize], 4).unwrap();
        changed += u32::from(spelled != left);
        let apart = Tiny::all()
            .find(|one| one.is_in(0, &left) != one.is_in(0, &spelled) && one.satisfies(&kb));
        assert!(apart.is_none(), "seed {seed}: {apart:?}\n{case}");
    }
    assert!(changed > 700, "{changed}");
}

#[test]
fn models_are_checked_by_meaning() {
    let mut answers = [0; 2];
    for family in FAMILIES {
        for seed in seeds(family) {
            let Question { case, kb, left, right } = question(family, seed);
            let expected = match Interpretation::read(&kb, &case.m) {
                Err(number) => Checked::Refused(number),
                Ok(model) => {
                    let yes =
                        model.satisfies(&kb) && model.is_in(1, &left) && !model.is_in(1, &right);
                    answers[usize::from(yes)] += 1;
                    if yes {
                        Checked::Yes
                    } else {
                        Checked::No
                    }
                }
            };
            let checked = model_check(&case.v, &case.p, &case.q, &case.m, &mut case.work());
            assert_eq!(checked, expected, "{family:?} {seed}\n{case}");
        }
    }
    assert!(answers[0] > 500 && answers[1] > 500, "no and yes {answers:?}");
}
