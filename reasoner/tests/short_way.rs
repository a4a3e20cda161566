//! Pairs of about 65,536 combinations and of more: the cases at the limit and the random ones go
//! every way that there is, by the short way and past it, and are answered so.

mod common;

use common::literal::{
    has_too_many, is_short, lines, most_combinations, read_three, Kb, Line, Lines, Simple, C,
};
use reasoner::random::{limits, Case, Family};
use reasoner::*;
use std::collections::BTreeMap;

/// A pair with both directions counted, without the library, and the library's answers in slices
/// that are long enough.
struct Pair {
    kb: Kb,
    left: Vec<Simple>,
    right: Vec<Simple>,
    forth: Lines,
    back: Lines,
    verdict: Verdict,
    comparison: Comparison,
}

/// The short way succeeds, beyond 65,536 combinations.
fn is_taken(lines: &Lines) -> bool {
    has_too_many(lines) && is_short(lines)
}

/// The short way fails, beyond 65,536 combinations.
fn is_refused(lines: &Lines) -> bool {
    has_too_many(lines) && !is_short(lines)
}

fn has_impossible(lines: &Lines) -> bool {
    lines.iter().any(Option::is_none)
}

impl Pair {
    fn of(case: &Case) -> Self {
        let Case { v, p, q, .. } = case;
        let (kb, left, right) = read_three(v, p, q).expect("tables that can be read");
        let (mut work, mut out) = (vec![0; FULL_WORK], vec![0; 100_000]);
        Self {
            forth: lines(&kb, &left, &right),
            back: lines(&kb, &right, &left),
            verdict: compliance(v, p, q, &mut work, &mut out),
            comparison: equality(v, p, q, &mut work, &mut out),
            kb,
            left,
            right,
        }
    }

    /// The answers are such as the counts leave open.
    fn hold(&self, what: &str) {
        let Self { forth, back, verdict, comparison, .. } = self;
        let expected = match verdict {
            Verdict::Refused(number) => *number == 22 && is_refused(forth),
            Verdict::Compliant => !is_refused(forth),
            Verdict::Outside(..) => !is_refused(forth) && !is_short(forth),
        };
        assert!(expected, "{what}: {verdict:?}");
        let refused = is_refused(forth) || is_refused(back);
        let complies = !refused && *verdict == Verdict::Compliant;
        let expected = match *comparison {
            Comparison::Refused(number) => number == 22 && refused,
            Comparison::Differs(1, s, q, words) => {
                !refused && *verdict == Verdict::Outside(s, q, words)
            }
            Comparison::Differs(..) => complies && !is_short(back),
            Comparison::Equal => complies,
        };
        assert!(expected, "{what}: {verdict:?}, {comparison:?}");
    }

    fn is_outside(&self) -> bool {
        matches!(self.verdict, Verdict::Outside(..))
    }

    /// The place of the term that fails, where only one does and another, of too many combinations,
    /// is taken.
    fn only_failing(&self) -> Option<usize> {
        let fails = |line: &Option<Line>| line.as_ref().is_some_and(|line| line.takers.is_empty());
        let first = self.forth.iter().position(fails)?;
        let only = self.forth.iter().rposition(fails) == Some(first);
        (only && self.takers().next().is_some()).then_some(first)
    }

    /// For each term of too many combinations that passes whole, the terms that take it.
    fn takers(&self) -> impl Iterator<Item = Vec<&Simple>> {
        let taken = |line: &&Line| line.combinations > 65_536 && !line.takers.is_empty();
        let lines = self.forth.iter().flatten().filter(taken);
        lines.map(|line| line.takers.iter().map(|&at| &self.right[at]).collect())
    }

    /// Is a term of too many combinations taken by such terms alone?
    fn is_taken_by(&self, is_such: fn(&Simple) -> bool) -> bool {
        is_taken(&self.forth) && self.takers().any(|takers| takers.into_iter().all(is_such))
    }

    fn one_takes_all(&self) -> bool {
        let all = |at| self.forth.iter().flatten().all(|line| line.takers.contains(&at));
        (0..self.right.len()).any(all)
    }

    /// Is it for such conjuncts of the second policy that the short way fails?
    fn is_refused_by(&self, is_such: fn(&C) -> bool) -> bool {
        let right: Vec<Simple> = self.right.iter().map(|one| without(one, is_such)).collect();
        is_refused(&self.forth) && is_short(&lines(&self.kb, &self.left, &right))
    }

    /// Does the short way succeed because something is functional?
    fn is_merged(&self) -> bool {
        is_taken(&self.forth) && !is_short(&lines(&self.kb.many_valued(), &self.left, &self.right))
    }
}

fn without(simple: &Simple, is_such: fn(&C) -> bool) -> Simple {
    let inside = |one: &C| match one {
        C::Some(role, inner) => C::Some(*role, without(inner, is_such)),
        other => other.clone(),
    };
    simple.iter().filter(|one| !is_such(one)).map(inside).collect()
}

/// Is nothing asked behind some role?
fn reaches_any(simple: &Simple) -> bool {
    let any = |one: &C| matches!(one, C::Some(_, inner) if inner.is_empty() || reaches_any(inner));
    simple.iter().any(any)
}

/// A way, how many of 3,000 random pairs go it at least, and which pairs do.
type Way = (&'static str, u32, fn(&Pair) -> bool);

const WAYS: [Way; 22] = [
    ("compliant", 500, |pair| is_taken(&pair.forth)),
    ("equal", 200, |pair| is_taken(&pair.forth) && is_taken(&pair.back)),
    ("22, the first term fails", 25, |pair| pair.only_failing() == Some(0)),
    ("22, a term between fails", 25, |pair| {
        pair.only_failing().is_some_and(|at| at > 0 && at + 1 < pair.forth.len())
    }),
    ("22, the last term fails", 25, |pair| {
        pair.only_failing().is_some_and(|at| at + 1 == pair.forth.len())
    }),
    ("22 with an impossible term", 25, |pair| {
        pair.only_failing().is_some() && has_impossible(&pair.forth)
    }),
    ("compliant with an impossible term", 100, |pair| {
        is_taken(&pair.forth) && has_impossible(&pair.forth)
    }),
    ("side 1, the second is taken", 50, |pair| pair.is_outside() && is_taken(&pair.back)),
    ("22, the first differs", 25, |pair| pair.is_outside() && is_refused(&pair.back)),
    ("side 2, the first is taken", 100, |pair| {
        is_taken(&pair.forth) && matches!(pair.comparison, Comparison::Differs(2, ..))
    }),
    ("22, the first is taken", 100, |pair| is_taken(&pair.forth) && is_refused(&pair.back)),
    ("taken by no conjuncts", 50, |pair| pair.is_taken_by(Simple::is_empty)),
    ("taken by a role that reaches any", 40, |pair| pair.is_taken_by(reaches_any)),
    ("22 by the impossible concept", 20, |pair| pair.is_refused_by(|one| *one == C::Bot)),
    ("22 by lo above hi", 25, |pair| {
        pair.is_refused_by(|one| matches!(one, C::In(_, lo, hi) if lo > hi))
    }),
    ("each by another", 200, |pair| is_taken(&pair.forth) && !pair.one_takes_all()),
    ("once merged", 10, Pair::is_merged),
    ("65,536, compliant", 200, |pair| {
        most_combinations(&pair.forth) == 65_536 && is_short(&pair.forth)
    }),
    ("65,536, split", 100, |pair| {
        most_combinations(&pair.forth) == 65_536 && !is_short(&pair.forth)
    }),
    // No random pair has as many.
    ("65,538, compliant", 0, |pair| {
        most_combinations(&pair.forth) == 65_538 && is_short(&pair.forth)
    }),
    ("65,538, 22", 0, |pair| most_combinations(&pair.forth) == 65_538 && is_refused(&pair.forth)),
    ("covered together", 10, |pair| {
        let most = most_combinations(&pair.forth);
        most > 10_000 && !is_short(&pair.forth) && pair.verdict == Verdict::Compliant
    }),
];

/// Holds the cases, and counts how many go each way.
fn gone(cases: impl Iterator<Item = (String, Case)>) -> BTreeMap<&'static str, u32> {
    let mut gone = BTreeMap::new();
    for (name, case) in cases {
        let pair = Pair::of(&case);
        pair.hold(&name);
        for (way, _, goes) in WAYS {
            *gone.entry(way).or_default() += u32::from(goes(&pair));
        }
    }
    gone
}

#[test]
fn the_cases_at_the_limit_go_every_way() {
    let cases = limits::cases().into_iter().filter(|(name, _)| name.contains("combinations"));
    let gone = gone(cases.map(|(name, case)| (name.to_owned(), case)));
    assert!(gone.values().all(|&times| times > 0), "{gone:?}");
}

#[test]
fn random_pairs_go_every_way() {
    let crowded = |seed| (format!("crowded {seed}"), Case::generate(Family::Crowded, seed));
    let gone = gone((0..3_000).map(crowded));
    assert!(WAYS.into_iter().all(|(way, least, _)| gone[way] >= least), "{gone:?}");
}

/// Each term of a policy is inside itself, its spans whole and merged: no policy is refused beside itself.
#[test]
fn a_policy_goes_the_short_way_against_itself() {
    let random = (0..3_000).map(Case::any);
    let (mut work, mut out) = (vec![0; FULL_WORK], vec![0; 0]);
    let mut crowded = 0;
    for case in limits::cases().into_iter().map(|(_, case)| case).chain(random) {
        let Case { v, p, .. } = &case;
        let Ok((kb, left, right)) = read_three(v, p, p) else { continue };
        crowded += u32::from(has_too_many(&lines(&kb, &left, &right)));
        assert_eq!(equality(v, p, p, &mut work, &mut out), Comparison::Equal, "{case}");
    }
    assert!(crowded > 50, "{crowded} with too many combinations");
}
