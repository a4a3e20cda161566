//! The one spelling of a policy: every reading, every refusal and their order; what holds of it on
//! seeded random inputs; and the inputs that the generators make.

mod common;

use common::literal::{self, read_kb, read_simple_policies, Kb, Simple, C};
use common::meaning::Interpretation;
use common::{c, desk_vocabulary, f, many_valued, r, words};
use reasoner::encode::walk_order;
use reasoner::policy::Term;
use reasoner::random::damage::{put_both, Fault};
use reasoner::random::spelling::directed::{self, Directed};
use reasoner::random::spelling::repeats::{disguised, rearranged};
use reasoner::random::spelling::shrink::shrink;
use reasoner::random::spelling::{damage, slow, Family, Spelling};
use reasoner::random::Rng;
use reasoner::*;
use std::collections::{BTreeMap, BTreeSet};

/// The refusals in their order; walk faults are one stage.
const ORDER: [u32; 10] = [1, 2, 3, 44, 4, 5, 6, 21, 43, 23];

/// The words of the spelling, or the number of the refusal. The work slice is cleared by a result
/// and by what comes after 21, and by nothing else; all other words are as they were.
fn told(input: &Spelling) -> Result<Vec<u32>, u32> {
    let (mut work, mut out) = (input.work(), input.out());
    let answer = match spell(&input.v, &input.p, &mut work, &mut out) {
        Filling::Written(words) => Ok(words as usize),
        Filling::Refused(number) => Err(number),
    };
    let mut expected = input.work();
    if matches!(answer, Ok(_) | Err(43 | 23)) {
        expected[..FULL_WORK].fill(0);
    }
    assert!(work == expected, "work\n{input}");
    let written = answer.unwrap_or(0);
    assert_eq!(out[written..], input.out()[written..], "{input}");
    out.truncate(written);
    answer.map(|_| out)
}

/// The same with slices that are long enough.
fn spelled(v: &[u32], p: &[u32]) -> Result<Vec<u32>, u32> {
    told(&Spelling::of(v.to_vec(), p.to_vec()))
}

/// The terms of an accepted policy, read without the library.
fn read(v: &[u32], p: &[u32]) -> (Kb, Vec<Simple>) {
    let kb = read_kb(v).unwrap();
    let terms = read_simple_policies(&kb, p, 4).unwrap();
    (kb, terms)
}

// ---- every reading and every limit

#[test]
fn every_directed_input_has_its_answer() {
    for Directed { name, input, answer } in directed::inputs() {
        assert_eq!(told(&input), answer, "{name}\n{input}");
    }
}

#[test]
fn directed_inputs_have_every_answer_and_none_is_there_twice() {
    let all = directed::inputs();
    let numbers: BTreeSet<u32> = all.iter().filter_map(|one| one.answer.clone().err()).collect();
    assert_eq!(numbers, BTreeSet::from([1, 2, 3, 4, 5, 6, 7, 8, 21, 23, 43, 44]));
    let names: BTreeSet<&str> = all.iter().map(|one| one.name.as_str()).collect();
    let inputs: BTreeSet<_> = all
        .iter()
        .map(|Directed { input, .. }| (&input.v, &input.p, input.work_len, input.out_len))
        .collect();
    assert_eq!((names.len(), inputs.len()), (all.len(), all.len()));
}

/// What a directed input writes is spelled as it is, and by the literal one too.
#[test]
fn directed_answers_are_spelled_so() {
    let mut written = 0;
    for Directed { name, input, answer } in directed::inputs() {
        let Ok(words) = answer else { continue };
        written += 1;
        assert_eq!(spelled(&input.v, &words).as_ref(), Ok(&words), "{name}");
        let mut out = vec![0; words.len()];
        let again = literal::spell(&input.v, &words, &mut input.work(), &mut out);
        assert_eq!((again, &out), (Filling::Written(words.len() as u32), &words), "{name}");
    }
    assert!(written > 50, "{written}");
}

/// The terms of one policy in every order, and its conjuncts, at two depths.
#[test]
fn every_order_of_a_policy_is_spelled_alike() {
    let orders: [[usize; 3]; 6] =
        [[0, 1, 2], [0, 2, 1], [1, 0, 2], [1, 2, 0], [2, 0, 1], [2, 1, 0]];
    let put = |order: [usize; 3], items: [Term; 3]| -> Vec<Term> {
        order.iter().map(|&at| items[at].clone()).collect()
    };
    let v = desk_vocabulary(false);
    let mut all = BTreeSet::new();
    for outer in orders {
        for middle in orders {
            for inner in orders {
                let inside =
                    put(inner, [vec![c(2)], vec![f(1, 3, 4)], vec![r(1, vec![])]]).concat();
                let conjuncts = [vec![r(3, inside)], vec![f(1, 0, 9)], vec![r(2, vec![c(3)])]];
                let terms = put(outer, [put(middle, conjuncts).concat(), vec![c(1)], vec![]]);
                all.insert(spelled(&v, &words(&terms)));
            }
        }
    }
    let inside = vec![c(1), c(2), f(1, 3, 4), r(1, vec![])];
    let whole = vec![f(1, 0, 9), r(2, vec![c(3)]), r(3, inside)];
    assert_eq!(all, BTreeSet::from([Ok(words(&[vec![], vec![c(1)], whole]))]));
}

/// 3,078 words are enough for every spelling, and are needed for one of 512 records.
#[test]
fn the_longest_spelling() {
    let term: Term = (0..511).map(|at| f(1, at, at)).collect();
    let mut input = Spelling::of(many_valued(1, 0, 1), words(&[term]));
    assert_eq!(told(&input), Ok(input.p.clone()));
    assert_eq!(input.p.len(), 3_078);
    input.out_len = 3_077;
    assert_eq!(told(&input), Err(23));
}

// ---- refusals

#[test]
fn the_base_is_spelled_in_36_words() {
    let input = Spelling::from(damage::base());
    let terms = [vec![c(2), r(1, vec![c(1), f(1, 0, 9)])]];
    assert_eq!(told(&input), Ok(words(&terms)));
    assert_eq!(words(&terms).len(), 36);
}

/// The first of the faults in the order.
fn expected(faults: &[Fault]) -> u32 {
    let of_stage = |stage: &u32| faults.iter().find(|fault| fault.stage() == *stage);
    ORDER.iter().find_map(of_stage).expect("a stage of the order").number
}

#[test]
fn one_fault() {
    let mut numbers = BTreeSet::new();
    for fault in damage::faults() {
        let mut case = damage::base();
        case.work_len = FULL_WORK + 3;
        (fault.apply)(&mut case);
        assert_eq!(told(&Spelling::from(case)), Err(fault.number), "{}", fault.name);
        numbers.insert(fault.number);
    }
    assert_eq!(numbers, BTreeSet::from([1, 2, 3, 4, 5, 6, 7, 8, 21, 23, 43, 44]));
}

#[test]
fn two_faults_give_the_earlier() {
    let all = damage::faults();
    let mut pairs = 0;
    for &first in &all {
        for &second in &all {
            let mut case = damage::base();
            if put_both(&mut case, first, second) {
                pairs += 1;
                let what = format!("{} and {}", first.name, second.name);
                let expected = Err(expected(&[first, second]));
                assert_eq!(told(&Spelling::from(case)), expected, "{what}");
            }
        }
    }
    assert!(pairs > 1_000, "{pairs}");
}

// ---- what holds of every spelling

const VALID: [Family; 8] = [
    Family::Plain,
    Family::Repeats,
    Family::Ranges,
    Family::Merges,
    Family::Mixed,
    Family::Nearly,
    Family::Impossible,
    Family::Limits,
];

/// Inputs of every family, with slices that are long enough.
fn inputs(seeds: std::ops::Range<u64>) -> impl Iterator<Item = (String, Spelling)> {
    Family::ALL.into_iter().flat_map(move |family| {
        seeds.clone().map(move |seed| {
            let Spelling { v, p, .. } = Spelling::generate(family, seed);
            (format!("{family:?} {seed}"), Spelling::of(v, p))
        })
    })
}

#[test]
fn a_spelling_is_a_policy_and_spelled_so() {
    let mut written = 0;
    for (name, input) in inputs(0..1_500) {
        let Ok(words) = told(&input) else { continue };
        written += 1;
        assert_eq!(read_policy(&input.v, &words), Reading::Accepted, "{name}\n{input}");
        // Its records are numbered in walk order, and none is left over.
        let order: Vec<u32> = (1..words.len() as u32 / 6).collect();
        assert_eq!(walk_order(&words), order, "{name}\n{input}");
        // Into an output that is exactly long enough.
        let again = Spelling { p: words.clone(), out_len: words.len(), ..input.clone() };
        assert_eq!(told(&again), Ok(words), "{name}\n{input}");
    }
    assert!(written > 9_000, "{written}");
}

/// The short way takes each to the other, so that 22 never stands in the way.
#[test]
fn a_spelling_equals_its_policy() {
    let (mut written, mut changed) = (0, 0);
    let (mut work, mut out) = (vec![0; FULL_WORK], []);
    for (name, Spelling { v, p, .. }) in inputs(2_000..3_500) {
        let Ok(words) = spelled(&v, &p) else { continue };
        written += 1;
        changed += u32::from(words != p);
        assert_eq!(equality(&v, &p, &words, &mut work, &mut out), Comparison::Equal, "{name}");
    }
    assert!(written > 9_000 && changed > 8_000, "{written} {changed}");
}

#[test]
fn other_orders_and_repeats_are_spelled_alike() {
    let mut rng = Rng::new(3);
    let (mut written, mut refused, mut more) = (0, 0, 0);
    for (name, input) in inputs(4_000..5_500) {
        let answer = told(&input);
        for make in [rearranged, disguised] {
            let Some(p) = make(&mut rng, &input.v, &input.p) else {
                assert!(matches!(answer, Err(1..=8 | 44)), "{name}\n{input}");
                continue;
            };
            let other = Spelling { p, ..input.clone() };
            more += u32::from(other.p.len() > input.p.len());
            assert_eq!(told(&other), answer, "{name}\n{input}\n{other}");
            match answer {
                Ok(_) => written += 1,
                Err(number) => {
                    assert_eq!(number, 43, "{name}");
                    refused += 1;
                }
            }
        }
    }
    assert!(written > 18_000 && refused > 1_000 && more > 10_000, "{written} {refused} {more}");
}

#[test]
fn what_no_link_reaches_has_no_effect() {
    let mut rng = Rng::new(9);
    let mut changed = 0;
    for seed in 6_000..7_000 {
        let input = Spelling::generate(Family::Mixed, seed);
        let mut other = input.clone();
        let reached = walk_order(&input.p);
        for (number, record) in other.p.chunks_mut(6).enumerate().skip(1) {
            if !reached.contains(&(number as u32)) {
                record.fill_with(|| rng.word());
                changed += 1;
            }
        }
        assert_eq!(told(&input), told(&other), "{seed}\n{input}");
    }
    assert!(changed > 300, "{changed}");
}

/// Slices and all, on the families of spelling; `literal` does so for the others.
#[test]
fn as_the_literal_one() {
    let mut seen = BTreeMap::new();
    for family in Family::ALL {
        // The literal one is slow on many records, and where there are many ranges.
        let is_slow = matches!(family, Family::Impossible | Family::Limits);
        for seed in 10_000..if is_slow { 10_010 } else { 13_000 } {
            let input = Spelling::generate(family, seed);
            if input.p.len() > 1_500 && !is_slow {
                continue;
            }
            let (mut work, mut out) = (input.work(), input.out());
            let (mut other_work, mut other_out) = (input.work(), input.out());
            let ours = spell(&input.v, &input.p, &mut work, &mut out);
            let other = literal::spell(&input.v, &input.p, &mut other_work, &mut other_out);
            assert_eq!(ours, other, "{family:?} {seed}\n{input}");
            assert!(out == other_out && work == other_work, "{family:?} {seed}\n{input}");
            let number = if let Filling::Refused(number) = ours { number } else { 0 };
            *seen.entry(number).or_insert(0) += 1;
        }
    }
    let all = [0, 1, 2, 3, 4, 5, 6, 7, 8, 21, 23, 43, 44];
    assert!(all.iter().all(|number| seen.get(number).is_some_and(|&times| times > 20)), "{seen:?}");
}

// ---- meaning

/// In every interpretation that satisfies the vocabulary the same individuals are in both.
#[test]
fn no_interpretation_tells_a_spelling_apart() {
    let mut rng = Rng::new(5);
    let (mut inside, mut outside) = (0u32, 0u32);
    for family in VALID {
        for seed in 20_000..20_400 {
            let Spelling { v, p, .. } = Spelling::generate(family, seed);
            let Ok(words) = spelled(&v, &p) else { continue };
            let (kb, given) = read(&v, &p);
            let (_, written) = read(&v, &words);
            for simple in given.iter().chain(&written).take(8) {
                let model = Interpretation::random_around(&mut rng, &kb, simple);
                if !model.satisfies(&kb) {
                    continue;
                }
                for x in 1..=model.n {
                    let is_in = model.is_in(x, &given);
                    assert_eq!(is_in, model.is_in(x, &written), "{family:?} {seed}: {model:?}");
                    *(if is_in { &mut inside } else { &mut outside }) += 1;
                }
            }
        }
    }
    assert!(inside > 5_000 && outside > 5_000, "{inside} {outside}");
}

/// The search has the power to tell apart: it does where a conjunct or a term of the spelling is
/// left out.
#[test]
fn interpretations_tell_apart_what_is_left_out() {
    let mut rng = Rng::new(6);
    let (mut different, mut found) = (0, 0);
    for seed in 20_000..20_400 {
        let Spelling { v, p, .. } = Spelling::generate(Family::Mixed, seed);
        let Ok(words) = spelled(&v, &p) else { continue };
        let (kb, given) = read(&v, &p);
        let (_, mut written) = read(&v, &words);
        let place = rng.place(written.len().max(1));
        match written.get_mut(place) {
            Some(term) if !term.is_empty() => drop(term.remove(rng.place(term.len()))),
            Some(_) => drop(written.remove(place)),
            None => continue,
        }
        let other = simple_words(&written);
        let (mut work, mut out) = (vec![0; FULL_WORK], vec![0; 100_000]);
        if equality(&v, &p, &other, &mut work, &mut out) == Comparison::Equal {
            continue;
        }
        different += 1;
        let all: Vec<Simple> = given.iter().chain(&written).cloned().collect();
        found += u32::from((0..20).any(|_| {
            let simple = rng.pick(&all);
            let model = Interpretation::random_around(&mut rng, &kb, simple);
            let tells = |x| model.is_in(x, &given) != model.is_in(x, &written);
            model.satisfies(&kb) && (1..=model.n).any(tells)
        }));
    }
    assert!(different > 100 && found * 10 > different * 5, "{found} of {different}");
}

fn simple_words(terms: &[Simple]) -> Vec<u32> {
    fn conjuncts(simple: &Simple) -> Term {
        simple
            .iter()
            .map(|one| match one {
                C::Name(a) => c(*a),
                C::Bot => policy::Conjunct::Nothing,
                C::Some(role, inner) => r(*role, conjuncts(inner)),
                C::In(feature, lo, hi) => f(*feature, *lo, *hi),
            })
            .collect()
    }
    words(&terms.iter().map(conjuncts).collect::<Vec<_>>())
}

// ---- the generators

/// How many inputs have each answer; 0 stands for words.
fn answers(inputs: impl Iterator<Item = Spelling>) -> BTreeMap<u32, u32> {
    let mut seen = BTreeMap::new();
    for input in inputs {
        *seen.entry(told(&input).map_or_else(|number| number, |_| 0)).or_default() += 1;
    }
    seen
}

#[test]
fn every_family_has_the_answers_that_it_is_for() {
    // Of 2,000 inputs, at least so many are written, and refused with 43, 23, 21 and by a reader.
    let least = [
        (Family::Plain, [900, 0, 250, 100, 300]),
        (Family::Repeats, [1_200, 30, 350, 100, 0]),
        (Family::Ranges, [1_200, 30, 350, 100, 0]),
        (Family::Merges, [1_200, 30, 350, 100, 0]),
        (Family::Mixed, [1_200, 30, 350, 100, 0]),
        (Family::Nearly, [1_200, 0, 350, 100, 0]),
        (Family::Impossible, [1_000, 300, 250, 100, 0]),
        (Family::Limits, [800, 500, 200, 100, 0]),
        (Family::Damaged, [100, 1, 40, 10, 1_500]),
        (Family::Faulty, [0, 10, 4, 10, 1_800]),
        (Family::Garbage, [150, 0, 40, 10, 1_500]),
    ];
    assert_eq!(least.map(|(family, _)| family), Family::ALL);
    let had = least.map(|(family, _)| {
        let seen = answers((0..2_000).map(|seed| Spelling::generate(family, seed)));
        let of = |number| seen.get(&number).copied().unwrap_or(0);
        (family, [of(0), of(43), of(23), of(21), (1..=8).chain([44]).map(of).sum()])
    });
    let enough = |had: [u32; 5], least: [u32; 5]| (0..5).all(|at| had[at] >= least[at]);
    assert!(had.iter().zip(least).all(|(had, least)| enough(had.1, least.1)), "{had:#?}");
}

#[test]
fn the_mix_has_every_answer() {
    let seen = answers((0..20_000).map(Spelling::any));
    for number in [0, 1, 2, 3, 44, 4, 5, 6, 7, 8, 21, 43, 23] {
        assert!(seen.get(&number).is_some_and(|&times| times >= 5), "{number}: {seen:?}");
    }
}

#[test]
fn a_seed_makes_one_input() {
    for family in Family::ALL {
        for seed in 0..50 {
            assert_eq!(Spelling::generate(family, seed), Spelling::generate(family, seed));
        }
    }
}

/// A chain with its conjuncts in some order, the same at every depth, and no repeat dropped.
fn ordered(simple: &Simple) -> Simple {
    let inside = |one: &C| match one {
        C::Some(role, inner) => C::Some(*role, ordered(inner)),
        other => other.clone(),
    };
    let mut all: Vec<C> = simple.iter().map(inside).collect();
    all.sort_by_key(|one| format!("{one:?}"));
    all
}

/// How many different roles there are among the conjuncts, of those that are not functional.
fn distinct(kb: &Kb, simple: &Simple) -> usize {
    let apart = |one: &&C| matches!(one, C::Some(role, _) if !kb.is_functional_role(*role));
    let all: BTreeSet<String> = simple.iter().filter(apart).map(|one| format!("{one:?}")).collect();
    all.len()
}

/// The vocabulary without its ranges.
fn without_ranges(kb: &Kb) -> Kb {
    let mut kb = kb.clone();
    kb.axioms.retain(|&(kind, ..)| kind != 5);
    kb
}

/// The spelling of one term; none where it is impossible.
fn one_term(kb: &Kb, simple: &Simple) -> Option<Simple> {
    literal::spelling(kb, std::slice::from_ref(simple)).pop()
}

/// The greatest depth at which a role stands twice once it is spelled, and is dropped; 0 if none
/// does.
fn deepest_repeat(simple: &Simple, kb: &Kb) -> u32 {
    let Some(form) = literal::normal_form(kb, simple) else { return 0 };
    fn of(kb: &Kb, chain: &Simple) -> u32 {
        // Neither a range nor a merge, so that what is equal is so by itself.
        let plain = without_ranges(&kb.many_valued());
        let mut seen = BTreeSet::new();
        let mut deepest = 0;
        for one in chain {
            let C::Some(_, inner) = one else { continue };
            let again = one_term(&plain, &vec![one.clone()]);
            if !seen.insert(format!("{again:?}")) {
                deepest = deepest.max(1);
            }
            let below = of(kb, inner);
            deepest = if below > 0 { deepest.max(below + 1) } else { deepest };
        }
        deepest
    }
    of(kb, &form)
}

/// Of 500 inputs of a family, how many have roles side by side that are equal only once they are
/// put in order, once their repeats are dropped, by a range, by a merge; equal terms; and how many
/// have equal roles so deep.
#[derive(Debug, Default)]
struct Seen {
    by_order: u32,
    by_dropping: u32,
    by_range: u32,
    by_merge: u32,
    terms: u32,
    depths: [u32; 17],
}

impl Seen {
    fn of(family: Family) -> Self {
        let mut seen = Self::default();
        for seed in 0..500 {
            seen.count(&Spelling::generate(family, seed));
        }
        seen
    }

    fn count(&mut self, Spelling { v, p, .. }: &Spelling) {
        let (kb, terms) = read(v, p);
        let has = |test: &dyn Fn(&Simple) -> Option<bool>| {
            u32::from(terms.iter().any(|term| test(term) == Some(true)))
        };
        let roles = |simple: &Simple| distinct(&kb, simple);
        let form = |simple: &Simple| literal::normal_form(&kb, simple);
        let own = |simple: &Simple| one_term(&kb, simple);
        self.by_order += has(&|term| Some(roles(&form(term)?) > roles(&ordered(&form(term)?))));
        self.by_dropping += has(&|term| Some(roles(&ordered(&form(term)?)) > roles(&own(term)?)));
        let no_range = without_ranges(&kb);
        self.by_range += has(&|term| Some(roles(&one_term(&no_range, term)?) > roles(&own(term)?)));
        let no_merge = kb.many_valued();
        self.by_merge += has(&|term| Some(roles(&one_term(&no_merge, term)?) > roles(&own(term)?)));
        let possible = terms.iter().filter(|term| form(term).is_some()).count();
        self.terms += u32::from(possible > literal::spelling(&kb, &terms).len());
        let deepest = terms.iter().map(|term| deepest_repeat(term, &kb)).max().unwrap_or(0);
        self.depths[deepest as usize] += 1;
    }
}

#[test]
fn repeats_are_of_every_kind() {
    for family in [Family::Repeats, Family::Ranges, Family::Merges, Family::Mixed] {
        let seen = Seen::of(family);
        let Seen { by_order, by_dropping, by_range, by_merge, terms, depths } = seen;
        assert!(by_order > 15 && by_dropping > 25 && terms > 100, "{family:?}: {seen:?}");
        let ranges = matches!(family, Family::Ranges | Family::Mixed);
        let merges = matches!(family, Family::Merges | Family::Mixed);
        assert!(!ranges || by_range > 10, "{family:?}: {seen:?}");
        assert!(!merges || by_merge > 5, "{family:?}: {seen:?}");
        let deeper = [&depths[1..2], &depths[2..3], &depths[3..4], &depths[4..12], &depths[12..]];
        let enough = deeper.iter().all(|some| some.iter().sum::<u32>() > 15);
        assert!(enough, "{family:?}: {seen:?}");
    }
}

/// By which field of a record two chains are told apart; 5 is by their length.
fn first_difference(first: &Simple, second: &Simple) -> usize {
    let [first, second] = [first, second].map(|chain| literal::rows(chain, 1));
    let differ = first.iter().zip(&second).find(|(a, b)| a != b);
    differ.map_or(5, |(a, b)| (0..5).find(|&at| a[at] != b[at]).unwrap())
}

/// Counts by which fields the roles that stand side by side are told apart, at every depth.
fn count_differences(chain: &Simple, seen: &mut [u32; 6]) {
    for pair in chain.windows(2) {
        if let [C::Some(role, first), C::Some(other, second)] = pair {
            if role == other {
                seen[first_difference(first, second)] += 1;
            }
        }
    }
    for one in chain {
        if let C::Some(_, inner) = one {
            count_differences(inner, seen);
        }
    }
}

/// Terms and roles are told apart by each field of a record, and by their length.
#[test]
fn what_is_nearly_equal_differs_in_every_field() {
    let (mut terms, mut roles) = ([0; 6], [0; 6]);
    for seed in 0..1_000 {
        let Spelling { v, p, .. } = Spelling::generate(Family::Nearly, seed);
        let (kb, given) = read(&v, &p);
        let all = literal::spelling(&kb, &given);
        for pair in all.windows(2) {
            terms[first_difference(&pair[0], &pair[1])] += 1;
        }
        for term in &all {
            count_differences(term, &mut roles);
        }
    }
    assert!(terms.iter().chain(&roles).all(|&times| times > 20), "{terms:?} {roles:?}");
}

/// Terms that are impossible by each case of 6.4, alone and beside others, some of them with what
/// would be too deep or too long.
#[test]
fn impossible_terms_are_of_every_kind() {
    let (mut alone, mut beside, mut deep, mut long) = (0, 0, 0, 0);
    let mut reasons = [0; 3];
    for seed in 0..1_000 {
        let Spelling { v, p, .. } = Spelling::generate(Family::Impossible, seed);
        let (kb, terms) = read(&v, &p);
        let is_possible = |term: &Simple| {
            let p = simple_words(std::slice::from_ref(term));
            possible(&v, &p, &mut [0; FULL_WORK]) == Possibility::Possible(1)
        };
        let (some, dropped): (Vec<Simple>, Vec<Simple>) =
            terms.into_iter().partition(|term| is_possible(term));
        let Ok(words) = spelled(&v, &p) else { continue };
        alone += u32::from(words == [0; 6]);
        beside += u32::from(!some.is_empty());
        for term in dropped {
            let rows = literal::rows(&term, 1);
            let ranges = kb.axioms.iter().filter(|axiom| axiom.0 == 5 && axiom.1 == 4).count();
            let ranged = rows.iter().filter(|row| row[..2] == [3, 4]).count();
            deep += u32::from(rows.iter().any(|row| row[..2] == [3, 3] && row[4] == 16));
            long += u32::from(ranged * ranges > 512);
            // The impossible concept; a span, but for those that only fill; classes.
            let fills = |row: &[u32; 5]| row[1] == 2 && row[2] == row[3];
            let reason = if rows.iter().any(|row| row[0] == 2) {
                0
            } else if rows.iter().any(|row| row[0] == 4 && !fills(row)) {
                1
            } else {
                2
            };
            reasons[reason] += 1;
        }
    }
    assert!(
        alone > 200 && beside > 200 && deep > 200 && long > 50,
        "{alone} {beside} {deep} {long}"
    );
    assert!(reasons.iter().all(|&times| times > 200), "{reasons:?}");
}

/// The limits are reached from both sides, and by the deep and the long.
#[test]
fn limits_are_reached_and_passed() {
    let mut lengths = BTreeMap::new();
    let (mut deepest, mut too_deep, mut too_long) = (0, 0, 0);
    for seed in 0..1_000 {
        let Spelling { v, p, .. } = Spelling::generate(Family::Limits, seed);
        // A role with ranges stands 16 deep in the first possible term.
        let has_deep_ranges = |s: u32| {
            let term = &read(&v, &p).1[s as usize - 1];
            literal::rows(term, 1).iter().any(|row| row[..2] == [3, 1] && row[4] == 16)
        };
        match spelled(&v, &p) {
            Ok(words) => {
                *lengths.entry(words.len() / 6 - 1).or_insert(0) += 1;
                let (_, terms) = read(&v, &words);
                let rows = terms.iter().flat_map(|term| literal::rows(term, 1));
                deepest += u32::from(rows.map(|row| row[4]).max() == Some(16));
            }
            Err(number) => {
                assert_eq!(number, 43);
                let Possibility::Possible(s) = possible(&v, &p, &mut [0; FULL_WORK]) else {
                    panic!("{seed}: nothing is written")
                };
                *(if has_deep_ranges(s) { &mut too_deep } else { &mut too_long }) += 1;
            }
        }
    }
    assert!([510, 511, 512].iter().all(|length| lengths[length] > 30), "{lengths:?}");
    assert!(lengths.keys().all(|&length| length <= 512), "{lengths:?}");
    assert!(deepest > 30 && too_deep > 30 && too_long > 100, "{deepest} {too_deep} {too_long}");
}

/// Other orders are really other orders.
#[test]
fn rearranged_policies_differ() {
    let mut rng = Rng::new(4);
    let mut other = [0; 2];
    for seed in 0..1_000 {
        let Spelling { v, p, .. } = Spelling::generate(Family::Mixed, seed);
        let (_, terms) = read(&v, &p);
        for (times, make) in other.iter_mut().zip([rearranged, disguised]) {
            let p = make(&mut rng, &v, &p).expect("the tables are valid");
            let (_, changed) = read(&v, &p);
            *times += u32::from(changed != terms);
        }
    }
    assert!(other.iter().all(|&times| times > 800), "{other:?}");
    // Where there is no room the order alone is another, at every depth.
    let inner = |at| (0..50).map(|value| f(1, at, value)).collect();
    let term: Term = (0..10).map(|at| r(1, inner(at))).chain([c(1)]).collect();
    let (v, p) = (many_valued(1, 1, 1), words(&[term]));
    assert_eq!(p.len(), 6 * 513);
    let (_, given) = read(&v, &p);
    let (_, changed) = read(&v, &rearranged(&mut rng, &v, &p).unwrap());
    assert_eq!(ordered(&changed[0]), ordered(&given[0]));
    let chains = |simple: &Simple| -> Vec<Simple> {
        let inner = |one: &C| if let C::Some(_, inner) = one { Some(inner.clone()) } else { None };
        simple.iter().filter_map(inner).collect()
    };
    let (given, changed) = (chains(&given[0]), chains(&changed[0]));
    assert!(changed.iter().all(|chain| !given.contains(chain)));
    let roles = |chains: &[Simple]| -> Vec<Simple> { chains.iter().map(ordered).collect() };
    assert_ne!(roles(&changed), roles(&given));
}

/// A slow input has the refusal that its name ends in, or is written; and all but six trees have at
/// least 400 records.
#[test]
fn slow_inputs_are_what_their_names_say() {
    let mut small = 0;
    let all = slow::inputs();
    let names: BTreeSet<&String> = all.iter().map(|(name, _)| name).collect();
    let inputs: BTreeSet<_> = all.iter().map(|(_, input)| (&input.v, &input.p)).collect();
    assert_eq!((names.len(), inputs.len()), (all.len(), all.len()));
    for (name, input) in &all {
        let has = |what| name.contains(what);
        assert_eq!(read_policy(&input.v, &input.p), Reading::Accepted, "{name}");
        let records = input.p.len() / 6 - 1;
        small += u32::from(records < 400);
        let wanted = name.rsplit_once(": ").and_then(|(_, last)| last.parse::<u32>().ok());
        let answer = told(input);
        assert_eq!(answer.clone().err(), wanted, "{name}");
        let Ok(words) = answer else { continue };
        let written = words.len() / 6 - 1;
        if has("differ in the last") {
            assert_eq!(written, records, "{name}");
        }
        // A term, 15 roles and a class; merged, a class for each tree that branches more.
        let branching = if has("the lower 7") { 7 } else { 5 };
        if has("branches") && has(", equal") {
            assert_eq!(written, 17, "{name}");
        }
        if has("branches") && has("merged") {
            assert_eq!(written, 17 + branching, "{name}");
        }
    }
    assert_eq!(small, 6);
}

#[test]
fn shrinking_keeps_what_differs() {
    let mut shrunk = 0;
    for seed in 0..1_000 {
        let input = Spelling::generate(Family::Mixed, seed);
        // Two roles side by side are written, of which the second reaches a class.
        let mut differs = |input: &Spelling| {
            told(input).is_ok_and(|words| {
                let at = |number: u32| &words[6 * number as usize..][..6];
                let mut records = 1..words.len() as u32 / 6;
                records.any(|own| {
                    let (first, second) = (at(own), at(at(own)[5]));
                    first[0] == 3 && first[5] > 0 && second[0] == 3 && at(second[4])[0] == 1
                })
            })
        };
        if differs(&input) {
            let small = shrink(&input, &mut differs);
            assert!(differs(&small));
            // A term, two roles, at most two classes; at most two axioms.
            assert!(small.p.len() <= 36 && small.v.len() <= 12, "{small}");
            assert!(small.out_len <= 48 && small.out_seed == 0 && small.work_seed == 0, "{small}");
            shrunk += 1;
        }
    }
    assert!(shrunk > 20, "{shrunk}");
}

#[test]
fn an_input_prints_itself_as_words() {
    let mut input = Spelling::of(vec![1, 0, 0, 0], vec![0, 0, 0, 0, 0, 0, 7]);
    input.out_len = 6;
    let wanted = "v: 4 words\n     0: 1 0 0 0\np: 7 words\n     0: 0 0 0 0 0 0\n     1: 7\n\
                  work: 16384 words, seed 1\nout: 6 words, seed 2\n";
    assert_eq!(input.to_string(), wanted);
}
