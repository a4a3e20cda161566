//! Loads for rehearsals: the draws, small loads worked out by hand, what holds of every load, the
//! refusals and their order; and the loads that the generators make.

use reasoner::random::rehearsal::directed::{self, Directed};
use reasoner::random::rehearsal::Load;
use reasoner::rehearsal::Draws;
use reasoner::*;
use std::collections::{BTreeMap, BTreeSet};

const MOST_SEED: u32 = 2_147_483_646;

/// The words of a load, or the number of its refusal. All other words of the output are as they were.
fn made(load: &Load) -> Result<Vec<u32>, u32> {
    let lent = load.out();
    let mut out = lent.clone();
    let answer = match rehearse(load.seed, load.classes, load.terms, &mut out) {
        Filling::Written(words) => Ok(words as usize),
        Filling::Refused(number) => Err(number),
    };
    let written = answer.unwrap_or(0);
    assert_eq!(out[written..], lent[written..], "{load}");
    out.truncate(written);
    answer.map(|_| out)
}

// ---- the draws

/// The same generator is C++'s `std::minstd_rand`, of which the standard states this number.
#[test]
fn the_ten_thousandth_draw_from_seed_1() {
    let mut draws = Draws::from(1);
    let drawn: Vec<u32> = (0..10_000).map(|_| draws.draw(2_147_483_647)).collect();
    assert_eq!(drawn[..3], [48_271, 182_605_794, 1_291_394_886]);
    assert_eq!(drawn[9_999], 399_268_537);
}

#[test]
fn every_draw_moves_on() {
    let mut draws = Draws::from(1);
    assert_eq!([1, 1, 100, 1, 100].map(|n| draws.draw(n)), [0, 0, 86, 0, 41]);
}

// ---- by hand

/// The draws are 48271, 182605794, 1291394886, 1914720637, 2078669041 and 407355683.
#[test]
fn one_class_and_one_term() {
    let wanted = [
        [8].as_slice(),
        &[1, 0, 1, 1],
        &[4, 1, 0, 0],
        &[24],
        &[1, 0, 0, 0, 0, 0],
        &[5, 0, 0, 0, 2, 0],
        &[1, 1, 0, 0, 0, 3],
        // 94, and 94 + 86
        &[4, 1, 94, 180, 0, 0],
        &[24],
        &[1, 0, 0, 0, 0, 0],
        &[5, 0, 0, 0, 2, 0],
        &[1, 1, 0, 0, 0, 3],
        // 41, and 41 + 83
        &[4, 1, 41, 124, 0, 0],
    ];
    assert_eq!(made(&Load::of(1, 1, 1)), Ok(wanted.concat()));
}

/// The draws are twice those from seed 1, less 2147483647 where that is in them: 96542 and 365211588;
/// 435306125, 1681957627 and 2009854435; 814711366, 64320675 and 1709433010; 1129173382, 1045878015
/// and 384604742; 259372767, 353173847 and 1329578651.
#[test]
fn three_classes_and_two_terms() {
    let wanted = [
        [16].as_slice(),
        &[3, 0, 1, 1],
        // 96542 mod 1 and 365211588 mod 2
        &[1, 2, 1, 2],
        &[1, 3, 1, 3],
        &[4, 1, 0, 0],
        &[42],
        &[1, 0, 0, 0, 0, 0],
        // 435306125 mod 3 is 2
        &[5, 0, 0, 0, 2, 4],
        &[1, 3, 0, 0, 0, 3],
        &[4, 1, 27, 62, 0, 0],
        // 814711366 mod 3 is 1
        &[5, 0, 0, 0, 5, 0],
        &[1, 2, 0, 0, 0, 6],
        &[4, 1, 75, 85, 0, 0],
        &[42],
        &[1, 0, 0, 0, 0, 0],
        // 1129173382 mod 3 is 1
        &[5, 0, 0, 0, 2, 4],
        &[1, 2, 0, 0, 0, 3],
        &[4, 1, 15, 57, 0, 0],
        // 259372767 mod 3 is 0
        &[5, 0, 0, 0, 5, 0],
        &[1, 1, 0, 0, 0, 6],
        &[4, 1, 47, 98, 0, 0],
    ];
    assert_eq!(made(&Load::of(2, 3, 2)), Ok(wanted.concat()));
}

// ---- what holds of every load

/// Draw number `at` of a seed, counted from 1: the seed times so high a power of 48271.
fn drawn(seed: u32, at: u32, n: u32) -> u32 {
    const MODULUS: u64 = 2_147_483_647;
    let (mut s, mut power, mut left) = (u64::from(seed), 48_271, at);
    while left > 0 {
        if left % 2 == 1 {
            s = s * power % MODULUS;
        }
        power = power * power % MODULUS;
        left /= 2;
    }
    (s % u64::from(n)) as u32
}

/// The words of a load, each by its place.
fn literal(seed: u32, classes: u32, terms: u32) -> Vec<u32> {
    let mut words = vec![4 * (classes + 1), classes, 0, 1, 1];
    for k in 2..=classes {
        words.extend([1, k, 1 + drawn(seed, k - 1, k - 1), k]);
    }
    words.extend([4, 1, 0, 0]);
    for before in [classes - 1, classes - 1 + 3 * terms] {
        words.extend([6 * (3 * terms + 1), 1, 0, 0, 0, 0, 0]);
        for t in 0..terms {
            let draw = |own: u32, n: u32| drawn(seed, before + 3 * t + own, n);
            let next = if t + 1 == terms { 0 } else { 3 * t + 4 };
            let lo = draw(2, 100);
            words.extend([5, 0, 0, 0, 3 * t + 2, next]);
            words.extend([1, 1 + draw(1, classes), 0, 0, 0, 3 * t + 3]);
            words.extend([4, 1, lo, lo + draw(3, 100), 0, 0]);
        }
    }
    words
}

/// What is promised of a load: these words, as many as are told, and three parts that the readers
/// accept and that Compliance decides. The answer is whether the first policy complies.
fn complies(load: &Load) -> bool {
    let &Load { seed, classes, terms, .. } = load;
    let words = made(load).unwrap();
    assert_eq!(words, literal(seed, classes, terms), "{load}");
    assert_eq!(words.len() as u32, 3 + 4 * (classes + 1) + 12 * (3 * terms + 1), "{load}");
    let bytes = bytes_of_words(&words);
    let [v, p, q] = parts_of_bytes(&bytes).unwrap();
    assert_eq!(bytes_of_parts(&v, &p, &q), bytes, "{load}");
    assert_eq!(read_vocabulary(&v), Reading::Accepted, "{load}");
    assert_eq!(read_policy(&v, &p), Reading::Accepted, "{load}");
    assert_eq!(read_second_policy(&v, &q), Reading::Accepted, "{load}");
    let (mut work, mut out) = (vec![0; FULL_WORK], vec![0; FULL_WORK]);
    match compliance(&v, &p, &q, &mut work, &mut out) {
        Verdict::Compliant => true,
        Verdict::Outside(_, _, words) => {
            let model = &out[..words as usize];
            assert_eq!(model_check(&v, &p, &q, model, &mut work), Checked::Yes, "{load}");
            false
        }
        Verdict::Refused(number) => panic!("refused {number}: {load}"),
    }
}

#[test]
fn every_size_is_accepted() {
    let sizes = (1..=256).flat_map(|classes| (1..=100).map(move |terms| (classes, terms)));
    for (at, (classes, terms)) in (0..).zip(sizes) {
        complies(&Load::of(1 + at * 83_647, classes, terms));
    }
}

#[test]
fn loads_of_many_seeds_comply_or_do_not() {
    let mut compliant = 0;
    for at in 0..2_000 {
        for seed in [1 + at, MOST_SEED - at, 1 + at * 1_073_741] {
            compliant += u32::from(complies(&Load::of(seed, 1 + at % 5, 1 + at % 7)));
        }
    }
    assert!((300..5_700).contains(&compliant), "{compliant}");
}

#[test]
fn seeds_make_loads_of_their_own() {
    let loads: BTreeSet<_> = (1..=1_000).map(|seed| made(&Load::of(seed, 4, 4))).collect();
    assert_eq!(loads.len(), 1_000);
}

// ---- refusals

#[test]
fn every_number_out_of_range_is_45_whatever_the_output() {
    let wrong = [
        [0, 1, 1],
        [2_147_483_647, 1, 1],
        [u32::MAX, 1, 1],
        [1, 0, 1],
        [1, 257, 1],
        [1, u32::MAX, 1],
        [1, 1, 0],
        [1, 1, 101],
        [1, 1, u32::MAX],
        [0, 257, 0],
    ];
    for [seed, classes, terms] in wrong {
        for out_len in [0, 58, 5_000] {
            let load = Load { out_len, ..Load::of(seed, classes, terms) };
            assert_eq!(made(&load), Err(45), "{load}");
        }
    }
}

#[test]
fn an_output_that_is_too_short_is_23() {
    for (classes, terms, enough) in [(1, 1, 59), (3, 2, 103), (256, 100, 4_643)] {
        for out_len in [0, 1, enough - 1] {
            let load = Load { out_len, ..Load::of(MOST_SEED, classes, terms) };
            assert_eq!(made(&load), Err(23), "{load}");
        }
        for out_len in [enough, enough + 1, 5_000] {
            let load = Load { out_len, ..Load::of(MOST_SEED, classes, terms) };
            assert_eq!(made(&load), Ok(literal(MOST_SEED, classes, terms)), "{load}");
        }
    }
}

// ---- the generators

#[test]
fn every_directed_load_has_its_answer() {
    for Directed { name, load, answer } in directed::loads() {
        assert_eq!(made(&load).map(|words| words.len()), answer, "{name}");
        if answer.is_ok() {
            complies(&load);
        }
    }
}

#[test]
fn directed_loads_have_every_answer_and_none_is_there_twice() {
    let all = directed::loads();
    let numbers: BTreeSet<u32> = all.iter().filter_map(|one| one.answer.err()).collect();
    assert_eq!(numbers, BTreeSet::from([23, 45]));
    let names: BTreeSet<&str> = all.iter().map(|one| one.name.as_str()).collect();
    let loads: BTreeSet<_> = all
        .iter()
        .map(|Directed { load, .. }| (load.seed, load.classes, load.terms, load.out_len))
        .collect();
    assert_eq!((names.len(), loads.len()), (all.len(), all.len()));
}

#[test]
fn directed_loads_begin_with_the_draw_that_their_names_say() {
    let first = |load: &Load| Draws::from(load.seed).draw(2_147_483_647);
    let mut told = 0;
    for Directed { name, load, .. } in directed::loads() {
        let Some(rest) = name.strip_prefix("the first draw is ") else { continue };
        assert_eq!(first(&load).to_string(), rest.split(',').next().unwrap(), "{name}");
        told += 1;
    }
    assert_eq!(told, 8);
}

#[test]
fn the_mix_has_every_answer() {
    let mut seen: BTreeMap<&str, u32> = BTreeMap::new();
    for seed in 0..4_000 {
        let load = Load::any(seed);
        let mut count = |what| *seen.entry(what).or_default() += 1;
        match made(&load) {
            Ok(words) if words.len() == load.out_len => count("exactly long enough"),
            Ok(_) => count("longer"),
            Err(23) => {
                let enough = literal(load.seed, load.classes, load.terms).len();
                count(if load.out_len + 1 == enough { "a word short" } else { "shorter" });
            }
            Err(_) => {
                let wrong = [
                    ("seed 0", load.seed == 0),
                    ("seed 2147483647", load.seed == 2_147_483_647),
                    ("seed 4294967295", load.seed == u32::MAX),
                    ("0 classes", load.classes == 0),
                    ("257 classes", load.classes == 257),
                    ("4294967295 classes", load.classes == u32::MAX),
                    ("0 terms", load.terms == 0),
                    ("101 terms", load.terms == 101),
                    ("4294967295 terms", load.terms == u32::MAX),
                ];
                let there = wrong.iter().filter(|(_, is)| *is);
                match there.clone().count() {
                    0 => count("another number out of range"),
                    1 => there.for_each(|(what, _)| count(what)),
                    _ => count("several out of range"),
                }
            }
        }
    }
    let least = [
        ("exactly long enough", 600),
        ("longer", 1_200),
        ("a word short", 250),
        ("shorter", 250),
        ("seed 0", 40),
        ("seed 2147483647", 40),
        ("seed 4294967295", 40),
        ("0 classes", 40),
        ("257 classes", 40),
        ("4294967295 classes", 40),
        ("0 terms", 40),
        ("101 terms", 40),
        ("4294967295 terms", 40),
        ("another number out of range", 50),
        ("several out of range", 200),
    ];
    assert_eq!(seen.len(), least.len(), "{seen:?}");
    for (what, count) in least {
        assert!(seen.get(what).is_some_and(|&seen| seen >= count), "{what}: {seen:?}");
    }
}

#[test]
fn a_seed_makes_one_load() {
    for seed in 0..500 {
        assert_eq!(Load::any(seed), Load::any(seed));
    }
}

#[test]
fn a_load_prints_itself() {
    let load = Load { out_len: 3, ..Load::of(7, 2, 1) };
    assert_eq!(load.to_string(), "seed 7, classes 2, terms 1\nout: 3 words, seed 1\n");
}
