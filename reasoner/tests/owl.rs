//! A vocabulary from OWL text: every reading, every refusal and their order; and the texts that the generators make.

use reasoner::random::owl::directed::{self, Directed};
use reasoner::random::owl::shrink::shrink;
use reasoner::random::owl::source::{around, lay_out, Layout, Source};
use reasoner::random::owl::{slow, Family, Text};
use reasoner::random::Rng;
use reasoner::{read_owl, read_vocabulary, Filling, Reading};
use std::collections::{BTreeMap, BTreeSet};

/// The words that a text is read to, or the number of its refusal. What is written is a vocabulary, and all other words of the output
/// are as they were.
fn read(text: &Text) -> Result<Vec<u32>, u32> {
    let lent = text.out();
    let mut out = lent.clone();
    let answer = match read_owl(&text.bytes, &mut out) {
        Filling::Written(words) => Ok(words as usize),
        Filling::Refused(number) => Err(number),
    };
    let written = answer.unwrap_or(0);
    assert_eq!(out[written..], lent[written..], "{text}");
    out.truncate(written);
    if answer.is_ok() {
        assert_eq!(read_vocabulary(&out), Reading::Accepted, "{text}");
    }
    answer.map(|_| out)
}

#[test]
fn every_directed_text_has_its_answer() {
    for Directed { name, text, answer } in directed::texts() {
        assert_eq!(read(&text), answer, "{name}\n{text}");
    }
}

#[test]
fn directed_texts_have_every_answer_and_none_is_there_twice() {
    let all = directed::texts();
    let numbers: BTreeSet<u32> = all.iter().filter_map(|one| one.answer.clone().err()).collect();
    assert_eq!(numbers, BTreeSet::from([1, 23, 41, 42]));
    let names: BTreeSet<&str> = all.iter().map(|one| one.name.as_str()).collect();
    let texts: BTreeSet<_> = all.iter().map(|one| (&one.text.bytes, one.text.out_len)).collect();
    assert_eq!((names.len(), texts.len()), (all.len(), all.len()));
}

#[test]
fn directed_texts_are_as_long_as_their_names_say() {
    let mut told = 0;
    for Directed { name, text, .. } in directed::texts() {
        let Some((number, what)) = name.split_once(' ') else { continue };
        let Ok(number) = number.replace(',', "").parse::<usize>() else { continue };
        if ["bytes", "blanks", "times", "brackets", "letters"]
            .iter()
            .any(|one| what.starts_with(one))
        {
            assert_eq!(text.bytes.len(), number, "{name}");
            told += 1;
        }
    }
    assert!(told >= 15, "{told}");
}

/// Every text that a vocabulary is laid out to says that vocabulary.
#[test]
fn order_and_layout_say_nothing() {
    let mut rng = Rng::new(5);
    let mut read_to_words = 0;
    for _ in 0..4_000 {
        let source = Source::random(&mut rng);
        let words = source.words();
        for layout in Layout::ALL {
            let tokens = around(source.forms_in_any_order(&mut rng));
            let text = Text::of(lay_out(&mut rng, layout, &tokens));
            match read(&text) {
                Ok(out) => {
                    assert_eq!(out, words, "{text}");
                    read_to_words += 1;
                }
                // It is too long, or has more of something than there may be.
                Err(number) => {
                    let large = text.bytes.len() > 65_536 && number == 41
                        || read_vocabulary(&words) != Reading::Accepted
                            && [42, 1].contains(&number);
                    assert!(large, "{number}: {text}");
                }
            }
        }
    }
    assert!(read_to_words > 15_900, "{read_to_words}");
}

#[test]
fn a_text_that_is_cut_is_41() {
    let mut rng = Rng::new(6);
    for _ in 0..50 {
        let tokens = around(Source::random(&mut rng).forms_in_any_order(&mut rng));
        let bytes = lay_out(&mut rng, Layout::Lines, &tokens);
        let closed = bytes.iter().rposition(|&byte| byte == b')').unwrap();
        for end in (0..=closed).rev().take(2_000) {
            assert_eq!(read(&Text::of(&bytes[..end])), Err(41));
        }
    }
}

/// How many texts of a family have each answer; 0 stands for words.
fn answers(texts: impl Iterator<Item = Text>) -> BTreeMap<u32, u32> {
    let mut seen = BTreeMap::new();
    for text in texts {
        *seen.entry(read(&text).map_or_else(|number| number, |_| 0)).or_default() += 1;
    }
    seen
}

#[test]
fn every_family_has_the_answers_that_it_is_for() {
    // Of 6,000 texts, at least so many are written, and refused with 41, 42 and 23.
    let least = [
        (Family::Whole, [4_000, 0, 2, 1_200]),
        (Family::Forms, [1_800, 0, 2_500, 600]),
        (Family::Tokens, [120, 5_000, 50, 30]),
        (Family::Bytes, [150, 5_000, 250, 50]),
        (Family::Mixed, [800, 3_500, 400, 250]),
        (Family::RandomTokens, [150, 5_000, 200, 40]),
        (Family::RandomBytes, [0, 6_000, 0, 0]),
    ];
    assert_eq!(least.map(|(family, _)| family), Family::ALL);
    for (family, least) in least {
        let seen = answers((0..6_000).map(|seed| Text::generate(family, seed)));
        for (number, least) in [0, 41, 42, 23].into_iter().zip(least) {
            let had = seen.get(&number).copied().unwrap_or(0);
            assert!(had >= least, "{family:?}: {had} times {number}: {seen:?}");
        }
    }
}

#[test]
fn the_mix_has_every_answer() {
    let seen = answers((0..60_000).map(Text::any));
    for number in [0, 41, 42, 1, 23] {
        assert!(seen.get(&number).is_some_and(|&times| times >= 3), "{number}: {seen:?}");
    }
}

#[test]
fn a_seed_makes_one_text() {
    for seed in 0..500 {
        assert_eq!(Text::any(seed), Text::any(seed));
    }
}

/// A slow text has the refusal that its name ends in, or is read; and all but three are as long as can be.
#[test]
fn slow_texts_are_what_their_names_say() {
    let mut short = 0;
    for (name, text) in slow::texts() {
        let wanted = name.rsplit_once(": ").and_then(|(_, last)| last.parse::<u32>().ok());
        assert_eq!(read(&text).err(), wanted, "{name}");
        assert!(text.bytes.len() <= 65_536, "{name}");
        short += u32::from(text.bytes.len() < 65_400);
    }
    assert_eq!(short, 3);
    let (_, everyday) = &slow::texts()[0];
    let words = read(everyday).unwrap();
    // 300 axioms, and a record for each of 8 roles and a feature.
    assert_eq!((&words[..3], words.len()), (&[256, 20, 5][..], 4 * 310));
}

#[test]
fn shrinking_keeps_what_differs() {
    let mut shrunk = 0;
    for seed in 0..2_000 {
        let text = Text::generate(Family::Forms, seed);
        let mut differs = |text: &Text| {
            read(text).is_ok_and(|words| words.len() > 8 && words[1] > 0 && words[8] == 5)
        };
        if differs(&text) {
            let small = shrink(&text, &mut differs);
            assert!(differs(&small));
            // Two axioms, at most four names of one character, and a record for a role or two.
            assert!(small.bytes.len() <= 166, "{small}");
            assert!(small.out_len <= 20 && small.out_seed == 0, "{small}");
            shrunk += 1;
        }
    }
    assert!(shrunk > 30, "{shrunk}");
}

#[test]
fn shrinking_a_long_text() {
    let (_, text) = slow::texts().swap_remove(3);
    let small = shrink(&text, &mut |text| read(text).is_ok_and(|words| words.len() > 8));
    assert_eq!(
        small.bytes.len(),
        "Ontology(Declaration(Class(:a))SubClassOf(:a:a)SubClassOf(:a:a))".len(),
        "{small}"
    );
    assert!(small.to_string().contains("  b\"Ontology(Declaration(Class(:"), "{small}");
}

#[test]
fn a_text_prints_itself_escaped() {
    let text = Text { bytes: b"Ontology(\n\"\\\xff".to_vec(), out_len: 3, out_seed: 0 };
    let wanted = "text: 13 bytes\n  b\"Ontology(\\n\\\"\\\\\\xff\"\nout: 3 words, seed 0\n";
    assert_eq!(text.to_string(), wanted);
}
