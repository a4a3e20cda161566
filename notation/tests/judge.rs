//! The judge of this package: the reasoner's parser and printer, written apart from it. On random
//! texts and on damaged ones both give the same words, or a mistake at the same line and column. The
//! judge wants names to be declared before they are used, knows no annotations outside policies, and
//! tells the first mistake of a text, of whatever kind, but what is wrong with its bytes before that:
//! where one of these makes a difference, the text is held to it again without what made it.

use notation::{
    document, facts, model, policy, print_policy, print_vocabulary, Document, Vocabulary,
};
use reasoner::encode::policy_words;
use reasoner::random::{Case, Family, Rng};
use reasoner::text::{Document as Judge, Names};
use reasoner::{possible, read_policy, Reading, FULL_WORK};

/// Texts of one test, most of them damaged.
const TEXTS: usize = 100_000;
/// Damaged texts for each whole one.
const DAMAGED: usize = 24;

/// A document of the reasoner's random cases, with other names.
fn random(rng: &mut Rng, seed: u64) -> Option<Judge> {
    const FAMILIES: [Family; 6] = [
        Family::Tiny,
        Family::Small,
        Family::Small,
        Family::Merges,
        Family::Coverage,
        Family::Damaged,
    ];
    let case = Case::generate(*rng.pick(&FAMILIES), seed);
    let mut document = Judge::decode(&case.bytes()).ok()?;
    // A text says in its own way what is functional and what is not.
    let axioms = document.vocabulary.said_in_owl();
    document.vocabulary.axioms = axioms;
    document.vocabulary = document.vocabulary.read_as_owl();
    let Names { classes, roles, features } = &mut document.names;
    match rng.below(4) {
        0 => {}
        1 => [classes, roles, features]
            .into_iter()
            .for_each(|names| rename(names, "<http://x.y/#", ">")),
        2 => [classes, roles, features].into_iter().for_each(|names| rename(names, "", "")),
        _ => {
            // One name may stand in all three series, and a keyword may be a name.
            const ODD: [&str; 10] = [
                "Annotation",
                "Policy",
                "Class",
                "ObjectUnionOf",
                "^^xsd:integer",
                ":recordOrder",
                "xsd:integer",
                "a<b>",
                "<>",
                "-",
            ];
            for names in [classes, roles, features] {
                let first = rng.place(ODD.len());
                for (name, odd) in names.iter_mut().zip(&ODD[first..]) {
                    *name = (*odd).to_owned();
                }
            }
        }
    }
    Some(document)
}

fn rename(names: &mut [String], front: &str, back: &str) {
    for (name, number) in names.iter_mut().zip(1..) {
        *name = format!("{front}{number}{back}");
    }
}

/// The same text with other blanks, comments, and numbers without quotes.
fn restyled(rng: &mut Rng, text: &str) -> String {
    const BLANKS: [&str; 8] =
        [" ", "\n", "\r\n", "\t", "\x0b \x0c", " # ( \"<\n", "\n\n# Policy(:A)\n", "#\n"];
    let text = match rng.below(3) {
        0 => text.replace("\"^^xsd:integer", "").replace("clusive \"", "clusive "),
        1 => text.replace('(', " ( ").replace(')', " )"),
        _ => text.to_owned(),
    };
    let often = 1 + rng.below(12);
    let mut styled = String::new();
    for letter in text.chars() {
        match letter {
            '\n' | ' ' if rng.once_in(often) && !styled.ends_with('"') => {
                styled.push_str(BLANKS[rng.place(BLANKS.len())]);
            }
            _ => styled.push(letter),
        }
    }
    styled
}

/// One change, which leaves ASCII as ASCII.
fn damage(rng: &mut Rng, text: &mut Vec<u8>) {
    if text.is_empty() {
        return;
    }
    let at = rng.place(text.len());
    // Mostly a short part, so that what comes behind is still read.
    let longest = if rng.once_in(4) { text.len() - at } else { 12.min(text.len() - at) };
    let part = at..at + rng.place(longest + 1);
    match rng.below(9) {
        6.. => {
            // A word in the place of another.
            let from = rng.place(text.len());
            let word = text[word(text, from)].to_vec();
            text.splice(self::word(text, at), word);
        }
        0 => text[at] = byte(rng),
        1 => text.insert(at, byte(rng)),
        2 => drop(text.drain(part)),
        3 => text.truncate(at),
        4 => {
            let doubled = text[part.clone()].to_vec();
            text.splice(part.end..part.end, doubled);
        }
        5 => {
            let moved = text[part].to_vec();
            let to = rng.place(text.len());
            text.splice(to..to, moved);
        }
    }
}

/// The letters around a place between which there is no blank, quote or parenthesis; at least one.
fn word(text: &[u8], at: usize) -> std::ops::Range<usize> {
    let is_end = |byte: &u8| byte.is_ascii_whitespace() || b"()\"#".contains(byte);
    let front = text[..at].iter().rposition(is_end).map_or(0, |end| end + 1);
    let back = text[at..].iter().position(is_end).unwrap_or(text.len() - at);
    front..(at + back).max(at + 1)
}

fn byte(rng: &mut Rng) -> u8 {
    match rng.below(3) {
        0 => *rng.pick(b"()()()\"\"<>#:^ \n\r\t"),
        1 => *rng.pick(b"0123456789PACo:"),
        _ => rng.below(128) as u8,
    }
}

/// Where a mistake is.
type At = (usize, usize);

/// What came of a text.
#[derive(Clone, Copy, Debug, PartialEq, Eq)]
enum Held {
    /// Both read it.
    Read,
    /// Both find the same mistake.
    Same,
    /// The mistakes differ, or only one finds one, for a reason that is known.
    Otherwise,
}

/// Holds one text to the judge.
fn hold(text: &str) -> Held {
    let found = document(text.as_bytes());
    let judged = Judge::parse(text);
    let held = match (&found, &judged) {
        (_, Ok(judged)) if has_owls(judged) => Some(Held::Otherwise),
        (Ok(found), Ok(judged)) => agrees(found, judged).then_some(Held::Read),
        // The judge takes two policies, no fewer and no more.
        (Ok(found), Err(judged)) => {
            let is_known = match found.policies.len() {
                0 | 1 => judged.message.contains("a text has two policies"),
                2 => false,
                _ => judged.message.contains("this is the third"),
            };
            (is_known || is_strict(&judged.message)).then_some(Held::Otherwise)
        }
        (Err(found), Err(judged)) => {
            let is_same = (found.line, found.column) == (judged.line, judged.column);
            match is_same {
                true => Some(Held::Same),
                false => is_told_otherwise(text, found, judged).then_some(Held::Otherwise),
            }
        }
        (Err(_), Ok(_)) => None,
    };
    held.unwrap_or_else(|| panic!("found {found:?}\njudge {judged:?}\n{text}"))
}

/// The judge takes a name of OWL's own for one like the others, where it is no class.
fn has_owls(judged: &Judge) -> bool {
    let Names { classes, roles, features } = &judged.names;
    classes.iter().chain(roles).chain(features).any(|name| name.starts_with("owl:"))
}

/// The judge wants a name to be declared above, and OWL's own not to be declared.
fn is_strict(message: &str) -> bool {
    is_of_above(message) || message.contains("is always there")
}

fn is_of_above(message: &str) -> bool {
    message.contains("declared above")
}

/// Holds one text to the judge, and where the two tell different mistakes of it, the text without what
/// the judge tells and again without, as far as that goes.
fn hold_on(mut text: String, names: &Names) -> Held {
    loop {
        let held = hold(&text);
        match without(&text, names) {
            Some(without) if held == Held::Otherwise => text = without,
            _ => return held,
        }
    }
}

/// The text before bytes that the judge does not read, or with a known name for one that is not declared
/// above.
fn without(text: &str, names: &Names) -> Option<String> {
    let judged = Judge::parse(text).err()?;
    let line_start: usize = text.split('\n').take(judged.line - 1).map(|line| line.len() + 1).sum();
    let at = line_start + judged.column - 1;
    if judged.message.contains("no closing") {
        return Some(text[..at].to_owned());
    }
    let (unknown, said) = judged.message.split_once(" is no ")?;
    let known = match said {
        _ if said.starts_with("class") => &names.classes,
        _ if said.starts_with("role") => &names.roles,
        _ => &names.features,
    };
    let known = known.first().filter(|known| *known != unknown)?;
    Some(format!("{}{known}{}", &text[..at], &text[at + unknown.len()..]))
}

/// The judge tells what is wrong with the bytes, and then what comes first in the text. Here the order
/// is 41 or the like of a policy, 42, 1, the names of policies.
fn is_told_otherwise(
    text: &str,
    found: &notation::Mistake,
    judged: &reasoner::text::Mistake,
) -> bool {
    let order = |refusal: Option<u32>, message: &str| match refusal {
        Some(42) => 1,
        Some(1) => 2,
        None if is_of_above(message) => 3,
        _ => 0,
    };
    let said = judged.message.as_str();
    let says = |part: &str| said.contains(part);
    let judged_refusal = match said {
        _ if says("declared twice") || says("too many") || says("at least one class") => Some(42),
        _ if says("at most 1024 records") => Some(1),
        _ => None,
    };
    let found_order = order(found.refusal, &found.message);
    let (found_at, judged_at) = ((found.line, found.column), (judged.line, judged.column));
    if says("no closing") {
        // A string of an annotation may go over lines.
        let is_before = found_at < judged_at || text.contains("Annotation");
        return found_order == 0 && is_before;
    }
    if found_at < judged_at {
        // The judge reads on, to what stands behind the word that is wrong.
        let words = [
            "cannot be declared",
            "another policy begins",
            "a compound one",
            "a meaning of its own",
            ":recordOrder",
        ];
        return words.iter().any(|word| found.message.contains(word));
    }
    let is_before = found_order < order(judged_refusal, said);
    // Outside policies the judge knows no annotations.
    let line = text.split('\n').nth(judged.line - 1).expect("a line");
    let is_annotation = says("Annotation") || line.contains("Annotation");
    is_before || is_strict(said) || says("this is the third") || is_annotation
}

fn agrees(found: &Document, judged: &Judge) -> bool {
    let [v, p, q] = judged.words();
    let names = found.vocabulary.names();
    let Names { classes, roles, features } = &judged.names;
    found.vocabulary.words() == v
        && found.policies.iter().map(|policy| &policy.words).eq([&p, &q])
        && found.policies.iter().all(|policy| policy.name.is_none())
        && (&names.classes, &names.roles, &names.features) == (classes, roles, features)
}

#[test]
fn whole_and_damaged_texts() {
    let mut rng = Rng::new(17);
    let mut held = Vec::new();
    for seed in 0.. {
        let Some(mut whole) = random(&mut rng, seed) else { continue };
        if rng.once_in(4) {
            // Any order of the records, though most make a link fall.
            let records = policy_words(&whole.first.terms).len() as u32 / 6 - 1;
            let mut order: Vec<u32> = (1..=records).collect();
            rng.shuffle(&mut order);
            whole.first.order = Some(order);
        }
        let names = whole.names.clone();
        let whole = restyled(&mut rng, &whole.to_string());
        held.push(hold(&whole));
        for _ in 0..DAMAGED {
            let mut text = whole.clone().into_bytes();
            for _ in 0..=rng.below(3) {
                damage(&mut rng, &mut text);
            }
            held.push(hold_on(String::from_utf8(text).expect("ASCII"), &names));
        }
        if held.len() >= TEXTS {
            break;
        }
    }
    let count = |wanted: Held| held.iter().filter(|&&one| one == wanted).count();
    let [read, same, otherwise] = [Held::Read, Held::Same, Held::Otherwise].map(count);
    let told = format!("{read} are read, {same} mistakes are told alike, {otherwise} are not");
    assert!(read > TEXTS / 25 && same > 15 * otherwise, "{told}");
}

/// Where the bytes themselves are wrong first, by the rule: a character over 127 that stands in no
/// comment and no string, or a string or IRI without its end.
fn wrong_bytes(text: &str) -> Option<At> {
    let (mut line, mut column) = (1, 0);
    let mut inside: Option<(char, At)> = None;
    let mut is_word = false;
    for letter in text.chars() {
        column += 1;
        match inside {
            Some((end, _)) if letter == end => {
                inside = None;
                is_word = false;
            }
            Some((_, start)) if letter == '\n' => return Some(start),
            Some(('>', _)) | None if !letter.is_ascii() => return Some((line, column)),
            Some(_) => {}
            None => match letter {
                '"' => inside = Some(('"', (line, column))),
                '<' if !is_word => inside = Some(('>', (line, column))),
                '#' => inside = Some(('\n', (line, column))),
                _ => is_word = !(letter.is_whitespace() || letter == '(' || letter == ')'),
            },
        }
        if letter == '\n' {
            (line, column) = (line + 1, 0);
        }
    }
    inside.filter(|&(end, _)| end != '\n').map(|(_, start)| start)
}

#[test]
fn characters_over_127() {
    const FOREIGN: [&str; 5] = ["ü", "\u{a0}", "\u{85}", "…", "\u{1f600}"];
    let mut rng = Rng::new(18);
    let (mut inside, mut outside) = (0, 0);
    for seed in 0..4_000 {
        let Some(whole) = random(&mut rng, seed) else { continue };
        let whole = restyled(&mut rng, &whole.to_string()).replace("# ( ", "# a comment ( ");
        if hold(&whole) != Held::Read {
            continue;
        }
        for _ in 0..4 {
            let mut text = whole.clone();
            text.insert_str(rng.place(text.len()), FOREIGN[rng.place(FOREIGN.len())]);
            match wrong_bytes(&text) {
                None => {
                    hold(&text);
                    inside += 1;
                }
                Some(place) => {
                    let found = document(text.as_bytes()).expect_err("a mistake");
                    assert_eq!((found.line, found.column), place, "{found}\n{text}");
                    outside += 1;
                }
            }
        }
    }
    assert!(inside > 1_000 && outside > 5_000, "{inside} {outside}");
}

#[test]
fn a_name_changes_no_word() {
    let mut rng = Rng::new(19);
    for seed in 0..2_000 {
        let Some(judge) = random(&mut rng, seed) else { continue };
        let text = judge.to_string();
        let Ok(unnamed) = document(text.as_bytes()) else { continue };
        let label = "Annotation(rdfs:label \"a (b) #c <ü\")";
        let before = text.replace("\nPolicy(\n", &format!("\nPolicy(\n {label}\n"));
        let behind = text.replace("  ObjectUnionOf(\n", &format!("{label} ObjectUnionOf(\n"));
        for text in [before, behind] {
            let named = document(text.as_bytes()).unwrap_or_else(|m| panic!("{m}\n{text}"));
            for (named, unnamed) in named.policies.iter().zip(&unnamed.policies) {
                assert_eq!(named.name.as_deref(), Some("a (b) #c <ü"), "{text}");
                assert_eq!(named.words, unnamed.words);
            }
        }
    }
}

#[test]
fn words_are_printed_as_the_judge_prints_them() {
    let mut rng = Rng::new(20);
    let (mut printed, mut keywords) = (0, 0);
    for seed in 0..6_000 {
        let Some(judge) = random(&mut rng, seed) else { continue };
        let text = judge.to_string();
        let vocabulary = Vocabulary::parse(judge.axioms().as_bytes()).expect("a vocabulary");
        let names = vocabulary.names();
        let [v, p, q] = judge.words();
        assert_eq!(vocabulary.words(), v);
        let policies = [print_policy(names, &p), print_policy(names, &q)];
        let [Some(first), Some(second)] = policies else {
            assert!(names.classes.iter().any(|name| name == "ObjectUnionOf"), "{text}");
            keywords += 1;
            continue;
        };
        assert_eq!(format!("{}{first}{second}", print_vocabulary(&vocabulary)), text);
        for (text, words) in [(first, p), (second, q)] {
            assert_eq!(policy(&vocabulary, text.as_bytes()).expect("a policy").words, words);
        }
        printed += 1;
    }
    assert!(printed > 3_000 && keywords > 10, "{printed} {keywords}");
}

#[test]
fn any_words_are_printed_or_not() {
    let (mut accepted, mut refused, mut by_default) = (0, 0, 0);
    for seed in 0..20_000 {
        let case = Case::any(seed);
        let vocabulary = Vocabulary::of_words(case.v.clone());
        let text = print_policy(vocabulary.names(), &case.p);
        let axioms = print_vocabulary(&vocabulary);
        if read_policy(&case.v, &case.p) != Reading::Accepted {
            refused += 1;
            continue;
        }
        let text = text.unwrap_or_else(|| panic!("no text\n{case}"));
        let again = policy(&vocabulary, text.as_bytes()).expect("a policy").words;
        assert_eq!(print_policy(vocabulary.names(), &again), Some(text));
        let again = Vocabulary::parse(axioms.as_bytes()).expect("a vocabulary");
        assert_eq!(print_vocabulary(&again), axioms);
        // What is functional by default is functional in the text, and what is not is not.
        if let Ok(judge) = Judge::decode(&case.bytes()) {
            assert_eq!(axioms, judge.axioms(), "{case}");
        }
        let can_be = |v: &[u32]| possible(v, &case.p, &mut [0; FULL_WORK]);
        assert_eq!(can_be(again.words()), can_be(&case.v), "{case}");
        by_default += u32::from(again.axioms() > vocabulary.axioms());
        accepted += 1;
    }
    assert!(accepted > 10_000 && refused > 1_000, "{accepted} {refused}");
    assert!(by_default > 5_000, "{by_default}");
}

#[test]
fn countermodels_are_told_as_the_judge_tells_them() {
    let mut told = 0;
    for seed in 0..4_000 {
        let case = Case::any(seed);
        let Ok(judge) = Judge::decode(&case.bytes()) else { continue };
        let answer = reasoner::program(&case.bytes());
        let answer = String::from_utf8(answer).expect("text");
        if !answer.starts_with("outside") {
            continue;
        }
        let mut work = case.work();
        work.resize(FULL_WORK, 0);
        let mut out = vec![0; 700_005];
        let verdict = reasoner::compliance(&case.v, &case.p, &case.q, &mut work, &mut out);
        let reasoner::Verdict::Outside(_, _, length) = verdict else { panic!("{verdict:?}") };
        let words = &out[..length as usize];
        let vocabulary = Vocabulary::of_words(case.v.clone());
        assert_eq!(model(&vocabulary, answer.as_bytes()).as_deref(), Ok(words));
        let bytes: Vec<u8> = words.iter().flat_map(|word| word.to_le_bytes()).collect();
        assert_eq!(model(&vocabulary, &bytes).as_deref(), Ok(words));
        let aloud = judge.aloud(&answer).expect("an answer");
        let lines: Vec<&str> = aloud.lines().skip(2).map(str::trim_start).collect();
        match facts(vocabulary.names(), words) {
            none if none.is_empty() => assert_eq!(lines, ["nothing is known of x1"]),
            facts => assert_eq!(facts, lines),
        }
        told += 1;
    }
    assert!(told > 500, "{told}");
}
