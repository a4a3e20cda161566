//! Models: from words, or from the program's lines, and told by names.

use crate::mistake::{Mistake, Place};
use crate::names::Names;
use crate::policy::number;
use crate::scan::say;
use crate::vocabulary::Vocabulary;

const WIDTH: usize = 5;
pub(crate) const MOST_INDIVIDUALS: u32 = 512;
const MOST_RECORDS: usize = 140_000;

/// What a record of a model says.
#[derive(Clone, Copy, Debug, PartialEq, Eq, PartialOrd, Ord)]
pub(crate) enum Fact {
    /// A class, and one in it.
    Member(u32, u32),
    /// A feature, one, and a value.
    Value(u32, u32, u32),
    /// A role, one, and the other whom it reaches.
    Edge(u32, u32, u32),
}

/// What the records of the chain say, as far as they can be read.
pub(crate) fn records(model: &[u32]) -> Vec<Fact> {
    let mut all = Vec::new();
    let (mut own, mut link) = (0, model.first().copied().unwrap_or(0));
    while link > own {
        let start = WIDTH * link as usize;
        let Some(&[kind, name, one, other, next]) = model.get(start..start + WIDTH) else { break };
        all.push(match kind {
            1 => Fact::Member(name, one),
            2 => Fact::Edge(name, one, other),
            3 => Fact::Value(name, one, other),
            _ => break,
        });
        (own, link) = (link, next);
    }
    all
}

/// What a model says, a sentence for each record: "x1 has :uses x2", "x3 is in :Data",
/// "x4 has :days 59". A number without a name is told as a number.
#[must_use]
pub fn facts(names: &Names, countermodel: &[u32]) -> Vec<String> {
    let tell = |fact: Fact| match fact {
        Fact::Member(class, one) => {
            format!("x{one} is in {}", name(&names.classes, "class", class))
        }
        Fact::Edge(role, one, other) => {
            format!("x{one} has {} x{other}", name(&names.roles, "role", role))
        }
        Fact::Value(feature, one, value) => {
            format!("x{one} has {} {value}", name(&names.features, "feature", feature))
        }
    };
    records(countermodel).into_iter().map(tell).collect()
}

pub(crate) fn name(names: &[String], what: &str, number: u32) -> String {
    let name = (number as usize).checked_sub(1).and_then(|place| names.get(place));
    name.cloned().unwrap_or_else(|| format!("{what} {number}"))
}

/// Reads a model: its words, little-endian, if there is a byte 0 among them, else the program's lines,
/// `member 1 2`, `edge 1 1 2`, `value 1 1 59`. A first line `outside ..` or `differs ..` is passed
/// over, so that an answer can be handed in as it is. Words may be any: the proved library accepts or
/// refuses them.
///
/// # Errors
///
/// The first mistake of the lines, or words that are cut short.
pub fn model(vocabulary: &Vocabulary, bytes: &[u8]) -> Result<Vec<u32>, Mistake> {
    if bytes.contains(&0) {
        return words(bytes);
    }
    let mut facts = Vec::new();
    for (line, number) in bytes.split(|&byte| byte == b'\n').zip(1..) {
        let place = Place { line: number, column: 1 };
        let is_head =
            number == 1 && (line.starts_with(b"outside ") || line.starts_with(b"differs "));
        if is_head || line.trim_ascii().is_empty() {
            continue;
        }
        if facts.len() == MOST_RECORDS {
            return Err(place.mistake(format!("a model has at most {MOST_RECORDS} records")));
        }
        facts.push(fact(vocabulary, line, place)?);
    }
    Ok(written(&facts))
}

fn words(bytes: &[u8]) -> Result<Vec<u32>, Mistake> {
    if bytes.len() % 4 != 0 {
        let message = format!("words have 4 bytes each, and here are {} bytes", bytes.len());
        return Err(Place::START.mistake(message));
    }
    let word = |four: &[u8]| four.iter().rev().fold(0, |word, &byte| word << 8 | u32::from(byte));
    Ok(bytes.chunks_exact(4).map(word).collect())
}

fn fact(vocabulary: &Vocabulary, line: &[u8], place: Place) -> Result<Fact, Mistake> {
    let mut offset = 0;
    let mut parts = Vec::new();
    for part in line.split(u8::is_ascii_whitespace) {
        if !part.is_empty() {
            parts.push((part, place.behind(&line[..offset])));
        }
        offset += part.len() + 1;
    }
    let read = |(digits, at): (&[u8], Place), most: u32, what: &str| match number(digits) {
        Some(number) if (1..=most).contains(&number) => Ok(number),
        _ => {
            Err(at.mistake(format!("expected {what}, from 1 to {most}, found \"{}\"", say(digits))))
        }
    };
    let one = |part| read(part, MOST_INDIVIDUALS, "an individual");
    let names = vocabulary.names();
    let count = |names: &[String]| names.len() as u32;
    match parts[..] {
        [(b"member", _), class, individual] => {
            let class = read(class, count(&names.classes), "the number of a class")?;
            Ok(Fact::Member(class, one(individual)?))
        }
        [(b"edge", _), role, from, to] => {
            let role = read(role, count(&names.roles), "the number of a role")?;
            Ok(Fact::Edge(role, one(from)?, one(to)?))
        }
        [(b"value", _), feature, individual, (digits, at)] => {
            let feature = read(feature, count(&names.features), "the number of a feature")?;
            let individual = one(individual)?;
            let value = number(digits).ok_or_else(|| {
                let (most, digits) = (u32::MAX, say(digits));
                at.mistake(format!("expected a value, from 0 to {most}, found \"{digits}\""))
            })?;
            Ok(Fact::Value(feature, individual, value))
        }
        _ => {
            let at = parts.first().map_or(place, |part| part.1);
            Err(at.mistake(format!(
                "expected \"member CLASS INDIVIDUAL\", \"edge ROLE FROM TO\" or \
                 \"value FEATURE INDIVIDUAL VALUE\", found \"{}\"",
                say(line.trim_ascii())
            )))
        }
    }
}

/// The words of a model, its records chained 1, 2, 3 and so on.
fn written(facts: &[Fact]) -> Vec<u32> {
    let last = facts.len() as u32;
    let mut words = vec![u32::from(last > 0), 1, 0, 0, 0];
    for (&fact, own) in facts.iter().zip(1..) {
        let (record, greatest) = match fact {
            Fact::Member(class, one) => ([1, class, one, 0], one),
            Fact::Edge(role, one, other) => ([2, role, one, other], one.max(other)),
            Fact::Value(feature, one, value) => ([3, feature, one, value], one),
        };
        words[1] = words[1].max(greatest);
        words.extend(record);
        words.push(if own == last { 0 } else { own + 1 });
    }
    words
}
