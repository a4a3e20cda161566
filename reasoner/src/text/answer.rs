//! The program's answer read aloud: the judge of what `notation` tells.

use super::{refusal, Names};
use std::fmt::Write as _;

/// The answer in words. One that cannot have been given for these names is a mistake.
pub fn aloud(names: &Names, answer: &str) -> Result<String, String> {
    let mut lines = answer.lines();
    let first: Vec<&str> = lines.next().unwrap_or("").split(' ').collect();
    match first[..] {
        ["compliant"] => {
            Ok("Compliant: whatever is in the first policy is in the second.\n".to_owned())
        }
        ["refused", number] => {
            let number = self::number(number)?;
            Ok(format!("Refused {number}: {}.\n", refusal(number)))
        }
        ["outside", term, combination] => {
            let (term, combination) = (number(term)?, number(combination)?);
            let told = countermodel(names, lines)?;
            Ok(format!(
                "Outside: term {term} of the first policy, combination {combination}, is not in the second.\n{told}"
            ))
        }
        _ => Err("this is no answer".to_owned()),
    }
}

fn number(word: &str) -> Result<u32, String> {
    word.parse().map_err(|_| format!("\"{word}\" is no number"))
}

/// A line of a countermodel: the name's number, the individual, and what it reaches or has.
enum Fact {
    Member(u32, u32),
    Edge(u32, u32, u32),
    Value(u32, u32, u32),
}

impl Fact {
    fn read(line: &str) -> Result<Self, String> {
        match line.split(' ').collect::<Vec<_>>()[..] {
            ["member", class, one] => Ok(Fact::Member(number(class)?, number(one)?)),
            ["edge", role, one, other] => {
                Ok(Fact::Edge(number(role)?, number(one)?, number(other)?))
            }
            ["value", feature, one, value] => {
                Ok(Fact::Value(number(feature)?, number(one)?, number(value)?))
            }
            _ => Err(format!("\"{line}\" is no line of a countermodel")),
        }
    }

    /// The greatest individual that it speaks of.
    fn last(&self) -> u32 {
        match *self {
            Fact::Member(_, one) | Fact::Value(_, one, _) => one,
            Fact::Edge(_, one, other) => one.max(other),
        }
    }

    fn say(&self, names: &Names) -> Result<String, String> {
        match *self {
            Fact::Member(class, one) => {
                Ok(format!("x{one} is in {}", name(&names.classes, class)?))
            }
            Fact::Edge(role, one, other) => {
                Ok(format!("x{one} has {} x{other}", name(&names.roles, role)?))
            }
            Fact::Value(feature, one, value) => {
                Ok(format!("x{one} has {} {value}", name(&names.features, feature)?))
            }
        }
    }
}

fn name(list: &[String], number: u32) -> Result<&str, String> {
    let place = (number as usize).checked_sub(1);
    let name = place.and_then(|place| list.get(place));
    name.map(String::as_str).ok_or_else(|| format!("the text has no name for number {number}"))
}

/// The lines of a countermodel, in words.
fn countermodel<'a>(names: &Names, lines: impl Iterator<Item = &'a str>) -> Result<String, String> {
    let facts = lines.map(Fact::read).collect::<Result<Vec<_>, _>>()?;
    let individuals = facts.iter().map(Fact::last).max().unwrap_or(1);
    let many = if individuals == 1 { "individual" } else { "individuals" };
    let mut text = format!(
        "In this case, of {individuals} {many}, x1 is in the first policy and outside the second:\n"
    );
    for fact in &facts {
        let _ = writeln!(text, "  {}", fact.say(names)?);
    }
    if facts.is_empty() {
        text.push_str("  nothing is known of x1\n");
    }
    Ok(text)
}
