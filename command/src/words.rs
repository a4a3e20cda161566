//! Answers in words.

use crate::output::{count, Lines, Object};
use gimbuka::Refusal;
use notation::{facts, Mistake, Names, Vocabulary};

/// Why one policy is not inside another: a countermodel's place and its words.
pub struct Case<'a> {
    pub term: u32,
    pub combination: u32,
    pub countermodel: &'a [u32],
}

impl Case<'_> {
    fn individuals(&self) -> usize {
        self.countermodel.get(1).map_or(0, |&individuals| individuals as usize)
    }

    /// Which term of one is not in the other, behind the word "term".
    pub fn sentence(&self, one: &str, other: &str) -> String {
        let Self { term, combination, .. } = self;
        format!("{term} of {one}, combination {combination}, is not in {other}.")
    }

    /// The case itself, from the line that leads to it on.
    pub fn tell(&self, names: &Names, one: &str, other: &str, depth: usize, lines: &mut Lines) {
        let many = count(self.individuals(), "individual", "individuals");
        lines
            .below(depth, &format!("In this case, of {many}, x1 is in {one} and outside {other}:"));
        let facts = facts(names, self.countermodel);
        for fact in &facts {
            lines.below(depth + 1, fact);
        }
        if facts.is_empty() {
            lines.below(depth + 1, "nothing is known of x1");
        }
    }

    /// For programs; the whole case only if it is asked for.
    pub fn object(&self, object: Object, names: Option<&Names>) -> Object {
        let object = object.with("term", self.term).with("combination", self.combination);
        match names {
            None => object,
            Some(names) => object
                .with("individuals", self.individuals())
                .with("facts", facts(names, self.countermodel))
                .with("countermodel", self.countermodel),
        }
    }
}

/// What the program says of an input that is no question.
const NO_QUESTION: (u32, &str) =
    (40, "the input is over 65,536 bytes, cut short, or followed by more");

/// What a refusal's number says.
fn refusal(number: u32) -> Option<String> {
    if number == NO_QUESTION.0 {
        return Some(NO_QUESTION.1.to_owned());
    }
    Refusal::all().find(|refusal| refusal.number() == number).map(|refusal| refusal.to_string())
}

/// The refusal of an input that is no question, as it is told.
pub fn no_question() -> String {
    format!("refused {}: {}", NO_QUESTION.0, NO_QUESTION.1)
}

/// An answer of the program, or one of Possible and Equality in the same form, in words. What is no answer, or cannot have been given over
/// this vocabulary, is a mistake.
pub fn aloud(vocabulary: &Vocabulary, answer: &[u8]) -> Result<String, Mistake> {
    let head_end = answer.iter().position(|&byte| byte == b'\n').unwrap_or(answer.len());
    let head = String::from_utf8_lossy(&answer[..head_end]);
    let words: Vec<&str> = head.split(' ').collect();
    let mistake = |message: String| Mistake { line: 1, column: 1, refusal: None, message };
    let number = |word: &str| -> Result<u32, Mistake> {
        word.parse().map_err(|_| mistake(format!("\"{word}\" is no number")))
    };
    // A byte 0 would make words of it.
    if answer.contains(&0) {
        return Err(mistake("this is no answer".to_owned()));
    }
    let mut lines = Lines::default();
    let case = match words[..] {
        ["compliant"] => {
            lines.line("Compliant: whatever is in the first policy is in the second.");
            None
        }
        ["possible", term] => {
            let term = number(term)?;
            let said =
                format!("Possible: some individual can be in term {term} of the first policy.");
            lines.line(&said);
            None
        }
        ["impossible"] => {
            lines.line("Impossible: no individual can be in the first policy.");
            None
        }
        ["equal"] => {
            lines.line("Equal: the two policies mean the same.");
            None
        }
        ["refused", word] => {
            let number = number(word)?;
            let says = refusal(number)
                .ok_or_else(|| mistake(format!("{number} is the number of no refusal")))?;
            lines.line(&format!("Refused {number}: {says}."));
            None
        }
        ["outside", term, combination] => {
            Some(("Outside", [number(term)?, number(combination)?], ["first", "second"]))
        }
        ["differs", "1", term, combination] => {
            Some(("Different", [number(term)?, number(combination)?], ["first", "second"]))
        }
        ["differs", "2", term, combination] => {
            Some(("Different", [number(term)?, number(combination)?], ["second", "first"]))
        }
        _ => return Err(mistake("this is no answer".to_owned())),
    };
    let Some((verdict, [term, combination], [one, other])) = case else {
        let rest = answer[head_end..].trim_ascii();
        return match rest {
            [] => Ok(lines.into_text()),
            _ => Err(Mistake {
                line: 2,
                ..mistake("nothing stands behind such an answer".to_owned())
            }),
        };
    };
    let countermodel = &notation::model(vocabulary, answer)?;
    let case = Case { term, combination, countermodel };
    let [one, other] = [format!("the {one} policy"), format!("the {other}")];
    lines.line(&format!("{verdict}: term {}", case.sentence(&one, &other)));
    case.tell(vocabulary.names(), &one, &other, 0, &mut lines);
    Ok(lines.into_text())
}
