//! The verbs on one pair, one model or one answer: `verify`, `picture`, `aloud`, `encode`, `decode`.

use crate::arguments::{Aloud, Decode, Encode, Picture, Verify};
use crate::collection::{self, Policy};
use crate::input::{self, accepted_policy};
use crate::output::{say, Lines, Object, Output, Status};
use crate::slices::{with_slices, Slices};
use crate::trouble::{Complaint, Failure};
use crate::words;
use gimbuka::{Checked, Verdict};
use notation::{Document, Vocabulary};
use std::path::Path;

/// The policy of a file that has one, and that the library accepts as a first one.
pub fn buyers(path: &Path, vocabulary: &Vocabulary) -> Result<Policy, Failure> {
    let Policy { name, words } = collection::one(path, vocabulary, None)?;
    Ok(Policy { name, words: accepted_policy(path, vocabulary, words)? })
}

/// A vocabulary and two policies.
struct Pair {
    vocabulary: Vocabulary,
    first: Vec<u32>,
    second: Vec<u32>,
}

impl Pair {
    fn of_files(
        vocabulary: &Path,
        buyer: &Path,
        consent: &Path,
        name: Option<&str>,
    ) -> Result<Self, Failure> {
        let vocabulary = input::vocabulary(vocabulary)?;
        let first = buyers(buyer, &vocabulary)?.words;
        let second = collection::one(consent, &vocabulary, name)?.words;
        Ok(Self { vocabulary, first, second })
    }

    /// The first policy of a text, and the second or the one that has this name.
    fn of_text(path: &Path, name: Option<&str>) -> Result<Self, Failure> {
        let Document { vocabulary, policies } = input::document(path)?;
        let found = policies.len();
        let mut policies = policies.into_iter();
        let first = policies.next();
        let mut others = policies.filter(|policy| name.is_none() || policy.name.as_deref() == name);
        match (first, others.next(), others.next(), name) {
            (Some(first), Some(second), None, _) => {
                Ok(Self { vocabulary, first: first.words, second: second.words })
            }
            (_, None, _, Some(name)) => {
                Err(Complaint::new(path, format!("no policy behind the first is named {name}"))
                    .into())
            }
            (_, Some(_), Some(_), Some(name)) => {
                Err(Complaint::new(path, format!("several policies are named {name}")).into())
            }
            _ => {
                let message = format!("two policies are wanted, and there are {found}");
                Err(Complaint::new(path, message).into())
            }
        }
    }
}

pub fn verify(asked: Verify) -> Result<Status, Failure> {
    let Verify { json, name, vocabulary, buyer, consent, model } = asked;
    let pair = Pair::of_files(&vocabulary, &buyer, &consent, name.as_deref())?;
    let words = input::model(&model, &pair.vocabulary)?;
    let Pair { vocabulary, first, second } = &pair;
    let checked = with_slices(|Slices { work, .. }| {
        gimbuka::model_check(vocabulary.words(), first, second, &words, work)
    });
    let shown = model.to_string_lossy();
    let object = Object::new().with("model", &*shown);
    let (line, object, status) = match checked {
        Ok(Checked::Yes) => (
            format!("{shown}: yes, x1 is in the buyer's policy and outside the consent"),
            object.with("verdict", "yes"),
            Status::All,
        ),
        Ok(Checked::No) => (format!("{shown}: no"), object.with("verdict", "no"), Status::SomeNot),
        Err(refusal) => (
            format!("{shown}: refused {}: {refusal}", refusal.number()),
            object
                .with("verdict", "refused")
                .with("refusal", refusal.number())
                .with("message", refusal.to_string()),
            Status::Trouble,
        ),
    };
    let mut lines = Lines::default();
    if json {
        lines.object(object);
    } else {
        lines.line(&line);
    }
    let mut output = Output::new();
    output.write(&lines)?;
    output.end()?;
    Ok(status)
}

/// Writes bytes, and nothing else.
fn print(bytes: &[u8]) -> Result<Status, Failure> {
    let mut output = Output::new();
    output.bytes(bytes)?;
    output.end()?;
    Ok(Status::All)
}

pub fn picture(asked: Picture) -> Result<Status, Failure> {
    let Picture { name, model, vocabulary, buyer, consent } = asked;
    if let Some(model) = model {
        let over = input::any_vocabulary(&vocabulary)?;
        let words = input::model(&model, &over)?;
        return print(notation::picture(over.names(), &words).as_bytes());
    }
    let (pair, file) = match (&buyer, &consent) {
        (Some(buyer), Some(consent)) => {
            (Pair::of_files(&vocabulary, buyer, consent, name.as_deref())?, consent)
        }
        _ => (Pair::of_text(&vocabulary, name.as_deref())?, &vocabulary),
    };
    let Pair { vocabulary, first, second } = &pair;
    with_slices(|Slices { work, out }| {
        match gimbuka::compliance(vocabulary.words(), first, second, work, out) {
            Ok(Verdict::Compliant) => {
                say("compliant, so there is no case to draw");
                Ok(Status::SomeNot)
            }
            Ok(Verdict::Outside { words, .. }) => {
                print(notation::picture(vocabulary.names(), &out[..words]).as_bytes())
            }
            Err(refusal) => Err(Complaint::refused(file, refusal).into()),
        }
    })
}

pub fn aloud(asked: Aloud) -> Result<Status, Failure> {
    const LONGEST_ANSWER: usize = 1 << 24;
    let Aloud { vocabulary, answer } = asked;
    let over = input::any_vocabulary(&vocabulary)?;
    let bytes = input::bytes(&answer, LONGEST_ANSWER)?;
    let said =
        words::aloud(&over, &bytes).map_err(|mistake| Complaint::mistake(&answer, mistake))?;
    print(said.as_bytes())
}

pub fn encode(asked: Encode) -> Result<Status, Failure> {
    let Encode { name, vocabulary, buyer, consent } = asked;
    let pair = match (&buyer, &consent) {
        (Some(buyer), Some(consent)) => {
            Pair::of_files(&vocabulary, buyer, consent, name.as_deref())?
        }
        _ => Pair::of_text(&vocabulary, name.as_deref())?,
    };
    let mut bytes = Vec::new();
    for part in [pair.vocabulary.words(), &pair.first, &pair.second] {
        bytes.extend((part.len() as u32).to_le_bytes());
        bytes.extend(part.iter().flat_map(|word| word.to_le_bytes()));
    }
    print(&bytes)
}

/// The most bytes that the program reads (SPECIFICATION 10.1).
const MOST_BYTES: usize = 65_536;

pub fn decode(asked: Decode) -> Result<Status, Failure> {
    let path = &asked.bytes;
    let bytes = input::bytes(path, MOST_BYTES)?;
    let [v, p, q] = parts(&bytes).ok_or_else(|| Complaint::new(path, words::no_question()))?;
    gimbuka::read_vocabulary(&v)
        .and_then(|()| gimbuka::read_policy(&v, &p))
        .and_then(|()| gimbuka::read_second_policy(&v, &q))
        .map_err(|refusal| Complaint::refused(path, refusal))?;
    let vocabulary = Vocabulary::of_words(v);
    let mut text = notation::print_vocabulary(&vocabulary);
    for policy in [p, q] {
        // The library has accepted it, so that it can be printed.
        let printed = notation::print_policy(vocabulary.names(), &policy)
            .ok_or_else(|| Complaint::new(path, "a policy cannot be printed"))?;
        text.push_str(&printed);
    }
    print(text.as_bytes())
}

/// Three parts, each a word count and so many words, and nothing behind them.
fn parts(bytes: &[u8]) -> Option<[Vec<u32>; 3]> {
    if bytes.len() % 4 != 0 || bytes.len() > MOST_BYTES {
        return None;
    }
    let words = input::of_bytes(bytes);
    let mut rest = &words[..];
    let mut part = || {
        let (&count, behind) = rest.split_first()?;
        let (words, behind) = behind.split_at_checked(count as usize)?;
        rest = behind;
        Some(words.to_vec())
    };
    let three = [part()?, part()?, part()?];
    rest.is_empty().then_some(three)
}
