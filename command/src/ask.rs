//! `check`, `equal` and `possible`: one question, put of each policy of a collection, on all cores.

use crate::arguments::{Check, Chosen, Equal, Form, Possible};
use crate::collection::{self, Batch, Item, Source};
use crate::input::{self, accepted_policy};
use crate::output::{count, Lines, Object, Output, Status};
use crate::single::buyers;
use crate::slices::{with_slices, Slices};
use crate::trouble::{Complaint, Failure};
use crate::words::Case;
use gimbuka::{Comparison, Possibility, Refusal, Side, Verdict};
use notation::{Document, Vocabulary};
use rayon::prelude::*;
use std::iter;
use std::path::{Path, PathBuf};

/// So many bytes of lines are much to keep.
const MUCH: usize = 1 << 22;

/// What is asked of each policy.
enum Question {
    /// Does it hold the buyer's policy?
    Compliance(Vec<u32>),
    /// Does it mean the same as the first, which has this name?
    Equality(Vec<u32>, String),
    /// Can anyone be in it?
    Possibility,
}

/// What is said of an answer: yes and no.
struct Sayings {
    yes: &'static str,
    no: &'static str,
    one: &'static str,
    many: &'static str,
}

impl Question {
    fn sayings(&self) -> Sayings {
        let (yes, no, [one, many]) = match self {
            Question::Compliance(_) => ("compliant", "outside", ["consent", "consents"]),
            Question::Equality(..) => ("equal", "different", ["policy", "policies"]),
            Question::Possibility => ("possible", "impossible", ["policy", "policies"]),
        };
        Sayings { yes, no, one, many }
    }
}

/// How many policies got which answer.
#[derive(Clone, Copy, Default)]
struct Tally {
    yes: usize,
    no: usize,
    refused: usize,
    unread: usize,
}

impl Tally {
    fn add(&mut self, other: Self) {
        self.yes += other.yes;
        self.no += other.no;
        self.refused += other.refused;
        self.unread += other.unread;
    }

    fn asked(&self) -> usize {
        self.yes + self.no + self.refused
    }

    fn status(&self) -> Status {
        if self.refused + self.unread > 0 {
            Status::Trouble
        } else if self.no > 0 {
            Status::SomeNot
        } else {
            Status::All
        }
    }

    fn sentence(&self, sayings: &Sayings) -> String {
        let Self { yes, no, refused, unread } = *self;
        let mut parts = Vec::new();
        for (number, saying) in [(yes, sayings.yes), (no, sayings.no), (refused, "refused")] {
            if number > 0 {
                parts.push(format!("{number} {saying}"));
            }
        }
        let mut sentence = count(self.asked(), sayings.one, sayings.many);
        if !parts.is_empty() {
            sentence = format!("{sentence}: {}", parts.join(", "));
        }
        if unread > 0 {
            sentence = format!("{sentence}; {unread} could not be read");
        }
        sentence
    }

    fn object(&self, sayings: &Sayings) -> Object {
        let counts = Object::new()
            .with(sayings.many, self.asked())
            .with(sayings.yes, self.yes)
            .with(sayings.no, self.no)
            .with("refused", self.refused)
            .with("unread", self.unread);
        Object::new().with_object("count", counts)
    }
}

/// A question with all that its answers are told by.
struct Asking<'a> {
    vocabulary: &'a Vocabulary,
    question: Question,
    form: &'a Form,
    names: &'a [String],
}

/// The library's answer, and the reason if it is told.
enum Answer<'a> {
    Yes { term: Option<u32> },
    No(Option<(Side, Case<'a>)>),
}

impl Asking<'_> {
    fn ask<'s>(&self, words: &[u32], slices: &'s mut Slices) -> Result<Answer<'s>, Refusal> {
        let v = self.vocabulary.words();
        let Slices { work, out } = slices;
        Ok(match &self.question {
            Question::Compliance(buyer) => match gimbuka::compliance(v, buyer, words, work, out)? {
                Verdict::Compliant => Answer::Yes { term: None },
                Verdict::Outside { term, combination, words } => {
                    let case = Case { term, combination, countermodel: &out[..words] };
                    Answer::No(Some((Side::First, case)))
                }
            },
            Question::Equality(first, _) => match gimbuka::equality(v, first, words, work, out)? {
                Comparison::Equal => Answer::Yes { term: None },
                Comparison::Differs { side, term, combination, words } => {
                    let case = Case { term, combination, countermodel: &out[..words] };
                    Answer::No(Some((side, case)))
                }
            },
            Question::Possibility => match gimbuka::possible(v, words, work)? {
                Possibility::Possible { term } => Answer::Yes { term: Some(term) },
                Possibility::Impossible => Answer::No(None),
            },
        })
    }

    /// Reads a policy, asks, and tells the answer.
    fn answer(&self, item: Item, slices: &mut Slices, lines: &mut Lines, tally: &mut Tally) {
        let (source, policy) = item.read(self.vocabulary);
        let policy = match policy {
            Ok(policy) => policy,
            Err(complaint) => {
                tally.unread += 1;
                lines.unread(&source, &complaint, self.form.json);
                return;
            }
        };
        let name = policy.name;
        if !self.names.is_empty() && !self.names.contains(&name) {
            return;
        }
        let answer = self.ask(&policy.words, slices);
        match &answer {
            Ok(Answer::Yes { .. }) => tally.yes += 1,
            Ok(Answer::No(_)) => tally.no += 1,
            Err(_) => tally.refused += 1,
        }
        if self.form.json {
            lines.object(self.object(&source, &name, &answer));
        } else {
            self.tell(&name, &answer, lines);
        }
    }

    fn tell(&self, name: &str, answer: &Result<Answer<'_>, Refusal>, lines: &mut Lines) {
        let Sayings { yes, no, .. } = self.question.sayings();
        match answer {
            Ok(Answer::Yes { term }) => {
                lines.line(&format!("{name}: {yes}"));
                if let (Some(term), true) = (term, self.form.why) {
                    lines.below(1, &format!("Some individual can be in term {term}."));
                }
            }
            Ok(Answer::No(reason)) => {
                lines.line(&format!("{name}: {no}"));
                if !self.form.why {
                    return;
                }
                let Some((side, case)) = reason else {
                    lines.below(1, "No individual can be in any of its terms.");
                    return;
                };
                let (first, second) = match &self.question {
                    Question::Equality(_, first) => (first.as_str(), name),
                    _ => ("the buyer's policy", "the consent"),
                };
                let (one, other) = match side {
                    Side::First => (first, second),
                    Side::Second => (second, first),
                };
                lines.below(1, &format!("Term {}", case.sentence(one, other)));
                case.tell(self.vocabulary.names(), one, other, 1, lines);
            }
            Err(refusal) => lines.line(&format!("{name}: refused {}: {refusal}", refusal.number())),
        }
    }

    fn object(&self, source: &Source, name: &str, answer: &Result<Answer<'_>, Refusal>) -> Object {
        let Sayings { yes, no, .. } = self.question.sayings();
        let object = source.object(name);
        let names = self.form.why.then(|| self.vocabulary.names());
        match answer {
            Ok(Answer::Yes { term }) => object.with("verdict", yes).with_some("term", *term),
            Ok(Answer::No(None)) => object.with("verdict", no),
            Ok(Answer::No(Some((side, case)))) => {
                let object = object.with("verdict", no);
                let object = match self.question {
                    Question::Equality(..) => object.with("side", *side as u32),
                    _ => object,
                };
                case.object(object, names)
            }
            Err(refusal) => object
                .with("verdict", "refused")
                .with("refusal", refusal.number())
                .with("message", refusal.to_string()),
        }
    }

    /// Answers these on all cores. The lines are in their order.
    fn portion(&self, items: Vec<Item>) -> Vec<(Lines, Tally)> {
        // What is told of a few is put into one text.
        let few = items.len().div_ceil(4 * rayon::current_num_threads()).min(32);
        let mut items = items.into_iter();
        let next = || Some(items.by_ref().take(few).collect::<Vec<Item>>());
        let chunks: Vec<Vec<Item>> =
            iter::from_fn(next).take_while(|chunk| !chunk.is_empty()).collect();
        let answered = chunks.into_par_iter().map(|chunk| {
            with_slices(|slices| {
                let mut lines = Lines::default();
                let mut tally = Tally::default();
                for item in chunk {
                    self.answer(item, slices, &mut lines, &mut tally);
                }
                (lines, tally)
            })
        });
        answered.collect()
    }

    /// Puts the question of each policy that comes, and tells the answers and their count.
    fn run(
        &self,
        batches: impl Iterator<Item = Batch>,
        bytes: impl FnOnce() -> Option<u64>,
    ) -> Result<Status, Failure> {
        let sayings = self.question.sayings();
        let mut output = Output::new();
        let mut tally = Tally::default();
        // A reason can take megabytes, so that it is tried with few how much is told of each.
        let least = 8 * rayon::current_num_threads();
        let mut at_a_time = least;
        output.begin(bytes);
        for batch in batches {
            let mut items = batch.items.into_iter();
            while items.len() > 0 {
                let mut told = 0;
                for (lines, part) in self.portion(items.by_ref().take(at_a_time).collect()) {
                    told += lines.len();
                    output.write(&lines)?;
                    tally.add(part);
                }
                at_a_time = match told {
                    0..MUCH => (2 * at_a_time).min(collection::PIECES),
                    _ => (at_a_time / 2).max(least),
                };
            }
            output.advance(batch.bytes, || tally.sentence(&sayings));
        }
        if tally.asked() == 0 && !self.names.is_empty() {
            output.end()?;
            return Err(Failure::Other(format!("no policy is named {}", self.names.join(" or "))));
        }
        let mut last = Lines::default();
        if self.form.json {
            last.object(tally.object(&sayings));
        } else {
            last.line(&tally.sentence(&sayings));
        }
        output.write(&last)?;
        output.end()?;
        Ok(tally.status())
    }

    /// Of the files that are named.
    fn run_files(&self, paths: &[PathBuf]) -> Result<Status, Failure> {
        let stream = collection::stream(paths.to_vec()).map_err(Failure::no_thread)?;
        self.run(stream.into_iter(), || collection::size(paths))
    }

    /// Of the policies of a text, the first of which has this number.
    fn run_text(
        &self,
        path: &Path,
        policies: Vec<notation::Policy>,
        first: usize,
    ) -> Result<Status, Failure> {
        let items = Item::of_text(path, policies, first)?;
        self.run([Batch { items, bytes: 0 }].into_iter(), || None)
    }
}

/// The first policy of a text, apart from the others.
fn first_apart(path: &Path) -> Result<(Document, notation::Policy), Failure> {
    let mut document = input::document(path)?;
    if document.policies.is_empty() {
        return Err(Complaint::new(path, "there is no policy in it").into());
    }
    let first = document.policies.remove(0);
    Ok((document, first))
}

pub fn check(asked: Check) -> Result<Status, Failure> {
    let Check { form, chosen: Chosen { names }, vocabulary, buyer, consents } = asked;
    let (form, names) = (&form, &names[..]);
    let Some(buyer) = buyer else {
        let (Document { vocabulary: over, policies }, buyer) = first_apart(&vocabulary)?;
        let buyer = accepted_policy(&vocabulary, &over, buyer.words)?;
        let question = Question::Compliance(buyer);
        let asking = Asking { vocabulary: &over, question, form, names };
        return asking.run_text(&vocabulary, policies, 2);
    };
    let over = input::vocabulary(&vocabulary)?;
    let question = Question::Compliance(buyers(&buyer, &over)?.words);
    Asking { vocabulary: &over, question, form, names }.run_files(&consents)
}

pub fn equal(asked: Equal) -> Result<Status, Failure> {
    let Equal { form, chosen: Chosen { names }, vocabulary, first, others } = asked;
    let (form, names) = (&form, &names[..]);
    let Some(first) = first else {
        let (Document { vocabulary: over, policies }, first) = first_apart(&vocabulary)?;
        let words = accepted_policy(&vocabulary, &over, first.words)?;
        let name = first.name.unwrap_or_else(|| "the first policy".to_owned());
        let question = Question::Equality(words, name);
        let asking = Asking { vocabulary: &over, question, form, names };
        return asking.run_text(&vocabulary, policies, 2);
    };
    let over = input::vocabulary(&vocabulary)?;
    let first = buyers(&first, &over)?;
    let question = Question::Equality(first.words, first.name);
    Asking { vocabulary: &over, question, form, names }.run_files(&others)
}

pub fn possible(asked: Possible) -> Result<Status, Failure> {
    let Possible { form, chosen: Chosen { names }, vocabulary, policies } = asked;
    let (form, names, question) = (&form, &names[..], Question::Possibility);
    if policies.is_empty() {
        let document = input::document(&vocabulary)?;
        let asking = Asking { vocabulary: &document.vocabulary, question, form, names };
        return asking.run_text(&vocabulary, document.policies, 1);
    }
    let over = input::vocabulary(&vocabulary)?;
    Asking { vocabulary: &over, question, form, names }.run_files(&policies)
}
