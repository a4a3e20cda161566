//! `group`: the sets of consents that mean the same.
//!
//! Each consent is compared with the first consents of the sets so far. Equality is an equivalence (PROVED: `reflexive`, `symmetric`,
//! `transitive`), so that a consent which is equal to the first of a set is equal to all of it. A batch is looked up on all cores; what is new
//! is then taken up one after another, so that the sets do not depend on how many cores there are.

use crate::arguments::{Form, Group};
use crate::collection::{self, Batch, Item, Policy, Source};
use crate::input;
use crate::output::{count, Lines, Object, Output, Status};
use crate::probes::Tree;
use crate::slices::{with_slices, Slices};
use crate::trouble::{Complaint, Failure};
use crate::words::Case;
use gimbuka::{Comparison, Refusal, Side};
use notation::{Document, Vocabulary};
use rayon::prelude::*;
use std::collections::HashMap;
use std::ops::Range;
use std::sync::Arc;

/// A consent, by its name and place.
struct Member {
    name: String,
    source: Source,
}

/// Consents that mean the same. There is always a first one.
struct Set {
    first: Member,
    words: Arc<[u32]>,
    others: Vec<Member>,
}

/// The sets so far.
struct Sets<'a> {
    vocabulary: &'a Vocabulary,
    sets: Vec<Set>,
    /// Where the same words are already. Words that are equal mean the same.
    by_words: HashMap<Arc<[u32]>, usize>,
    tree: Tree,
}

/// Where a consent belongs.
enum Place {
    In(usize),
    /// In none of those that were looked at.
    New,
    /// The comparison with the first of this set was refused, and it is equal to no other.
    Unknown(usize, Refusal),
}

/// A consent that was read, and where it belongs by the sets that were there.
struct Found {
    member: Member,
    words: Vec<u32>,
    place: Place,
}

/// Why a consent is in no set.
enum Missing {
    Unread(Source, Box<Complaint>),
    Refused(Member, Refusal),
}

impl Sets<'_> {
    fn compare(&self, one: &[u32], other: &[u32], slices: &mut Slices) -> Result<bool, Refusal> {
        let Slices { work, out } = slices;
        let compared = gimbuka::equality(self.vocabulary.words(), one, other, work, out)?;
        Ok(compared == Comparison::Equal)
    }

    /// Looks in the sets of this range.
    fn place(
        &self,
        words: &[u32],
        range: Range<usize>,
        slices: &mut Slices,
    ) -> Result<Place, Refusal> {
        if let Some(&set) = self.by_words.get(words) {
            return Ok(Place::In(set));
        }
        let mut place = Place::New;
        let near = self.tree.near(self.vocabulary.words(), words, &mut slices.work)?;
        for &set in near.iter().filter(|set| range.contains(set)) {
            match self.compare(&self.sets[set].words, words, slices) {
                Ok(true) => return Ok(Place::In(set)),
                Ok(false) => {}
                Err(refusal) => {
                    if let Place::New = place {
                        place = Place::Unknown(set, refusal);
                    }
                }
            }
        }
        Ok(place)
    }

    /// Reads a batch and looks its consents up, on all cores.
    fn look_up(&self, batch: Batch) -> Vec<Result<Found, Missing>> {
        let looked_up = batch.items.into_par_iter().with_min_len(16).map(|item| {
            let (source, policy) = item.read(self.vocabulary);
            let Policy { name, words } = match policy {
                Ok(policy) => policy,
                Err(complaint) => return Err(Missing::Unread(source, Box::new(complaint))),
            };
            let all = 0..self.sets.len();
            let place = gimbuka::read_policy(self.vocabulary.words(), &words)
                .and_then(|()| with_slices(|slices| self.place(&words, all, slices)));
            let member = Member { name, source };
            match place {
                Ok(place) => Ok(Found { member, words, place }),
                Err(refusal) => Err(Missing::Refused(member, refusal)),
            }
        });
        looked_up.collect()
    }

    /// Takes up a consent that was looked up when there were so many sets. The error says why it is a set alone.
    fn take_up(&mut self, found: Found, then: usize) -> Result<(), String> {
        let Found { member, words, place } = found;
        let told = |refusal: Refusal| format!("refused {}: {refusal}", refusal.number());
        let place = match place {
            Place::In(set) => Ok(Place::In(set)),
            before => {
                let since = then..self.sets.len();
                match (with_slices(|slices| self.place(&words, since, slices)), before) {
                    (Ok(Place::New), before) => Ok(before),
                    (now, _) => now,
                }
            }
        };
        match place {
            Ok(Place::In(set)) => {
                self.sets[set].others.push(member);
                self.by_words.entry(words.into()).or_insert(set);
                Ok(())
            }
            Ok(Place::New) => {
                let set = self.begin(member, words);
                let Self { vocabulary, sets, tree, .. } = self;
                let words_of = |set: usize| &*sets[set].words;
                with_slices(|slices| tree.insert(vocabulary.words(), set, words_of, slices))
                    .map_err(told)
            }
            Ok(Place::Unknown(other, refusal)) => {
                let message =
                    format!("not compared with {}: {}", self.sets[other].first.name, told(refusal));
                self.begin(member, words);
                Err(message)
            }
            Err(refusal) => {
                self.begin(member, words);
                Err(told(refusal))
            }
        }
    }

    fn begin(&mut self, first: Member, words: Vec<u32>) -> usize {
        let set = self.sets.len();
        let words: Arc<[u32]> = words.into();
        self.by_words.insert(words.clone(), set);
        self.sets.push(Set { first, words, others: Vec::new() });
        set
    }
}

/// How many consents there were.
#[derive(Default)]
struct Tally {
    consents: usize,
    refused: usize,
    unread: usize,
}

impl Tally {
    fn sentence(&self, sets: usize) -> String {
        let Self { consents, refused, unread } = *self;
        let mut sentence =
            format!("{} in {}", count(consents, "consent", "consents"), count(sets, "set", "sets"));
        if refused > 0 {
            sentence = format!("{sentence}; {refused} refused");
        }
        if unread > 0 {
            sentence = format!("{sentence}; {unread} could not be read");
        }
        sentence
    }

    fn object(&self, sets: usize) -> Object {
        let counts = Object::new()
            .with("consents", self.consents)
            .with("sets", sets)
            .with("refused", self.refused)
            .with("unread", self.unread);
        Object::new().with_object("count", counts)
    }
}

pub fn group(asked: Group) -> Result<Status, Failure> {
    let Group { form, vocabulary, consents } = asked;
    if consents.is_empty() {
        let Document { vocabulary: over, policies } = input::document(&vocabulary)?;
        let items = Item::of_text(&vocabulary, policies, 1)?;
        return run(&over, &form, [Batch { items, bytes: 0 }].into_iter(), || None);
    }
    let over = input::vocabulary(&vocabulary)?;
    let stream = collection::stream(consents.clone()).map_err(Failure::no_thread)?;
    run(&over, &form, stream.into_iter(), || collection::size(&consents))
}

fn run(
    vocabulary: &Vocabulary,
    form: &Form,
    batches: impl Iterator<Item = Batch>,
    bytes: impl FnOnce() -> Option<u64>,
) -> Result<Status, Failure> {
    let mut sets =
        Sets { vocabulary, sets: Vec::new(), by_words: HashMap::new(), tree: Tree::new() };
    let mut tally = Tally::default();
    let mut output = Output::new();
    output.begin(bytes);
    for batch in batches {
        let then = sets.sets.len();
        let bytes = batch.bytes;
        let mut lines = Lines::default();
        for looked_up in sets.look_up(batch) {
            match looked_up {
                Ok(found) => {
                    tally.consents += 1;
                    let Member { name, source } = &found.member;
                    let (name, source) = (name.clone(), source.clone());
                    if let Err(message) = sets.take_up(found, then) {
                        tally.refused += 1;
                        refused(form, &name, &source, &message, &mut lines);
                    }
                }
                Err(Missing::Refused(Member { name, source }, refusal)) => {
                    tally.refused += 1;
                    let message = format!("refused {}: {refusal}", refusal.number());
                    refused(form, &name, &source, &message, &mut lines);
                }
                Err(Missing::Unread(source, complaint)) => {
                    tally.unread += 1;
                    lines.unread(&source, &complaint, form.json);
                }
            }
        }
        output.write(&lines)?;
        output.advance(bytes, || tally.sentence(sets.sets.len()));
    }
    tell(&sets, form, &mut output)?;
    let mut last = Lines::default();
    if form.json {
        last.object(tally.object(sets.sets.len()));
    } else {
        last.line(&tally.sentence(sets.sets.len()));
    }
    output.write(&last)?;
    output.end()?;
    Ok(if tally.refused + tally.unread > 0 {
        Status::Trouble
    } else if sets.sets.len() > 1 {
        Status::SomeNot
    } else {
        Status::All
    })
}

/// A consent that is refused stands on standard error, and for programs on standard output too.
fn refused(form: &Form, name: &str, source: &Source, message: &str, lines: &mut Lines) {
    lines.complain(&source.complaint(format!("{name}: {message}")));
    if form.json {
        lines.object(source.object(name).with("verdict", "refused").with("message", message));
    }
}

/// Prints the sets, a part of them at a time: the reasons are found on all cores.
fn tell(sets: &Sets<'_>, form: &Form, output: &mut Output) -> Result<(), Failure> {
    const AT_A_TIME: usize = 1_024;
    let all: Vec<(usize, &Set)> = sets.sets.iter().enumerate().collect();
    for part in all.chunks(AT_A_TIME) {
        let told = part.par_iter().map(|&(at, set)| {
            let mut lines = Lines::default();
            with_slices(|slices| sets.tell(at, set, form, slices, &mut lines));
            lines
        });
        for lines in told.collect::<Vec<Lines>>() {
            output.write(&lines)?;
        }
    }
    Ok(())
}

impl Sets<'_> {
    /// Prints a set, with the reason why it is not the first one.
    fn tell(&self, at: usize, set: &Set, form: &Form, slices: &mut Slices, lines: &mut Lines) {
        let first = &self.sets[0];
        let Slices { work, out } = slices;
        let v = self.vocabulary.words();
        let compared = (at > 0).then(|| gimbuka::equality(v, &first.words, &set.words, work, out));
        let (case, refusal) = match compared {
            Some(Ok(Comparison::Differs { side, term, combination, words })) => {
                (Some((side, Case { term, combination, countermodel: &out[..words] })), None)
            }
            Some(Ok(Comparison::Equal)) | None => (None, None),
            Some(Err(refusal)) => (None, Some(refusal)),
        };
        let names = form.why.then(|| self.vocabulary.names());
        let members = || [&set.first].into_iter().chain(&set.others);
        if form.json {
            let consents = members().map(|member| member.source.object(&member.name));
            let mut object = Object::new().with("set", at + 1).with_objects("consents", consents);
            if let Some((side, case)) = case {
                object = object.with("from", first.first.name.as_str()).with("side", side as u32);
                object = case.object(object, names);
            }
            if let Some(refusal) = refusal {
                object = object
                    .with("from", first.first.name.as_str())
                    .with("refusal", refusal.number())
                    .with("message", refusal.to_string());
            }
            lines.object(object);
            return;
        }
        let size = 1 + set.others.len();
        lines.line(&format!("set {}: {}", at + 1, count(size, "consent", "consents")));
        for member in members() {
            lines.below(1, &member.name);
        }
        if let Some((side, case)) = case {
            let (one, other) = match side {
                Side::First => (&first.first.name, &set.first.name),
                Side::Second => (&set.first.name, &first.first.name),
            };
            lines.below(1, &format!("differs from set 1: term {}", case.sentence(one, other)));
            if let Some(names) = names {
                case.tell(names, one, other, 1, lines);
            }
        }
        if let Some(refusal) = refusal {
            let number = refusal.number();
            lines.below(1, &format!("no reason beside set 1: refused {number}: {refusal}"));
        }
    }
}
