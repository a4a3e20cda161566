//! Words to text.

use crate::forms::{AXIOMS, VALUES};
use crate::names::{Names, Sort};
use crate::scan::LONGEST_NAME;
use crate::vocabulary::Vocabulary;
use gimbuka::MOST_OWL_BYTES;
use std::collections::HashSet;
use std::fmt::Write as _;

/// The declarations and axioms of a vocabulary, a line each. They read back as the same words where
/// these were read from a text, and else as words that say the same: in OWL a role or a feature is
/// many-valued unless it is stated functional, so that one which is functional by default is stated so,
/// behind the other axioms. With those over 1,024 records may be needed, which are not read.
#[must_use]
pub fn print_vocabulary(vocabulary: &Vocabulary) -> String {
    lines(vocabulary.names(), &said(vocabulary))
}

/// A vocabulary as the proved operation reads it, `Ontology( )` with a line for each declaration and
/// axiom. A name that the operation has no spelling for is spelled otherwise. What is said of the lines
/// of [`print_vocabulary`] holds of these.
#[must_use]
pub fn print_owl(vocabulary: &Vocabulary) -> String {
    owl(vocabulary.names(), &said(vocabulary))
}

/// The axioms with which OWL says what a vocabulary's records say.
fn said(vocabulary: &Vocabulary) -> Vec<[u32; 3]> {
    let records = records(vocabulary.words());
    let mut axioms = records.clone();
    axioms.retain(|&[kind, ..]| is_axiom(kind));
    for (sort, functional, many_valued) in VALUES {
        let is_said = |name| [functional, many_valued].map(|kind| [kind, name, 0]);
        let names = 1..=vocabulary.names().of(sort).len() as u32;
        let by_default =
            names.filter(|&name| !is_said(name).iter().any(|said| records.contains(said)));
        axioms.extend(by_default.map(|name| [functional, name, 0]));
    }
    axioms
}

/// OWL has no axiom for what is many-valued.
pub(crate) fn is_axiom(kind: u32) -> bool {
    VALUES.iter().all(|&(.., many_valued)| many_valued != kind)
}

/// What the proved operation reads, of names and axioms.
pub(crate) fn owl(names: &Names, axioms: &[[u32; 3]]) -> String {
    let spelled = Names::each(|sort| spelled(names.of(sort)));
    let text = format!("Ontology(\n{})\n", lines(&spelled, axioms));
    if text.len() <= MOST_OWL_BYTES {
        return text;
    }
    // Names of a few letters always fit.
    let short = Names::numbered(Sort::ALL.map(|sort| names.of(sort).len()));
    format!("Ontology(\n{})\n", lines(&short, axioms))
}

/// The records of a vocabulary's chain, as kind, a and b.
pub(crate) fn records(words: &[u32]) -> Vec<[u32; 3]> {
    let mut records = Vec::new();
    let (mut own, mut link) = (0, words.get(3).copied().unwrap_or(0));
    while link > own {
        let start = 4 * link as usize;
        let Some(&[kind, a, b, next]) = words.get(start..start + 4) else { break };
        records.push([kind, a, b]);
        (own, link) = (link, next);
    }
    records
}

/// Declarations, and axioms up to one that cannot be told.
fn lines(names: &Names, axioms: &[[u32; 3]]) -> String {
    let mut text = String::new();
    for sort in Sort::ALL {
        for name in names.of(sort) {
            let _ = writeln!(text, "Declaration({}({name}))", sort.keyword());
        }
    }
    for line in axioms.iter().map_while(|&axiom| line(names, axiom)) {
        let _ = writeln!(text, "{line}");
    }
    text
}

fn line(names: &Names, [kind, a, b]: [u32; 3]) -> Option<String> {
    let form = AXIOMS.get((kind as usize).checked_sub(1)?)?;
    let of_form = form.sorts.iter().zip([a, b]).map(|(&sort, number)| name(names.of(sort), number));
    let of_form = of_form.collect::<Option<Vec<_>>>()?;
    Some(format!("{}({})", form.keyword, of_form.join(" ")))
}

fn name(names: &[String], number: u32) -> Option<&str> {
    names.get((number as usize).checked_sub(1)?).map(String::as_str)
}

/// Does the proved operation read this name?
fn is_exact(name: &str) -> bool {
    let signs = name.strip_prefix(':').unwrap_or_default();
    (1..=LONGEST_NAME).contains(&signs.len())
        && signs.bytes().all(|sign| sign.is_ascii_alphanumeric())
}

/// The names of a sort as the proved operation reads them, no two alike. One that it does not read is
/// spelled by the letters and digits of its last part, and by a number where another is spelled so.
fn spelled(names: &[String]) -> Vec<String> {
    let mut taken: HashSet<String> = names.iter().filter(|name| is_exact(name)).cloned().collect();
    let mut spell = |name: &String| {
        if is_exact(name) {
            return name.clone();
        }
        let last = name.trim_end_matches('>').rsplit(['#', '/', ':']).next().unwrap_or_default();
        let mut signs: String = last.chars().filter(char::is_ascii_alphanumeric).collect();
        // With room for a number behind them.
        signs.truncate(LONGEST_NAME - 3);
        let alone = (!signs.is_empty()).then(|| format!(":{signs}"));
        let numbered = (2..).map(|number| format!(":{signs}{number}"));
        let mut free = alone.into_iter().chain(numbered).filter(|name| !taken.contains(name));
        let free = free.next().unwrap_or_default();
        taken.insert(free.clone());
        free
    };
    names.iter().map(&mut spell).collect()
}

/// The text of a policy, which reads back as the same words; records that no link reaches are left
/// out. None where the words are no policy over these names: let the proved library accept them first.
#[must_use]
pub fn print_policy(names: &Names, words: &[u32]) -> Option<String> {
    let mut printer =
        Printer { names, words, order: Vec::new(), seen: vec![false; words.len() / 6] };
    let mut terms = String::new();
    printer.terms(&mut terms)?;
    let mut sorted = printer.order.clone();
    sorted.sort_unstable();
    let mut text = "Policy(\n".to_owned();
    if sorted != printer.order {
        let place = |number: &u32| sorted.partition_point(|other| other < number) + 1;
        let numbers: Vec<String> = printer.order.iter().map(|n| place(n).to_string()).collect();
        let _ = writeln!(text, "  Annotation(:recordOrder \"{}\")", numbers.join(" "));
    }
    let _ = write!(text, "  ObjectUnionOf(\n{terms}  )\n)\n");
    Some(text)
}

struct Printer<'a> {
    names: &'a Names,
    words: &'a [u32],
    /// The records, in the order of the walk.
    order: Vec<u32>,
    /// Which of them were there before.
    seen: Vec<bool>,
}

impl Printer<'_> {
    fn terms(&mut self, text: &mut String) -> Option<()> {
        let mut link = match self.words.get(..6)? {
            &[link, 0, 0, 0, 0, 0] => link,
            _ => return None,
        };
        while link != 0 {
            let [kind, a, lo, hi, child, next] = self.record(link)?;
            if [kind, a, lo, hi] != [5, 0, 0, 0] {
                return None;
            }
            text.push_str("    ObjectIntersectionOf(\n");
            for one in self.chain(child, 1)? {
                let _ = writeln!(text, "      {one}");
            }
            text.push_str("    )\n");
            link = next;
        }
        Some(())
    }

    /// The words of a record, whose links must rise.
    fn record(&mut self, own: u32) -> Option<[u32; 6]> {
        let seen = self.seen.get_mut(own as usize)?;
        if std::mem::replace(seen, true) {
            return None;
        }
        self.order.push(own);
        let start = 6 * own as usize;
        let record: [u32; 6] = self.words.get(start..start + 6)?.try_into().ok()?;
        let rise = record[4..].iter().all(|&link| link == 0 || link > own);
        rise.then_some(record)
    }

    /// The conjuncts of a chain at this depth.
    fn chain(&mut self, mut link: u32, depth: u32) -> Option<Vec<String>> {
        let mut all = Vec::new();
        while link != 0 {
            if depth > 16 {
                return None;
            }
            let [kind, a, lo, hi, child, next] = self.record(link)?;
            all.push(match [kind, lo, hi, child] {
                [1, 0, 0, 0] => class(self.names, a)?.to_owned(),
                [2, 0, 0, 0] if a == 0 => "owl:Nothing".to_owned(),
                [3, 0, 0, _] => {
                    let role = name(&self.names.roles, a)?;
                    let inner = self.chain(child, depth + 1)?;
                    format!("ObjectSomeValuesFrom({role} {})", concept(&inner))
                }
                [4, _, _, 0] => format!(
                    "DataSomeValuesFrom({} DatatypeRestriction(xsd:integer \
                     xsd:minInclusive \"{lo}\"^^xsd:integer xsd:maxInclusive \"{hi}\"^^xsd:integer))",
                    name(&self.names.features, a)?
                ),
                _ => return None,
            });
            link = next;
        }
        Some(all)
    }
}

/// A class may be declared with the name of a keyword, but then no policy can use it.
fn class(names: &Names, number: u32) -> Option<&str> {
    const KEYWORDS: [&str; 6] = [
        "owl:Thing",
        "owl:Nothing",
        "ObjectIntersectionOf",
        "ObjectUnionOf",
        "ObjectSomeValuesFrom",
        "DataSomeValuesFrom",
    ];
    name(&names.classes, number).filter(|name| !KEYWORDS.contains(name))
}

/// OWL has no intersection of fewer than two: one stands for itself, and none is everything.
fn concept(inner: &[String]) -> String {
    match inner {
        [] => "owl:Thing".to_owned(),
        [one] => one.clone(),
        _ => format!("ObjectIntersectionOf({})", inner.join(" ")),
    }
}
