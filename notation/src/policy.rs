//! A policy's text straight to its words. The walk visits records in the order in which a text has
//! them, so that each is written where it is read.

use crate::names::Sort;
use crate::scan::{fault, say, Fault, Scanned, Scanner};
use crate::vocabulary::Vocabulary;

const MOST_RECORDS: usize = 512;
const DEEPEST: u32 = 16;
const MOST_OPEN: u32 = 200;
const WIDTH: usize = 6;

const ANNOTATION: &[u8] = b"Annotation";
const SOME: &[u8] = b"ObjectSomeValuesFrom";
const DATA: &[u8] = b"DataSomeValuesFrom";
const INTERSECTION: &[u8] = b"ObjectIntersectionOf";
const UNION: &[u8] = b"ObjectUnionOf";

/// What begins a concept.
#[derive(Clone, Copy)]
enum Head<'a> {
    Thing,
    Nothing,
    Some,
    Data,
    Intersection,
    Union,
    Class(&'a [u8]),
}

/// A policy as a text has it.
#[derive(Clone, Debug, PartialEq, Eq)]
pub struct Policy {
    /// What `Annotation(rdfs:label "..")` says.
    pub name: Option<String>,
    /// The words of the table.
    pub words: Vec<u32>,
}

/// Reads what stands behind the keyword `Policy`.
pub(crate) fn read(vocabulary: &Vocabulary, scanner: &mut Scanner<'_>) -> Scanned<Policy> {
    Reader::new(vocabulary, scanner).policy()
}

/// Passes what stands behind the keyword `Policy`, whatever its names are.
pub(crate) fn pass(scanner: &mut Scanner<'_>) -> Scanned<()> {
    Reader::new(&AnyName, scanner).policy().map(drop)
}

/// What knows the numbers of names.
pub(crate) trait Numbers {
    fn number(&self, sort: Sort, name: &[u8]) -> Option<u32>;
}

struct AnyName;

impl Numbers for AnyName {
    fn number(&self, _: Sort, _: &[u8]) -> Option<u32> {
        Some(1)
    }
}

/// What stands at a policy's front.
#[derive(Default)]
struct Annotations<'a> {
    name: Option<&'a str>,
    /// The record order, and where its annotation begins.
    order: Option<(Vec<u32>, usize)>,
}

struct Reader<'r, 'a, N> {
    numbers: &'r N,
    scanner: &'r mut Scanner<'a>,
    words: Vec<u32>,
    /// Parentheses open now.
    open: u32,
}

impl<'r, 'a, N: Numbers> Reader<'r, 'a, N> {
    fn new(numbers: &'r N, scanner: &'r mut Scanner<'a>) -> Self {
        let mut words = Vec::with_capacity(96 * WIDTH);
        words.extend([0; WIDTH]);
        Self { numbers, scanner, words, open: 0 }
    }

    fn open(&mut self, keyword: &[u8]) -> Scanned<()> {
        self.scanner.open(keyword)?;
        self.open += 1;
        if self.open > MOST_OPEN {
            return Err(fault(self.scanner.place(), "parentheses are nested too deep"));
        }
        Ok(())
    }

    fn close(&mut self, keyword: &[u8]) -> Scanned<()> {
        self.open -= 1;
        self.scanner.close(keyword)
    }

    /// Annotations, and terms or unions of them.
    fn policy(mut self) -> Scanned<Policy> {
        self.open(b"Policy")?;
        let Annotations { name, order } = self.annotations()?;
        self.terms(0)?;
        self.close(b"Policy")?;
        let words = match order {
            None => self.words,
            Some((order, at)) => {
                moved(&self.words, &order).map_err(|message| fault(at, message))?
            }
        };
        Ok(Policy { name: name.map(str::to_owned), words })
    }

    /// `Annotation(rdfs:label "..")` and `Annotation(:recordOrder "..")`, each once at most.
    fn annotations(&mut self) -> Scanned<Annotations<'a>> {
        let mut all = Annotations::default();
        loop {
            let at = self.scanner.place();
            if !self.scanner.takes_word(ANNOTATION) {
                return Ok(all);
            }
            let behind = self.scanner.place();
            let is_label = self.scanner.takes(b'(') && self.scanner.takes_word(b"rdfs:label");
            self.scanner.go_to(behind);
            if !is_label && all.order.is_some() {
                // A class may have this name.
                self.scanner.go_to(at);
                return Ok(all);
            }
            self.open(ANNOTATION)?;
            if is_label {
                if all.name.is_some() {
                    return Err(fault(at, "a policy has one name, and this is the second"));
                }
                self.scanner.this_word("rdfs:label")?;
                let (label, at) = self.quoted("a name in quotes")?;
                self.close(ANNOTATION)?;
                let label = std::str::from_utf8(label);
                all.name = Some(label.map_err(|_| fault(at, "a name is UTF-8, and this is not"))?);
            } else {
                if !self.scanner.takes_word(b":recordOrder") {
                    return Err(self.scanner.unexpected("rdfs:label or :recordOrder"));
                }
                let numbers = self.quoted("record numbers in quotes")?.0;
                self.close(ANNOTATION)?;
                all.order = Some((order_of(numbers).map_err(|message| fault(at, message))?, at));
            }
        }
    }

    fn quoted(&mut self, what: &str) -> Scanned<(&'a [u8], usize)> {
        match self.scanner.string()? {
            Some(string) => Ok(string),
            None => Err(self.scanner.unexpected(what)),
        }
    }

    /// The word that begins a concept, and its place.
    fn head(&mut self) -> Scanned<(Head<'a>, usize)> {
        let at = self.scanner.place();
        // To hold the text to a keyword is faster than to look for the end of a word.
        let keywords: &[(&[u8], Head<'_>)] = match self.scanner.peek() {
            Some(b'O') => {
                &[(SOME, Head::Some), (INTERSECTION, Head::Intersection), (UNION, Head::Union)]
            }
            Some(b'D') => &[(DATA, Head::Data)],
            Some(b'o') => &[(b"owl:Thing", Head::Thing), (b"owl:Nothing", Head::Nothing)],
            _ => &[],
        };
        for &(keyword, head) in keywords {
            if self.scanner.takes_word(keyword) {
                return Ok((head, at));
            }
        }
        let (name, at) = self.scanner.word("a class or a restriction")?;
        Ok((Head::Class(name), at))
    }

    /// Adds terms behind the link at this word; gives the link behind them.
    fn terms(&mut self, mut link: usize) -> Scanned<usize> {
        while self.scanner.peek() != Some(b')') {
            let (head, at) = self.head()?;
            if let Head::Union = head {
                self.open(UNION)?;
                link = self.terms(link)?;
                self.close(UNION)?;
                continue;
            }
            let term = self.record(link, at, [5, 0, 0, 0])?;
            self.concept(head, at, 1, term + 4)?;
            link = term + 5;
        }
        Ok(link)
    }

    /// Writes a record behind the link at this word; gives the word at which it begins.
    fn record(&mut self, link: usize, at: usize, fields: [u32; 4]) -> Scanned<usize> {
        let start = self.words.len();
        let number = start / WIDTH;
        if number > MOST_RECORDS {
            return Err(fault(
                at,
                format!(
                    "a policy has at most {MOST_RECORDS} records, one for each term and conjunct"
                ),
            ));
        }
        self.words[link] = number as u32;
        let [kind, a, lo, hi] = fields;
        self.words.extend([kind, a, lo, hi, 0, 0]);
        Ok(start)
    }

    /// Adds the conjuncts of one concept behind the link at this word; gives the link behind them.
    fn concept(
        &mut self,
        head: Head<'_>,
        at: usize,
        depth: u32,
        mut link: usize,
    ) -> Scanned<usize> {
        match head {
            Head::Thing => return Ok(link),
            Head::Intersection => {
                self.open(INTERSECTION)?;
                while self.scanner.peek() != Some(b')') {
                    let (head, at) = self.head()?;
                    link = self.concept(head, at, depth, link)?;
                }
                self.close(INTERSECTION)?;
                return Ok(link);
            }
            Head::Union => return Err(fault(at, "a union can stand only outside the terms")),
            _ => {}
        }
        let start = self.record(link, at, [0; 4])?;
        if depth > DEEPEST {
            return Err(fault(
                at,
                format!("restrictions can be nested {DEEPEST} deep, and this is deeper"),
            ));
        }
        let fields = match head {
            Head::Some => {
                self.open(SOME)?;
                let (name, at) = self.scanner.word("the name of a role")?;
                let role = self.number(Sort::Role, name, at)?;
                let (head, at) = self.head()?;
                self.concept(head, at, depth + 1, start + 4)?;
                self.close(SOME)?;
                [3, role, 0, 0]
            }
            Head::Data => {
                self.open(DATA)?;
                let [feature, lo, hi] = self.span()?;
                self.close(DATA)?;
                [4, feature, lo, hi]
            }
            Head::Class(name) => [1, self.class(name, at)?, 0, 0],
            _ => [2, 0, 0, 0],
        };
        self.words[start..start + 4].copy_from_slice(&fields);
        Ok(start + 5)
    }

    fn number(&self, sort: Sort, name: &[u8], at: usize) -> Scanned<u32> {
        let number = self.numbers.number(sort, name);
        number.ok_or_else(|| fault(at, sort.unknown(name)))
    }

    /// The number of a class. No parenthesis stands behind one, but behind the next policy's keyword.
    fn class(&mut self, name: &[u8], at: usize) -> Scanned<u32> {
        let is_keyword = name == b"Policy";
        if is_keyword && self.scanner.peek() == Some(b'(') {
            return Err(next_policy(at));
        }
        self.number(Sort::Class, name, at).map_err(|unknown| match is_keyword {
            true => next_policy(at),
            false => unknown,
        })
    }

    /// `f DatatypeRestriction(xsd:integer xsd:minInclusive lo xsd:maxInclusive hi)`
    fn span(&mut self) -> Scanned<[u32; 3]> {
        let (name, at) = self.scanner.word("the name of a feature")?;
        let feature = self.number(Sort::Feature, name, at)?;
        self.scanner.this_word("DatatypeRestriction")?;
        self.open(b"DatatypeRestriction")?;
        self.scanner.this_word("xsd:integer")?;
        self.scanner.this_word("xsd:minInclusive")?;
        let lo = self.integer()?;
        self.scanner.this_word("xsd:maxInclusive")?;
        let hi = self.integer()?;
        self.close(b"DatatypeRestriction")?;
        Ok([feature, lo, hi])
    }

    /// `5` or `"5"^^xsd:integer`.
    fn integer(&mut self) -> Scanned<u32> {
        let (digits, at) = match self.scanner.string()? {
            Some(string) => {
                self.scanner.this_word("^^xsd:integer")?;
                string
            }
            None => self.scanner.word("a number")?,
        };
        number(digits).ok_or_else(|| {
            let (most, digits) = (u32::MAX, say(digits));
            fault(at, format!("expected a whole number from 0 to {most}, found \"{digits}\""))
        })
    }
}

fn next_policy(at: usize) -> Box<Fault> {
    fault(at, "another policy begins here, and the one before is not closed")
}

/// A word in base ten, of digits alone.
pub(crate) fn number(digits: &[u8]) -> Option<u32> {
    if digits.is_empty() {
        return None;
    }
    let mut number = 0u32;
    for &digit in digits {
        if !digit.is_ascii_digit() {
            return None;
        }
        number = number.checked_mul(10)?.checked_add(u32::from(digit - b'0'))?;
    }
    Some(number)
}

/// The numbers of a record order.
fn order_of(numbers: &[u8]) -> Result<Vec<u32>, &'static str> {
    let numbers = std::str::from_utf8(numbers).ok();
    let order = numbers
        .and_then(|numbers| numbers.split_whitespace().map(|one| one.parse().ok()).collect());
    order.ok_or(":recordOrder holds numbers with blanks between them")
}

/// Gives record k of the walk the number `order[k - 1]`. The order must have each number once and
/// keep the rule that links rise.
fn moved(words: &[u32], order: &[u32]) -> Result<Vec<u32>, String> {
    let records = words.len() / WIDTH - 1;
    let mut sorted = order.to_vec();
    sorted.sort_unstable();
    if !sorted.into_iter().eq(1..=records as u32) {
        return Err(format!(":recordOrder must have each number from 1 to {records} once"));
    }
    let number = |link: u32| if link == 0 { 0 } else { order[link as usize - 1] };
    let mut moved = vec![0; words.len()];
    moved[0] = number(words[0]);
    for (record, &own) in words[WIDTH..].chunks_exact(WIDTH).zip(order) {
        let links = [number(record[4]), number(record[5])];
        if let Some(to) = links.into_iter().find(|&to| to != 0 && to <= own) {
            return Err(format!(
                ":recordOrder makes record {own} link back to {to}; links lead to greater numbers"
            ));
        }
        let start = own as usize * WIDTH;
        moved[start..start + 4].copy_from_slice(&record[..4]);
        moved[start + 4..start + WIDTH].copy_from_slice(&links);
    }
    Ok(moved)
}
