//! From tokens to a document.

use super::lexer::{tokens, At, Token};
use super::{Document, Mistake, Names, PolicyText};
use crate::classes::{ClassNo, FeatureNo, RoleNo};
use crate::encode::policy_words;
use crate::policy::{Conjunct, Term};
use crate::vocabulary::{Axiom, Vocabulary};
use std::collections::HashMap;

const MOST_VOCABULARY_RECORDS: usize = 1_024;
const MOST_RECORDS: usize = 512;
const DEEPEST: usize = 16;
const MOST_OPEN: usize = 200;

/// Reads a whole text.
pub fn document(text: &str) -> Result<Document, Mistake> {
    let mut parser = Parser {
        tokens: tokens(text)?,
        next: 0,
        classes: Series::new("class", "Class", 256),
        roles: Series::new("role", "ObjectProperty", 64),
        features: Series::new("feature", "DataProperty", 64),
        axioms: Vec::new(),
        places: Vec::new(),
        policies: Vec::new(),
        records: 0,
        open: 0,
    };
    parser.items()?;
    parser.finish()
}

/// One series of names and their numbers.
struct Series {
    what: &'static str,
    keyword: &'static str,
    most: usize,
    names: Vec<String>,
    numbers: HashMap<String, u32>,
}

impl Series {
    fn new(what: &'static str, keyword: &'static str, most: usize) -> Self {
        Self { what, keyword, most, names: Vec::new(), numbers: HashMap::new() }
    }

    fn declare(&mut self, name: String, at: At) -> Result<(), Mistake> {
        let Self { what, most, .. } = *self;
        if self.numbers.contains_key(&name) {
            return Err(at.mistake(format!("the {what} {name} is declared twice")));
        }
        if self.names.len() == most {
            return Err(
                at.mistake(format!("{name} is one {what} too many; there are at most {most}"))
            );
        }
        self.names.push(name.clone());
        self.numbers.insert(name, self.names.len() as u32);
        Ok(())
    }

    fn number(&self, name: &str, at: At) -> Result<u32, Mistake> {
        self.numbers.get(name).copied().ok_or_else(|| {
            let Self { what, keyword, .. } = self;
            at.mistake(format!(
                "{name} is no {what} declared above; write Declaration({keyword}({name})) before it"
            ))
        })
    }
}

struct Parser {
    tokens: Vec<(Token, At)>,
    next: usize,
    classes: Series,
    roles: Series,
    features: Series,
    axioms: Vec<Axiom>,
    /// Where each of them stands.
    places: Vec<At>,
    policies: Vec<PolicyText>,
    /// Records of the policy being read.
    records: usize,
    /// Parentheses open now.
    open: usize,
}

type Parsed<T> = Result<T, Mistake>;

impl Parser {
    fn peek(&self) -> (&Token, At) {
        let (token, at) = &self.tokens[self.next];
        (token, *at)
    }

    fn take(&mut self) -> (Token, At) {
        let taken = self.tokens[self.next].clone();
        if self.next + 1 < self.tokens.len() {
            self.next += 1;
        }
        taken
    }

    fn at(&self) -> At {
        self.peek().1
    }

    fn expect(&mut self, token: &Token, after: &str) -> Parsed<()> {
        let (found, at) = self.take();
        if found == *token {
            return Ok(());
        }
        Err(at.mistake(format!("expected {} {after}, found {}", token.say(), found.say())))
    }

    fn word(&mut self, what: &str) -> Parsed<(String, At)> {
        match self.take() {
            (Token::Word(word), at) => Ok((word, at)),
            (found, at) => Err(at.mistake(format!("expected {what}, found {}", found.say()))),
        }
    }

    fn this_word(&mut self, word: &str) -> Parsed<()> {
        let (found, at) = self.word(&format!("\"{word}\""))?;
        if found == word {
            return Ok(());
        }
        Err(at.mistake(format!("expected \"{word}\", found \"{found}\"")))
    }

    /// What stands in parentheses behind a keyword.
    fn in_parentheses<T>(
        &mut self,
        keyword: &str,
        inside: impl FnOnce(&mut Self) -> Parsed<T>,
    ) -> Parsed<T> {
        self.expect(&Token::Open, &format!("after {keyword}"))?;
        self.open += 1;
        if self.open > MOST_OPEN {
            return Err(self.at().mistake("parentheses are nested too deep"));
        }
        let read = inside(self)?;
        self.open -= 1;
        self.expect(&Token::Close, &format!("at the end of {keyword}"))?;
        Ok(read)
    }

    fn items(&mut self) -> Parsed<()> {
        while *self.peek().0 != Token::End {
            let (keyword, at) = self.word("Declaration, an axiom or Policy")?;
            match keyword.as_str() {
                "Declaration" => self.in_parentheses(&keyword, Self::declaration)?,
                "Policy" => {
                    if self.policies.len() == 2 {
                        return Err(at.mistake("a text has two policies, and this is the third"));
                    }
                    let policy = self.in_parentheses(&keyword, Self::policy)?;
                    self.policies.push(policy);
                }
                _ => self.axiom(&keyword, at)?,
            }
        }
        Ok(())
    }

    fn declaration(&mut self) -> Parsed<()> {
        let (keyword, at) = self.word("Class, ObjectProperty or DataProperty")?;
        let (name, name_at) = self.in_parentheses(&keyword, |parser| parser.word("a name"))?;
        match keyword.as_str() {
            "Class" if matches!(name.as_str(), "owl:Thing" | "owl:Nothing") => {
                Err(name_at.mistake(format!("{name} is always there and is not declared")))
            }
            "Class" => self.classes.declare(name, name_at),
            "ObjectProperty" => self.roles.declare(name, name_at),
            "DataProperty" => self.features.declare(name, name_at),
            _ => Err(at.mistake(format!(
                "\"{keyword}\" cannot be declared; Class, ObjectProperty and DataProperty can"
            ))),
        }
    }

    fn axiom(&mut self, keyword: &str, at: At) -> Parsed<()> {
        let axiom = match keyword {
            "SubClassOf" => self.in_parentheses(keyword, |parser| {
                Ok(Axiom::Below(parser.class()?, parser.class()?))
            }),
            "DisjointClasses" => self.in_parentheses(keyword, |parser| {
                Ok(Axiom::Disjoint(parser.class()?, parser.class()?))
            }),
            "FunctionalObjectProperty" => {
                self.in_parentheses(keyword, |parser| Ok(Axiom::FunctionalRole(parser.role()?)))
            }
            "FunctionalDataProperty" => self
                .in_parentheses(keyword, |parser| Ok(Axiom::FunctionalFeature(parser.feature()?))),
            "ObjectPropertyRange" => self.in_parentheses(keyword, |parser| {
                Ok(Axiom::Range(parser.role()?, parser.class()?))
            }),
            _ => Err(at.mistake(format!(
                "\"{keyword}\" is not known here; there are Declaration, SubClassOf, \
                 DisjointClasses, FunctionalObjectProperty, FunctionalDataProperty, \
                 ObjectPropertyRange and Policy"
            ))),
        }?;
        self.axioms.push(axiom);
        self.places.push(at);
        Ok(())
    }

    fn class(&mut self) -> Parsed<ClassNo> {
        let (name, at) = self.word("the name of a class")?;
        self.classes.number(&name, at).map(ClassNo)
    }

    fn role(&mut self) -> Parsed<RoleNo> {
        let (name, at) = self.word("the name of a role")?;
        self.roles.number(&name, at).map(RoleNo)
    }

    fn feature(&mut self) -> Parsed<FeatureNo> {
        let (name, at) = self.word("the name of a feature")?;
        self.features.number(&name, at).map(FeatureNo)
    }

    /// `[Annotation(:recordOrder "..")]` and terms, or a union of them.
    fn policy(&mut self) -> Parsed<PolicyText> {
        self.records = 0;
        let annotation = self.order()?;
        let mut terms = Vec::new();
        self.terms(&mut terms)?;
        let order = annotation.map(|(order, at)| checked_order(&terms, order, at)).transpose()?;
        Ok(PolicyText { terms, order })
    }

    fn order(&mut self) -> Parsed<Option<(Vec<u32>, At)>> {
        let at = self.at();
        if *self.peek().0 != Token::Word("Annotation".to_owned()) {
            return Ok(None);
        }
        self.take();
        let numbers = self.in_parentheses("Annotation", |parser| {
            parser.this_word(":recordOrder")?;
            match parser.take() {
                (Token::Quoted(text), _) => Ok(text),
                (found, at) => Err(
                    at.mistake(format!("expected record numbers in quotes, found {}", found.say()))
                ),
            }
        })?;
        let order: Result<Vec<u32>, _> = numbers.split_whitespace().map(str::parse).collect();
        match order {
            Ok(order) => Ok(Some((order, at))),
            Err(_) => Err(at.mistake(":recordOrder holds numbers with blanks between them")),
        }
    }

    fn terms(&mut self, terms: &mut Vec<Term>) -> Parsed<()> {
        while *self.peek().0 != Token::Close {
            if *self.peek().0 == Token::Word("ObjectUnionOf".to_owned()) {
                self.take();
                self.in_parentheses("ObjectUnionOf", |parser| parser.terms(terms))?;
                continue;
            }
            self.count_record(self.at())?;
            let mut term = Term::new();
            self.concept(1, &mut term)?;
            terms.push(term);
        }
        Ok(())
    }

    fn count_record(&mut self, at: At) -> Parsed<()> {
        self.records += 1;
        if self.records > MOST_RECORDS {
            return Err(at.mistake(format!(
                "a policy has at most {MOST_RECORDS} records, one for each term and conjunct"
            )));
        }
        Ok(())
    }

    /// Adds the conjuncts of one concept to a chain at this depth.
    fn concept(&mut self, depth: usize, chain: &mut Term) -> Parsed<()> {
        let (keyword, at) = self.word("a class or a restriction")?;
        match keyword.as_str() {
            "owl:Thing" => return Ok(()),
            "ObjectIntersectionOf" => {
                return self.in_parentheses(&keyword, |parser| {
                    while *parser.peek().0 != Token::Close {
                        parser.concept(depth, chain)?;
                    }
                    Ok(())
                });
            }
            "ObjectUnionOf" => {
                return Err(at.mistake("a union can stand only outside the terms"));
            }
            _ => {}
        }
        self.count_record(at)?;
        if depth > DEEPEST {
            return Err(at.mistake(format!(
                "restrictions can be nested {DEEPEST} deep, and this is deeper"
            )));
        }
        let conjunct = match keyword.as_str() {
            "owl:Nothing" => Conjunct::Nothing,
            "ObjectSomeValuesFrom" => self.in_parentheses(&keyword, |parser| {
                let role = parser.role()?;
                let mut inner = Term::new();
                parser.concept(depth + 1, &mut inner)?;
                Ok(Conjunct::Reaches(role, inner))
            })?,
            "DataSomeValuesFrom" => self.in_parentheses(&keyword, Self::span)?,
            name => Conjunct::Class(ClassNo(self.classes.number(name, at)?)),
        };
        chain.push(conjunct);
        Ok(())
    }

    /// `f DatatypeRestriction(xsd:integer xsd:minInclusive lo xsd:maxInclusive hi)`
    fn span(&mut self) -> Parsed<Conjunct> {
        let feature = self.feature()?;
        self.this_word("DatatypeRestriction")?;
        self.in_parentheses("DatatypeRestriction", |parser| {
            parser.this_word("xsd:integer")?;
            parser.this_word("xsd:minInclusive")?;
            let lo = parser.integer()?;
            parser.this_word("xsd:maxInclusive")?;
            let hi = parser.integer()?;
            Ok(Conjunct::Within(feature, lo, hi))
        })
    }

    /// `5` or `"5"^^xsd:integer`.
    fn integer(&mut self) -> Parsed<u32> {
        let (token, at) = self.take();
        let digits = match token {
            Token::Word(word) => word,
            Token::Quoted(text) => {
                self.this_word("^^xsd:integer")?;
                text
            }
            found => return Err(at.mistake(format!("expected a number, found {}", found.say()))),
        };
        let plain = !digits.is_empty() && digits.bytes().all(|byte| byte.is_ascii_digit());
        digits.parse().ok().filter(|_| plain).ok_or_else(|| {
            at.mistake(format!(
                "expected a whole number from 0 to {}, found \"{digits}\"",
                u32::MAX
            ))
        })
    }

    fn finish(self) -> Parsed<Document> {
        let end = self.at();
        let found = self.policies.len();
        let Ok([first, second]) = <[PolicyText; 2]>::try_from(self.policies) else {
            return Err(end.mistake(format!(
                "a text has two policies, the first and the second; this one has {found}"
            )));
        };
        if self.classes.names.is_empty() {
            return Err(end.mistake("a vocabulary has at least one class; none is declared"));
        }
        let vocabulary = Vocabulary {
            classes: self.classes.names.len() as u32,
            roles: self.roles.names.len() as u32,
            features: self.features.names.len() as u32,
            axioms: self.axioms,
        };
        let vocabulary = vocabulary.read_as_owl();
        let over = vocabulary.axioms.len().saturating_sub(MOST_VOCABULARY_RECORDS);
        if over > 0 {
            // Of the axioms the first that has no record left.
            return Err(self.places[self.places.len() - over].mistake(format!(
                "a vocabulary has at most {MOST_VOCABULARY_RECORDS} records, one for each of its \
                 axioms and for each role and feature that none of them states functional"
            )));
        }
        let names = Names {
            classes: self.classes.names,
            roles: self.roles.names,
            features: self.features.names,
        };
        Ok(Document { names, vocabulary, first, second })
    }
}

/// A record order must name each record once and keep the link rule.
fn checked_order(terms: &[Term], order: Vec<u32>, at: At) -> Parsed<Vec<u32>> {
    let words = policy_words(terms);
    let records = words.len() / 6 - 1;
    let mut sorted = order.clone();
    sorted.sort_unstable();
    if !sorted.into_iter().eq(1..=records as u32) {
        return Err(
            at.mistake(format!(":recordOrder must have each number from 1 to {records} once"))
        );
    }
    for (record, &own) in words[6..].chunks_exact(6).zip(&order) {
        let links = record[4..].iter().filter(|&&link| link != 0);
        for &link in links {
            let to = order[link as usize - 1];
            if to <= own {
                return Err(at.mistake(format!(
                    ":recordOrder makes record {own} link back to {to}; links lead to greater numbers"
                )));
            }
        }
    }
    Ok(order)
}
