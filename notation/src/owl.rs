//! What a vocabulary's text declares and states, each with its place. The exact reading takes what the
//! proved operation takes (SPECIFICATION 3.4). The other takes what people and OWL editors write too,
//! and leaves out what states nothing.

use crate::forms::{Form, ANNOTATIONS, AXIOMS, DECLARED, EIGHT, PREFIXES};
use crate::left_out::{LeftOut, Mute};
use crate::names::Sort;
use crate::policy;
use crate::scan::{fault, say, Fault, Of, Scanned, Scanner};
use gimbuka::MOST_OWL_BYTES;
use std::collections::HashMap;

const ANNOTATION: &[u8] = b"Annotation";

/// A name as a text has it.
#[derive(Clone, Copy)]
pub(crate) struct Name<'a> {
    pub text: &'a [u8],
    pub at: usize,
}

/// An axiom as a text has it.
pub(crate) struct Stated<'a> {
    pub kind: u32,
    pub form: &'static Form,
    pub names: Vec<Name<'a>>,
    pub at: usize,
}

/// What a text has.
#[derive(Default)]
pub(crate) struct Found<'a> {
    /// What a prefix, with its colon, stands for.
    pub prefixes: HashMap<&'a [u8], &'a [u8]>,
    pub declared: Vec<(Sort, Name<'a>)>,
    pub stated: Vec<Stated<'a>>,
    pub left_out: LeftOut,
    /// Where the vocabulary ends.
    pub end: usize,
    /// Where policies begin.
    pub policies: Vec<usize>,
}

/// Reads what the proved operation reads.
pub(crate) fn read_exact(text: &[u8]) -> Scanned<Found<'_>> {
    if text.len() > MOST_OWL_BYTES {
        let message = format!("the text goes on here, and {MOST_OWL_BYTES} bytes are the most");
        return Err(fault(MOST_OWL_BYTES, message));
    }
    Reader::<true>::new(text, false).read()
}

/// Reads a text of people or of an OWL editor, which may have policies or not.
pub(crate) fn read(text: &[u8], takes_policies: bool) -> Scanned<Found<'_>> {
    Reader::<false>::new(text, takes_policies).read()
}

struct Reader<'a, const EXACT: bool> {
    text: &'a [u8],
    scanner: Scanner<'a, EXACT>,
    found: Found<'a>,
    has_ontology: bool,
    takes_policies: bool,
}

impl<'a, const EXACT: bool> Reader<'a, EXACT> {
    fn new(text: &'a [u8], takes_policies: bool) -> Self {
        let (scanner, found) = (Scanner::new(text), Found::default());
        Self { text, scanner, found, has_ontology: false, takes_policies }
    }

    /// `Ontology( )` alone, or with prefixes and policies beside it, or what it holds without it.
    fn read(mut self) -> Scanned<Found<'a>> {
        while self.scanner.peek().is_some() {
            self.outermost()?;
        }
        if EXACT && !self.has_ontology {
            return Err(self.scanner.unexpected("Ontology"));
        }
        if !self.has_ontology {
            self.found.end = self.scanner.place();
        }
        Ok(self.found)
    }

    fn outermost(&mut self) -> Scanned<()> {
        let (keyword, at) = self.keyword(match (EXACT, self.has_ontology) {
            (true, false) => "Ontology",
            (true, true) => "nothing behind Ontology( )",
            (false, _) if self.takes_policies => "Declaration, an axiom or Policy",
            (false, _) => "Declaration or an axiom",
        })?;
        match keyword {
            b"Ontology" => self.ontology(at),
            b"Prefix" if !EXACT => self.prefix(),
            b"Policy" if !EXACT => self.policy(at),
            _ if self.has_ontology => {
                Err(fault(at, format!("\"{}\" stands behind Ontology( )", say(keyword))))
            }
            _ if EXACT => Err(fault(at, format!("expected Ontology, found \"{}\"", say(keyword)))),
            _ => self.item(keyword, at),
        }
    }

    fn keyword(&mut self, what: &str) -> Scanned<(&'a [u8], usize)> {
        if EXACT && self.scanner.peek() == Some(b':') {
            return Err(self.scanner.unexpected(what));
        }
        self.scanner.word(what)
    }

    fn name(&mut self, what: &str) -> Scanned<Name<'a>> {
        if EXACT && self.scanner.peek() != Some(b':') {
            return Err(self.scanner.unexpected(what));
        }
        let (text, at) = self.scanner.word(what)?;
        let is_compound = text.starts_with(b"Object") || text.starts_with(b"Data");
        if !EXACT && is_compound && self.scanner.peek() == Some(b'(') {
            let message = format!("expected {what}, found a compound one, \"{}( )\"", say(text));
            return Err(fault(at, message));
        }
        Ok(Name { text, at })
    }

    fn ontology(&mut self, at: usize) -> Scanned<()> {
        if self.has_ontology {
            return Err(fault(at, "a text has one Ontology( ), and this is the second"));
        }
        if !self.found.declared.is_empty() || !self.found.stated.is_empty() {
            return Err(fault(
                at,
                "Ontology( ) holds every declaration and axiom, and some stand before it",
            ));
        }
        self.has_ontology = true;
        self.scanner.open(b"Ontology")?;
        if !EXACT {
            self.ontology_iris();
        }
        loop {
            self.annotations()?;
            self.found.end = self.scanner.place();
            if self.scanner.takes(b')') {
                return Ok(());
            }
            let (keyword, at) = self.keyword("Declaration, an axiom or \")\"")?;
            self.item(keyword, at)?;
        }
    }

    /// The ontology's IRI and its version's, whole or with a prefix.
    fn ontology_iris(&mut self) {
        for iri in [Mute::Iri, Mute::VersionIri] {
            let at = self.scanner.place();
            match self.scanner.word("an IRI") {
                Ok((word, _)) if word.starts_with(b"<") || word.contains(&b':') => {
                    self.found.left_out.add(iri);
                }
                _ => return self.scanner.go_to(at),
            }
        }
    }

    fn prefix(&mut self) -> Scanned<()> {
        self.scanner.open(b"Prefix")?;
        let (prefix, at) = self.scanner.prefix()?;
        self.scanner.expect(b'=', || format!("after {}", say(prefix)))?;
        let (word, iri_at) = self.scanner.word("a whole IRI")?;
        let iri = word.strip_prefix(b"<").and_then(|word| word.strip_suffix(b">"));
        let iri = iri.ok_or_else(|| {
            fault(iri_at, format!("expected a whole IRI, as <..>, found \"{}\"", say(word)))
        })?;
        self.scanner.close(b"Prefix")?;
        if let Some((_, own)) = PREFIXES.iter().find(|known| known.0 == prefix && known.1 != iri) {
            let (prefix, own) = (say(prefix), say(own));
            return Err(fault(at, format!("the prefix {prefix} stands for <{own}> in every text")));
        }
        if self.found.prefixes.insert(prefix, iri).is_some() {
            return Err(fault(at, format!("the prefix {} is declared twice", say(prefix))));
        }
        self.found.left_out.add(Mute::Prefix);
        Ok(())
    }

    /// Passes a policy. Its names are looked up when all are known.
    fn policy(&mut self, at: usize) -> Scanned<()> {
        if !self.takes_policies {
            return Err(fault(at, "a policy stands in a text of its own, not in a vocabulary"));
        }
        self.found.policies.push(at);
        let mut scanner = Scanner::new(self.text);
        scanner.go_to(self.scanner.place());
        let passed = policy::pass(&mut scanner);
        self.scanner.go_to(scanner.place());
        passed.map_err(|fault| Box::new(Fault { of: Of::Policy, ..*fault }))
    }

    /// What stands behind the keyword of a declaration or an axiom.
    fn item(&mut self, keyword: &[u8], at: usize) -> Scanned<()> {
        if keyword == b"Declaration" {
            return self.declaration();
        }
        for (form, kind) in AXIOMS.iter().zip(1..) {
            if form.keyword.as_bytes() == keyword {
                return self.axiom(kind, form, at);
            }
        }
        for (annotation, values, mute) in ANNOTATIONS {
            if annotation.as_bytes() == keyword && !EXACT {
                return self.annotation_axiom(keyword, values, mute);
            }
        }
        Err(fault(
            at,
            match keyword {
                b"Import" => "an import is not followed: put what it has into this text".to_owned(),
                _ => format!("\"{}\" is none of the eight forms: {EIGHT}", say(keyword)),
            },
        ))
    }

    fn declaration(&mut self) -> Scanned<()> {
        self.scanner.open(b"Declaration")?;
        self.annotations()?;
        let (keyword, at) = self.keyword("Class, ObjectProperty or DataProperty")?;
        let sort = Sort::ALL.into_iter().find(|sort| sort.keyword().as_bytes() == keyword);
        let mute = DECLARED.into_iter().find(|other| other.0.as_bytes() == keyword && !EXACT);
        if sort.is_none() && mute.is_none() {
            return Err(fault(
                at,
                format!(
                    "\"{}\" cannot be declared; Class, ObjectProperty and DataProperty can",
                    say(keyword)
                ),
            ));
        }
        self.scanner.open(keyword)?;
        let name = self.name("a name")?;
        self.scanner.close(keyword)?;
        self.scanner.close(b"Declaration")?;
        self.found.declared.extend(sort.map(|sort| (sort, name)));
        if let Some((_, mute)) = mute {
            self.found.left_out.add(mute);
        }
        Ok(())
    }

    fn axiom(&mut self, kind: u32, form: &'static Form, at: usize) -> Scanned<()> {
        self.scanner.open(form.keyword.as_bytes())?;
        self.annotations()?;
        let names =
            form.sorts.iter().map(|sort| self.name(&format!("the name of a {}", sort.what())));
        let names = names.collect::<Scanned<Vec<_>>>()?;
        self.scanner.expect(b')', || {
            let count = ["one name", "two names"][form.sorts.len() - 1];
            format!("behind the {count} of {}", form.keyword)
        })?;
        self.found.stated.push(Stated { kind, form, names, at });
        Ok(())
    }

    fn annotation_axiom(&mut self, keyword: &[u8], values: usize, mute: Mute) -> Scanned<()> {
        self.scanner.open(keyword)?;
        self.annotations()?;
        for _ in 0..values {
            self.value()?;
        }
        self.scanner.close(keyword)?;
        self.found.left_out.add(mute);
        Ok(())
    }

    /// Takes annotations, at whose front others may stand. A class may have the name `Annotation`.
    fn annotations(&mut self) -> Scanned<()> {
        if EXACT {
            return Ok(());
        }
        let mut open = 0;
        loop {
            let at = self.scanner.place();
            if self.scanner.takes_word(ANNOTATION) && self.scanner.takes(b'(') {
                open += 1;
                continue;
            }
            self.scanner.go_to(at);
            if open == 0 {
                return Ok(());
            }
            self.value()?;
            self.value()?;
            self.scanner.close(ANNOTATION)?;
            self.found.left_out.add(Mute::Annotation);
            open -= 1;
        }
    }

    /// Takes an IRI, the name of someone without one, or a literal.
    fn value(&mut self) -> Scanned<()> {
        match self.scanner.peek() {
            Some(b'"') => self.scanner.literal(),
            _ => self.scanner.word("an IRI or a literal").map(drop),
        }
    }
}
