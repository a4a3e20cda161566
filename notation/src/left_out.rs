//! What is left out of a text.

use std::fmt;

/// What states nothing.
#[derive(Clone, Copy, Debug, PartialEq, Eq)]
pub(crate) enum Mute {
    Prefix,
    Iri,
    VersionIri,
    Annotation,
    AnnotationAxiom,
    AnnotationProperty,
    Datatype,
    Individual,
    OwlsOwn,
}

/// For each of these its key, and how one and several are told.
const TOLD: [(&str, &str, &str); 9] = [
    ("prefixes", "1 prefix", "prefixes"),
    ("iri", "the ontology's IRI", ""),
    ("version_iri", "its version", ""),
    ("annotations", "1 annotation", "annotations"),
    ("annotation_axioms", "1 axiom of annotation properties", "axioms of annotation properties"),
    ("annotation_properties", "1 annotation property", "annotation properties"),
    ("datatypes", "1 declared datatype", "declared datatypes"),
    ("individuals", "1 declared individual", "declared individuals"),
    ("owls_own", "1 declared name of OWL's own", "declared names of OWL's own"),
];

/// What a vocabulary's text has and its words have not, since it states nothing. Comments and blanks
/// are not counted.
///
/// ```
/// # fn main() -> Result<(), notation::Mistake> {
/// let text = b"Prefix(:=<http://example.org/#>) Ontology(<http://example.org/>
///     Declaration(Class(:Data)) AnnotationAssertion(rdfs:label :Data \"data\"@en))";
/// let left_out = notation::Vocabulary::parse(text)?.left_out();
/// assert_eq!(left_out.to_string(), "1 prefix, the ontology's IRI, 1 annotation");
/// # Ok(())
/// # }
/// ```
#[derive(Clone, Copy, Debug, Default, PartialEq, Eq)]
pub struct LeftOut {
    counts: [usize; TOLD.len()],
}

impl LeftOut {
    pub(crate) fn add(&mut self, one: Mute) {
        self.counts[one as usize] += 1;
    }

    /// Is it nothing?
    #[must_use]
    pub fn is_empty(&self) -> bool {
        *self == Self::default()
    }

    /// How many of each kind, with a key for programs.
    pub fn counts(&self) -> impl Iterator<Item = (&'static str, usize)> {
        TOLD.into_iter().zip(self.counts).map(|((key, ..), count)| (key, count))
    }
}

impl fmt::Display for LeftOut {
    fn fmt(&self, f: &mut fmt::Formatter<'_>) -> fmt::Result {
        let told =
            TOLD.into_iter().zip(self.counts).filter_map(|((_, one, many), count)| match count {
                0 => None,
                1 => Some(one.to_owned()),
                _ => Some(format!("{count} {many}")),
            });
        f.write_str(&told.collect::<Vec<_>>().join(", "))
    }
}
