//! The forms of what a vocabulary states.

use crate::left_out::Mute;
use crate::names::Sort;

/// An axiom's keyword, and what its names are of.
pub(crate) struct Form {
    pub keyword: &'static str,
    pub sorts: &'static [Sort],
}

/// The axioms; kind 1 stands first.
pub(crate) const AXIOMS: [Form; 5] = [
    Form { keyword: "SubClassOf", sorts: &[Sort::Class, Sort::Class] },
    Form { keyword: "DisjointClasses", sorts: &[Sort::Class, Sort::Class] },
    Form { keyword: "FunctionalObjectProperty", sorts: &[Sort::Role] },
    Form { keyword: "FunctionalDataProperty", sorts: &[Sort::Feature] },
    Form { keyword: "ObjectPropertyRange", sorts: &[Sort::Role, Sort::Class] },
];

/// Of roles and of features, the kinds of the records that say that one is functional and that one is
/// many-valued. OWL has an axiom for the former alone.
pub(crate) const VALUES: [(Sort, u32, u32); 2] = [(Sort::Role, 3, 6), (Sort::Feature, 4, 7)];

/// The axioms that state nothing, and how many values each has.
pub(crate) const ANNOTATIONS: [(&str, usize, Mute); 4] = [
    ("AnnotationAssertion", 3, Mute::Annotation),
    ("SubAnnotationPropertyOf", 2, Mute::AnnotationAxiom),
    ("AnnotationPropertyDomain", 2, Mute::AnnotationAxiom),
    ("AnnotationPropertyRange", 2, Mute::AnnotationAxiom),
];

/// What else can be declared. A declaration states nothing, and no axiom that is read is of these.
pub(crate) const DECLARED: [(&str, Mute); 3] = [
    ("AnnotationProperty", Mute::AnnotationProperty),
    ("Datatype", Mute::Datatype),
    ("NamedIndividual", Mute::Individual),
];

/// What OWL's own names begin with.
pub(crate) const OWL: &[u8] = b"http://www.w3.org/2002/07/owl#";

/// The prefixes that stand for the same in every text.
pub(crate) const PREFIXES: [(&[u8], &[u8]); 4] = [
    (b"owl:", OWL),
    (b"rdf:", b"http://www.w3.org/1999/02/22-rdf-syntax-ns#"),
    (b"rdfs:", b"http://www.w3.org/2000/01/rdf-schema#"),
    (b"xsd:", b"http://www.w3.org/2001/XMLSchema#"),
];

/// What a text may hold, for a message.
pub(crate) const EIGHT: &str = "Declaration of Class, ObjectProperty or DataProperty, SubClassOf, \
     DisjointClasses, FunctionalObjectProperty, FunctionalDataProperty and ObjectPropertyRange";
