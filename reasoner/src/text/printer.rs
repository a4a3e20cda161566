//! From a document to text.

use super::{Document, Names, PolicyText};
use crate::policy::{Conjunct, Term};
use crate::vocabulary::{Axiom, Vocabulary};
use std::fmt;

/// Writes a document so that it reads back.
pub fn document(document: &Document, f: &mut fmt::Formatter<'_>) -> fmt::Result {
    vocabulary(&document.names, &document.vocabulary, f)?;
    for one in [&document.first, &document.second] {
        policy(&document.names, one, f)?;
    }
    Ok(())
}

/// The names' declarations and what OWL needs to be told of the vocabulary, a line each.
pub fn vocabulary(names: &Names, stated: &Vocabulary, f: &mut impl fmt::Write) -> fmt::Result {
    let series = [
        ("Class", &names.classes),
        ("ObjectProperty", &names.roles),
        ("DataProperty", &names.features),
    ];
    for (keyword, list) in series {
        for name in list {
            writeln!(f, "Declaration({keyword}({name}))")?;
        }
    }
    for one in stated.said_in_owl() {
        writeln!(f, "{}", axiom(names, one))?;
    }
    Ok(())
}

fn name(list: &[String], number: u32) -> &str {
    &list[number as usize - 1]
}

fn axiom(names: &Names, axiom: Axiom) -> String {
    let Names { classes, roles, features } = names;
    match axiom {
        Axiom::Below(a, b) => format!("SubClassOf({} {})", name(classes, a.0), name(classes, b.0)),
        Axiom::Disjoint(a, b) => {
            format!("DisjointClasses({} {})", name(classes, a.0), name(classes, b.0))
        }
        Axiom::FunctionalRole(role) => {
            format!("FunctionalObjectProperty({})", name(roles, role.0))
        }
        Axiom::FunctionalFeature(feature) => {
            format!("FunctionalDataProperty({})", name(features, feature.0))
        }
        Axiom::Range(role, class) => {
            format!("ObjectPropertyRange({} {})", name(roles, role.0), name(classes, class.0))
        }
        Axiom::ManyValuedRole(_) | Axiom::ManyValuedFeature(_) => {
            unreachable!("OWL has no axiom for what is many-valued")
        }
    }
}

fn policy(names: &Names, policy: &PolicyText, f: &mut fmt::Formatter<'_>) -> fmt::Result {
    writeln!(f, "Policy(")?;
    if let Some(order) = &policy.order {
        let numbers: Vec<String> = order.iter().map(u32::to_string).collect();
        writeln!(f, "  Annotation(:recordOrder \"{}\")", numbers.join(" "))?;
    }
    writeln!(f, "  ObjectUnionOf(")?;
    for term in &policy.terms {
        writeln!(f, "    ObjectIntersectionOf(")?;
        for one in term {
            writeln!(f, "      {}", conjunct(names, one))?;
        }
        writeln!(f, "    )")?;
    }
    writeln!(f, "  )")?;
    writeln!(f, ")")
}

fn conjunct(names: &Names, one: &Conjunct) -> String {
    match one {
        Conjunct::Class(class) => name(&names.classes, class.0).to_owned(),
        Conjunct::Nothing => "owl:Nothing".to_owned(),
        Conjunct::Reaches(role, inner) => {
            let role = name(&names.roles, role.0);
            format!("ObjectSomeValuesFrom({role} {})", concept(names, inner))
        }
        Conjunct::Within(feature, lo, hi) => {
            let feature = name(&names.features, feature.0);
            let [lo, hi] = [lo, hi].map(|end| format!("\"{end}\"^^xsd:integer"));
            format!(
                "DataSomeValuesFrom({feature} DatatypeRestriction(xsd:integer \
                 xsd:minInclusive {lo} xsd:maxInclusive {hi}))"
            )
        }
    }
}

fn concept(names: &Names, inner: &[Conjunct]) -> String {
    let all = inner.iter().map(|one| conjunct(names, one)).collect();
    joined("ObjectIntersectionOf", all, "owl:Thing")
}

/// Simple policies as one class expression.
pub fn union(names: &Names, terms: &[Term]) -> String {
    let all = terms.iter().map(|term| concept(names, term)).collect();
    joined("ObjectUnionOf", all, "owl:Nothing")
}

/// OWL has no union or intersection of fewer than two: one stands for itself, none for `neutral`.
fn joined(keyword: &str, mut all: Vec<String>, neutral: &str) -> String {
    match all.len() {
        0 => neutral.to_owned(),
        1 => all.remove(0),
        _ => format!("{keyword}({})", all.join(" ")),
    }
}
