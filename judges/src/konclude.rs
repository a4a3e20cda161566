//! Konclude, a reasoner for OWL 2 that was written elsewhere: which classes of many pairs are empty in every interpretation.
//!
//! One ontology asks for many pairs. Each has names of its own, and no axiom speaks of two pairs or of an individual, so that what
//! holds of a pair is what its own axioms say.

use crate::cores;
use reasoner::random::Case;
use reasoner::text::{Document, Names};
use std::collections::HashSet;
use std::process::Command;
use std::{env, fs, io, process};

const SETTINGS: &str = concat!(env!("CARGO_MANIFEST_DIR"), "/konclude.xml");

/// Why there is no answer.
pub enum Missing {
    /// Konclude is not on this machine.
    NotThere,
    /// Konclude has no answer.
    Silent(String),
}

/// The classes of a pair that Konclude is asked about: the first policy, the first without the second, the second without the first.
const CLASSES: [&str; 3] = ["First", "Forth", "Back"];

/// Which of a pair's classes are empty in every interpretation, for all of the pairs in their order.
/// It is given so many seconds.
pub fn empty_classes<'a>(
    pairs: impl ExactSizeIterator<Item = &'a Case>,
    seconds: u32,
) -> Result<Vec<[bool; 3]>, Missing> {
    let count = pairs.len();
    let answer = classified(&ontology(pairs), seconds)?;
    let named: HashSet<&str> = names(&answer).collect();
    let empty = empty(&answer);
    let is_empty = |name: String| match named.contains(name.as_str()) {
        true => Ok(empty.contains(name.as_str())),
        false => Err(Missing::Silent(format!("it says nothing of {name}"))),
    };
    let of_pair = |number: usize| {
        let [first, forth, back] = CLASSES.map(|class| is_empty(format!("p{number}-{class}")));
        Ok([first?, forth?, back?])
    };
    (0..count).map(of_pair).collect()
}

fn ontology<'a>(pairs: impl Iterator<Item = &'a Case>) -> String {
    let axioms: String = pairs.enumerate().map(|(number, case)| axioms(number, case)).collect();
    format!(
        "Prefix(:=<urn:pairs:>)\n\
         Prefix(owl:=<http://www.w3.org/2002/07/owl#>)\n\
         Prefix(xsd:=<http://www.w3.org/2001/XMLSchema#>)\n\
         Ontology(\n{axioms})\n"
    )
}

/// A pair's vocabulary and its classes. To be below an expression is enough for a class that no other axiom names: it is empty in
/// every interpretation exactly when the expression is. Konclude classifies that much faster than an equivalence.
fn axioms(number: usize, case: &Case) -> String {
    let mut document = Document::decode(&case.bytes()).expect("tables that the library reads");
    document.names = Names::numbered(&format!(":p{number}-"), &document.vocabulary);
    let [first, second] = document.expressions();
    let without =
        |one: &str, other: &str| format!("ObjectIntersectionOf({one} ObjectComplementOf({other}))");
    let expressions = [first.clone(), without(&first, &second), without(&second, &first)];
    let below = |(class, expression)| format!("SubClassOf(:p{number}-{class} {expression})\n");
    let classes: String = CLASSES.into_iter().zip(expressions).map(below).collect();
    document.axioms() + &classes
}

/// Konclude's classification of an ontology, by a worker for each core. With one worker it never ends.
fn classified(ontology: &str, seconds: u32) -> Result<String, Missing> {
    let file = |name| env::temp_dir().join(format!("konclude-{}-{name}", process::id()));
    let (question, answer) = (file("question.ofn"), file("answer.owl"));
    let unable = |error: io::Error| Missing::Silent(error.to_string());
    fs::write(&question, ontology).map_err(unable)?;
    let mut command = Command::new("timeout");
    command.arg(seconds.to_string()).args(["Konclude", "classification", "-c", SETTINGS]);
    command.arg("-w").arg(cores().max(2).to_string());
    let run = command.arg("-i").arg(&question).arg("-o").arg(&answer).output();
    let text = fs::read_to_string(&answer);
    for file in [question, answer] {
        // One that was never written need not be removed.
        let _ = fs::remove_file(file);
    }
    let run = run.map_err(unable)?;
    match run.status.code() {
        Some(0) => {}
        Some(127) => return Err(Missing::NotThere),
        Some(124) => return Err(Missing::Silent(format!("it took over {seconds} seconds"))),
        _ => return Err(Missing::Silent(run.status.to_string())),
    }
    // It ends with status 0 also where it could not read the ontology.
    let log = String::from_utf8_lossy(&run.stdout);
    match log.lines().find(|line| line.contains("{error}") || line.contains("{warning}")) {
        Some(line) => Err(Missing::Silent(line.to_owned())),
        None => text.map_err(unable),
    }
}

/// The names of our own that stand in a part of the answer.
fn names(part: &str) -> impl Iterator<Item = &str> {
    part.split("IRI=\"urn:pairs:").skip(1).filter_map(|rest| rest.split('"').next())
}

/// The names that the answer has as equivalent to owl:Nothing.
fn empty(answer: &str) -> HashSet<&str> {
    let groups = answer.split("<EquivalentClasses>").skip(1);
    groups
        .filter_map(|rest| rest.split("</EquivalentClasses>").next())
        .filter(|group| group.contains("owl#Nothing\""))
        .flat_map(names)
        .collect()
}
