//! `vocabulary`: what a vocabulary holds.

use crate::arguments;
use crate::input;
use crate::output::{count, Lines, Object, Output, Status};
use crate::trouble::{Complaint, Failure};
use notation::{print_owl, Vocabulary};

pub fn vocabulary(asked: arguments::Vocabulary) -> Result<Status, Failure> {
    let arguments::Vocabulary { exact, fragment, json, file } = asked;
    let read = if exact { input::exact_vocabulary(&file) } else { input::vocabulary(&file) };
    let mut lines = Lines::default();
    let file = file.to_string_lossy();
    match &read {
        Ok(read) if json => {
            let text = fragment.then(|| print_owl(read));
            lines.object(held(&file, read).with_some("fragment", text));
        }
        Ok(read) if fragment => print_owl(read).lines().for_each(|line| lines.line(line)),
        Ok(read) => lines.line(&format!("{file}: {}", sentence(read))),
        Err(complaint) if json => lines.object(missed(complaint)),
        Err(_) => {}
    }
    let mut output = Output::new();
    output.write(&lines)?;
    output.end()?;
    read?;
    Ok(Status::All)
}

/// How many classes, roles, features and axioms there are, and who may have several values.
fn sentence(vocabulary: &Vocabulary) -> String {
    let names = vocabulary.names();
    let parts = [
        count(names.classes.len(), "class", "classes"),
        count(names.roles.len(), "role", "roles"),
        count(names.features.len(), "feature", "features"),
        count(vocabulary.axioms(), "axiom", "axioms"),
    ];
    let counts = parts.join(", ");
    match vocabulary.many_valued().as_slice() {
        [] => counts,
        names => format!("{counts}; many-valued: {}", names.join(" ")),
    }
}

/// The same for programs.
fn held(file: &str, vocabulary: &Vocabulary) -> Object {
    let names = vocabulary.names();
    let counts = vocabulary.left_out().counts();
    let left_out = counts.fold(Object::new(), |object, (key, count)| object.with(key, count));
    Object::new()
        .with("file", file)
        .with("verdict", "read")
        .with("classes", names.classes.len())
        .with("roles", names.roles.len())
        .with("features", names.features.len())
        .with("axioms", vocabulary.axioms())
        .with("many_valued", vocabulary.many_valued())
        .with_object("left_out", left_out)
}

/// Why there is none.
fn missed(complaint: &Complaint) -> Object {
    let (line, column) = complaint.place.unzip();
    let verdict = if complaint.refusal.is_some() { "refused" } else { "unread" };
    Object::new()
        .with("file", complaint.file.as_str())
        .with("verdict", verdict)
        .with_some("line", line)
        .with_some("column", column)
        .with_some("refusal", complaint.refusal)
        .with("message", complaint.message.as_str())
}
