//! What goes wrong, and how it is told.

use gimbuka::Refusal;
use notation::Mistake;
use std::borrow::Cow;
use std::fmt;
use std::io;
use std::path::Path;

/// What is wrong with an input, and where: told as `FILE:LINE:COLUMN: what is wrong`.
#[derive(Clone, Debug)]
pub struct Complaint {
    pub file: String,
    /// The line and the column, from 1, where there are any.
    pub place: Option<(usize, usize)>,
    /// The number of the library's refusal, where it is one.
    pub refusal: Option<u32>,
    pub message: String,
}

impl Complaint {
    pub fn new(file: &Path, message: impl Into<String>) -> Self {
        let file = file.to_string_lossy().into_owned();
        Self { file, place: None, refusal: None, message: message.into() }
    }

    pub fn mistake(file: &Path, mistake: Mistake) -> Self {
        let Mistake { line, column, refusal, message } = mistake;
        Self { place: Some((line, column)), refusal, ..Self::new(file, message) }
    }

    pub fn refused(file: &Path, refusal: Refusal) -> Self {
        Self { refusal: Some(refusal.number()), ..Self::new(file, refusal.to_string()) }
    }
}

impl fmt::Display for Complaint {
    fn fmt(&self, f: &mut fmt::Formatter<'_>) -> fmt::Result {
        let Self { file, place, refusal, message } = self;
        f.write_str(file)?;
        if let Some((line, column)) = place {
            write!(f, ":{line}:{column}")?;
        }
        if let Some(number) = refusal {
            write!(f, ": refused {number}")?;
        }
        write!(f, ": {message}")
    }
}

/// Why a verb ends before its end.
#[derive(Debug)]
pub enum Failure {
    /// What it needs cannot be had.
    Input(Complaint),
    /// Something else is in the way.
    Other(String),
    /// Its output cannot be written.
    Output(io::Error),
}

impl Failure {
    pub fn no_thread(error: io::Error) -> Self {
        Self::Other(format!("no thread can be started: {error}"))
    }
}

impl From<Complaint> for Failure {
    fn from(complaint: Complaint) -> Self {
        Self::Input(complaint)
    }
}

impl From<io::Error> for Failure {
    fn from(error: io::Error) -> Self {
        Self::Output(error)
    }
}

/// A text on one line: what a terminal would obey, it shows.
pub fn shown(text: &str) -> Cow<'_, str> {
    if !text.contains(char::is_control) {
        return text.into();
    }
    let mut shown = String::new();
    for letter in text.chars() {
        if letter.is_control() {
            shown.extend(letter.escape_default());
        } else {
            shown.push(letter);
        }
    }
    shown.into()
}
