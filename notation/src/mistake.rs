//! What is wrong with a text, and where.

use std::{error, fmt, io};

/// A mistake in a text, with its place.
#[derive(Clone, Debug, PartialEq, Eq)]
pub struct Mistake {
    /// The line, from 1.
    pub line: usize,
    /// The column, from 1, in characters.
    pub column: usize,
    /// Of a vocabulary's text, the number with which the proved operation refuses such a text: 41, 42
    /// or 1. A mistake of another text has none.
    pub refusal: Option<u32>,
    /// What is wrong.
    pub message: String,
}

impl fmt::Display for Mistake {
    fn fmt(&self, f: &mut fmt::Formatter<'_>) -> fmt::Result {
        let Self { line, column, refusal, message } = self;
        write!(f, "line {line}, column {column}: ")?;
        match refusal {
            None => f.write_str(message),
            Some(number) => write!(f, "refused {number}: {message}"),
        }
    }
}

impl error::Error for Mistake {}

/// Why the next policy of a stream is not there.
#[derive(Debug)]
pub enum Trouble {
    /// The input cannot be read. Nothing comes behind it.
    Input(io::Error),
    /// What stands there is no policy. The policies behind it still come.
    Mistake(Mistake),
}

impl fmt::Display for Trouble {
    fn fmt(&self, f: &mut fmt::Formatter<'_>) -> fmt::Result {
        match self {
            Trouble::Input(error) => error.fmt(f),
            Trouble::Mistake(mistake) => mistake.fmt(f),
        }
    }
}

impl error::Error for Trouble {}

/// Where a text begins in its file.
#[derive(Clone, Copy, Debug, PartialEq, Eq)]
pub(crate) struct Place {
    pub line: usize,
    pub column: usize,
}

impl Place {
    pub const START: Self = Self { line: 1, column: 1 };

    /// The place behind these bytes. A character of several bytes is one column: only its first byte
    /// counts.
    pub fn behind(self, bytes: &[u8]) -> Self {
        let columns = |bytes: &[u8]| bytes.iter().filter(|&&byte| byte & 0xc0 != 0x80).count();
        let lines = bytes.iter().filter(|&&byte| byte == b'\n').count();
        if lines == 0 {
            return Self { line: self.line, column: self.column + columns(bytes) };
        }
        let last = bytes.iter().rposition(|&byte| byte == b'\n').map_or(0, |last| last + 1);
        Self { line: self.line + lines, column: 1 + columns(&bytes[last..]) }
    }

    pub fn mistake(self, message: impl Into<String>) -> Mistake {
        let Self { line, column } = self;
        Mistake { line, column, refusal: None, message: message.into() }
    }

    pub fn refused(self, number: u32, message: impl Into<String>) -> Mistake {
        Mistake { refusal: Some(number), ..self.mistake(message) }
    }
}
