//! What is printed: lines in order, complaints beside them, and a bar that says how far it is.

use crate::collection::Source;
use crate::trouble::{shown, Complaint};
use indicatif::{ProgressBar, ProgressStyle};
use serde_json::Value;
use std::fmt::Write as _;
use std::io::{self, BufWriter, IsTerminal, StdoutLock, Write};

/// How the work ended, as grep and diff have it. The greater one counts.
#[derive(Clone, Copy, Debug, PartialEq, Eq, PartialOrd, Ord)]
pub enum Status {
    All = 0,
    SomeNot = 1,
    Trouble = 2,
}

/// Lines for standard output and complaints for standard error, in the order in which they are to be told.
#[derive(Default)]
pub struct Lines {
    out: String,
    /// A complaint, and how much of the output stands before it.
    complaints: Vec<(usize, String)>,
}

impl Lines {
    /// A line for people. What a terminal would obey, it shows.
    pub fn line(&mut self, line: &str) {
        self.out.push_str(&shown(line));
        self.out.push('\n');
    }

    /// A line that is indented.
    pub fn below(&mut self, depth: usize, line: &str) {
        for _ in 0..depth {
            self.out.push_str("  ");
        }
        self.line(line);
    }

    /// A line for programs.
    pub fn object(&mut self, object: Object) {
        self.out.push_str(&object.text());
        self.out.push('\n');
    }

    /// How many bytes are to be told.
    pub fn len(&self) -> usize {
        self.out.len()
    }

    /// The lines alone, where nothing was to complain of.
    pub fn into_text(self) -> String {
        self.out
    }

    /// A policy that cannot be read: for programs it stands among the others, too.
    pub fn unread(&mut self, source: &Source, complaint: &Complaint, json: bool) {
        self.complain(complaint);
        if json {
            let (line, column) = complaint.place.unzip();
            let object = Object::new()
                .with("name", Value::Null)
                .with("file", &*source.file())
                .with("line", line)
                .with("column", column)
                .with("verdict", "unread")
                .with("message", complaint.message.as_str());
            self.object(object);
        }
    }

    pub fn complain(&mut self, complaint: &Complaint) {
        self.complaints
            .push((self.out.len(), format!("gimbuka: {}\n", shown(&complaint.to_string()))));
    }
}

/// Standard output, and standard error with the bar.
pub struct Output {
    out: BufWriter<StdoutLock<'static>>,
    bar: Option<ProgressBar>,
    /// Both are one terminal, where a line would go through the bar.
    is_shared: bool,
}

impl Output {
    pub fn new() -> Self {
        let out = BufWriter::with_capacity(1 << 16, io::stdout().lock());
        Self { out, bar: None, is_shared: io::stdout().is_terminal() }
    }

    /// Shows a bar, where a person looks: of so many bytes, if that is known.
    pub fn begin(&mut self, bytes: impl FnOnce() -> Option<u64>) {
        if !io::stderr().is_terminal() {
            return;
        }
        let (bar, template) = match bytes() {
            Some(bytes) => (ProgressBar::new(bytes), "{bar:40} {percent}%  {msg}"),
            None => (ProgressBar::new_spinner(), "{spinner}  {msg}"),
        };
        if let Ok(style) = ProgressStyle::with_template(template) {
            bar.set_style(style);
        }
        self.bar = Some(bar);
    }

    /// So many bytes are done, and so much is to be said of them.
    pub fn advance(&self, bytes: u64, message: impl FnOnce() -> String) {
        if let Some(bar) = &self.bar {
            bar.set_message(message());
            bar.inc(bytes);
        }
    }

    pub fn write(&mut self, lines: &Lines) -> io::Result<()> {
        let Self { out, bar, is_shared } = self;
        let mut told = || {
            let mut from = 0;
            for (to, complaint) in &lines.complaints {
                out.write_all(&lines.out.as_bytes()[from..*to])?;
                // So that both are in order where they go to one place.
                out.flush()?;
                tell(complaint);
                from = *to;
            }
            out.write_all(&lines.out.as_bytes()[from..])?;
            if *is_shared {
                out.flush()
            } else {
                Ok(())
            }
        };
        match bar {
            Some(bar) if *is_shared || !lines.complaints.is_empty() => bar.suspend(told),
            _ => told(),
        }
    }

    pub fn bytes(&mut self, bytes: &[u8]) -> io::Result<()> {
        self.out.write_all(bytes)
    }

    /// Takes the bar away, and writes what is left.
    pub fn end(&mut self) -> io::Result<()> {
        if let Some(bar) = self.bar.take() {
            bar.finish_and_clear();
        }
        self.out.flush()
    }
}

/// Writes to standard error. If that fails there is nowhere to say so.
fn tell(line: &str) {
    let _ = io::stderr().lock().write_all(line.as_bytes());
}

/// Tells people something on standard error.
pub fn say(message: &str) {
    tell(&format!("gimbuka: {}\n", shown(message)));
}

/// A JSON object on one line, with its keys in the order in which they are put.
pub struct Object(String);

impl Object {
    pub fn new() -> Self {
        Self("{".to_owned())
    }

    #[must_use]
    pub fn with(self, key: &str, value: impl Into<Value>) -> Self {
        self.with_text(key, &value.into().to_string())
    }

    /// Puts a key only if there is a value.
    #[must_use]
    pub fn with_some(self, key: &str, value: Option<impl Into<Value>>) -> Self {
        match value {
            Some(value) => self.with(key, value),
            None => self,
        }
    }

    /// Puts an object inside.
    #[must_use]
    pub fn with_object(self, key: &str, object: Self) -> Self {
        self.with_text(key, &object.text())
    }

    /// Puts objects as a list.
    #[must_use]
    pub fn with_objects(self, key: &str, objects: impl Iterator<Item = Self>) -> Self {
        let texts: Vec<String> = objects.map(Self::text).collect();
        self.with_text(key, &format!("[{}]", texts.join(",")))
    }

    fn with_text(mut self, key: &str, text: &str) -> Self {
        if self.0.len() > 1 {
            self.0.push(',');
        }
        let _ = write!(self.0, "{}:{text}", Value::from(key));
        self
    }

    pub fn text(mut self) -> String {
        self.0.push('}');
        self.0
    }
}

/// A number with its noun.
pub fn count(number: usize, noun: &str, nouns: &str) -> String {
    format!("{number} {}", if number == 1 { noun } else { nouns })
}
