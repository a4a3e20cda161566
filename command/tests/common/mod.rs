//! The command, started as a user starts it, in a folder of its own.

#![allow(dead_code, reason = "no test uses all of it")]

use std::fs::{self, File};
use std::io::Write;
use std::path::{Path, PathBuf};
use std::process::{Command, Output, Stdio};
use std::sync::atomic::{AtomicUsize, Ordering};

/// The collection that stands in examples/.
pub const COLLECTION: &str = concat!(env!("CARGO_MANIFEST_DIR"), "/../examples/collection");
pub const EXAMPLES: &str = concat!(env!("CARGO_MANIFEST_DIR"), "/../examples");

/// A vocabulary with two classes, a role and a feature.
pub const VOCABULARY: &str = "\
Declaration(Class(:Data)) Declaration(Class(:Location)) Declaration(ObjectProperty(:uses))
Declaration(DataProperty(:days))
SubClassOf(:Location :Data) FunctionalDataProperty(:days)
";

/// A folder that is there for one test, with a vocabulary and a buyer who keeps what he has for 1 to 60 days.
pub struct Desk {
    folder: PathBuf,
}

impl Desk {
    pub fn new() -> Self {
        static NEXT: AtomicUsize = AtomicUsize::new(0);
        let number = NEXT.fetch_add(1, Ordering::Relaxed);
        let name = format!("gimbuka-test-{}-{number}", std::process::id());
        let folder = std::env::temp_dir().join(name);
        fs::create_dir_all(&folder).expect("a folder");
        let desk = Self { folder };
        desk.put("vocabulary.txt", VOCABULARY);
        desk.put("buyer.txt", days("buyer", 1, 60));
        desk
    }

    pub fn path(&self, name: &str) -> PathBuf {
        self.folder.join(name)
    }

    pub fn put(&self, name: &str, content: impl AsRef<[u8]>) -> PathBuf {
        let path = self.path(name);
        if let Some(parent) = path.parent() {
            fs::create_dir_all(parent).expect("a folder");
        }
        fs::write(&path, content).expect("a file");
        path
    }

    pub fn folder(&self, name: &str) -> PathBuf {
        let path = self.path(name);
        fs::create_dir_all(&path).expect("a folder");
        path
    }

    /// The command with these words, in this folder.
    pub fn command(&self, words: &[&str]) -> Command {
        command(&self.folder, words)
    }

    pub fn run(&self, words: &[&str]) -> Ran {
        Ran::of(self.command(words).stdin(Stdio::null()).output().expect("the command"))
    }

    pub fn run_with(&self, words: &[&str], input: &[u8]) -> Ran {
        run_with(self.command(words), input)
    }

    /// `check` of the desk's buyer.
    pub fn check(&self, words: &[&str]) -> Ran {
        self.run(&[&["check", "vocabulary.txt", "buyer.txt"], words].concat())
    }
}

impl Drop for Desk {
    fn drop(&mut self) {
        let _ = fs::remove_dir_all(&self.folder);
    }
}

/// The command, in a folder.
pub fn command(folder: impl AsRef<Path>, words: &[&str]) -> Command {
    let mut command = Command::new(env!("CARGO_BIN_EXE_gimbuka"));
    command.args(words).current_dir(folder);
    command
}

pub fn run_in(folder: impl AsRef<Path>, words: &[&str]) -> Ran {
    Ran::of(command(folder, words).stdin(Stdio::null()).output().expect("the command"))
}

pub fn run_with(mut command: Command, input: &[u8]) -> Ran {
    let mut child = command
        .stdin(Stdio::piped())
        .stdout(Stdio::piped())
        .stderr(Stdio::piped())
        .spawn()
        .expect("the command");
    child.stdin.take().expect("its input").write_all(input).expect("an input that is read");
    Ran::of(child.wait_with_output().expect("an end"))
}

/// What the command printed, and its status.
#[derive(Debug, PartialEq, Eq)]
pub struct Ran {
    pub status: Option<i32>,
    pub out: String,
    pub err: String,
}

impl Ran {
    pub fn of(output: Output) -> Self {
        Self {
            status: output.status.code(),
            out: String::from_utf8_lossy(&output.stdout).into_owned(),
            err: String::from_utf8_lossy(&output.stderr).into_owned(),
        }
    }

    pub fn lines(&self) -> Vec<&str> {
        self.out.lines().collect()
    }

    /// The status and all that was printed.
    #[track_caller]
    pub fn is(&self, status: i32, out: &str, err: &str) {
        let wanted = Self { status: Some(status), out: out.to_owned(), err: err.to_owned() };
        assert_eq!(*self, wanted);
    }
}

/// A policy with a name: kept for from..to days.
pub fn days(name: &str, from: u32, to: u32) -> String {
    format!("Policy(Annotation(rdfs:label \"{name}\") {})\n", interval(from, to))
}

/// The same without a name.
pub fn unnamed(from: u32, to: u32) -> String {
    format!("Policy({})\n", interval(from, to))
}

fn interval(from: u32, to: u32) -> String {
    format!(
        "DataSomeValuesFrom(:days DatatypeRestriction(xsd:integer xsd:minInclusive {from} xsd:maxInclusive {to}))"
    )
}

/// Words as bytes, the least byte first.
pub fn bytes(words: &[u32]) -> Vec<u8> {
    words.iter().flat_map(|word| word.to_le_bytes()).collect()
}

/// A policy of one interval on feature 1, as words.
pub fn days_words(from: u32, to: u32) -> Vec<u32> {
    vec![1, 0, 0, 0, 0, 0, 5, 0, 0, 0, 2, 0, 4, 1, from, to, 0, 0]
}

/// A part of a collection: a count, then so many words.
pub fn part(words: &[u32]) -> Vec<u8> {
    [bytes(&[words.len() as u32]), bytes(words)].concat()
}

/// A file that takes nothing.
pub fn full_disk() -> File {
    File::options().write(true).open("/dev/full").expect("/dev/full")
}

/// The objects of an output, one a line.
pub fn objects(out: &str) -> Vec<serde_json::Value> {
    out.lines().map(|line| serde_json::from_str(line).expect("an object")).collect()
}
