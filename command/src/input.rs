//! Files: what a byte stream holds, and the one table that a file has.

use crate::output::say;
use crate::trouble::{Complaint, Failure};
use gimbuka::{
    model_check, read_policy, read_vocabulary, MOST_MODEL_WORDS, MOST_OWL_BYTES,
    MOST_VOCABULARY_WORDS, WORK_SIZE,
};
use notation::{Document, Vocabulary};
use std::fs::File;
use std::io::{self, Cursor, Read};
use std::path::Path;

/// The policy with no term: nobody is in it.
pub const NOBODY: [u32; 6] = [0; 6];

/// A byte 0 is looked for in so many bytes.
const LOOKED_AT: usize = 1 << 16;
/// The longest text that is read as a whole.
const LONGEST_TEXT: usize = 1 << 26;
/// The most words of a policy (SPECIFICATION 12).
pub const MOST_POLICY_WORDS: usize = 3_078;

/// The beginning of a file, looked at, and the rest.
pub type Opened = io::Chain<Cursor<Vec<u8>>, Box<dyn Read + Send>>;

/// What a file holds.
pub enum Held {
    Text(Opened),
    Words(Opened),
}

/// A file, or standard input for a dash.
fn source(path: &Path) -> Result<Box<dyn Read + Send>, Complaint> {
    if path == Path::new("-") {
        return Ok(Box::new(io::stdin()));
    }
    let file = File::open(path).map_err(|error| Complaint::new(path, error.to_string()))?;
    Ok(Box::new(file))
}

/// So many bytes of a file, or as many as there are.
fn some(path: &Path, file: impl Read, most: usize) -> Result<Vec<u8>, Complaint> {
    let mut bytes = Vec::new();
    let read = file.take(most as u64).read_to_end(&mut bytes);
    read.map_err(|error| Complaint::new(path, error.to_string()))?;
    Ok(bytes)
}

/// Opens a file, and looks at its beginning.
pub fn open(path: &Path) -> Result<Held, Complaint> {
    let mut file = source(path)?;
    let start = some(path, &mut file, LOOKED_AT)?;
    if start.starts_with(b"\xff\xfe") || start.starts_with(b"\xfe\xff") {
        return Err(Complaint::new(path, "this is UTF-16; save the text as ASCII or UTF-8"));
    }
    let is_words = start.contains(&0);
    let opened = Cursor::new(start).chain(file);
    Ok(if is_words { Held::Words(opened) } else { Held::Text(opened) })
}

/// A whole text.
fn text(path: &Path, opened: Opened) -> Result<Vec<u8>, Complaint> {
    let bytes = some(path, opened, LONGEST_TEXT + 1)?;
    if bytes.len() > LONGEST_TEXT {
        return Err(Complaint::new(path, "the text is over 64 MB"));
    }
    Ok(bytes)
}

/// The words of one table. Of a table that is longer than any may be, so many are read that the library refuses it.
pub fn words(path: &Path, opened: Opened, most: usize) -> Result<Vec<u32>, Complaint> {
    let bytes = some(path, opened, 4 * (most + 1))?;
    if bytes.len() % 4 != 0 {
        let message = format!("damaged words: {} bytes are no multiple of 4", bytes.len());
        return Err(Complaint::new(path, message));
    }
    Ok(of_bytes(&bytes))
}

/// Words from bytes, the least byte first.
pub fn of_bytes(bytes: &[u8]) -> Vec<u32> {
    let word = |four: &[u8]| u32::from_le_bytes([four[0], four[1], four[2], four[3]]);
    bytes.chunks_exact(4).map(word).collect()
}

/// A vocabulary of words, which the library accepts.
fn vocabulary_of_words(path: &Path, opened: Opened) -> Result<Vocabulary, Complaint> {
    let words = words(path, opened, MOST_VOCABULARY_WORDS)?;
    read_vocabulary(&words).map_err(|refusal| Complaint::refused(path, refusal))?;
    Ok(Vocabulary::of_words(words))
}

/// Says what was left out of a vocabulary's text.
fn tell_left_out(path: &Path, vocabulary: &Vocabulary) {
    let left_out = vocabulary.left_out();
    if !left_out.is_empty() {
        say(&format!("{}: left out: {left_out}", path.to_string_lossy()));
    }
}

/// A vocabulary, from a file of its own.
pub fn vocabulary(path: &Path) -> Result<Vocabulary, Complaint> {
    let opened = match open(path)? {
        Held::Words(opened) => return vocabulary_of_words(path, opened),
        Held::Text(opened) => opened,
    };
    let read = Vocabulary::parse(&text(path, opened)?);
    let read = read.map_err(|mistake| Complaint::mistake(path, mistake))?;
    tell_left_out(path, &read);
    Ok(read)
}

/// A vocabulary whose bytes are handed to the library as they are.
pub fn exact_vocabulary(path: &Path) -> Result<Vocabulary, Complaint> {
    let read = Vocabulary::exact(&bytes(path, MOST_OWL_BYTES)?);
    read.map_err(|mistake| Complaint::mistake(path, mistake))
}

fn document_of_text(path: &Path, opened: Opened) -> Result<Document, Complaint> {
    let read = notation::document(&text(path, opened)?);
    let read = read.map_err(|mistake| Complaint::mistake(path, mistake))?;
    tell_left_out(path, &read.vocabulary);
    Ok(read)
}

/// A text with a vocabulary and policies.
pub fn document(path: &Path) -> Result<Document, Complaint> {
    match open(path)? {
        Held::Words(_) => Err(Complaint::new(
            path,
            "these are words; a text with a vocabulary and policies is wanted",
        )),
        Held::Text(opened) => document_of_text(path, opened),
    }
}

/// A vocabulary, from a file of its own or from a text that has policies too.
pub fn any_vocabulary(path: &Path) -> Result<Vocabulary, Complaint> {
    match open(path)? {
        Held::Words(opened) => vocabulary_of_words(path, opened),
        Held::Text(opened) => Ok(document_of_text(path, opened)?.vocabulary),
    }
}

/// A model, which the library accepts: words, the program's lines, or a line of `check --why --json`.
pub fn model(path: &Path, vocabulary: &Vocabulary) -> Result<Vec<u32>, Complaint> {
    let words = match open(path)? {
        Held::Words(opened) => words(path, opened, MOST_MODEL_WORDS)?,
        Held::Text(opened) => {
            let bytes = text(path, opened)?;
            if bytes.trim_ascii_start().starts_with(b"{") {
                of_json(&bytes).ok_or_else(|| {
                    Complaint::new(path, "this object has no countermodel; --why --json writes one")
                })?
            } else {
                let read = notation::model(vocabulary, &bytes);
                read.map_err(|mistake| Complaint::mistake(path, mistake))?
            }
        }
    };
    let mut work = vec![0; WORK_SIZE];
    // Whatever the answer: the model was read.
    match model_check(vocabulary.words(), &NOBODY, &NOBODY, &words, &mut work) {
        Ok(_) => Ok(words),
        Err(refusal) => Err(Complaint::refused(path, refusal)),
    }
}

fn of_json(bytes: &[u8]) -> Option<Vec<u32>> {
    let object: serde_json::Value = serde_json::from_slice(bytes).ok()?;
    let words = object.get("countermodel")?.as_array()?;
    words.iter().map(|word| u32::try_from(word.as_u64()?).ok()).collect()
}

/// Bytes as they are: so many at most, and one more shows that there are too many.
pub fn bytes(path: &Path, most: usize) -> Result<Vec<u8>, Complaint> {
    some(path, source(path)?, most + 1)
}

/// A first policy that the library accepts.
pub fn accepted_policy(
    path: &Path,
    vocabulary: &Vocabulary,
    policy: Vec<u32>,
) -> Result<Vec<u32>, Failure> {
    read_policy(vocabulary.words(), &policy)
        .map_err(|refusal| Complaint::refused(path, refusal))?;
    Ok(policy)
}
