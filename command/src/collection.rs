//! A collection of policies, read as a stream: a thread of its own cuts files into pieces, in order, and hands them on in batches. A
//! channel with few places keeps it from running ahead, so that memory is bounded by the batches and not by the collection.

use crate::input::{of_bytes, open, words, Held, Opened, MOST_POLICY_WORDS};
use crate::output::Object;
use crate::trouble::{Complaint, Failure};
use notation::{policy_at, Piece, Policies, Trouble, Vocabulary};
use std::borrow::Cow;
use std::fs;
use std::io::{self, BufReader, Read};
use std::mem;
use std::path::{Path, PathBuf};
use std::sync::mpsc::{sync_channel, Receiver, SyncSender};
use std::sync::Arc;
use std::thread;

/// A batch ends with so many pieces, or with so many bytes.
pub const PIECES: usize = 4_096;
const BYTES: usize = 1 << 22;
/// So many batches wait.
const WAITING: usize = 2;
const BUFFER: usize = 1 << 18;

/// A place in the collection where a policy stands, or should stand.
#[derive(Clone, Debug)]
pub struct Source {
    file: Arc<Path>,
    /// The line at which it begins; none for words.
    pub line: Option<usize>,
    /// How it is called if it has no name.
    called: Called,
}

#[derive(Clone, Copy, Debug)]
enum Called {
    File,
    FileAndLine,
    FileAndNumber(usize),
}

impl Source {
    pub fn file(&self) -> Cow<'_, str> {
        self.file.to_string_lossy()
    }

    /// The policy's own name, or one by its place.
    pub fn name(&self, own: Option<String>) -> String {
        match (own, self.called, self.line) {
            (Some(own), _, _) => own,
            (None, Called::FileAndLine, Some(line)) => format!("{}:{line}", self.file()),
            (None, Called::FileAndNumber(number), _) => format!("{}#{number}", self.file()),
            _ => self.file().into_owned(),
        }
    }

    /// For programs: its name and its place.
    pub fn object(&self, name: &str) -> Object {
        Object::new().with("name", name).with("file", &*self.file()).with("line", self.line)
    }

    pub fn complaint(&self, message: impl Into<String>) -> Complaint {
        Complaint::new(&self.file, message)
    }
}

/// A policy of a collection, not yet read.
pub struct Item {
    pub source: Source,
    content: Content,
}

enum Content {
    Text(Piece),
    Words { name: Option<String>, words: Vec<u32> },
    Missing(Complaint),
}

/// A policy that was read.
pub struct Policy {
    pub name: String,
    pub words: Vec<u32>,
}

impl Item {
    /// The policies of a text that was read whole, the first of which has this number. There is at least one.
    pub fn of_text(
        file: &Path,
        policies: Vec<notation::Policy>,
        first: usize,
    ) -> Result<Vec<Self>, Complaint> {
        if policies.is_empty() {
            return Err(Complaint::new(file, "there is no policy to ask about in it"));
        }
        let is_only = policies.len() == 1;
        let file: Arc<Path> = file.into();
        let item = |(policy, number): (notation::Policy, usize)| {
            let called = if is_only { Called::File } else { Called::FileAndNumber(number) };
            let source = Source { file: file.clone(), line: None, called };
            let notation::Policy { name, words, .. } = policy;
            Self { source, content: Content::Words { name, words } }
        };
        Ok(policies.into_iter().zip(first..).map(item).collect())
    }

    /// Reads it. This is the work of many cores.
    pub fn read(self, vocabulary: &Vocabulary) -> (Source, Result<Policy, Complaint>) {
        let Self { source, content } = self;
        let read = match content {
            Content::Missing(complaint) => Err(complaint),
            Content::Words { name, words } => Ok((name, words)),
            Content::Text(piece) => {
                match policy_at(vocabulary, &piece.bytes, piece.line, piece.column) {
                    Ok(policy) => Ok((policy.name, policy.words)),
                    Err(mistake) => Err(Complaint::mistake(&source.file, mistake)),
                }
            }
        };
        let named = read.map(|(name, words)| Policy { name: source.name(name), words });
        (source, named)
    }
}

/// Policies in the order of the collection.
#[derive(Default)]
pub struct Batch {
    pub items: Vec<Item>,
    /// How many bytes of files they took.
    pub bytes: u64,
}

/// How many bytes the files have that are named; none where that cannot be known before.
pub fn size(paths: &[PathBuf]) -> Option<u64> {
    let mut sum = 0;
    for path in paths {
        let Ok(found) = fs::metadata(path) else { continue };
        if found.is_dir() {
            let files = fs::read_dir(path).ok()?.filter_map(|entry| entry.ok()?.metadata().ok());
            sum += files.map(|file| file.len()).sum::<u64>();
        } else if found.is_file() {
            sum += found.len();
        } else {
            return None;
        }
    }
    let reads_standard_input = paths.iter().any(|path| path == Path::new("-"));
    (!reads_standard_input).then_some(sum)
}

/// Begins to read the collection. The thread ends with the collection, or with the process: it may wait for an input.
pub fn stream(paths: Vec<PathBuf>) -> io::Result<Receiver<Batch>> {
    let (sender, receiver) = sync_channel(WAITING);
    thread::Builder::new().name("reader".to_owned()).spawn(move || {
        let mut reader = Reader { sender, batch: Batch::default() };
        // An error says that nobody listens any more.
        let _ = paths.iter().try_for_each(|path| reader.path(path)).and_then(|()| reader.send());
    })?;
    Ok(receiver)
}

/// The one policy of a file, or the one that has this name.
pub fn one(path: &Path, vocabulary: &Vocabulary, name: Option<&str>) -> Result<Policy, Failure> {
    let batches = stream(vec![path.to_owned()]).map_err(Failure::no_thread)?;
    let mut found: Option<Policy> = None;
    let mut unread = None;
    for item in batches.into_iter().flat_map(|batch| batch.items) {
        let (source, read) = item.read(vocabulary);
        match (read, name) {
            (Ok(policy), Some(name)) if policy.name != name => {}
            (Ok(_), Some(name)) if found.is_some() => {
                return Err(source.complaint(format!("several policies are named {name}")).into());
            }
            (Ok(_), None) if found.is_some() => {
                return Err(source.complaint("one policy is wanted, and there are several").into());
            }
            (Ok(policy), _) => found = Some(policy),
            (Err(complaint), None) => return Err(complaint.into()),
            (Err(complaint), Some(_)) => unread = unread.or(Some(complaint)),
        }
    }
    match (found, unread, name) {
        (Some(policy), _, _) => Ok(policy),
        (None, Some(complaint), _) => Err(complaint.into()),
        (None, None, Some(name)) => {
            Err(Complaint::new(path, format!("no policy is named {name}")).into())
        }
        (None, None, None) => Err(Complaint::new(path, "there is no policy in it").into()),
    }
}

/// Nobody listens any more.
struct Unheard;

struct Reader {
    sender: SyncSender<Batch>,
    batch: Batch,
}

impl Reader {
    fn send(&mut self) -> Result<(), Unheard> {
        self.sender.send(mem::take(&mut self.batch)).map_err(|_| Unheard)
    }

    fn put(&mut self, source: Source, content: Content, bytes: usize) -> Result<(), Unheard> {
        self.batch.items.push(Item { source, content });
        self.batch.bytes += bytes as u64;
        if self.batch.items.len() >= PIECES || self.batch.bytes >= BYTES as u64 {
            self.send()?;
        }
        Ok(())
    }

    fn missing(&mut self, file: &Arc<Path>, complaint: Complaint) -> Result<(), Unheard> {
        let source = Source { file: file.clone(), line: None, called: Called::File };
        self.put(source, Content::Missing(complaint), 0)
    }

    /// A file or a folder that was named.
    fn path(&mut self, path: &Path) -> Result<(), Unheard> {
        if path.is_dir() {
            return self.folder(path);
        }
        self.file(path)
    }

    fn folder(&mut self, path: &Path) -> Result<(), Unheard> {
        let folder: Arc<Path> = path.into();
        let listed = fs::read_dir(path).and_then(Iterator::collect::<io::Result<Vec<_>>>);
        let mut entries = match listed {
            Ok(entries) => entries,
            Err(error) => {
                return self.missing(&folder, Complaint::new(path, error.to_string()));
            }
        };
        if entries.is_empty() {
            return self.missing(&folder, Complaint::new(path, "there is no file in this folder"));
        }
        entries.sort_by_key(fs::DirEntry::file_name);
        for entry in entries {
            let path = entry.path();
            // Where a link leads counts. What cannot be asked is opened, and that says why.
            match fs::metadata(&path) {
                Ok(found) if found.is_dir() => {
                    let message = "a folder in a folder is not read; name it too";
                    self.missing(&path.as_path().into(), Complaint::new(&path, message))?;
                }
                Ok(found) if !found.is_file() => {
                    let message = "this is no file, and is not read";
                    self.missing(&path.as_path().into(), Complaint::new(&path, message))?;
                }
                _ => self.file(&path)?,
            }
        }
        Ok(())
    }

    fn file(&mut self, path: &Path) -> Result<(), Unheard> {
        let file: Arc<Path> = path.into();
        match open(path) {
            Err(complaint) => self.missing(&file, complaint),
            Ok(Held::Text(opened) | Held::Words(opened)) if is_parts(path) => {
                self.parts(&file, opened)
            }
            Ok(Held::Words(opened)) => match words(path, opened, MOST_POLICY_WORDS) {
                Ok(words) => {
                    let source = Source { file, line: None, called: Called::File };
                    let bytes = 4 * words.len();
                    self.put(source, Content::Words { name: None, words }, bytes)
                }
                Err(complaint) => self.missing(&file, complaint),
            },
            Ok(Held::Text(opened)) => self.texts(&file, opened),
        }
    }

    /// The policies of a text. One that stands alone is called by its file.
    fn texts(&mut self, file: &Arc<Path>, opened: Opened) -> Result<(), Unheard> {
        let mut policies = Policies::new(BufReader::with_capacity(BUFFER, opened));
        let mut next = policies.next_text();
        if next.is_none() {
            return self.missing(file, Complaint::new(file, "there is no policy in it"));
        }
        let mut called = None;
        while let Some(found) = next {
            next = policies.next_text();
            // Only the first can be the last, too.
            let called = *called.get_or_insert(if next.is_none() {
                Called::File
            } else {
                Called::FileAndLine
            });
            match found {
                Ok(piece) => {
                    let source = Source { file: file.clone(), line: Some(piece.line), called };
                    let bytes = piece.bytes.len();
                    self.put(source, Content::Text(piece), bytes)?;
                }
                Err(Trouble::Input(error)) => {
                    self.missing(file, Complaint::new(file, error.to_string()))?;
                }
                Err(Trouble::Mistake(mistake)) => {
                    self.missing(file, Complaint::mistake(file, mistake))?;
                }
            }
        }
        Ok(())
    }

    /// A count, then so many words, one policy after another.
    fn parts(&mut self, file: &Arc<Path>, opened: Opened) -> Result<(), Unheard> {
        let mut reader = BufReader::with_capacity(BUFFER, opened);
        let mut number = 0;
        loop {
            number += 1;
            match part(&mut reader) {
                Ok(Some(words)) => {
                    let called = Called::FileAndNumber(number);
                    let source = Source { file: file.clone(), line: None, called };
                    let bytes = 4 * (words.len() + 1);
                    self.put(source, Content::Words { name: None, words }, bytes)?;
                }
                Ok(None) if number == 1 => {
                    return self.missing(file, Complaint::new(file, "there is no policy in it"));
                }
                Ok(None) => return Ok(()),
                Err(error) => {
                    let message = match error.kind() {
                        io::ErrorKind::UnexpectedEof => {
                            format!("damaged words: part {number} is cut short")
                        }
                        _ => error.to_string(),
                    };
                    return self.missing(file, Complaint::new(file, message));
                }
            }
        }
    }
}

fn is_parts(path: &Path) -> bool {
    path.extension().is_some_and(|extension| extension == "parts")
}

/// The next part's words; none at the end. Of a part that is longer than a policy may be, so many are kept that the library refuses it.
fn part(reader: &mut impl Read) -> io::Result<Option<Vec<u32>>> {
    let mut count = [0; 4];
    match reader.read_exact(&mut count[..1]) {
        Err(error) if error.kind() == io::ErrorKind::UnexpectedEof => return Ok(None),
        read => read?,
    }
    reader.read_exact(&mut count[1..])?;
    let all = 4 * u64::from(u32::from_le_bytes(count));
    let kept = all.min(4 * (MOST_POLICY_WORDS as u64 + 1));
    let mut bytes = Vec::new();
    reader.by_ref().take(kept).read_to_end(&mut bytes)?;
    let passed = io::copy(&mut reader.by_ref().take(all - kept), &mut io::sink())?;
    if bytes.len() as u64 + passed < all {
        return Err(io::ErrorKind::UnexpectedEof.into());
    }
    Ok(Some(of_bytes(&bytes)))
}
