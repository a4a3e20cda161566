//! The policies of a file one after another, in memory for one of them.

use crate::mistake::{Mistake, Place, Trouble};
use crate::scan::{ends_word, is_blank, Scanner};
use std::io::{self, BufRead};

/// The text of one policy.
#[derive(Clone, Debug, PartialEq, Eq)]
pub struct Piece {
    /// `Policy(..)`, to its last parenthesis; or what there is of it, where that is missing.
    pub bytes: Vec<u8>,
    /// The line at which it begins, from 1.
    pub line: usize,
    /// The column at which it begins, from 1.
    pub column: usize,
}

/// The policies of a text one after another. The text is cut where parentheses close, and each piece
/// is then read by [`crate::policy_at`], on any core.
///
/// What stands between policies and is no comment is a mistake, told once up to the next policy. A
/// policy in which a parenthesis is missing ends behind the next word `Policy`: that is what is wrong
/// with it. A text of over [`LONGEST`] bytes is no policy.
pub struct Policies<R> {
    reader: R,
    /// What was read of the input.
    buffer: Vec<u8>,
    /// Where in the buffer that begins which is not yet done.
    start: usize,
    /// The place of that in the file.
    place: Place,
    /// The input has ended, or cannot be read.
    ended: bool,
    /// What comes before the next policy is told already.
    is_told: bool,
}

/// The most bytes of a policy's text in a stream. It bounds the memory, whatever the input is.
pub const LONGEST: usize = 1 << 20;

/// The most bytes that are taken of a reader at once: one may lend all that it has.
const MOST_READ: usize = 1 << 16;

const POLICY: &[u8] = b"Policy";

impl<R: BufRead> Policies<R> {
    /// The policies of what a reader gives.
    pub fn new(reader: R) -> Self {
        Self {
            reader,
            buffer: Vec::new(),
            start: 0,
            place: Place::START,
            ended: false,
            is_told: false,
        }
    }

    /// The next policy's text, or why it cannot be had; none at the end.
    pub fn next_text(&mut self) -> Option<Result<Piece, Trouble>> {
        match self.piece() {
            Ok(None) => None,
            Ok(Some(Ok(piece))) => Some(Ok(piece)),
            Ok(Some(Err(mistake))) => Some(Err(Trouble::Mistake(mistake))),
            Err(error) => {
                self.ended = true;
                self.start = self.buffer.len();
                Some(Err(Trouble::Input(error)))
            }
        }
    }

    fn piece(&mut self) -> io::Result<Option<Result<Piece, Mistake>>> {
        if self.is_told {
            self.skip()?;
            self.is_told = false;
        }
        if self.peek()?.is_none() {
            return Ok(None);
        }
        if !self.is_at_policy()? {
            self.fill_line(0)?;
            self.is_told = true;
            return Ok(Some(Err(self.mistake(0, "Policy"))));
        }
        Ok(Some(match self.end()? {
            Ok(End { piece, next }) => {
                let Place { line, column } = self.place;
                let bytes = self.rest()[..piece].to_vec();
                self.pass(next);
                Ok(Piece { bytes, line, column })
            }
            Err(mistake) => {
                self.pass(POLICY.len());
                self.is_told = true;
                Err(mistake)
            }
        }))
    }

    fn rest(&self) -> &[u8] {
        &self.buffer[self.start..]
    }

    /// These bytes of the rest are done.
    fn pass(&mut self, bytes: usize) {
        self.place = self.place.behind(&self.rest()[..bytes]);
        self.start += bytes;
    }

    /// Reads on; false at the end.
    fn more(&mut self) -> io::Result<bool> {
        if self.ended {
            return Ok(false);
        }
        self.buffer.drain(..self.start);
        self.start = 0;
        let read = loop {
            match self.reader.fill_buf() {
                Ok(bytes) => {
                    let some = &bytes[..bytes.len().min(MOST_READ)];
                    self.buffer.extend_from_slice(some);
                    break some.len();
                }
                Err(error) if error.kind() == io::ErrorKind::Interrupted => {}
                Err(error) => return Err(error),
            }
        };
        self.reader.consume(read);
        self.ended = read == 0;
        Ok(read > 0)
    }

    /// Reads on to the end of the line that goes on behind so many bytes of the rest.
    fn fill_line(&mut self, bytes: usize) -> io::Result<()> {
        let is_whole = |rest: &[u8]| rest[bytes..].contains(&b'\n') || rest.len() >= LONGEST;
        while !is_whole(self.rest()) && self.more()? {}
        Ok(())
    }

    /// The mistake that another thing stands behind so many bytes of the rest.
    fn mistake(&self, bytes: usize, what: &str) -> Mistake {
        let mut scanner: Scanner<'_> = Scanner::new(self.rest());
        scanner.go_to(bytes);
        let fault = scanner.unexpected(what);
        self.place.behind(&self.rest()[..fault.at]).mistake(fault.message)
    }

    /// Passes blanks and comments; gives the byte behind them, or none at the end.
    fn peek(&mut self) -> io::Result<Option<u8>> {
        loop {
            let blanks = self.rest().iter().take_while(|&&byte| is_blank(byte)).count();
            self.pass(blanks);
            match self.rest().first().copied() {
                None if !self.more()? => return Ok(None),
                None => {}
                Some(b'#') => self.pass_to(|byte| byte == b'\n')?,
                byte => return Ok(byte),
            }
        }
    }

    /// Passes what stands before the first such byte, or everything.
    fn pass_to(&mut self, is_end: impl Fn(u8) -> bool) -> io::Result<()> {
        loop {
            let end = self.rest().iter().position(|&byte| is_end(byte));
            self.pass(end.unwrap_or(self.rest().len()));
            if end.is_some() || !self.more()? {
                return Ok(());
            }
        }
    }

    /// Is the word `Policy` next?
    fn is_at_policy(&mut self) -> io::Result<bool> {
        while self.rest().len() <= POLICY.len() && self.more()? {}
        let rest = self.rest();
        Ok(rest.starts_with(POLICY) && rest.get(POLICY.len()).is_none_or(|&byte| ends_word(byte)))
    }

    /// Passes everything before the next word `Policy`.
    fn skip(&mut self) -> io::Result<()> {
        while let Some(byte) = self.peek()? {
            if self.is_at_policy()? {
                break;
            }
            match byte {
                b'(' | b')' => self.pass(1),
                b'"' | b'<' => {
                    let closing = if byte == b'<' { b'>' } else { byte };
                    self.pass(1);
                    self.pass_to(|byte| byte == closing || byte == b'\n')?;
                    let closed = self.rest().first() == Some(&closing);
                    self.pass(usize::from(closed));
                }
                _ => self.pass_to(ends_word)?,
            }
        }
        Ok(())
    }

    /// Where the policy ends that begins the rest.
    fn end(&mut self) -> io::Result<Result<End, Mistake>> {
        let mut cut = Cut { at: POLICY.len(), open: 0, token: POLICY.len() };
        loop {
            match cut.go_on(self.rest(), self.ended) {
                Step::End(end) => return Ok(Ok(end)),
                Step::NoOpen => {
                    self.fill_line(cut.at)?;
                    return Ok(Err(self.mistake(POLICY.len(), "\"(\" after Policy")));
                }
                Step::More if self.rest().len() > LONGEST => {
                    let message = format!("a policy's text has at most {LONGEST} bytes");
                    return Ok(Err(self.place.mistake(message)));
                }
                Step::More => {
                    self.more()?;
                }
            }
        }
    }
}

impl<R: BufRead> Iterator for Policies<R> {
    type Item = Result<Piece, Trouble>;

    fn next(&mut self) -> Option<Self::Item> {
        self.next_text()
    }
}

/// The ends of a policy's text: of what is read as it, and of what is done with it.
struct End {
    piece: usize,
    next: usize,
}

enum Step {
    End(End),
    /// No parenthesis stands behind `Policy`.
    NoOpen,
    /// The bytes do not say yet.
    More,
}

/// How far the search for the end of a policy is.
struct Cut {
    at: usize,
    /// Parentheses open there.
    open: usize,
    /// Where a string, an IRI or a comment ended: an IRI may begin there without a blank.
    token: usize,
}

impl Cut {
    fn go_on(&mut self, rest: &[u8], ended: bool) -> Step {
        while self.open == 0 {
            match rest.get(self.at) {
                None if ended => return Step::NoOpen,
                None => return Step::More,
                Some(b'(') => self.open = 1,
                Some(b'#') => match line_end(rest, self.at) {
                    None if ended => return Step::NoOpen,
                    None => return Step::More,
                    Some(end) => self.at = end,
                },
                Some(&byte) if is_blank(byte) => {}
                Some(_) => return Step::NoOpen,
            }
            self.at += 1;
        }
        while self.at < rest.len() {
            match self.eight(rest) {
                Eight::Done => self.at += 8,
                Eight::End(end) => return Step::End(end),
                Eight::Token(at) => {
                    self.at = at;
                    match token_end(rest, at).or(ended.then_some(rest.len())) {
                        None => return Step::More,
                        Some(end) => (self.at, self.token) = (end, end),
                    }
                }
            }
        }
        self.at = rest.len();
        match ended {
            true => Step::End(End { piece: rest.len(), next: rest.len() }),
            false => Step::More,
        }
    }

    /// Counts the parentheses of the next eight bytes, up to what is none.
    fn eight(&mut self, rest: &[u8]) -> Eight {
        let bytes = &rest[self.at..];
        let eight = bytes.first_chunk().copied().unwrap_or_else(|| {
            let mut eight = [0; 8];
            eight[..bytes.len()].copy_from_slice(bytes);
            eight
        });
        let mut marks = marks(eight);
        while marks != 0 {
            let at = self.at + marks.trailing_zeros() as usize / 8;
            marks &= marks - 1;
            match rest[at] {
                b')' => {
                    self.open -= 1;
                    if self.open == 0 {
                        return Eight::End(End { piece: at + 1, next: at + 1 });
                    }
                }
                b'(' => {
                    if let Some(end) = policy_before(rest, self.token, at) {
                        return Eight::End(end);
                    }
                    self.open += 1;
                }
                b'<' if at != self.token && !ends_word(rest[at - 1]) => {}
                _ => return Eight::Token(at),
            }
        }
        Eight::Done
    }
}

enum Eight {
    Done,
    End(End),
    /// A string, an IRI or a comment begins there.
    Token(usize),
}

/// The end of a string, an IRI or a comment; none if it does not end in these bytes.
fn token_end(rest: &[u8], at: usize) -> Option<usize> {
    let closing = match rest[at] {
        b'#' => return line_end(rest, at),
        b'<' => b'>',
        first => first,
    };
    let behind = rest[at + 1..].iter().zip(at + 1..);
    let mut ends = behind.filter(|&(&byte, _)| byte == closing || byte == b'\n');
    ends.next().map(|(&byte, end)| end + usize::from(byte == closing))
}

fn line_end(rest: &[u8], at: usize) -> Option<usize> {
    rest[at..].iter().position(|&byte| byte == b'\n').map(|length| at + length)
}

/// The highest bit of each byte that is one of `( ) " # <`. Eight at once are much faster than one
/// after another.
fn marks(eight: [u8; 8]) -> u64 {
    const ALL: u64 = u64::from_ne_bytes([1; 8]);
    const LOW: u64 = 0x7f * ALL;
    let word = u64::from_le_bytes(eight);
    // The first two and the next two differ in the lowest bit alone.
    let pairs = word & (0xfe * ALL);
    // The highest bit of each byte that is another than this one.
    let others = |word: u64, byte: u8| {
        let differs = word ^ (u64::from(byte) * ALL);
        ((differs & LOW) + LOW) | differs
    };
    !(others(pairs, b'(') & others(pairs, b'"') & others(word, b'<')) & !LOW
}

/// The end of a policy before a parenthesis that opens the next one. The word `Policy` before that
/// stands in no comment: the last one ended at `token`.
fn policy_before(rest: &[u8], token: usize, open: usize) -> Option<End> {
    if rest[open - 1] != b'y' && !is_blank(rest[open - 1]) {
        return None;
    }
    let blanks = rest[..open].iter().rev().take_while(|&&byte| is_blank(byte)).count();
    let piece = open - blanks;
    let next = piece.checked_sub(POLICY.len())?;
    let is_word = next >= token && rest[next..piece] == *POLICY && ends_word(rest[next - 1]);
    is_word.then_some(End { piece, next })
}
