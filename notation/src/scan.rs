//! Bytes to words, strings and parentheses. A place is an offset here; line and column are counted
//! only where there is a mistake to tell.

/// A mistake, found at an offset.
#[derive(Debug)]
pub(crate) struct Fault {
    pub at: usize,
    pub message: String,
    pub of: Of,
}

/// What a mistake is found in.
#[derive(Clone, Copy, Debug, PartialEq, Eq)]
pub(crate) enum Of {
    Words,
    /// The bytes themselves, and not what they say: of a policy's mistakes this is told first.
    Bytes,
    /// A policy that stands beside a vocabulary.
    Policy,
}

/// A fault is rare, so that what is returned is kept small.
pub(crate) type Scanned<T> = Result<T, Box<Fault>>;

/// What a byte is to a word.
#[derive(Clone, Copy, PartialEq, Eq)]
enum Byte {
    Inside,
    /// A blank, a parenthesis, a quote or the start of a comment.
    Ends,
    /// Over 127.
    Foreign,
}

const BYTES: [Byte; 256] = {
    let mut bytes = [Byte::Inside; 256];
    let mut byte = 0;
    while byte < 256 {
        if byte > 127 {
            bytes[byte] = Byte::Foreign;
        } else if is_blank(byte as u8) || matches!(byte as u8, b'(' | b')' | b'"' | b'#') {
            bytes[byte] = Byte::Ends;
        }
        byte += 1;
    }
    bytes
};

/// The ASCII characters that `char::is_whitespace` has.
pub(crate) const fn is_blank(byte: u8) -> bool {
    matches!(byte, b'\t'..=b'\r' | b' ')
}

/// Does this byte end a word before it?
pub(crate) fn ends_word(byte: u8) -> bool {
    BYTES[byte as usize] == Byte::Ends
}

/// The most letters and digits of a name that the proved operation reads.
pub(crate) const LONGEST_NAME: usize = 32;

/// The words of a text, one after another. An exact one has the tokens that the proved operation has
/// (SPECIFICATION 3.4), and no comments, strings or whole IRIs.
pub(crate) struct Scanner<'a, const EXACT: bool = false> {
    text: &'a [u8],
    at: usize,
}

impl<'a, const EXACT: bool> Scanner<'a, EXACT> {
    pub fn new(text: &'a [u8]) -> Self {
        Self { text, at: 0 }
    }

    /// Passes blanks and comments; gives the byte behind them, or none at the end.
    pub fn peek(&mut self) -> Option<u8> {
        let is_passed = |byte| match EXACT {
            true => matches!(byte, b' ' | b'\t' | b'\n'),
            false => is_blank(byte),
        };
        loop {
            let byte = *self.text.get(self.at)?;
            if is_passed(byte) {
                self.at += 1;
            } else if byte == b'#' && !EXACT {
                let rest = &self.text[self.at..];
                self.at += rest.iter().position(|&byte| byte == b'\n').unwrap_or(rest.len());
            } else {
                return Some(byte);
            }
        }
    }

    /// Where the next token begins.
    pub fn place(&mut self) -> usize {
        self.peek();
        self.at
    }

    /// Goes back, or on, to where a token begins.
    pub fn go_to(&mut self, at: usize) {
        self.at = at;
    }

    /// Takes this byte if it is next.
    pub fn takes(&mut self, byte: u8) -> bool {
        let found = self.peek() == Some(byte);
        self.at += usize::from(found);
        found
    }

    /// Takes this word if it is next.
    pub fn takes_word(&mut self, word: &[u8]) -> bool {
        self.peek();
        let rest = &self.text[self.at..];
        let found = rest.starts_with(word) && rest.get(word.len()).is_none_or(|&b| ends_word(b));
        self.at += if found { word.len() } else { 0 };
        found
    }

    /// Takes a parenthesis, or the like, which stands here for this reason.
    pub fn expect(&mut self, byte: u8, why: impl FnOnce() -> String) -> Scanned<()> {
        if self.takes(byte) {
            return Ok(());
        }
        Err(self.unexpected(&format!("\"{}\" {}", char::from(byte), why())))
    }

    pub fn open(&mut self, keyword: &[u8]) -> Scanned<()> {
        self.expect(b'(', || format!("after {}", say(keyword)))
    }

    pub fn close(&mut self, keyword: &[u8]) -> Scanned<()> {
        self.expect(b')', || format!("at the end of {}", say(keyword)))
    }

    /// A name, keyword, number or whole IRI, and where it begins.
    pub fn word(&mut self, what: &str) -> Scanned<(&'a [u8], usize)> {
        match self.peek() {
            None | Some(b'(' | b')') => Err(self.unexpected(what)),
            Some(byte) if EXACT => self.exact_word(byte),
            Some(b'"') => Err(self.unexpected(what)),
            Some(b'<') => self.until(b'>').map(|at| (&self.text[at..self.at], at)),
            Some(_) => {
                let at = self.at;
                let rest = &self.text[at..];
                let ends = rest.iter().position(|&byte| BYTES[byte as usize] != Byte::Inside);
                let word = &rest[..ends.unwrap_or(rest.len())];
                self.at += word.len();
                match self.text.get(self.at) {
                    Some(&byte) if byte > 127 => Err(self.foreign()),
                    _ => Ok((word, at)),
                }
            }
        }
    }

    /// A keyword, which is the longest run of letters, or a name.
    fn exact_word(&mut self, first: u8) -> Scanned<(&'a [u8], usize)> {
        let (at, rest) = (self.at, &self.text[self.at..]);
        let length = if first == b':' {
            let signs = rest[1..].iter().take_while(|byte| byte.is_ascii_alphanumeric()).count();
            if !(1..=LONGEST_NAME).contains(&signs) {
                return Err(fault(
                    at,
                    format!(
                        "a name is a colon and 1 to {LONGEST_NAME} letters or digits, and this one \
                         has {signs}"
                    ),
                ));
            }
            1 + signs
        } else {
            rest.iter().take_while(|byte| byte.is_ascii_alphabetic()).count()
        };
        if length == 0 {
            return Err(fault(at, format!("{} cannot stand here", sign(first))));
        }
        self.at += length;
        Ok((&rest[..length], at))
    }

    /// The prefix that a text declares, with its colon, and where it begins.
    pub fn prefix(&mut self) -> Scanned<(&'a [u8], usize)> {
        let at = self.place();
        let rest = &self.text[at..];
        let is_inside =
            |&byte: &u8| BYTES[byte as usize] == Byte::Inside && !b":=<".contains(&byte);
        let length = rest.iter().take_while(|byte| is_inside(byte)).count();
        if rest.get(length) != Some(&b':') {
            return Err(self.unexpected("a prefix that ends in a colon"));
        }
        self.at += length + 1;
        Ok((&rest[..=length], at))
    }

    /// Takes a string as OWL has it, with its language or datatype. It may go over lines, and a
    /// backslash in it takes the byte behind along.
    pub fn literal(&mut self) -> Scanned<()> {
        let at = self.place();
        let mut is_escaped = false;
        let end = self.text[at + 1..].iter().position(|&byte| {
            let is_end = byte == b'"' && !is_escaped;
            is_escaped = byte == b'\\' && !is_escaped;
            is_end
        });
        let Some(length) = end else { return Err(fault(at, "no closing \" behind this one")) };
        self.at = at + length + 2;
        if self.peek() == Some(b'@') {
            self.word("a language")?;
        } else if self.text[self.at..].starts_with(b"^^") {
            self.at += 2;
            self.word("a datatype")?;
        }
        Ok(())
    }

    /// What stands between quotes, and where the first quote is; none if no quote is next.
    pub fn string(&mut self) -> Scanned<Option<(&'a [u8], usize)>> {
        if self.peek() != Some(b'"') {
            return Ok(None);
        }
        let at = self.until(b'"')?;
        Ok(Some((&self.text[at + 1..self.at - 1], at)))
    }

    /// Takes what goes on to a closing byte on the same line; gives where it begins.
    fn until(&mut self, closing: u8) -> Scanned<usize> {
        let at = self.at;
        for (&byte, offset) in self.text[at + 1..].iter().zip(at + 1..) {
            if byte == closing {
                self.at = offset + 1;
                return Ok(at);
            }
            if byte == b'\n' {
                break;
            }
            if byte > 127 && closing != b'"' {
                self.at = offset;
                return Err(self.foreign());
            }
        }
        let message = format!("no closing {} on this line", char::from(closing));
        Err(Box::new(Fault { at, message, of: Of::Bytes }))
    }

    /// Takes exactly this word.
    pub fn this_word(&mut self, word: &str) -> Scanned<()> {
        if self.takes_word(word.as_bytes()) {
            return Ok(());
        }
        let (found, at) = self.word(&format!("\"{word}\""))?;
        Err(fault(at, format!("expected \"{word}\", found \"{}\"", say(found))))
    }

    fn foreign(&self) -> Box<Fault> {
        let byte = self.text[self.at];
        let message =
            format!("byte {byte} is no ASCII character; only comments and strings can have others");
        Box::new(Fault { at: self.at, message, of: Of::Bytes })
    }

    /// A fault: what is next is not what should be.
    pub fn unexpected(&mut self, what: &str) -> Box<Fault> {
        match self.token() {
            Ok((at, found)) => fault(at, format!("expected {what}, found {found}")),
            Err(fault) => fault,
        }
    }

    /// Takes the next token, whatever it is, and says it.
    fn token(&mut self) -> Scanned<(usize, String)> {
        let at = self.place();
        let said = match self.peek() {
            None => "the end of the text".to_owned(),
            Some(byte @ (b'(' | b')')) => {
                self.at += 1;
                format!("\"{}\"", char::from(byte))
            }
            Some(b'"') if !EXACT => {
                self.until(b'"')?;
                format!("the string {}", say(&self.text[at..self.at]))
            }
            Some(_) => format!("\"{}\"", say(self.word("")?.0)),
        };
        Ok((at, said))
    }

    /// A fault of bytes anywhere behind comes before another that was found.
    pub fn first(mut self, found: Box<Fault>) -> Box<Fault> {
        if found.of == Of::Bytes {
            return found;
        }
        loop {
            if self.peek().is_none() {
                return found;
            }
            if let Err(fault) = self.token() {
                return fault;
            }
        }
    }
}

pub(crate) fn fault(at: usize, message: impl Into<String>) -> Box<Fault> {
    Box::new(Fault { at, message: message.into(), of: Of::Words })
}

/// A byte that begins no token of the exact ones, for a message.
fn sign(byte: u8) -> String {
    match byte {
        b'#' => "a comment".to_owned(),
        b'"' => "a string".to_owned(),
        b'<' => "a whole IRI".to_owned(),
        b'\r' => "a carriage return".to_owned(),
        b'!'..=b'~' => format!("\"{}\"", char::from(byte)),
        _ => format!("byte {byte}"),
    }
}

/// A part of the text for a message, cut where it is long.
pub(crate) fn say(bytes: &[u8]) -> String {
    const MOST: usize = 80;
    let text = String::from_utf8_lossy(bytes);
    if text.chars().nth(MOST).is_none() {
        return text.into_owned();
    }
    text.chars().take(MOST).chain("..".chars()).collect()
}
