//! Tokens with their places.

use super::Mistake;

/// Where a token stands.
#[derive(Clone, Copy, Debug, PartialEq, Eq)]
pub struct At {
    pub line: usize,
    pub column: usize,
}

impl At {
    pub fn mistake(self, message: impl Into<String>) -> Mistake {
        Mistake { line: self.line, column: self.column, message: message.into() }
    }
}

/// What a token is.
#[derive(Clone, Debug, PartialEq, Eq)]
pub enum Token {
    Open,
    Close,
    /// A name, keyword, number or whole IRI.
    Word(String),
    /// What stands between quotes; a datatype behind it is a word of its own, `^^xsd:integer`.
    Quoted(String),
    End,
}

impl Token {
    pub fn say(&self) -> String {
        match self {
            Token::Open => "\"(\"".to_owned(),
            Token::Close => "\")\"".to_owned(),
            Token::Word(word) => format!("\"{word}\""),
            Token::Quoted(text) => format!("the string \"{text}\""),
            Token::End => "the end of the text".to_owned(),
        }
    }
}

/// All tokens of the text and, last, its end. `#` starts a comment.
pub fn tokens(text: &str) -> Result<Vec<(Token, At)>, Mistake> {
    let mut reader = Reader { rest: text.chars().peekable(), at: At { line: 1, column: 1 } };
    let mut all = Vec::new();
    loop {
        reader.skip_blanks();
        let at = reader.at;
        let token = reader.token()?;
        let done = token == Token::End;
        all.push((token, at));
        if done {
            return Ok(all);
        }
    }
}

struct Reader<'a> {
    rest: std::iter::Peekable<std::str::Chars<'a>>,
    at: At,
}

impl Reader<'_> {
    fn take(&mut self) -> Option<char> {
        let next = self.rest.next()?;
        if next == '\n' {
            self.at = At { line: self.at.line + 1, column: 1 };
        } else {
            self.at.column += 1;
        }
        Some(next)
    }

    fn skip_blanks(&mut self) {
        while let Some(&next) = self.rest.peek() {
            if next == '#' {
                while self.rest.peek().is_some_and(|&next| next != '\n') {
                    self.take();
                }
            } else if next.is_whitespace() {
                self.take();
            } else {
                return;
            }
        }
    }

    fn token(&mut self) -> Result<Token, Mistake> {
        let start = self.at;
        match self.rest.peek() {
            None => Ok(Token::End),
            Some('(') => {
                self.take();
                Ok(Token::Open)
            }
            Some(')') => {
                self.take();
                Ok(Token::Close)
            }
            Some('"') => {
                self.take();
                self.until('"', start).map(Token::Quoted)
            }
            Some('<') => {
                self.take();
                Ok(Token::Word(format!("<{}>", self.until('>', start)?)))
            }
            Some(_) => Ok(Token::Word(self.word())),
        }
    }

    fn until(&mut self, end: char, start: At) -> Result<String, Mistake> {
        let mut text = String::new();
        loop {
            match self.take() {
                None | Some('\n') => {
                    return Err(start.mistake(format!("no closing {end} on this line")));
                }
                Some(next) if next == end => return Ok(text),
                Some(next) => text.push(next),
            }
        }
    }

    fn word(&mut self) -> String {
        let mut word = String::new();
        while let Some(&next) = self.rest.peek() {
            if next.is_whitespace() || matches!(next, '(' | ')' | '"' | '#') {
                break;
            }
            word.push(next);
            self.take();
        }
        word
    }
}
