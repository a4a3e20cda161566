//! A file of policies, one after another.

use notation::{policy, policy_at, Mistake, Piece, Policies, Trouble, Vocabulary, LONGEST};
use reasoner::random::everyday::{self, Answer};
use reasoner::random::Rng;
use reasoner::text::Document;
use std::io::{self, BufRead, BufReader, Read};

/// Pieces, or the places of mistakes.
fn cut(reader: impl BufRead) -> Vec<Result<Piece, Mistake>> {
    Policies::new(reader)
        .map(|piece| match piece {
            Ok(piece) => Ok(piece),
            Err(Trouble::Mistake(mistake)) => Err(mistake),
            Err(Trouble::Input(error)) => panic!("{error}"),
        })
        .collect()
}

/// The same, where a reader gives only so many bytes at once.
fn cut_by(bytes: usize, text: &[u8]) -> Vec<Result<Piece, Mistake>> {
    cut(BufReader::with_capacity(bytes, text))
}

fn told(text: &str) -> Vec<String> {
    let all = cut(text.as_bytes());
    for bytes in [1, 2, 3, 5, 7, 8, 9, 64] {
        assert_eq!(cut_by(bytes, text.as_bytes()), all, "by {bytes}: {text}");
    }
    let tell = |one: Result<Piece, Mistake>| match one {
        Ok(Piece { bytes, line, column }) => {
            format!("{line}:{column} {}", String::from_utf8_lossy(&bytes))
        }
        Err(mistake) => mistake.to_string(),
    };
    all.into_iter().map(tell).collect()
}

#[test]
fn policies_with_their_places() {
    assert_eq!(told(""), [""; 0]);
    assert_eq!(told(" \n# Policy(:A)"), [""; 0]);
    assert_eq!(
        told("# ü\nPolicy(:A) # ü\n  Policy (:B (:C))Policy#(\n()"),
        ["2:1 Policy(:A)", "3:3 Policy (:B (:C))", "3:19 Policy#(\n()"]
    );
    // Parentheses in strings, IRIs and comments close nothing; `<` inside a word begins nothing.
    assert_eq!(
        told("Policy(\")\" <)> <(><)> :a<b # )\n)\nPolicy(\")\"<)>a<b)"),
        ["1:1 Policy(\")\" <)> <(><)> :a<b # )\n)", "3:1 Policy(\")\"<)>a<b)"]
    );
    // A name, a part of a name and a comment are no keyword.
    assert_eq!(
        told("Policy(Policy :Policy(xPolicy( # Policy\n(<Policy>(\"Policy\"(Policy#\n\"(\"))))))"),
        ["1:1 Policy(Policy :Policy(xPolicy( # Policy\n(<Policy>(\"Policy\"(Policy#\n\"(\"))))))"]
    );
}

#[test]
fn what_is_no_policy_is_told_once_and_the_rest_goes_on() {
    assert_eq!(
        told("Policy(:A)) ) x\nPolicy(:B)"),
        ["1:1 Policy(:A)", "line 1, column 11: expected Policy, found \")\"", "2:1 Policy(:B)"]
    );
    assert_eq!(
        told("SubClassOf(:A :B)\n\"Policy\" <Policy(> # Policy(\n Policy(:B)"),
        ["line 1, column 1: expected Policy, found \"SubClassOf\"", "3:2 Policy(:B)"]
    );
    assert_eq!(
        told("Policy\n # ü\n  <x y> Policy(:B)"),
        ["line 3, column 3: expected \"(\" after Policy, found \"<x y>\"", "3:9 Policy(:B)"]
    );
    assert_eq!(
        told("Policy"),
        ["line 1, column 7: expected \"(\" after Policy, found the end of the text"]
    );
    assert_eq!(
        told(" ä Policy()"),
        [
            "line 1, column 2: byte 195 is no ASCII character; only comments and strings can have others",
            "1:4 Policy()"
        ]
    );
    assert_eq!(
        told("\"x\nPolicy()"),
        ["line 1, column 1: no closing \" on this line", "2:1 Policy()"]
    );
}

#[test]
fn a_policy_that_is_not_closed_ends_at_the_next() {
    assert_eq!(
        told("Policy(:A # not closed\n\n Policy  (:B)\nPolicy(:C"),
        ["1:1 Policy(:A # not closed\n\n Policy", "3:2 Policy  (:B)", "4:1 Policy(:C"]
    );
    let desk = Vocabulary::parse(b"Declaration(Class(:A))").expect("a vocabulary");
    let pieces = cut(&b"Policy(:A # not closed\n\n Policy  (:A)"[..]);
    let Some(Ok(piece)) = pieces.first() else { panic!("{pieces:?}") };
    assert_eq!(
        policy_at(&desk, &piece.bytes, piece.line, piece.column)
            .expect_err("a mistake")
            .to_string(),
        "line 3, column 2: another policy begins here, and the one before is not closed"
    );
}

/// Policies of everyday size, each with its words.
fn everyday(count: u64) -> (Vocabulary, Vec<(String, Vec<u32>)>) {
    let mut vocabulary = None;
    let policies = (0..count).map(|seed| {
        let case = everyday::sized(seed, Answer::Compliant, 32, 6);
        let mut document = Document::decode(&case.bytes()).expect("an accepted case");
        vocabulary.get_or_insert_with(|| {
            Vocabulary::parse(document.axioms().as_bytes()).expect("a vocabulary")
        });
        let start = document.axioms().len();
        document.second.terms.clear();
        let text = document.to_string().split_off(start);
        let end = text.rfind("Policy(").expect("the second policy");
        (text[..end].to_owned(), case.p)
    });
    let policies = policies.collect();
    (vocabulary.expect("a vocabulary"), policies)
}

#[test]
fn a_damaged_policy_leaves_the_others() {
    let (vocabulary, policies) = everyday(8);
    let read = |text: &str| policy(&vocabulary, text.as_bytes()).expect("a policy").words;
    assert!(policies.iter().all(|(text, words)| read(text) == *words));
    let mut rng = Rng::new(3);
    let mut mistakes = 0;
    for _ in 0..2_000 {
        let damaged = rng.place(policies.len());
        let mut text = String::new();
        for (number, (policy, _)) in policies.iter().enumerate() {
            let mut policy = policy.clone().into_bytes();
            if number == damaged {
                // The line feed at its end stays.
                let (front, back) = (rng.place(policy.len() - 1), rng.place(policy.len() - 1));
                let part = front.min(back)..front.max(back);
                let part = if rng.once_in(2) { part } else { front..front };
                let with = ["(", ")", "\"", "#", "<", "Policy(", "Policy", ""];
                policy.splice(part, with[rng.place(with.len())].bytes());
            }
            text.push_str(&String::from_utf8(policy).expect("ASCII"));
        }
        let capacity = 1 + rng.place(300);
        let mut others: Vec<&[u32]> = Vec::new();
        for (number, (_, words)) in policies.iter().enumerate() {
            if number != damaged {
                others.push(words);
            }
        }
        let mut next = others.iter();
        let mut expected = next.next();
        for piece in cut_by(capacity, text.as_bytes()) {
            let words = piece
                .and_then(|piece| policy_at(&vocabulary, &piece.bytes, piece.line, piece.column));
            match (words, expected) {
                (Ok(policy), Some(words)) if policy.words == **words => expected = next.next(),
                (Ok(_), _) => {}
                (Err(_), _) => mistakes += 1,
            }
        }
        assert_eq!(expected, None, "{text}");
    }
    assert!(mistakes > 1_000, "{mistakes}");
}

#[test]
fn a_text_without_an_end() {
    // A text without an end, of which none is kept.
    let endless = |byte: u8| BufReader::new(io::repeat(byte).take(64 << 20));
    assert_eq!(cut(endless(b' ')).len(), 0);
    assert_eq!(cut(BufReader::new(b"#".chain(io::repeat(b'x').take(64 << 20)))).len(), 0);
    assert_eq!(cut(endless(b'x')).len(), 1);
    let mut policies = Policies::new(BufReader::new(
        b"\n Policy(".chain(io::repeat(b'(').take(64 << 20)).chain(&b"\nPolicy(:A)"[..]),
    ));
    let Some(Err(Trouble::Mistake(mistake))) = policies.next_text() else { panic!("a mistake") };
    assert_eq!(
        mistake.to_string(),
        format!("line 2, column 2: a policy's text has at most {LONGEST} bytes")
    );
    let piece = policies.next_text().expect("a piece").expect("a policy");
    assert_eq!((&piece.bytes[..], piece.line), (&b"Policy(:A)"[..], 3));
    assert!(policies.next_text().is_none());
}

/// A reader that fails behind its bytes.
struct Broken<'a>(&'a [u8]);

impl Read for Broken<'_> {
    fn read(&mut self, buffer: &mut [u8]) -> io::Result<usize> {
        match self.0.read(buffer)? {
            0 => Err(io::Error::other("the disk is gone")),
            read => Ok(read),
        }
    }
}

#[test]
fn an_input_that_cannot_be_read() {
    let mut policies = Policies::new(BufReader::new(Broken(b"Policy(:A) Policy(:B")));
    assert!(matches!(policies.next_text(), Some(Ok(piece)) if piece.bytes == b"Policy(:A)"));
    let Some(Err(trouble)) = policies.next_text() else { panic!("no trouble") };
    assert!(matches!(trouble, Trouble::Input(_)));
    assert_eq!(trouble.to_string(), "the disk is gone");
    assert!(policies.next_text().is_none());
    // A mistake before that is told too.
    let mut policies = Policies::new(BufReader::new(Broken(b"Polcy(:A)\n ")));
    let mut next = || policies.next_text().map(|one| one.expect_err("trouble").to_string());
    assert_eq!(next().as_deref(), Some("line 1, column 1: expected Policy, found \"Polcy\""));
    assert_eq!(next().as_deref(), Some("the disk is gone"));
    assert_eq!(next(), None);
}
