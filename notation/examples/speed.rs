//! How fast policies of everyday size are read from text, and cut from a stream before that:
//! microseconds a policy and MB a second, on one core.
//!
//! `cargo run --release -p notation --example speed`

use notation::{policy_at, Piece, Policies, Vocabulary};
use reasoner::random::everyday::{self, Answer};
use reasoner::text::{Document, Names};
use std::hint::black_box;
use std::time::{Duration, Instant};

/// Pairs of policies in a round.
const COUNT: u64 = 500;
/// Rounds go on for so long, and the best counts: others may use the machine too.
const LONG: Duration = Duration::from_secs(1);

/// Seconds of the best round.
fn time(round: impl Fn() -> usize) -> f64 {
    let start = Instant::now();
    let mut best = f64::INFINITY;
    while start.elapsed() < LONG {
        let start = Instant::now();
        black_box(round());
        best = best.min(start.elapsed().as_secs_f64());
    }
    best
}

fn row(what: &str, policies: usize, bytes: usize, seconds: f64) {
    let each = seconds * 1e6 / policies as f64;
    let rate = bytes as f64 / seconds / 1e6;
    println!("{what:22}{each:8.2} microseconds a policy{rate:8.0} MB a second");
}

/// Everyday pairs. Their vocabularies have the same names, so that the first reads every policy.
fn documents(front: &str, back: &str) -> Vec<Document> {
    let document = |seed| {
        let case = everyday::case(seed, Answer::Outside);
        let mut document = Document::decode(&case.bytes()).expect("an accepted case");
        let Names { classes, roles, features } = &mut document.names;
        for name in classes.iter_mut().chain(roles).chain(features) {
            *name = format!("{front}{}{back}", &name[1..]);
        }
        document
    };
    (0..COUNT).map(document).collect()
}

/// As the printer writes it, a conjunct a line.
fn printed(document: &Document) -> String {
    document.to_string().split_off(document.axioms().len())
}

/// On one line, numbers without quotes.
fn short(document: &Document) -> String {
    let line = |one: String| {
        let one = one.replace("\"^^xsd:integer", "").replace("clusive \"", "clusive ");
        format!("Policy({one})\n")
    };
    document.expressions().map(line).concat()
}

/// A row's name, its documents, and the text of the two policies of one.
type Style<'a> = (&'a str, &'a [Document], fn(&Document) -> String);

fn main() {
    let plain = documents(":", "");
    let whole = documents("<http://example.org/consents#", ">");
    let styles: [Style<'_>; 3] = [
        ("a conjunct a line, as printed", &plain, printed),
        ("one line, numbers without quotes", &plain, short),
        ("a conjunct a line, names that are whole IRIs", &whole, printed),
    ];
    for (what, documents, text) in styles {
        let axioms = documents[0].axioms();
        let vocabulary = Vocabulary::parse(axioms.as_bytes()).expect("a vocabulary");
        let all = documents.iter().map(text).collect::<String>().into_bytes();
        let cut = || Policies::new(&all[..]).map(|piece| piece.expect("a policy"));
        let pieces: Vec<Piece> = cut().collect();
        let bytes: usize = pieces.iter().map(|piece| piece.bytes.len()).sum();
        let read = |piece: &Piece| {
            let read = policy_at(&vocabulary, &piece.bytes, piece.line, piece.column);
            read.expect("a policy").words.len()
        };
        let words: usize = pieces.iter().map(read).sum();
        let count = pieces.len();
        println!("{what}: {} records, {} bytes", words / 6 / count - 1, bytes / count);
        row("  read", count, bytes, time(|| pieces.iter().map(read).sum()));
        row("  cut from a stream", count, all.len(), time(|| cut().count()));
    }
}
