//! Making a text shorter while it still differs.

use super::Text;
use std::collections::BTreeSet;
use std::slice;

/// Runs of up to so many pieces are dropped at every place: a declaration has as many tokens.
const SHORT: usize = 10;
/// A text of more pieces keeps its short runs.
const FEW: usize = 3_000;

/// Makes the text shorter as long as `differs` is true of it: drops runs of forms, tokens and bytes,
/// and shortens names and the output. `differs` must be true of the text.
pub fn shrink(text: &Text, differs: &mut dyn FnMut(&Text) -> bool) -> Text {
    const ROUNDS: usize = 20;
    let mut best = text.clone();
    for _ in 0..ROUNDS {
        let before = best.clone();
        drop_runs(&mut best, forms, differs);
        drop_runs(&mut best, tokens, differs);
        shorten_names(&mut best, differs);
        drop_runs(&mut best, single, differs);
        plain_output(&mut best, differs);
        if best == before {
            break;
        }
    }
    best
}

/// Takes the candidate if it still differs.
fn keep(best: &mut Text, candidate: Text, differs: &mut dyn FnMut(&Text) -> bool) -> bool {
    let smaller = candidate != *best && differs(&candidate);
    if smaller {
        *best = candidate;
    }
    smaller
}

/// What ends with a closing bracket: an axiom is one such piece, a declaration two.
fn forms(bytes: &[u8]) -> Vec<usize> {
    ends(bytes.split_inclusive(|&byte| byte == b')'))
}

fn tokens(bytes: &[u8]) -> Vec<usize> {
    ends(pieces(bytes))
}

fn single(bytes: &[u8]) -> Vec<usize> {
    ends(bytes.chunks(1))
}

/// Runs of letters and digits, and the other bytes by themselves.
fn pieces(bytes: &[u8]) -> impl Iterator<Item = &[u8]> {
    bytes.chunk_by(|a, b| a.is_ascii_alphanumeric() && b.is_ascii_alphanumeric())
}

/// Where the pieces of a text end, and 0 in front.
fn ends<'a>(pieces: impl Iterator<Item = &'a [u8]>) -> Vec<usize> {
    let mut ends = vec![0];
    let mut end = 0;
    for piece in pieces {
        end += piece.len();
        ends.push(end);
    }
    ends
}

/// Drops runs of pieces, long runs first; short runs at every place.
fn drop_runs(
    best: &mut Text,
    ends_of: fn(&[u8]) -> Vec<usize>,
    differs: &mut dyn FnMut(&Text) -> bool,
) {
    let mut ends = ends_of(&best.bytes);
    let mut run = ends.len() - 1;
    while run > SHORT || (run > 0 && ends.len() <= FEW) {
        let mut at = 0;
        while at + run < ends.len() {
            let mut candidate = best.clone();
            candidate.bytes.drain(ends[at]..ends[at + run]);
            if keep(best, candidate, differs) {
                ends = ends_of(&best.bytes);
            } else {
                at += if run > SHORT { run } else { 1 };
            }
        }
        run = if run > SHORT { SHORT.max(run / 2) } else { run - 1 };
    }
}

/// Gives each name one character, in all its places.
fn shorten_names(best: &mut Text, differs: &mut dyn FnMut(&Text) -> bool) {
    for name in names(&best.bytes) {
        for short in b'a'..=b'z' {
            let candidate = Text { bytes: renamed(&best.bytes, &name, short), ..best.clone() };
            if name.len() > 1 && keep(best, candidate, differs) {
                break;
            }
        }
    }
}

/// What stands behind a colon.
fn names(bytes: &[u8]) -> BTreeSet<Vec<u8>> {
    let all: Vec<&[u8]> = pieces(bytes).collect();
    let behind = all.windows(2).filter(|pair| pair[0] == b":");
    behind.map(|pair| pair[1].to_vec()).collect()
}

fn renamed(bytes: &[u8], name: &[u8], short: u8) -> Vec<u8> {
    let mut behind_colon = false;
    let mut all = Vec::new();
    for piece in pieces(bytes) {
        let own = behind_colon && piece == name;
        all.extend_from_slice(if own { slice::from_ref(&short) } else { piece });
        behind_colon = piece == b":";
    }
    all
}

fn plain_output(best: &mut Text, differs: &mut dyn FnMut(&Text) -> bool) {
    keep(best, Text { out_seed: 0, ..best.clone() }, differs);
    let mut cut = best.out_len;
    while cut > 0 {
        let candidate = Text { out_len: best.out_len.saturating_sub(cut), ..best.clone() };
        if !keep(best, candidate, differs) {
            cut /= 2;
        }
    }
}
