//! Making a case smaller while it still differs.

use super::valid::header_links;
use super::Case;

/// Which table of a case.
#[derive(Clone, Copy)]
enum Table {
    V,
    P,
    Q,
    M,
}

impl Table {
    const ALL: [Table; 4] = [Table::M, Table::P, Table::Q, Table::V];

    fn of(self, case: &mut Case) -> &mut Vec<u32> {
        match self {
            Table::V => &mut case.v,
            Table::P => &mut case.p,
            Table::Q => &mut case.q,
            Table::M => &mut case.m,
        }
    }

    fn width(self) -> usize {
        match self {
            Table::V => 4,
            Table::P | Table::Q => 6,
            Table::M => 5,
        }
    }

    /// The places of a record's links, its next before its child.
    fn links(self) -> &'static [usize] {
        match self {
            Table::V => &[3],
            Table::P | Table::Q => &[5, 4],
            Table::M => &[4],
        }
    }
}

/// Makes the case smaller as long as `differs` is true of it: drops records and keeps the links
/// right, lowers numbers, shortens the slices. `differs` must be true of the case.
pub fn shrink(case: &Case, differs: &mut dyn FnMut(&Case) -> bool) -> Case {
    const ROUNDS: usize = 50;
    let mut best = case.clone();
    for _ in 0..ROUNDS {
        let before = best.clone();
        plain_slices(&mut best, differs);
        for table in Table::ALL {
            drop_records(&mut best, table, differs);
            shorten(&mut best, table, differs);
            lower_words(&mut best, table, differs);
        }
        drop_pairs(&mut best, differs);
        if best == before {
            break;
        }
    }
    best
}

/// Takes the candidate if it still differs.
fn keep(best: &mut Case, candidate: Case, differs: &mut dyn FnMut(&Case) -> bool) -> bool {
    let smaller = candidate != *best && differs(&candidate);
    if smaller {
        *best = candidate;
    }
    smaller
}

fn plain_slices(best: &mut Case, differs: &mut dyn FnMut(&Case) -> bool) {
    let changes: [fn(&mut Case); 8] = [
        |case| case.m = vec![0, 1, 0, 0, 0],
        |case| case.work_seed = 0,
        |case| case.out_seed = 0,
        |case| case.work_len = case.work_len.min(crate::FULL_WORK),
        |case| case.out_len = case.out_len.min(crate::FULL_WORK),
        |case| case.out_len = case.out_len.min(5),
        |case| case.out_len = 0,
        |case| case.work_len = 0,
    ];
    for change in changes {
        let mut candidate = best.clone();
        change(&mut candidate);
        let shorter = candidate.m.len() <= best.m.len();
        if shorter {
            keep(best, candidate, differs);
        }
    }
}

/// Drops runs of records, long runs first; short runs at every place.
fn drop_records(best: &mut Case, table: Table, differs: &mut dyn FnMut(&Case) -> bool) {
    const SHORT: usize = 4;
    let mut run = table.of(best).len() / table.width();
    while run > 0 {
        let mut at = 1;
        while at + run <= table.of(best).len() / table.width() {
            let dropped = [Onward::Next, Onward::Child].into_iter().any(|onward| {
                let mut candidate = best.clone();
                remove(table.of(&mut candidate), table, at, run, onward);
                keep(best, candidate, differs)
            });
            if !dropped {
                at += if run > SHORT { run } else { 1 };
            }
        }
        run = if run > SHORT { run / 2 } else { run - 1 };
    }
}

/// Where a link to a dropped record goes on to.
#[derive(Clone, Copy)]
enum Onward {
    Next,
    Child,
}

/// Drops one record of each policy at once, where a difference hangs on both; only when few are
/// left.
fn drop_pairs(best: &mut Case, differs: &mut dyn FnMut(&Case) -> bool) {
    const FEW: usize = 40;
    let mut at = 1;
    while at < best.p.len() / 6 && best.p.len() / 6 <= FEW && best.q.len() / 6 <= FEW {
        let dropped = (1..best.q.len() / 6).any(|other| {
            let mut candidate = best.clone();
            remove(&mut candidate.p, Table::P, at, 1, Onward::Child);
            remove(&mut candidate.q, Table::Q, other, 1, Onward::Child);
            keep(best, candidate, differs)
        });
        if !dropped {
            at += 1;
        }
    }
}

/// Removes `run` records from `at` on; a link to one of them goes on to where that one led.
fn remove(words: &mut Vec<u32>, table: Table, at: usize, run: usize, onward: Onward) {
    let width = table.width();
    let gone = at as u32..(at + run) as u32;
    let follow = |mut link: u32, words: &[u32]| {
        while gone.contains(&link) {
            let start = link as usize * width;
            let mut ways = table.links().to_vec();
            if let Onward::Child = onward {
                ways.reverse();
            }
            let mut ways = ways.into_iter().map(|place| words[start + place]);
            link = ways.find(|&way| way > link).unwrap_or(0);
        }
        if link >= gone.end {
            link - run as u32
        } else {
            link
        }
    };
    let mut kept = Vec::with_capacity(words.len());
    for (number, record) in words.chunks(width).enumerate() {
        if gone.contains(&(number as u32)) {
            continue;
        }
        let start = kept.len();
        kept.extend_from_slice(record);
        let links = if number == 0 { header_links(width) } else { table.links() };
        for &place in links.iter().filter(|&&place| place < record.len()) {
            kept[start + place] = follow(record[place], words);
        }
    }
    *words = kept;
}

/// Cuts words off the end.
fn shorten(best: &mut Case, table: Table, differs: &mut dyn FnMut(&Case) -> bool) {
    let mut cut = table.of(best).len();
    while cut > 0 {
        let mut candidate = best.clone();
        let words = table.of(&mut candidate);
        words.truncate(words.len().saturating_sub(cut));
        if !keep(best, candidate, differs) {
            cut /= 2;
        }
    }
}

/// Makes words smaller, by large steps first; tables of many words are left as they are.
fn lower_words(best: &mut Case, table: Table, differs: &mut dyn FnMut(&Case) -> bool) {
    let length = table.of(best).len();
    if length > 5_000 {
        return;
    }
    for at in 0..length {
        let mut step = table.of(best)[at];
        while step > 0 {
            let mut candidate = best.clone();
            let word = &mut table.of(&mut candidate)[at];
            *word = word.saturating_sub(step);
            keep(best, candidate, differs);
            step /= 2;
        }
    }
}
