//! A load at every limit and for every refusal and their order, each with its answer.

use super::{Load, ROOM};

/// A load that no seed makes.
pub struct Directed {
    /// What it is.
    pub name: String,
    /// What is asked for, and what is lent.
    pub load: Load,
    /// The number of words written, or of the refusal.
    pub answer: Result<usize, u32>,
}

/// Every directed load: each of [`NUMBERS`] with an output that is empty, a word short, exactly long
/// enough, and longer.
#[must_use]
pub fn loads() -> Vec<Directed> {
    let mut all = Vec::new();
    for (name, [seed, classes, terms], answer) in NUMBERS {
        let enough = answer.unwrap_or(ROOM);
        for out_len in [0, enough - 1, enough, enough + 9] {
            let load = Load { out_len, ..Load::of(seed, classes, terms) };
            let name = format!("{name}, an output of {out_len}");
            // 45 comes before 23.
            let answer = if out_len < enough { answer.and(Err(23)) } else { answer };
            all.push(Directed { name, load, answer });
        }
    }
    all
}

/// A name, the seed, classes and terms, and the words that the load takes or its refusal.
type Numbers = (&'static str, [u32; 3], Result<usize, u32>);

const NUMBERS: [Numbers; 31] = [
    ("the least of all", [1, 1, 1], Ok(59)),
    ("the most of all", [2_147_483_646, 256, 100], Ok(4_643)),
    ("the least seed, the most else", [1, 256, 100], Ok(4_643)),
    ("the most seed, the least else", [2_147_483_646, 1, 1], Ok(59)),
    ("the most classes, 1 term", [7, 256, 1], Ok(1_079)),
    ("1 class, the most terms", [7, 1, 100], Ok(3_623)),
    ("2 classes: draw(1)", [7, 2, 1], Ok(63)),
    ("255 classes, 99 terms", [7, 255, 99], Ok(4_603)),
    ("seed 2", [2, 3, 2], Ok(103)),
    ("seed 2147483645", [2_147_483_645, 3, 2], Ok(103)),
    ("the first draw is 1", [1_899_818_559, 10, 10], Ok(419)),
    ("the first draw is 2147483646", [247_665_088, 10, 10], Ok(419)),
    ("seed 0", [0, 1, 1], Err(45)),
    ("seed 0, the most else", [0, 256, 100], Err(45)),
    ("seed 2147483647", [2_147_483_647, 1, 1], Err(45)),
    ("seed 2147483648", [2_147_483_648, 1, 1], Err(45)),
    ("seed 2147483649, which is 1 without its highest bit", [2_147_483_649, 1, 1], Err(45)),
    ("seed 4294967295", [4_294_967_295, 256, 100], Err(45)),
    ("0 classes", [1, 0, 1], Err(45)),
    ("257 classes", [1, 257, 1], Err(45)),
    ("257 classes, the most else", [2_147_483_646, 257, 100], Err(45)),
    ("4294967295 classes", [1, 4_294_967_295, 1], Err(45)),
    ("0 terms", [1, 1, 0], Err(45)),
    ("101 terms", [1, 1, 101], Err(45)),
    ("101 terms, the most else", [2_147_483_646, 256, 101], Err(45)),
    ("4294967295 terms", [1, 1, 4_294_967_295], Err(45)),
    ("seed 0 and 0 classes", [0, 0, 1], Err(45)),
    ("seed 2147483647 and 101 terms", [2_147_483_647, 1, 101], Err(45)),
    ("257 classes and 0 terms", [1, 257, 0], Err(45)),
    ("0 of all", [0, 0, 0], Err(45)),
    ("4294967295 of all", [4_294_967_295, 4_294_967_295, 4_294_967_295], Err(45)),
];
