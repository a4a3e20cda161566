//! An input for every reading of SPECIFICATION 6.7 and 9.13, at every limit and for every refusal
//! and their order, each with its answer.

use super::{Spelling, ROOM};
use crate::classes::{ClassNo, RoleNo};
use crate::encode::{policy_words, vocabulary_words};
use crate::policy::{Conjunct, Term};
use crate::random::limits::{class, names, nested, reaches, within};
use crate::vocabulary::{Axiom, Vocabulary};
use crate::FULL_WORK;

/// An input that no seed makes.
pub struct Directed {
    /// What it is.
    pub name: String,
    /// The words, and what is lent.
    pub input: Spelling,
    /// The words written, or the number of the refusal.
    pub answer: Result<Vec<u32>, u32>,
}

/// Every directed input.
#[must_use]
pub fn inputs() -> Vec<Directed> {
    let readings = READINGS.iter().map(|&(name, v, p, answer)| {
        directed(name, Spelling::of(v.concat(), p.concat()), Ok(answer.concat()))
    });
    let limits = [lengths(), depths(), outputs(), orders()];
    readings.chain(limits.into_iter().flatten()).collect()
}

fn directed(name: &str, input: Spelling, answer: Result<Vec<u32>, u32>) -> Directed {
    Directed { name: name.to_owned(), input, answer }
}

/// A name, the records of a vocabulary and of a policy, and those of its spelling.
type Reading = (&'static str, &'static [[u32; 4]], &'static [[u32; 6]], &'static [[u32; 6]]);

/// Three classes, three roles and two features, which are all many-valued.
const NAMES: &[[u32; 4]] =
    &[[3, 3, 2, 1], [6, 1, 0, 2], [6, 2, 0, 3], [6, 3, 0, 4], [7, 1, 0, 5], [7, 2, 0, 0]];

/// The same, of which nothing is stated: they are all functional.
const UNSTATED: &[[u32; 4]] = &[[3, 3, 2, 0]];

/// SPECIFICATION 3.3: class 2 is below 1; role 1 has the range 1; feature 1 is functional.
const HEART: &[[u32; 4]] = &[[2, 1, 1, 1], [1, 2, 1, 2], [5, 1, 1, 3], [4, 1, 0, 0]];

/// SPECIFICATION 11.1: class 2 is below 1, class 4 is below 1 and 3, which are disjoint; roles 1 and
/// 2 and feature 1 are functional; role 3 has the range 1 and is many-valued.
const DESK: &[[u32; 4]] = &[
    [4, 3, 1, 1],
    [1, 2, 1, 2],
    [1, 4, 1, 3],
    [1, 4, 3, 4],
    [2, 1, 3, 5],
    [3, 1, 0, 6],
    [3, 2, 0, 7],
    [4, 1, 0, 8],
    [5, 3, 1, 9],
    [6, 3, 0, 0],
];

const FIRST: [u32; 6] = [1, 0, 0, 0, 0, 0];
const NONE: [u32; 6] = [0; 6];

/// Role 3 and feature 2 asked twice, and feature 2 twice of what role 3 reaches.
const TWICE: &[[u32; 6]] = &[
    FIRST,
    [5, 0, 0, 0, 2, 0],
    [3, 3, 0, 0, 3, 5],
    [1, 2, 0, 0, 0, 4],
    [4, 2, 0, 5, 0, 0],
    [4, 2, 3, 9, 0, 6],
    [3, 3, 0, 0, 7, 9],
    [4, 2, 5, 6, 0, 8],
    [1, 1, 0, 0, 0, 0],
    [4, 2, 0, 4, 0, 0],
];

/// The spelling of [`TWICE`] where both are many-valued.
const APART: &[[u32; 6]] = &[
    FIRST,
    [5, 0, 0, 0, 2, 0],
    [4, 2, 0, 4, 0, 3],
    [4, 2, 3, 9, 0, 4],
    [3, 3, 0, 0, 5, 7],
    [1, 1, 0, 0, 0, 6],
    [4, 2, 5, 6, 0, 0],
    [3, 3, 0, 0, 8, 0],
    [1, 2, 0, 0, 0, 9],
    [4, 2, 0, 5, 0, 0],
];

const READINGS: &[Reading] = &[
    (
        "the policy of 4.6",
        HEART,
        &[
            FIRST,
            [5, 0, 0, 0, 2, 5],
            [3, 1, 0, 0, 3, 4],
            [1, 2, 0, 0, 0, 0],
            [4, 1, 1, 60, 0, 0],
            [5, 0, 0, 0, 6, 0],
            [4, 1, 0, 7, 0, 0],
        ],
        &[
            FIRST,
            [5, 0, 0, 0, 2, 3],
            [4, 1, 0, 7, 0, 0],
            [5, 0, 0, 0, 4, 0],
            [4, 1, 1, 60, 0, 5],
            [3, 1, 0, 0, 6, 0],
            [1, 1, 0, 0, 0, 7],
            [1, 2, 0, 0, 0, 0],
        ],
    ),
    // Within one individual: classes, spans, roles.
    (
        "classes rise, and one that stands twice is written once",
        NAMES,
        &[
            FIRST,
            [5, 0, 0, 0, 2, 0],
            [1, 3, 0, 0, 0, 3],
            [1, 1, 0, 0, 0, 4],
            [1, 3, 0, 0, 0, 5],
            [1, 2, 0, 0, 0, 0],
        ],
        &[FIRST, [5, 0, 0, 0, 2, 0], [1, 1, 0, 0, 0, 3], [1, 2, 0, 0, 0, 4], [1, 3, 0, 0, 0, 0]],
    ),
    (
        "spans go by feature, lo and hi; one inside another stays, one that stands twice does not",
        NAMES,
        &[
            FIRST,
            [5, 0, 0, 0, 2, 0],
            [4, 2, 0, 1, 0, 3],
            [4, 1, 5, 9, 0, 4],
            [4, 1, 0, 9, 0, 5],
            [4, 1, 5, 6, 0, 6],
            [4, 1, 5, 9, 0, 0],
        ],
        &[
            FIRST,
            [5, 0, 0, 0, 2, 0],
            [4, 1, 0, 9, 0, 3],
            [4, 1, 5, 6, 0, 4],
            [4, 1, 5, 9, 0, 5],
            [4, 2, 0, 1, 0, 0],
        ],
    ),
    (
        "numbers have no sign",
        NAMES,
        &[
            FIRST,
            [5, 0, 0, 0, 2, 0],
            [4, 1, 2_147_483_648, 4_294_967_295, 0, 3],
            [4, 1, 1, 4_294_967_295, 0, 4],
            [4, 1, 1, 2_147_483_648, 0, 5],
            [4, 1, 1, 2_147_483_647, 0, 0],
        ],
        &[
            FIRST,
            [5, 0, 0, 0, 2, 0],
            [4, 1, 1, 2_147_483_647, 0, 3],
            [4, 1, 1, 2_147_483_648, 0, 4],
            [4, 1, 1, 4_294_967_295, 0, 5],
            [4, 1, 2_147_483_648, 4_294_967_295, 0, 0],
        ],
    ),
    (
        "classes before spans before roles",
        NAMES,
        &[FIRST, [5, 0, 0, 0, 2, 0], [3, 1, 0, 0, 0, 3], [4, 1, 0, 0, 0, 4], [1, 3, 0, 0, 0, 0]],
        &[FIRST, [5, 0, 0, 0, 2, 0], [1, 3, 0, 0, 0, 3], [4, 1, 0, 0, 0, 4], [3, 1, 0, 0, 0, 0]],
    ),
    (
        "roles go by number, then by what they reach",
        NAMES,
        &[
            FIRST,
            [5, 0, 0, 0, 2, 0],
            [3, 2, 0, 0, 0, 3],
            [3, 1, 0, 0, 4, 5],
            [1, 2, 0, 0, 0, 0],
            [3, 1, 0, 0, 6, 0],
            [1, 1, 0, 0, 0, 0],
        ],
        &[
            FIRST,
            [5, 0, 0, 0, 2, 0],
            [3, 1, 0, 0, 3, 4],
            [1, 1, 0, 0, 0, 0],
            [3, 1, 0, 0, 5, 6],
            [1, 2, 0, 0, 0, 0],
            [3, 2, 0, 0, 0, 0],
        ],
    ),
    // Between lists.
    (
        "a shorter beginning comes first",
        NAMES,
        &[
            FIRST,
            [5, 0, 0, 0, 2, 0],
            [3, 1, 0, 0, 3, 5],
            [1, 1, 0, 0, 0, 4],
            [1, 2, 0, 0, 0, 0],
            [3, 1, 0, 0, 6, 7],
            [1, 1, 0, 0, 0, 0],
            [3, 1, 0, 0, 0, 0],
        ],
        &[
            FIRST,
            [5, 0, 0, 0, 2, 0],
            [3, 1, 0, 0, 0, 3],
            [3, 1, 0, 0, 4, 5],
            [1, 1, 0, 0, 0, 0],
            [3, 1, 0, 0, 6, 0],
            [1, 1, 0, 0, 0, 7],
            [1, 2, 0, 0, 0, 0],
        ],
    ),
    (
        "a longer list comes first by an earlier record",
        NAMES,
        &[
            FIRST,
            [5, 0, 0, 0, 2, 0],
            [3, 1, 0, 0, 3, 4],
            [1, 2, 0, 0, 0, 0],
            [3, 1, 0, 0, 5, 0],
            [1, 3, 0, 0, 0, 6],
            [1, 1, 0, 0, 0, 0],
        ],
        &[
            FIRST,
            [5, 0, 0, 0, 2, 0],
            [3, 1, 0, 0, 3, 5],
            [1, 1, 0, 0, 0, 4],
            [1, 3, 0, 0, 0, 0],
            [3, 1, 0, 0, 6, 0],
            [1, 2, 0, 0, 0, 0],
        ],
    ),
    (
        "kind 1 comes before kind 3, whatever the numbers",
        NAMES,
        &[
            FIRST,
            [5, 0, 0, 0, 2, 0],
            [3, 1, 0, 0, 3, 4],
            [3, 1, 0, 0, 0, 0],
            [3, 1, 0, 0, 5, 0],
            [1, 3, 0, 0, 0, 0],
        ],
        &[
            FIRST,
            [5, 0, 0, 0, 2, 0],
            [3, 1, 0, 0, 3, 4],
            [1, 3, 0, 0, 0, 0],
            [3, 1, 0, 0, 5, 0],
            [3, 1, 0, 0, 0, 0],
        ],
    ),
    (
        "kind 3 comes before kind 4, although spans come before roles in one individual",
        NAMES,
        &[
            FIRST,
            [5, 0, 0, 0, 2, 0],
            [3, 1, 0, 0, 3, 4],
            [4, 1, 0, 0, 0, 0],
            [3, 1, 0, 0, 5, 6],
            [3, 2, 0, 0, 0, 0],
            [3, 2, 0, 0, 7, 0],
            [3, 1, 0, 0, 0, 8],
            [4, 1, 0, 0, 0, 0],
        ],
        &[
            FIRST,
            [5, 0, 0, 0, 2, 0],
            [3, 1, 0, 0, 3, 4],
            [3, 2, 0, 0, 0, 0],
            [3, 1, 0, 0, 5, 6],
            [4, 1, 0, 0, 0, 0],
            [3, 2, 0, 0, 7, 0],
            [4, 1, 0, 0, 0, 8],
            [3, 1, 0, 0, 0, 0],
        ],
    ),
    (
        "of records alike but for the depth the higher one comes first",
        NAMES,
        &[
            FIRST,
            [5, 0, 0, 0, 2, 0],
            [3, 1, 0, 0, 3, 5],
            [3, 2, 0, 0, 4, 0],
            [3, 2, 0, 0, 0, 0],
            [3, 1, 0, 0, 6, 0],
            [3, 2, 0, 0, 7, 8],
            [1, 1, 0, 0, 0, 0],
            [3, 2, 0, 0, 0, 0],
        ],
        &[
            FIRST,
            [5, 0, 0, 0, 2, 0],
            [3, 1, 0, 0, 3, 6],
            [3, 2, 0, 0, 0, 4],
            [3, 2, 0, 0, 5, 0],
            [1, 1, 0, 0, 0, 0],
            [3, 1, 0, 0, 7, 0],
            [3, 2, 0, 0, 8, 0],
            [3, 2, 0, 0, 0, 0],
        ],
    ),
    (
        "lists alike but for the depth are no repeats",
        NAMES,
        &[
            FIRST,
            [5, 0, 0, 0, 2, 0],
            [3, 1, 0, 0, 3, 5],
            [3, 2, 0, 0, 4, 0],
            [3, 3, 0, 0, 0, 0],
            [3, 1, 0, 0, 6, 0],
            [3, 2, 0, 0, 0, 7],
            [3, 3, 0, 0, 0, 0],
        ],
        &[
            FIRST,
            [5, 0, 0, 0, 2, 0],
            [3, 1, 0, 0, 3, 5],
            [3, 2, 0, 0, 0, 4],
            [3, 3, 0, 0, 0, 0],
            [3, 1, 0, 0, 6, 0],
            [3, 2, 0, 0, 7, 0],
            [3, 3, 0, 0, 0, 0],
        ],
    ),
    (
        "the depth comes after the other fields",
        NAMES,
        &[
            FIRST,
            [5, 0, 0, 0, 2, 0],
            [3, 1, 0, 0, 3, 5],
            [3, 2, 0, 0, 0, 4],
            [3, 3, 0, 0, 0, 0],
            [3, 1, 0, 0, 6, 0],
            [3, 2, 0, 0, 7, 0],
            [1, 1, 0, 0, 0, 0],
        ],
        &[
            FIRST,
            [5, 0, 0, 0, 2, 0],
            [3, 1, 0, 0, 3, 5],
            [3, 2, 0, 0, 4, 0],
            [1, 1, 0, 0, 0, 0],
            [3, 1, 0, 0, 6, 0],
            [3, 2, 0, 0, 0, 7],
            [3, 3, 0, 0, 0, 0],
        ],
    ),
    (
        "a list goes by the walk, not level by level",
        NAMES,
        &[
            FIRST,
            [5, 0, 0, 0, 2, 0],
            [3, 1, 0, 0, 3, 6],
            [3, 1, 0, 0, 4, 5],
            [1, 2, 0, 0, 0, 0],
            [3, 2, 0, 0, 0, 0],
            [3, 1, 0, 0, 7, 0],
            [3, 1, 0, 0, 8, 9],
            [1, 1, 0, 0, 0, 0],
            [3, 3, 0, 0, 0, 0],
        ],
        &[
            FIRST,
            [5, 0, 0, 0, 2, 0],
            [3, 1, 0, 0, 3, 6],
            [3, 1, 0, 0, 4, 5],
            [1, 1, 0, 0, 0, 0],
            [3, 3, 0, 0, 0, 0],
            [3, 1, 0, 0, 7, 0],
            [3, 1, 0, 0, 8, 9],
            [1, 2, 0, 0, 0, 0],
            [3, 2, 0, 0, 0, 0],
        ],
    ),
    (
        "terms go by the same comparison",
        NAMES,
        &[
            FIRST,
            [5, 0, 0, 0, 2, 3],
            [4, 1, 0, 0, 0, 0],
            [5, 0, 0, 0, 4, 5],
            [3, 2, 0, 0, 0, 0],
            [5, 0, 0, 0, 6, 8],
            [1, 3, 0, 0, 0, 7],
            [1, 1, 0, 0, 0, 0],
            [5, 0, 0, 0, 9, 10],
            [1, 2, 0, 0, 0, 0],
            [5, 0, 0, 0, 0, 0],
        ],
        &[
            FIRST,
            [5, 0, 0, 0, 0, 2],
            [5, 0, 0, 0, 3, 5],
            [1, 1, 0, 0, 0, 4],
            [1, 3, 0, 0, 0, 0],
            [5, 0, 0, 0, 6, 7],
            [1, 2, 0, 0, 0, 0],
            [5, 0, 0, 0, 8, 9],
            [3, 2, 0, 0, 0, 0],
            [5, 0, 0, 0, 10, 0],
            [4, 1, 0, 0, 0, 0],
        ],
    ),
    // Repeats.
    (
        "roles are equal once their repeats are dropped",
        NAMES,
        &[
            FIRST,
            [5, 0, 0, 0, 2, 0],
            [3, 1, 0, 0, 3, 5],
            [1, 1, 0, 0, 0, 4],
            [1, 1, 0, 0, 0, 0],
            [3, 1, 0, 0, 6, 0],
            [1, 1, 0, 0, 0, 0],
        ],
        &[FIRST, [5, 0, 0, 0, 2, 0], [3, 1, 0, 0, 3, 0], [1, 1, 0, 0, 0, 0]],
    ),
    (
        "terms are equal once what they reach is in order and without repeats, two deep",
        NAMES,
        &[
            FIRST,
            [5, 0, 0, 0, 2, 9],
            [3, 1, 0, 0, 3, 0],
            [3, 2, 0, 0, 4, 6],
            [1, 2, 0, 0, 0, 5],
            [4, 1, 3, 4, 0, 0],
            [3, 2, 0, 0, 7, 0],
            [4, 1, 3, 4, 0, 8],
            [1, 2, 0, 0, 0, 0],
            [5, 0, 0, 0, 10, 0],
            [3, 1, 0, 0, 11, 0],
            [3, 2, 0, 0, 12, 0],
            [4, 1, 3, 4, 0, 13],
            [1, 2, 0, 0, 0, 14],
            [4, 1, 3, 4, 0, 0],
        ],
        &[
            FIRST,
            [5, 0, 0, 0, 2, 0],
            [3, 1, 0, 0, 3, 0],
            [3, 2, 0, 0, 4, 0],
            [1, 2, 0, 0, 0, 5],
            [4, 1, 3, 4, 0, 0],
        ],
    ),
    (
        "repeats that do not stand side by side",
        NAMES,
        &[
            FIRST,
            [5, 0, 0, 0, 2, 3],
            [3, 1, 0, 0, 0, 0],
            [5, 0, 0, 0, 4, 6],
            [3, 2, 0, 0, 0, 5],
            [3, 1, 0, 0, 0, 0],
            [5, 0, 0, 0, 7, 8],
            [3, 1, 0, 0, 0, 0],
            [5, 0, 0, 0, 9, 0],
            [3, 1, 0, 0, 0, 10],
            [3, 2, 0, 0, 0, 11],
            [3, 1, 0, 0, 0, 0],
        ],
        &[
            FIRST,
            [5, 0, 0, 0, 2, 3],
            [3, 1, 0, 0, 0, 0],
            [5, 0, 0, 0, 4, 0],
            [3, 1, 0, 0, 0, 5],
            [3, 2, 0, 0, 0, 0],
        ],
    ),
    (
        "roles are equal by a range",
        DESK,
        &[FIRST, [5, 0, 0, 0, 2, 0], [3, 3, 0, 0, 0, 3], [3, 3, 0, 0, 4, 0], [1, 1, 0, 0, 0, 0]],
        &[FIRST, [5, 0, 0, 0, 2, 0], [3, 3, 0, 0, 3, 0], [1, 1, 0, 0, 0, 0]],
    ),
    (
        "roles are equal once the roles below them are merged",
        DESK,
        &[
            FIRST,
            [5, 0, 0, 0, 2, 0],
            [3, 3, 0, 0, 3, 7],
            [3, 1, 0, 0, 4, 5],
            [1, 2, 0, 0, 0, 0],
            [3, 1, 0, 0, 6, 0],
            [1, 1, 0, 0, 0, 0],
            [3, 3, 0, 0, 8, 0],
            [3, 1, 0, 0, 9, 0],
            [1, 1, 0, 0, 0, 10],
            [1, 2, 0, 0, 0, 0],
        ],
        &[
            FIRST,
            [5, 0, 0, 0, 2, 0],
            [3, 3, 0, 0, 3, 0],
            [1, 1, 0, 0, 0, 4],
            [3, 1, 0, 0, 5, 0],
            [1, 1, 0, 0, 0, 6],
            [1, 2, 0, 0, 0, 0],
        ],
    ),
    (
        "roles are equal once the spans below them meet",
        DESK,
        &[
            FIRST,
            [5, 0, 0, 0, 2, 0],
            [3, 3, 0, 0, 3, 5],
            [4, 1, 0, 9, 0, 4],
            [4, 1, 5, 12, 0, 0],
            [3, 3, 0, 0, 6, 0],
            [4, 1, 5, 9, 0, 0],
        ],
        &[FIRST, [5, 0, 0, 0, 2, 0], [3, 3, 0, 0, 3, 0], [1, 1, 0, 0, 0, 4], [4, 1, 5, 9, 0, 0]],
    ),
    // What is functional.
    (
        "functional roles are merged, and what they both reach is dropped once",
        DESK,
        &[
            FIRST,
            [5, 0, 0, 0, 2, 0],
            [3, 1, 0, 0, 3, 5],
            [3, 3, 0, 0, 4, 0],
            [1, 2, 0, 0, 0, 0],
            [3, 1, 0, 0, 6, 0],
            [3, 3, 0, 0, 7, 9],
            [1, 2, 0, 0, 0, 8],
            [1, 1, 0, 0, 0, 0],
            [1, 1, 0, 0, 0, 0],
        ],
        &[
            FIRST,
            [5, 0, 0, 0, 2, 0],
            [3, 1, 0, 0, 3, 0],
            [1, 1, 0, 0, 0, 4],
            [3, 3, 0, 0, 5, 0],
            [1, 1, 0, 0, 0, 6],
            [1, 2, 0, 0, 0, 0],
        ],
    ),
    (
        "spans of a functional feature meet, and are not split",
        DESK,
        &[
            FIRST,
            [5, 0, 0, 0, 2, 4],
            [4, 1, 5, 12, 0, 3],
            [4, 1, 0, 9, 0, 0],
            [5, 0, 0, 0, 5, 0],
            [4, 1, 0, 7, 0, 0],
        ],
        &[FIRST, [5, 0, 0, 0, 2, 3], [4, 1, 0, 7, 0, 0], [5, 0, 0, 0, 4, 0], [4, 1, 5, 9, 0, 0]],
    ),
    (
        "roles that are not functional stay apart",
        DESK,
        &[
            FIRST,
            [5, 0, 0, 0, 2, 0],
            [3, 3, 0, 0, 3, 4],
            [3, 1, 0, 0, 0, 0],
            [3, 3, 0, 0, 5, 0],
            [1, 2, 0, 0, 0, 0],
        ],
        &[
            FIRST,
            [5, 0, 0, 0, 2, 0],
            [3, 3, 0, 0, 3, 5],
            [1, 1, 0, 0, 0, 4],
            [1, 2, 0, 0, 0, 0],
            [3, 3, 0, 0, 6, 0],
            [1, 1, 0, 0, 0, 7],
            [3, 1, 0, 0, 0, 0],
        ],
    ),
    (
        "roles and features of which nothing is stated are functional, at every depth",
        UNSTATED,
        TWICE,
        &[
            FIRST,
            [5, 0, 0, 0, 2, 0],
            [4, 2, 3, 4, 0, 3],
            [3, 3, 0, 0, 4, 0],
            [1, 1, 0, 0, 0, 5],
            [1, 2, 0, 0, 0, 6],
            [4, 2, 5, 5, 0, 0],
        ],
    ),
    (
        "roles and features that are many-valued stay apart, at every depth",
        &[[3, 3, 2, 1], [7, 2, 0, 2], [6, 3, 0, 0]],
        TWICE,
        APART,
    ),
    (
        "many-valued twice is many-valued",
        &[[3, 3, 2, 1], [6, 3, 0, 2], [7, 2, 0, 3], [6, 3, 0, 4], [7, 2, 0, 0]],
        TWICE,
        APART,
    ),
    (
        "a role and a feature of one number have nothing to do with each other",
        &[[3, 3, 3, 1], [3, 2, 0, 2], [7, 2, 0, 3], [4, 3, 0, 4], [6, 3, 0, 0]],
        TWICE,
        APART,
    ),
    (
        "a record that no link reaches makes nothing many-valued, and no name is named both ways by it",
        &[[3, 3, 2, 2], [6, 3, 0, 2], [3, 3, 0, 4], [7, 2, 0, 4], [4, 2, 0, 0]],
        &[FIRST, [5, 0, 0, 0, 2, 0], [3, 3, 0, 0, 0, 3], [3, 3, 0, 0, 4, 0], [1, 1, 0, 0, 0, 0]],
        &[FIRST, [5, 0, 0, 0, 2, 0], [3, 3, 0, 0, 3, 0], [1, 1, 0, 0, 0, 0]],
    ),
    (
        "roles are impossible by a merge that nothing states",
        &[[3, 3, 2, 1], [2, 1, 2, 2], [6, 1, 0, 0]],
        &[
            FIRST,
            [5, 0, 0, 0, 2, 6],
            [3, 2, 0, 0, 3, 4],
            [1, 1, 0, 0, 0, 0],
            [3, 2, 0, 0, 5, 0],
            [1, 2, 0, 0, 0, 0],
            [5, 0, 0, 0, 7, 0],
            [3, 1, 0, 0, 8, 9],
            [1, 1, 0, 0, 0, 0],
            [3, 1, 0, 0, 10, 0],
            [1, 2, 0, 0, 0, 0],
        ],
        &[
            FIRST,
            [5, 0, 0, 0, 2, 0],
            [3, 1, 0, 0, 3, 4],
            [1, 1, 0, 0, 0, 0],
            [3, 1, 0, 0, 5, 0],
            [1, 2, 0, 0, 0, 0],
        ],
    ),
    // Classes are the stated ones, and ranges.
    (
        "nothing is closed upward",
        DESK,
        &[FIRST, [5, 0, 0, 0, 2, 0], [1, 2, 0, 0, 0, 0]],
        &[FIRST, [5, 0, 0, 0, 2, 0], [1, 2, 0, 0, 0, 0]],
    ),
    (
        "a class above another stays",
        DESK,
        &[FIRST, [5, 0, 0, 0, 2, 0], [1, 2, 0, 0, 0, 3], [1, 1, 0, 0, 0, 0]],
        &[FIRST, [5, 0, 0, 0, 2, 0], [1, 1, 0, 0, 0, 3], [1, 2, 0, 0, 0, 0]],
    ),
    (
        "classes below each other stay apart",
        &[[2, 1, 0, 1], [1, 1, 2, 2], [1, 2, 1, 0]],
        &[FIRST, [5, 0, 0, 0, 2, 3], [1, 2, 0, 0, 0, 0], [5, 0, 0, 0, 4, 0], [1, 1, 0, 0, 0, 0]],
        &[FIRST, [5, 0, 0, 0, 2, 3], [1, 1, 0, 0, 0, 0], [5, 0, 0, 0, 4, 0], [1, 2, 0, 0, 0, 0]],
    ),
    (
        "a range is written beside a class below it",
        DESK,
        &[FIRST, [5, 0, 0, 0, 2, 0], [3, 3, 0, 0, 3, 0], [1, 2, 0, 0, 0, 0]],
        &[FIRST, [5, 0, 0, 0, 2, 0], [3, 3, 0, 0, 3, 0], [1, 1, 0, 0, 0, 4], [1, 2, 0, 0, 0, 0]],
    ),
    (
        "a range is not closed upward",
        &[[2, 1, 0, 1], [1, 2, 1, 2], [5, 1, 2, 0]],
        &[FIRST, [5, 0, 0, 0, 2, 0], [3, 1, 0, 0, 0, 0]],
        &[FIRST, [5, 0, 0, 0, 2, 0], [3, 1, 0, 0, 3, 0], [1, 2, 0, 0, 0, 0]],
    ),
    (
        "ranges are written at every depth, with child 0 too",
        DESK,
        &[FIRST, [5, 0, 0, 0, 2, 0], [3, 3, 0, 0, 3, 0], [3, 2, 0, 0, 4, 0], [3, 3, 0, 0, 0, 0]],
        &[
            FIRST,
            [5, 0, 0, 0, 2, 0],
            [3, 3, 0, 0, 3, 0],
            [1, 1, 0, 0, 0, 4],
            [3, 2, 0, 0, 5, 0],
            [3, 3, 0, 0, 6, 0],
            [1, 1, 0, 0, 0, 0],
        ],
    ),
    (
        "several ranges, one of them stated twice and one there already",
        &[[4, 1, 0, 1], [5, 1, 3, 2], [5, 1, 1, 3], [5, 1, 3, 0]],
        &[FIRST, [5, 0, 0, 0, 2, 0], [3, 1, 0, 0, 3, 0], [1, 4, 0, 0, 0, 4], [1, 1, 0, 0, 0, 0]],
        &[
            FIRST,
            [5, 0, 0, 0, 2, 0],
            [3, 1, 0, 0, 3, 0],
            [1, 1, 0, 0, 0, 4],
            [1, 3, 0, 0, 0, 5],
            [1, 4, 0, 0, 0, 0],
        ],
    ),
    (
        "a range changes which role comes first",
        &[[3, 1, 0, 1], [5, 1, 3, 2], [6, 1, 0, 0]],
        &[FIRST, [5, 0, 0, 0, 2, 0], [3, 1, 0, 0, 0, 3], [3, 1, 0, 0, 4, 0], [1, 1, 0, 0, 0, 0]],
        &[
            FIRST,
            [5, 0, 0, 0, 2, 0],
            [3, 1, 0, 0, 3, 5],
            [1, 1, 0, 0, 0, 4],
            [1, 3, 0, 0, 0, 0],
            [3, 1, 0, 0, 6, 0],
            [1, 3, 0, 0, 0, 0],
        ],
    ),
    // Terms.
    (
        "a term inside another stays",
        NAMES,
        &[
            FIRST,
            [5, 0, 0, 0, 2, 4],
            [1, 1, 0, 0, 0, 3],
            [1, 2, 0, 0, 0, 0],
            [5, 0, 0, 0, 5, 0],
            [1, 1, 0, 0, 0, 0],
        ],
        &[
            FIRST,
            [5, 0, 0, 0, 2, 3],
            [1, 1, 0, 0, 0, 0],
            [5, 0, 0, 0, 4, 0],
            [1, 1, 0, 0, 0, 5],
            [1, 2, 0, 0, 0, 0],
        ],
    ),
    (
        "a term without conjuncts, three times",
        NAMES,
        &[FIRST, [5, 0, 0, 0, 0, 2], [5, 0, 0, 0, 0, 3], [5, 0, 0, 0, 0, 0]],
        &[FIRST, [5, 0, 0, 0, 0, 0]],
    ),
    (
        "impossible terms are dropped, whatever makes them so",
        DESK,
        &[
            FIRST,
            // The impossible concept.
            [5, 0, 0, 0, 2, 3],
            [2, 0, 0, 0, 0, 0],
            // Below two functional roles.
            [5, 0, 0, 0, 4, 7],
            [3, 1, 0, 0, 5, 0],
            [3, 2, 0, 0, 6, 0],
            [2, 0, 0, 0, 0, 0],
            // lo above hi.
            [5, 0, 0, 0, 8, 9],
            [4, 1, 5, 4, 0, 0],
            // Two disjoint classes, and one below both.
            [5, 0, 0, 0, 10, 12],
            [1, 1, 0, 0, 0, 11],
            [1, 3, 0, 0, 0, 0],
            [5, 0, 0, 0, 13, 14],
            [1, 4, 0, 0, 0, 0],
            // By a merge, by a meeting, by a range.
            [5, 0, 0, 0, 15, 19],
            [3, 1, 0, 0, 16, 17],
            [1, 1, 0, 0, 0, 0],
            [3, 1, 0, 0, 18, 0],
            [1, 3, 0, 0, 0, 0],
            [5, 0, 0, 0, 20, 22],
            [4, 1, 0, 4, 0, 21],
            [4, 1, 6, 9, 0, 0],
            [5, 0, 0, 0, 23, 25],
            [3, 3, 0, 0, 24, 0],
            [1, 3, 0, 0, 0, 0],
            // Possible.
            [5, 0, 0, 0, 26, 0],
            [1, 2, 0, 0, 0, 0],
        ],
        &[FIRST, [5, 0, 0, 0, 2, 0], [1, 2, 0, 0, 0, 0]],
    ),
    (
        "no possible term",
        DESK,
        &[FIRST, [5, 0, 0, 0, 2, 3], [1, 4, 0, 0, 0, 0], [5, 0, 0, 0, 4, 0], [2, 0, 0, 0, 0, 0]],
        &[NONE],
    ),
    ("no term", DESK, &[NONE], &[NONE]),
    // What is read.
    ("records that no link reaches", DESK, &[NONE, [9; 6], [7; 6]], &[NONE]),
    (
        "records in another order, others between them",
        NAMES,
        &[
            [2, 0, 0, 0, 0, 0],
            [9; 6],
            [5, 0, 0, 0, 6, 3],
            [5, 0, 0, 0, 5, 0],
            [9; 6],
            [1, 2, 0, 0, 0, 0],
            [3, 1, 0, 0, 8, 7],
            [1, 1, 0, 0, 0, 0],
            [1, 3, 0, 0, 0, 0],
        ],
        &[
            FIRST,
            [5, 0, 0, 0, 2, 5],
            [1, 1, 0, 0, 0, 3],
            [3, 1, 0, 0, 4, 0],
            [1, 3, 0, 0, 0, 0],
            [5, 0, 0, 0, 6, 0],
            [1, 2, 0, 0, 0, 0],
        ],
    ),
];

/// Over 256 classes, three roles and two features, which are many-valued: role 1 has so many ranges, from
/// class 3 on, and classes 1 and 2 are disjoint.
fn ranged(ranges: u32) -> Vocabulary {
    let mut vocabulary = names(256, 3, 2);
    vocabulary.axioms = vec![Axiom::Disjoint(ClassNo(1), ClassNo(2))];
    vocabulary.axioms.extend((3..3 + ranges).map(|range| Axiom::Range(RoleNo(1), ClassNo(range))));
    vocabulary.read_as_owl()
}

fn input(vocabulary: &Vocabulary, terms: &[Term]) -> Spelling {
    Spelling::of(vocabulary_words(vocabulary), policy_words(terms))
}

/// A policy of these terms that is spelled as those.
fn written(name: &str, vocabulary: &Vocabulary, terms: &[Term], answer: &[Term]) -> Directed {
    directed(name, input(vocabulary, terms), Ok(policy_words(answer)))
}

fn too_large(name: &str, vocabulary: &Vocabulary, terms: &[Term]) -> Directed {
    directed(name, input(vocabulary, terms), Err(43))
}

/// So many spans of feature 2, falling.
fn spans(count: u32) -> Term {
    (0..count).rev().map(|at| within(2, at, at)).collect()
}

fn rising(mut term: Term) -> Term {
    term.reverse();
    term
}

/// Role 1 reaching what has the ranges and this span.
fn in_ranges(ranges: u32, span: u32) -> Conjunct {
    let mut inner: Term = (3..3 + ranges).map(class).collect();
    inner.push(within(1, span, span));
    reaches(1, inner)
}

/// Two roles of 250 ranges each and so many spans: 505 records and one for each span.
fn two_of_250(count: u32) -> Term {
    let mut term: Term = [1, 0].map(|span| reaches(1, vec![within(1, span, span)])).to_vec();
    term.extend(spans(count));
    term
}

fn two_of_250_spelled(count: u32) -> Term {
    let mut term = rising(spans(count));
    term.extend([in_ranges(250, 0), in_ranges(250, 1)]);
    term
}

fn with(mut term: Term, more: impl IntoIterator<Item = Conjunct>) -> Term {
    term.extend(more);
    term
}

/// 512 records and more.
fn lengths() -> Vec<Directed> {
    let (plain, ranges) = (ranged(0), ranged(250));
    let two = two_of_250_spelled(7);
    let falling: Vec<Term> = (1..=256).rev().map(|number| vec![class(number)]).collect();
    let rising_terms: Vec<Term> = falling.iter().rev().cloned().collect();
    // 254 terms of two records each, one of one record, and one of a role that has a range.
    let terms = |last: Vec<Term>| [&falling[..254], &last].concat();
    let last = |inner: Term| vec![vec![], vec![reaches(1, inner)]];
    let mut spelled = rising_terms[2..].to_vec();
    spelled.insert(0, vec![]);
    spelled.push(vec![reaches(1, vec![class(3)])]);
    vec![
        written("512 records as they are", &plain, &[spans(511)], &[rising(spans(511))]),
        written("512 records of 256 terms", &plain, &falling, &rising_terms),
        written("512 records by ranges", &ranges, &[two_of_250(7)], std::slice::from_ref(&two)),
        too_large("513 records by ranges", &ranges, &[two_of_250(8)]),
        written("512 records of terms by a range", &ranged(1), &terms(last(vec![])), &spelled),
        too_large(
            "513 records of terms by a range",
            &ranged(1),
            &terms(last(vec![within(1, 0, 0)])),
        ),
        written(
            "512 records, and repeats in one term",
            &ranges,
            &[with(two_of_250(7), two_of_250(7))],
            std::slice::from_ref(&two),
        ),
        written(
            "512 records, and the term again",
            &ranges,
            &[two_of_250(7), rising(two_of_250(7))],
            std::slice::from_ref(&two),
        ),
        written(
            "512 records, and impossible terms that have more",
            &ranges,
            &[
                with(two_of_250(300), [Conjunct::Nothing]),
                two_of_250(7),
                with(two_of_250(9), [class(1), class(2)]),
            ],
            std::slice::from_ref(&two),
        ),
        written(
            "an impossible term of over 512 records alone",
            &ranges,
            &[with(two_of_250(8), [Conjunct::Nothing])],
            &[],
        ),
        too_large(
            "513 records, and impossible terms",
            &ranges,
            &[vec![class(1), class(2)], two_of_250(8)],
        ),
        written(
            "511 equal roles of 250 ranges",
            &ranges,
            &[vec![reaches(1, vec![]); 511]],
            &[vec![reaches(1, (3..253).map(class).collect())]],
        ),
        written("512 equal terms", &plain, &vec![vec![]; 512], &[vec![]]),
        too_large(
            "255 roles of 250 ranges",
            &ranges,
            &[(0..255).map(|at| reaches(1, vec![within(1, at, at)])).collect()],
        ),
        // 255 modulo two to the 16th.
        too_large(
            "65,791 records",
            &Vocabulary {
                axioms: (1..=256).map(|range| Axiom::Range(RoleNo(1), ClassNo(range))).collect(),
                ..names(256, 1, 1)
            }
            .read_as_owl(),
            &[(0..255).map(|at| reaches(1, vec![within(1, at, at)])).collect()],
        ),
    ]
}

/// 16 deep and deeper.
fn depths() -> Vec<Directed> {
    let ranges = ranged(1);
    let at = |depth, end: Term| nested(depth, |_| 2, end);
    let range = || vec![reaches(1, vec![])];
    let with_range = || vec![reaches(1, vec![class(3)])];
    vec![
        written("a class 16 deep", &ranges, &[at(16, vec![class(1)])], &[at(16, vec![class(1)])]),
        written(
            "a role 16 deep that has no range",
            &ranges,
            &[at(16, vec![reaches(2, vec![])])],
            &[at(16, vec![reaches(2, vec![])])],
        ),
        written("a range 16 deep", &ranges, &[at(15, range())], &[at(15, with_range())]),
        written(
            "a range 16 deep, stated",
            &ranges,
            &[at(15, with_range())],
            &[at(15, with_range())],
        ),
        too_large("a range 17 deep", &ranges, &[at(16, range())]),
        too_large("a range 17 deep behind", &ranges, &[vec![class(1)], at(16, range())]),
        too_large(
            "a range 17 deep among others",
            &ranges,
            &[with(vec![class(1)], with(at(16, range()), at(3, range())))],
        ),
        too_large("a range 17 deep, twice", &ranges, &[with(at(16, range()), at(16, range()))]),
        written(
            "impossible terms with a range 17 deep",
            &ranges,
            &[
                with(at(16, range()), [Conjunct::Nothing]),
                with(at(16, range()), [within(1, 1, 0)]),
                with(at(16, range()), [class(2), class(1)]),
                vec![class(1)],
            ],
            &[vec![class(1)]],
        ),
        written(
            "impossible by a class 17 deep",
            &Vocabulary {
                axioms: vec![
                    Axiom::Range(RoleNo(1), ClassNo(1)),
                    Axiom::Disjoint(ClassNo(1), ClassNo(1)),
                ],
                ..names(2, 2, 0)
            },
            &[at(16, range()), vec![class(2)]],
            &[vec![class(2)]],
        ),
    ]
}

/// Outputs and work slices of every length that matters.
fn outputs() -> Vec<Directed> {
    let vocabulary = ranged(1);
    let terms = [vec![reaches(1, vec![class(1)]), class(2)]];
    let words = policy_words(&[vec![class(2), reaches(1, vec![class(1), class(3)])]]);
    let lent = |name: &str, work_len: usize, out_len: usize, answer: Option<u32>| {
        let mut one = directed(name, input(&vocabulary, &terms), Ok(words.clone()));
        one.input.work_len = work_len;
        one.input.out_len = out_len;
        one.answer = answer.map_or(one.answer, Err);
        one
    };
    let none = |name: &str, out_len: usize, answer: Result<Vec<u32>, u32>| {
        let mut one = directed(name, input(&vocabulary, &[]), answer);
        one.input.out_len = out_len;
        one
    };
    vec![
        lent("output of 36 words for 36", FULL_WORK, 36, None),
        lent("output of 37 words for 36", FULL_WORK, 37, None),
        lent("output of 35 words for 36", FULL_WORK, 35, Some(23)),
        lent("output of 6 words for 36", FULL_WORK, 6, Some(23)),
        lent("no output for 36 words", FULL_WORK, 0, Some(23)),
        lent("work slice a word short", FULL_WORK - 1, 36, Some(21)),
        lent("no work slice", 0, 36, Some(21)),
        lent("work slice a word longer", FULL_WORK + 1, 36, None),
        none("output of 6 words for 6", 6, Ok(vec![0; 6])),
        none("output of 5 words for 6", 5, Err(23)),
        none("no output for 6 words", 0, Err(23)),
    ]
}

/// Role 1, which is many-valued, is stated functional by the first record.
fn both_ways(input: &mut Spelling) {
    input.v[4..7].copy_from_slice(&[3, 1, 0]);
}

/// Several refusals at once.
fn orders() -> Vec<Directed> {
    let long = || input(&ranged(250), &[two_of_250(8)]);
    let deep = || input(&ranged(1), &[nested(16, |_| 2, vec![reaches(1, vec![])])]);
    let fits = || input(&ranged(1), &[vec![class(1)]]);
    let lent = |name: &str, input: Spelling, work_len: usize, out_len: usize, number: u32| {
        directed(name, Spelling { work_len, out_len, ..input }, Err(number))
    };
    let mut all = Vec::new();
    for (what, input) in [("513 records", long()), ("17 deep", deep())] {
        let mut put = |also: &str, work_len, out_len, number| {
            all.push(lent(&format!("{what}, {also}"), input.clone(), work_len, out_len, number));
        };
        put("no output: 43", FULL_WORK, 0, 43);
        put("an output of 3,077 words: 43", FULL_WORK, ROOM - 1, 43);
        put("an output of more than any policy: 43", FULL_WORK, ROOM + 6, 43);
        put("no work slice: 21", 0, ROOM, 21);
        put("a work slice a word short, no output: 21", FULL_WORK - 1, 0, 21);
    }
    all.push(lent("a work slice a word short, no output: 21", fits(), FULL_WORK - 1, 0, 21));
    let damaged = |name: &str, damage: fn(&mut Spelling), number| {
        let mut input = Spelling { work_len: 0, out_len: 0, ..long() };
        damage(&mut input);
        directed(&format!("{name}, and 21, 43 and 23: {number}"), input, Err(number))
    };
    all.extend([
        damaged("a vocabulary of 3 words", |input| input.v.truncate(3), 1),
        damaged("no class", |input| input.v[0] = 0, 2),
        damaged("an axiom of kind 8", |input| input.v[4] = 8, 3),
        damaged(
            "a role both ways, and an axiom of kind 8 behind",
            |input| {
                both_ways(input);
                let last = input.v.len() - 4;
                input.v[last] = 8;
            },
            3,
        ),
        damaged("a role both ways", both_ways, 44),
        damaged(
            "a role both ways, and a policy of 5 words",
            |input| {
                both_ways(input);
                input.p.truncate(5);
            },
            44,
        ),
        damaged("a policy of 5 words", |input| input.p.truncate(5), 4),
        damaged("a header word", |input| input.p[1] = 1, 5),
        damaged("a term of kind 1", |input| input.p[6] = 1, 6),
        damaged("a term whose next is its child", |input| input.p[11] = input.p[10], 7),
        damaged(
            "17 deep as it is",
            |input| input.p = policy_words(&[nested(17, |_| 2, vec![class(1)])]),
            8,
        ),
    ]);
    all
}
