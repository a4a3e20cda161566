//! Making an input smaller while it still differs.

use super::Spelling;
use crate::random::shrink;

/// Makes the input smaller as long as `differs` is true of it: as a case, and then its output.
/// `differs` must be true of the input.
pub fn shrink(input: &Spelling, differs: &mut dyn FnMut(&Spelling) -> bool) -> Spelling {
    let mut of_case = |case: &_| differs(&Spelling::from(Clone::clone(case)));
    let mut best = Spelling::from(shrink::shrink(&input.case(), &mut of_case));
    let mut cut = best.out_len;
    while cut > 0 {
        let candidate = Spelling { out_len: best.out_len.saturating_sub(cut), ..best.clone() };
        if candidate != best && differs(&candidate) {
            best = candidate;
        } else {
            cut /= 2;
        }
    }
    best
}
