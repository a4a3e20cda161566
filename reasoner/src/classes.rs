//! Sets of classes, 256 bits wide.

/// SPECIFICATION 2.2: classes, roles and features are numbered in three series, each from 1.
#[derive(Clone, Copy, Debug, PartialEq, Eq, PartialOrd, Ord, Hash)]
pub struct ClassNo(pub u32);

/// The number of a role; never a class or a feature number.
#[derive(Clone, Copy, Debug, PartialEq, Eq, PartialOrd, Ord, Hash)]
pub struct RoleNo(pub u32);

/// The number of a feature; never a class or a role number.
#[derive(Clone, Copy, Debug, PartialEq, Eq, PartialOrd, Ord, Hash)]
pub struct FeatureNo(pub u32);

const WORDS: usize = 4;

/// A set of classes 1 to 256.
#[derive(Clone, Copy, Debug, Default, PartialEq, Eq)]
pub struct ClassSet([u64; WORDS]);

impl ClassSet {
    /// The set with no class in it.
    pub const EMPTY: Self = Self([0; WORDS]);

    fn place(class: ClassNo) -> (usize, u64) {
        let bit = class.0 as usize - 1;
        (bit / 64, 1 << (bit % 64))
    }

    /// Puts a class into the set.
    pub fn insert(&mut self, class: ClassNo) {
        let (word, mask) = Self::place(class);
        self.0[word] |= mask;
    }

    /// Is the class in the set?
    #[must_use]
    pub fn contains(&self, class: ClassNo) -> bool {
        let (word, mask) = Self::place(class);
        self.0[word] & mask != 0
    }

    /// Adds every class of the other set.
    pub fn absorb(&mut self, other: &Self) {
        for (mine, theirs) in self.0.iter_mut().zip(other.0) {
            *mine |= theirs;
        }
    }

    /// Does some class stand in both sets?
    #[must_use]
    pub fn meets(&self, other: &Self) -> bool {
        self.0.iter().zip(other.0).any(|(mine, theirs)| mine & theirs != 0)
    }

    /// The classes of the set, rising.
    pub fn iter(&self) -> impl Iterator<Item = ClassNo> + '_ {
        self.0.iter().enumerate().flat_map(|(word, &bits)| {
            let mut rest = bits;
            std::iter::from_fn(move || {
                if rest == 0 {
                    return None;
                }
                let bit = rest.trailing_zeros();
                rest &= rest - 1;
                Some(ClassNo(word as u32 * 64 + bit + 1))
            })
        })
    }
}
