//! Names and their numbers.

use crate::scan::say;

/// The names of the three series; number 1 stands first.
#[derive(Clone, Debug, Default, PartialEq, Eq)]
pub struct Names {
    /// Class names.
    pub classes: Vec<String>,
    /// Role names.
    pub roles: Vec<String>,
    /// Feature names.
    pub features: Vec<String>,
}

impl Names {
    /// The names of each sort.
    pub(crate) fn each(mut names: impl FnMut(Sort) -> Vec<String>) -> Self {
        let [classes, roles, features] = Sort::ALL.map(&mut names);
        Self { classes, roles, features }
    }

    pub(crate) fn of(&self, sort: Sort) -> &[String] {
        match sort {
            Sort::Class => &self.classes,
            Sort::Role => &self.roles,
            Sort::Feature => &self.features,
        }
    }

    /// Names made of numbers: :C1, :r1, :f1.
    pub(crate) fn numbered(counts: [usize; 3]) -> Self {
        Self::each(|sort| {
            let letter = ['C', 'r', 'f'][sort as usize];
            (1..=counts[sort as usize]).map(|number| format!(":{letter}{number}")).collect()
        })
    }
}

/// What a name is of. Each sort is numbered apart.
#[derive(Clone, Copy, Debug, PartialEq, Eq, Hash)]
pub(crate) enum Sort {
    Class,
    Role,
    Feature,
}

impl Sort {
    pub const ALL: [Self; 3] = [Self::Class, Self::Role, Self::Feature];

    /// What people call one of it.
    pub fn what(self) -> &'static str {
        ["class", "role", "feature"][self as usize]
    }

    /// The word with which OWL declares it.
    pub fn keyword(self) -> &'static str {
        ["Class", "ObjectProperty", "DataProperty"][self as usize]
    }

    /// How many there may be.
    pub fn most(self) -> usize {
        [256, 64, 64][self as usize]
    }

    /// What to say of a policy's name that the vocabulary has not.
    pub fn unknown(self, name: &[u8]) -> String {
        let (what, keyword, name) = (self.what(), self.keyword(), say(name));
        format!(
            "{name} is no {what} declared above; write Declaration({keyword}({name})) before it"
        )
    }
}

/// A look-up of names: the number of a name stands at its hash, or behind that where others had the
/// place before. A series is short, so that even names that are chosen to meet cost little.
#[derive(Clone, Debug)]
pub(crate) struct Index {
    /// Numbers, 0 where a place is free. Their count is a power of two, and half are free.
    slots: Vec<u32>,
}

impl Index {
    pub fn of(names: &[String]) -> Self {
        let mut index = Self { slots: vec![0; (2 * names.len()).next_power_of_two().max(16)] };
        for (name, number) in names.iter().zip(1..) {
            index.put(name.as_bytes(), number);
        }
        index
    }

    fn put(&mut self, name: &[u8], number: u32) {
        let mask = self.slots.len() - 1;
        let mut at = hash(name) as usize & mask;
        while self.slots[at] != 0 {
            at = (at + 1) & mask;
        }
        self.slots[at] = number;
    }

    /// The number of a name, from 1.
    pub fn number(&self, names: &[String], name: &[u8]) -> Option<u32> {
        let mask = self.slots.len() - 1;
        let mut at = hash(name) as usize & mask;
        loop {
            let number = self.slots[at];
            if number == 0 {
                return None;
            }
            if names[number as usize - 1].as_bytes() == name {
                return Some(number);
            }
            at = (at + 1) & mask;
        }
    }
}

fn hash(name: &[u8]) -> u64 {
    const ODD: u64 = 0x9e37_79b9_7f4a_7c15;
    let mix = |hash: u64, word: u64| (hash.rotate_left(5) ^ word).wrapping_mul(ODD);
    let eights = name.chunks_exact(8);
    let rest = eights.remainder();
    let word = |bytes: &[u8]| bytes.iter().fold(0, |word, &byte| word << 8 | u64::from(byte));
    let hash = eights.fold(name.len() as u64, |hash, eight| mix(hash, word(eight)));
    let hash = mix(hash, word(rest));
    hash ^ hash >> 32
}
