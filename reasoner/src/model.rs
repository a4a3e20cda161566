//! Model check: the words of an interpretation, read and evaluated by the meaning.

use crate::classes::{FeatureNo, RoleNo};
use crate::policy::{Conjunct, Policy};
use crate::vocabulary::{link_fits, Axiom, Functional, Vocabulary};

const RECORD: usize = 5;
const LONGEST: usize = 700_005;
const MOST_INDIVIDUALS: u32 = 512;
const SET_WORDS: usize = 8;

/// A set of individuals 1 to 512.
#[derive(Clone, Copy, Debug, PartialEq, Eq)]
struct Individuals([u64; SET_WORDS]);

impl Individuals {
    const EMPTY: Self = Self([0; SET_WORDS]);

    fn first(count: u32) -> Self {
        let mut all = Self::EMPTY;
        for individual in 1..=count {
            all.insert(individual);
        }
        all
    }

    fn insert(&mut self, individual: u32) {
        let bit = individual as usize - 1;
        self.0[bit / 64] |= 1 << (bit % 64);
    }

    fn contains(&self, individual: u32) -> bool {
        let bit = individual as usize - 1;
        self.0[bit / 64] >> (bit % 64) & 1 == 1
    }

    fn keep(&mut self, other: &Self) {
        for (mine, theirs) in self.0.iter_mut().zip(other.0) {
            *mine &= theirs;
        }
    }

    fn meets(&self, other: &Self) -> bool {
        self.0.iter().zip(other.0).any(|(mine, theirs)| mine & theirs != 0)
    }

    fn is_within(&self, other: &Self) -> bool {
        self.0.iter().zip(other.0).all(|(mine, theirs)| mine & !theirs == 0)
    }

    fn is_empty(&self) -> bool {
        self.0 == [0; SET_WORDS]
    }

    fn count(&self) -> u32 {
        self.0.iter().map(|word| word.count_ones()).sum()
    }
}

/// A finite interpretation: "individuals 1 to the header's number and the memberships, edges and
/// values of the chained records, and no others".
pub struct Interpretation {
    individuals: u32,
    /// For each class its members.
    members: Vec<Individuals>,
    /// For each role that has an edge, for each individual its values.
    edges: Vec<Vec<Individuals>>,
    /// For each feature the (individual, value) pairs, sorted and without repeats.
    values: Vec<Vec<(u32, u32)>>,
}

impl Interpretation {
    /// Reads the words; the refusal is 31, 32 or 33.
    pub fn read(vocabulary: &Vocabulary, m: &[u32]) -> Result<Self, u32> {
        if m.len() % RECORD != 0 || m.len() < RECORD || m.len() > LONGEST {
            return Err(31);
        }
        let last = (m.len() / RECORD - 1) as u32;
        let &[first, individuals, ref zeros @ ..] = &m[..RECORD] else { unreachable!() };
        let counted = (1..=MOST_INDIVIDUALS).contains(&individuals);
        if first > last || !counted || zeros.iter().any(|&word| word != 0) {
            return Err(32);
        }
        let mut read = Self {
            individuals,
            members: vec![Individuals::EMPTY; vocabulary.classes as usize],
            edges: vec![Vec::new(); vocabulary.roles as usize],
            values: vec![Vec::new(); vocabulary.features as usize],
        };
        let mut at = first;
        while at != 0 {
            let start = at as usize * RECORD;
            let &[kind, name, individual, other, next] = &m[start..start + RECORD] else {
                unreachable!()
            };
            read.add(vocabulary, kind, name, individual, other).ok_or(33u32)?;
            if !link_fits(at, next, last) {
                return Err(33);
            }
            at = next;
        }
        for pairs in &mut read.values {
            pairs.sort_unstable();
            pairs.dedup();
        }
        Ok(read)
    }

    /// Takes up one record; none when it is at fault.
    fn add(
        &mut self,
        vocabulary: &Vocabulary,
        kind: u32,
        name: u32,
        individual: u32,
        other: u32,
    ) -> Option<()> {
        let here = 1..=self.individuals;
        if !here.contains(&individual) {
            return None;
        }
        match kind {
            1 if other == 0 => {
                let class = vocabulary.class(name)?;
                self.members[class.0 as usize - 1].insert(individual);
            }
            2 if here.contains(&other) => {
                let role = vocabulary.role(name)?;
                let rows = &mut self.edges[role.0 as usize - 1];
                if rows.is_empty() {
                    *rows = vec![Individuals::EMPTY; self.individuals as usize];
                }
                rows[individual as usize - 1].insert(other);
            }
            3 => {
                let feature = vocabulary.feature(name)?;
                self.values[feature.0 as usize - 1].push((individual, other));
            }
            _ => return None,
        }
        Some(())
    }

    /// "An interpretation that satisfies the vocabulary keeps this default as if a record stated it; a
    /// record of kind 6 or 7 lifts it and asks nothing of the interpretation."
    #[must_use]
    pub fn satisfies(&self, vocabulary: &Vocabulary) -> bool {
        self.keeps_default(vocabulary) && self.keeps_records(vocabulary)
    }

    /// Has no individual two values of a role or feature that is functional?
    fn keeps_default(&self, vocabulary: &Vocabulary) -> bool {
        let functional = Functional::of(vocabulary);
        let mut roles = (1..=vocabulary.roles).map(RoleNo);
        let mut features = (1..=vocabulary.features).map(FeatureNo);
        roles.all(|role| !functional.has_role(role) || self.is_single_role(role))
            && features.all(|one| !functional.has_feature(one) || self.is_single_feature(one))
    }

    fn is_single_role(&self, role: RoleNo) -> bool {
        self.edges[role.0 as usize - 1].iter().all(|row| row.count() <= 1)
    }

    fn is_single_feature(&self, feature: FeatureNo) -> bool {
        self.values[feature.0 as usize - 1].windows(2).all(|pair| pair[0].0 != pair[1].0)
    }

    /// "everything the vocabulary's chain states of its names is true in it"
    fn keeps_records(&self, vocabulary: &Vocabulary) -> bool {
        vocabulary.axioms.iter().all(|&axiom| match axiom {
            Axiom::Below(a, b) => {
                self.members[a.0 as usize - 1].is_within(&self.members[b.0 as usize - 1])
            }
            Axiom::Disjoint(a, b) => {
                !self.members[a.0 as usize - 1].meets(&self.members[b.0 as usize - 1])
            }
            // Nothing that is named by these is many-valued, so that the default asks it.
            Axiom::FunctionalRole(_) | Axiom::FunctionalFeature(_) => true,
            Axiom::ManyValuedRole(_) | Axiom::ManyValuedFeature(_) => true,
            Axiom::Range(role, class) => {
                let members = &self.members[class.0 as usize - 1];
                self.edges[role.0 as usize - 1].iter().all(|row| row.is_within(members))
            }
        })
    }

    /// SPECIFICATION 5.3: an individual is in a policy when it is in one of its terms.
    #[must_use]
    pub fn is_in(&self, individual: u32, policy: &Policy) -> bool {
        policy.terms.iter().any(|term| self.extension(term).contains(individual))
    }

    /// The individuals of which every conjunct holds. Each record of a policy is evaluated once
    /// for all individuals together.
    fn extension(&self, conjuncts: &[Conjunct]) -> Individuals {
        let mut all = Individuals::first(self.individuals);
        for conjunct in conjuncts {
            if all.is_empty() {
                break;
            }
            match conjunct {
                Conjunct::Class(class) => all.keep(&self.members[class.0 as usize - 1]),
                Conjunct::Nothing => all = Individuals::EMPTY,
                Conjunct::Within(feature, lo, hi) => {
                    all.keep(&self.with_value(&self.values[feature.0 as usize - 1], *lo, *hi));
                }
                Conjunct::Reaches(role, inner) => {
                    let rows = &self.edges[role.0 as usize - 1];
                    all.keep(&Self::with_edge(rows, || self.extension(inner)));
                }
            }
        }
        all
    }

    fn with_value(&self, pairs: &[(u32, u32)], lo: u32, hi: u32) -> Individuals {
        let mut found = Individuals::EMPTY;
        for individual in 1..=self.individuals {
            let at = pairs.partition_point(|&pair| pair < (individual, lo));
            if pairs.get(at).is_some_and(|&(owner, value)| owner == individual && value <= hi) {
                found.insert(individual);
            }
        }
        found
    }

    fn with_edge(rows: &[Individuals], targets: impl FnOnce() -> Individuals) -> Individuals {
        let mut found = Individuals::EMPTY;
        if rows.is_empty() {
            return found;
        }
        let targets = targets();
        for (row, individual) in rows.iter().zip(1..) {
            if row.meets(&targets) {
                found.insert(individual);
            }
        }
        found
    }
}
