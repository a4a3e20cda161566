//! Reading a vocabulary, and the closure of what it states.

use crate::classes::{ClassNo, ClassSet, FeatureNo, RoleNo};
use std::cell::OnceCell;
use std::collections::HashSet;
use std::ops::RangeInclusive;

const RECORD: usize = 4;
const LONGEST: usize = 4_100;

/// How many classes a vocabulary may have.
pub(crate) const CLASSES: RangeInclusive<u32> = 1..=256;
/// How many roles.
pub(crate) const ROLES: RangeInclusive<u32> = 0..=64;
/// How many features.
pub(crate) const FEATURES: RangeInclusive<u32> = 0..=64;

/// One statement of a vocabulary, as its record gives it.
#[derive(Clone, Copy, Debug, PartialEq, Eq)]
pub enum Axiom {
    /// Kind 1: "class a is below class b".
    Below(ClassNo, ClassNo),
    /// Kind 2: "classes a and b share no individual".
    Disjoint(ClassNo, ClassNo),
    /// Kind 3: "role a is functional".
    FunctionalRole(RoleNo),
    /// Kind 4: "feature a is functional".
    FunctionalFeature(FeatureNo),
    /// Kind 5: "every value of role a is in class b".
    Range(RoleNo, ClassNo),
    /// Kind 6: "role a is many-valued".
    ManyValuedRole(RoleNo),
    /// Kind 7: "feature a is many-valued".
    ManyValuedFeature(FeatureNo),
}

/// An accepted vocabulary: the three counts and the chain's statements in order.
#[derive(Clone, Debug, PartialEq, Eq)]
pub struct Vocabulary {
    /// Class count N, 1 to 256.
    pub classes: u32,
    /// Role count R, 0 to 64.
    pub roles: u32,
    /// Feature count F, 0 to 64.
    pub features: u32,
    /// What the chain states.
    pub axioms: Vec<Axiom>,
}

impl Vocabulary {
    /// "Read vocabulary": the refusal is 1, 2, 3 or 44.
    pub fn read(v: &[u32]) -> Result<Self, u32> {
        if v.len() % RECORD != 0 || v.len() < RECORD || v.len() > LONGEST {
            return Err(1);
        }
        let last = (v.len() / RECORD - 1) as u32;
        let (classes, roles, features, first) = (v[0], v[1], v[2], v[3]);
        let counts_fit =
            CLASSES.contains(&classes) && ROLES.contains(&roles) && FEATURES.contains(&features);
        if !counts_fit || first > last {
            return Err(2);
        }
        let mut read = Self { classes, roles, features, axioms: Vec::with_capacity(last as usize) };
        let mut at = first;
        while at != 0 {
            let start = at as usize * RECORD;
            let &[kind, a, b, next] = &v[start..start + RECORD] else { unreachable!() };
            read.axioms.push(read.axiom(kind, a, b).ok_or(3u32)?);
            if !link_fits(at, next, last) {
                return Err(3);
            }
            at = next;
        }
        if read.is_named_both_ways() {
            return Err(44);
        }
        Ok(read)
    }

    fn axiom(&self, kind: u32, a: u32, b: u32) -> Option<Axiom> {
        match kind {
            1 => Some(Axiom::Below(self.class(a)?, self.class(b)?)),
            2 => Some(Axiom::Disjoint(self.class(a)?, self.class(b)?)),
            3 if b == 0 => Some(Axiom::FunctionalRole(self.role(a)?)),
            4 if b == 0 => Some(Axiom::FunctionalFeature(self.feature(a)?)),
            5 => Some(Axiom::Range(self.role(a)?, self.class(b)?)),
            6 if b == 0 => Some(Axiom::ManyValuedRole(self.role(a)?)),
            7 if b == 0 => Some(Axiom::ManyValuedFeature(self.feature(a)?)),
            _ => None,
        }
    }

    /// "A role or feature named both ways": by a record of kind 3 and one of kind 6, or by 4 and 7.
    fn is_named_both_ways(&self) -> bool {
        let functional = Functional::of(self);
        self.axioms.iter().any(|&axiom| match axiom {
            Axiom::FunctionalRole(role) => !functional.has_role(role),
            Axiom::FunctionalFeature(feature) => !functional.has_feature(feature),
            _ => false,
        })
    }

    /// What the axioms of an OWL text mean, where a name is many-valued unless it is stated functional:
    /// with a record of kind 6 or 7 behind them for each other name.
    #[must_use]
    pub fn read_as_owl(mut self) -> Self {
        let more = self.of_the_unsaid(Axiom::ManyValuedRole, Axiom::ManyValuedFeature);
        self.axioms.extend(more);
        self
    }

    /// The axioms of an OWL text that means the same: those that OWL has, and behind them one for each
    /// name that is functional and is not stated so.
    #[must_use]
    pub fn said_in_owl(&self) -> Vec<Axiom> {
        let is_owl = |axiom: &Axiom| {
            !matches!(axiom, Axiom::ManyValuedRole(_) | Axiom::ManyValuedFeature(_))
        };
        let mut axioms: Vec<Axiom> = self.axioms.iter().copied().filter(is_owl).collect();
        axioms.extend(self.of_the_unsaid(Axiom::FunctionalRole, Axiom::FunctionalFeature));
        axioms
    }

    /// Such a record of each name of which none says whether it is functional: "roles rising, then
    /// features rising".
    fn of_the_unsaid(
        &self,
        of_role: fn(RoleNo) -> Axiom,
        of_feature: fn(FeatureNo) -> Axiom,
    ) -> Vec<Axiom> {
        let (mut roles, mut features) = (HashSet::new(), HashSet::new());
        for &axiom in &self.axioms {
            match axiom {
                Axiom::FunctionalRole(role) | Axiom::ManyValuedRole(role) => {
                    roles.insert(role);
                }
                Axiom::FunctionalFeature(feature) | Axiom::ManyValuedFeature(feature) => {
                    features.insert(feature);
                }
                Axiom::Below(..) | Axiom::Disjoint(..) | Axiom::Range(..) => {}
            }
        }
        let unsaid_roles = (1..=self.roles).map(RoleNo).filter(|role| !roles.contains(role));
        let unsaid_features = (1..=self.features).map(FeatureNo);
        let unsaid_features = unsaid_features.filter(|feature| !features.contains(feature));
        unsaid_roles.map(of_role).chain(unsaid_features.map(of_feature)).collect()
    }

    /// The class with this number, if the count has it.
    #[must_use]
    pub fn class(&self, number: u32) -> Option<ClassNo> {
        (1..=self.classes).contains(&number).then_some(ClassNo(number))
    }

    /// The role with this number, if the count has it.
    #[must_use]
    pub fn role(&self, number: u32) -> Option<RoleNo> {
        (1..=self.roles).contains(&number).then_some(RoleNo(number))
    }

    /// The feature with this number, if the count has it.
    #[must_use]
    pub fn feature(&self, number: u32) -> Option<FeatureNo> {
        (1..=self.features).contains(&number).then_some(FeatureNo(number))
    }
}

/// "Zero ends the chain; any other next is greater than its record's own number and at most the
/// last record."
#[must_use]
pub(crate) fn link_fits(own: u32, link: u32, last: u32) -> bool {
    link == 0 || (link > own && link <= last)
}

/// "Every role and feature is functional unless a record of kind 6 or 7 makes it many-valued." Each
/// set has a bit for each number, 0 for what is many-valued.
#[derive(Clone, Copy, Debug, PartialEq, Eq)]
pub struct Functional {
    roles: u64,
    features: u64,
}

impl Functional {
    /// What the vocabulary leaves functional.
    #[must_use]
    pub fn of(vocabulary: &Vocabulary) -> Self {
        let mut functional = Self { roles: u64::MAX, features: u64::MAX };
        for axiom in &vocabulary.axioms {
            match axiom {
                Axiom::ManyValuedRole(role) => functional.roles &= !(1 << (role.0 - 1)),
                Axiom::ManyValuedFeature(feature) => {
                    functional.features &= !(1 << (feature.0 - 1));
                }
                _ => {}
            }
        }
        functional
    }

    /// Is the role functional?
    #[must_use]
    pub fn has_role(&self, role: RoleNo) -> bool {
        self.roles >> (role.0 - 1) & 1 == 1
    }

    /// Is the feature functional?
    #[must_use]
    pub fn has_feature(&self, feature: FeatureNo) -> bool {
        self.features >> (feature.0 - 1) & 1 == 1
    }
}

/// What normalising needs of a vocabulary: Table 1's side conditions, ready to look up.
pub struct Rules {
    upward: Upward,
    /// For each class the closure above it, once it was asked for.
    above: Vec<OnceCell<ClassSet>>,
    disjoint: Vec<ClassSet>,
    /// For each role its ranges, as they are stated.
    stated_ranges: Vec<ClassSet>,
    /// For each role the upward closure of its ranges.
    ranges: Vec<ClassSet>,
    functional: Functional,
}

impl Rules {
    /// Takes up the vocabulary's statements.
    #[must_use]
    pub fn of(vocabulary: &Vocabulary) -> Self {
        let mut rules = Self {
            upward: Upward::of(vocabulary),
            above: vec![OnceCell::new(); vocabulary.classes as usize],
            disjoint: vec![ClassSet::EMPTY; vocabulary.classes as usize],
            stated_ranges: vec![ClassSet::EMPTY; vocabulary.roles as usize],
            ranges: vec![ClassSet::EMPTY; vocabulary.roles as usize],
            functional: Functional::of(vocabulary),
        };
        for &axiom in &vocabulary.axioms {
            match axiom {
                Axiom::Disjoint(a, b) => rules.disjoint[a.0 as usize - 1].insert(b),
                Axiom::Range(role, class) => {
                    let closed = *rules.above(class);
                    rules.stated_ranges[role.0 as usize - 1].insert(class);
                    rules.ranges[role.0 as usize - 1].absorb(&closed);
                }
                // Taken up above.
                Axiom::Below(..)
                | Axiom::FunctionalRole(_)
                | Axiom::FunctionalFeature(_)
                | Axiom::ManyValuedRole(_)
                | Axiom::ManyValuedFeature(_) => {}
            }
        }
        rules
    }

    /// The classes at or above this one: the reflexive and transitive closure of "below".
    #[must_use]
    pub fn above(&self, class: ClassNo) -> &ClassSet {
        self.above[class.0 as usize - 1].get_or_init(|| self.closure(class))
    }

    /// Searches upward; where a class is closed already, its closure is taken whole.
    fn closure(&self, start: ClassNo) -> ClassSet {
        let mut set = ClassSet::EMPTY;
        set.insert(start);
        let mut waiting = vec![start];
        while let Some(class) = waiting.pop() {
            for parent in self.upward.parents(class) {
                if set.contains(parent) {
                    continue;
                }
                if let Some(closed) = self.above[parent.0 as usize - 1].get() {
                    set.absorb(closed);
                } else {
                    set.insert(parent);
                    waiting.push(parent);
                }
            }
        }
        set
    }

    /// The closed classes that rule 6 gives every value of the role.
    #[must_use]
    pub fn range(&self, role: RoleNo) -> &ClassSet {
        &self.ranges[role.0 as usize - 1]
    }

    /// The classes that rule 6 gives every value of the role, as they are stated.
    #[must_use]
    pub fn stated_range(&self, role: RoleNo) -> &ClassSet {
        &self.stated_ranges[role.0 as usize - 1]
    }

    /// Is the role functional?
    #[must_use]
    pub fn is_functional_role(&self, role: RoleNo) -> bool {
        self.functional.has_role(role)
    }

    /// Is the feature functional?
    #[must_use]
    pub fn is_functional_feature(&self, feature: FeatureNo) -> bool {
        self.functional.has_feature(feature)
    }

    /// Rule 7 on a set closed upward; "a class below both of two disjoint classes is impossible
    /// alone", since both are then in the set.
    #[must_use]
    pub fn clash(&self, closed: &ClassSet) -> bool {
        closed.iter().any(|class| self.disjoint[class.0 as usize - 1].meets(closed))
    }
}

/// The edges of "below", as one linked list a class.
struct Upward {
    first: Vec<u32>,
    /// (parent, next edge or none)
    edges: Vec<(ClassNo, u32)>,
}

impl Upward {
    const NONE: u32 = u32::MAX;

    fn of(vocabulary: &Vocabulary) -> Self {
        let mut lists = Self {
            first: vec![Self::NONE; vocabulary.classes as usize],
            edges: Vec::with_capacity(vocabulary.axioms.len()),
        };
        for axiom in &vocabulary.axioms {
            if let Axiom::Below(a, b) = axiom {
                let head = &mut lists.first[a.0 as usize - 1];
                lists.edges.push((*b, *head));
                *head = lists.edges.len() as u32 - 1;
            }
        }
        lists
    }

    fn parents(&self, class: ClassNo) -> impl Iterator<Item = ClassNo> + '_ {
        let mut at = self.first[class.0 as usize - 1];
        std::iter::from_fn(move || {
            let &(parent, next) = self.edges.get(at as usize)?;
            at = next;
            Some(parent)
        })
    }
}
