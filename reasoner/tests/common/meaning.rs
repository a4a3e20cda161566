//! Interpretations, and what holds in them, by the definitions alone.

use super::literal::{Kb, Simple, C};
use reasoner::random::Rng;
use std::collections::BTreeSet;

/// A finite interpretation with individuals 1 to n.
#[derive(Clone, Debug, Default, PartialEq)]
pub struct Interpretation {
    pub n: u32,
    /// (class, individual)
    pub members: BTreeSet<(u32, u32)>,
    /// (role, individual, value)
    pub edges: BTreeSet<(u32, u32, u32)>,
    /// (feature, individual, value)
    pub values: BTreeSet<(u32, u32, u32)>,
}

impl Interpretation {
    /// The words read back, with 31 to 33.
    pub fn read(kb: &Kb, m: &[u32]) -> Result<Self, u32> {
        if m.len() % 5 != 0 || m.len() < 5 || m.len() > 700_005 {
            return Err(31);
        }
        let last = m.len() as u32 / 5 - 1;
        if m[0] > last || m[2] != 0 || m[3] != 0 || m[4] != 0 || m[1] < 1 || m[1] > 512 {
            return Err(32);
        }
        let mut read = Self { n: m[1], ..Self::default() };
        let mut at = m[0];
        while at != 0 {
            let k = 5 * at as usize;
            let (kind, name, x, other, next) = (m[k], m[k + 1], m[k + 2], m[k + 3], m[k + 4]);
            let of = |number: u32, count: u32| number >= 1 && number <= count;
            let good = match kind {
                1 => of(name, kb.n) && of(x, read.n) && other == 0,
                2 => of(name, kb.r) && of(x, read.n) && of(other, read.n),
                3 => of(name, kb.f) && of(x, read.n),
                _ => false,
            };
            if !good || (next != 0 && (next <= at || next > last)) {
                return Err(33);
            }
            match kind {
                1 => read.members.insert((name, x)),
                2 => read.edges.insert((name, x, other)),
                _ => read.values.insert((name, x, other)),
            };
            at = next;
        }
        Ok(read)
    }

    /// No individual has two values of a role or feature that is not many-valued, and everything the
    /// vocabulary states is true.
    pub fn satisfies(&self, kb: &Kb) -> bool {
        let single = |all: &BTreeSet<(u32, u32, u32)>, a: u32| {
            (1..=self.n).all(|x| all.range((a, x, 0)..=(a, x, u32::MAX)).count() <= 1)
        };
        let default = (1..=kb.r).all(|a| !kb.is_functional_role(a) || single(&self.edges, a))
            && (1..=kb.f).all(|a| !kb.is_functional_feature(a) || single(&self.values, a));
        let stated = kb.axioms.iter().all(|&(kind, a, b)| match kind {
            1 => (1..=self.n)
                .all(|x| !self.members.contains(&(a, x)) || self.members.contains(&(b, x))),
            2 => (1..=self.n)
                .all(|x| !self.members.contains(&(a, x)) || !self.members.contains(&(b, x))),
            3 => single(&self.edges, a),
            4 => single(&self.values, a),
            5 => self
                .edges
                .range((a, 0, 0)..(a + 1, 0, 0))
                .all(|edge| self.members.contains(&(b, edge.2))),
            _ => true,
        });
        default && stated
    }

    pub fn holds(&self, x: u32, conjunct: &C) -> bool {
        match conjunct {
            C::Name(a) => self.members.contains(&(*a, x)),
            C::Bot => false,
            C::Some(r, inner) => self
                .edges
                .range((*r, x, 0)..=(*r, x, u32::MAX))
                .any(|edge| inner.iter().all(|conjunct| self.holds(edge.2, conjunct))),
            C::In(f, lo, hi) => self
                .values
                .range((*f, x, 0)..=(*f, x, u32::MAX))
                .any(|pair| *lo <= pair.2 && pair.2 <= *hi),
        }
    }

    pub fn is_in(&self, x: u32, policy: &[Simple]) -> bool {
        policy.iter().any(|simple| simple.iter().all(|conjunct| self.holds(x, conjunct)))
    }

    /// Adds what the vocabulary asks for, as far as adding helps: classes above and ranges.
    pub fn close(&mut self, kb: &Kb) {
        loop {
            let before = self.members.len();
            for &(kind, a, b) in &kb.axioms {
                if kind == 1 {
                    let more: Vec<u32> =
                        self.members.iter().filter(|m| m.0 == a).map(|m| m.1).collect();
                    self.members.extend(more.into_iter().map(|x| (b, x)));
                }
                if kind == 5 {
                    let more: Vec<u32> =
                        self.edges.iter().filter(|e| e.0 == a).map(|e| e.2).collect();
                    self.members.extend(more.into_iter().map(|x| (b, x)));
                }
            }
            if self.members.len() == before {
                return;
            }
        }
    }

    /// Makes all conjuncts true of x by adding to the interpretation, with random choices: any
    /// value of a span, an old or a new individual for a role.
    pub fn make_true(&mut self, rng: &mut Rng, kb: &Kb, x: u32, simple: &Simple) {
        for conjunct in simple {
            match conjunct {
                C::Name(a) => {
                    self.members.insert((*a, x));
                }
                C::Bot => {}
                C::In(f, lo, hi) => {
                    let functional = kb.is_functional_feature(*f);
                    let has = self.values.range((*f, x, 0)..=(*f, x, u32::MAX)).next().is_some();
                    if !(functional && has) && lo <= hi {
                        let value = match rng.below(4) {
                            0 => *lo,
                            1 => *hi,
                            _ => rng.between(*lo, *hi),
                        };
                        self.values.insert((*f, x, value));
                    }
                }
                C::Some(r, inner) => {
                    let functional = kb.is_functional_role(*r);
                    let old = self.edges.range((*r, x, 0)..=(*r, x, u32::MAX)).next().map(|e| e.2);
                    let target = match old {
                        Some(y) if functional => y,
                        _ if rng.once_in(5) => rng.between(1, self.n),
                        _ => {
                            self.n += 1;
                            self.n
                        }
                    };
                    self.edges.insert((*r, x, target));
                    self.make_true(rng, kb, target, inner);
                }
            }
        }
    }

    /// A random interpretation that tends to have individual 1 in the term.
    pub fn random_around(rng: &mut Rng, kb: &Kb, simple: &Simple) -> Self {
        let mut one = Self { n: 1, ..Self::default() };
        one.make_true(rng, kb, 1, simple);
        for _ in 0..rng.below(3) {
            let x = rng.between(1, one.n);
            match rng.below(3) {
                0 => one.members.insert((rng.between(1, kb.n), x)),
                1 if kb.r > 0 => one.edges.insert((rng.between(1, kb.r), x, rng.between(1, one.n))),
                2 if kb.f > 0 => one.values.insert((rng.between(1, kb.f), x, rng.below(20))),
                _ => false,
            };
        }
        one.close(kb);
        one
    }
}
