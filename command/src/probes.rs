//! A quick way to the consents that may mean the same as another. A tree of models: a consent goes one way if individual 1 of the model is
//! in it, and the other way if it is not. That is the proved model check's answer, so that two consents which part on the way are different,
//! and only those of one leaf need to be compared. How a model is made decides how long the way is, and nothing else.

use crate::input::NOBODY;
use crate::slices::Slices;
use gimbuka::{Checked, Refusal, Verdict};
use std::collections::HashMap;

/// A leaf is parted when it has more sets than this.
const FULL: usize = 8;
/// So many models are tried for it.
const TRIALS: usize = 4;

enum Node {
    Leaf {
        sets: Vec<usize>,
        /// It is parted, or that is tried again, when it has more sets than this.
        most: usize,
    },
    Fork {
        model: Vec<u32>,
        inside: usize,
        outside: usize,
    },
}

pub struct Tree {
    nodes: Vec<Node>,
    dice: Dice,
}

/// Is individual 1 of the model in the policy, and the vocabulary true in it?
fn is_inside(v: &[u32], policy: &[u32], model: &[u32], work: &mut [u32]) -> Result<bool, Refusal> {
    gimbuka::model_check(v, policy, &NOBODY, model, work).map(|checked| checked == Checked::Yes)
}

impl Tree {
    pub fn new() -> Self {
        let leaf = Node::Leaf { sets: Vec::new(), most: FULL };
        Self { nodes: vec![leaf], dice: Dice(0x9e37_79b9_7f4a_7c15) }
    }

    /// The leaf to which a policy comes, by its number.
    fn leaf(&self, v: &[u32], policy: &[u32], work: &mut [u32]) -> Result<usize, Refusal> {
        let mut at = 0;
        while let Node::Fork { model, inside, outside } = &self.nodes[at] {
            at = if is_inside(v, policy, model, work)? { *inside } else { *outside };
        }
        Ok(at)
    }

    /// The sets that a policy may belong to, in their order. It is different from all the others.
    pub fn near(&self, v: &[u32], policy: &[u32], work: &mut [u32]) -> Result<&[usize], Refusal> {
        match &self.nodes[self.leaf(v, policy, work)?] {
            Node::Leaf { sets, .. } => Ok(sets),
            // A way ends in a leaf.
            Node::Fork { .. } => Ok(&[]),
        }
    }

    /// Takes up a set, by its number and the words of its first consent.
    pub fn insert<'a>(
        &mut self,
        v: &[u32],
        set: usize,
        words_of: impl Fn(usize) -> &'a [u32],
        slices: &mut Slices,
    ) -> Result<(), Refusal> {
        let at = self.leaf(v, words_of(set), &mut slices.work)?;
        let Node::Leaf { sets, most } = &mut self.nodes[at] else { return Ok(()) };
        sets.push(set);
        if sets.len() <= *most {
            return Ok(());
        }
        *most = 2 * sets.len();
        let policies: Vec<&[u32]> = sets.iter().map(|&set| words_of(set)).collect();
        let Some(Parting { model, is_in }) = parting(v, &policies, &mut self.dice, slices)? else {
            return Ok(());
        };
        let side = |wanted: bool| {
            let chosen = sets.iter().zip(&is_in).filter(|(_, &is_in)| is_in == wanted);
            Node::Leaf { sets: chosen.map(|(&set, _)| set).collect(), most: FULL }
        };
        let (inside, outside) = (side(true), side(false));
        let next = self.nodes.len();
        self.nodes[at] = Node::Fork { model, inside: next, outside: next + 1 };
        self.nodes.extend([inside, outside]);
        Ok(())
    }
}

/// A model, and for each policy whether its individual 1 is in it.
struct Parting {
    model: Vec<u32>,
    is_in: Vec<bool>,
}

/// A model that parts the policies; none if a few trials find none that does it well.
fn parting(
    v: &[u32],
    policies: &[&[u32]],
    dice: &mut Dice,
    slices: &mut Slices,
) -> Result<Option<Parting>, Refusal> {
    let mut best = None;
    let mut best_part = policies.len() / 4;
    for _ in 0..TRIALS {
        // A third and two thirds are good enough.
        if 3 * best_part >= policies.len() {
            break;
        }
        let mut order: Vec<usize> = (0..policies.len()).collect();
        dice.shuffle(&mut order);
        let mut overlay = Overlay::default();
        let mut base = None;
        for &next in &order {
            let Some(model) = some_model(v, policies[next], dice, slices) else { continue };
            let mut larger = overlay.clone();
            if larger.add(&model).is_none() {
                continue;
            }
            let words = larger.words();
            // The first policy whose model was taken holds the larger ones too, unless the vocabulary is not true in them.
            let base = *base.get_or_insert(next);
            if !is_inside(v, policies[base], &words, &mut slices.work)? {
                continue;
            }
            overlay = larger;
            let answers = policies.iter().map(|one| is_inside(v, one, &words, &mut slices.work));
            let is_in = answers.collect::<Result<Vec<bool>, _>>()?;
            let inside = is_in.iter().filter(|&&is_in| is_in).count();
            let part = inside.min(policies.len() - inside);
            if part > best_part {
                best_part = part;
                best = Some(Parting { model: words, is_in });
            }
            if 2 * inside >= policies.len() {
                break;
            }
        }
    }
    Ok(best)
}

/// A model of one term of a policy, by the library; none if there is none for that term.
fn some_model(v: &[u32], policy: &[u32], dice: &mut Dice, slices: &mut Slices) -> Option<Vec<u32>> {
    let mut alone = policy.to_vec();
    let mut terms = Vec::new();
    let mut link = *policy.first()? as usize;
    while link != 0 {
        terms.push(link);
        link = *policy.get(6 * link + 5)? as usize;
    }
    let term = terms[dice.below(terms.len())?];
    alone[0] = term as u32;
    alone[6 * term + 5] = 0;
    // Of some intervals the last number alone: consents often part there. What is inside the narrower term is inside the policy.
    for record in alone.chunks_exact_mut(6).skip(1) {
        if record[0] == 4 && dice.below(2) == Some(1) {
            record[2] = record[3];
        }
    }
    match gimbuka::compliance(v, &alone, &NOBODY, &mut slices.work, &mut slices.out) {
        Ok(Verdict::Outside { words, .. }) => Some(slices.out[..words].to_vec()),
        _ => None,
    }
}

/// Models laid upon one another from individual 1 on: what one of them says, all say together. Of a role one successor stands for all, of a
/// feature the first value.
#[derive(Clone, Default)]
struct Overlay {
    individuals: u32,
    facts: Vec<[u32; 4]>,
    /// The successor of an individual by a role.
    reached: HashMap<(u32, u32), u32>,
    /// Which facts are there; of a value, which feature has one.
    known: HashMap<[u32; 3], ()>,
}

impl Overlay {
    /// None if a model is not as the library writes it, or if there are too many individuals.
    fn add(&mut self, model: &[u32]) -> Option<()> {
        const MOST_INDIVIDUALS: u32 = 512;
        self.individuals = self.individuals.max(1);
        // The individuals of the model, here; the library writes an individual before those that it reaches.
        let mut here = HashMap::from([(1, 1)]);
        for record in model.chunks_exact(5).skip(1) {
            let &[kind, name, one, other, _] = record else { return None };
            let one = *here.get(&one)?;
            if kind == 2 {
                let known = self.reached.get(&(one, name)).copied();
                let to = known.unwrap_or_else(|| {
                    self.individuals += 1;
                    self.reached.insert((one, name), self.individuals);
                    self.facts.push([2, name, one, self.individuals]);
                    self.individuals
                });
                here.insert(other, to);
            } else if self.known.insert([kind, name, one], ()).is_none() {
                self.facts.push([kind, name, one, other]);
            }
        }
        (self.individuals <= MOST_INDIVIDUALS).then_some(())
    }

    fn words(&self) -> Vec<u32> {
        let last = self.facts.len() as u32;
        let mut words = vec![u32::from(last > 0), self.individuals.max(1), 0, 0, 0];
        for (fact, own) in self.facts.iter().zip(1..) {
            words.extend(fact);
            words.push(if own == last { 0 } else { own + 1 });
        }
        words
    }
}

/// Numbers that are the same in every run, so that every run takes the same way.
struct Dice(u64);

impl Dice {
    fn next(&mut self) -> u64 {
        self.0 ^= self.0 << 13;
        self.0 ^= self.0 >> 7;
        self.0 ^= self.0 << 17;
        self.0
    }

    /// A number below another; none below 0.
    fn below(&mut self, most: usize) -> Option<usize> {
        (self.next() >> 11).checked_rem(most as u64).map(|number| number as usize)
    }

    fn shuffle(&mut self, all: &mut [usize]) {
        for last in (1..all.len()).rev() {
            if let Some(other) = self.below(last + 1) {
                all.swap(last, other);
            }
        }
    }
}
