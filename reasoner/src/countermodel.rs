//! Writing the canonical model of Definition 2.

use crate::normal::Individual;
use crate::split::Split;

/// A record without its next: kind, name, individual, other.
pub type Fact = [u32; 4];

const RECORD: usize = 5;

/// A countermodel, ready to be written.
pub struct Countermodel {
    individuals: u32,
    facts: Vec<Fact>,
}

impl Countermodel {
    /// The canonical model of one combination: "each piece's upper end as value, classes closed
    /// upward".
    #[must_use]
    pub fn of(split: &Split, choice: &[usize]) -> Self {
        let mut model = Self { individuals: 0, facts: Vec::new() };
        split.root.visit(&mut |individual| model.add(individual, split, choice));
        model
    }

    /// "classes rising; (feature, value) pairs rising, no repeats; edges by target"
    fn add(&mut self, individual: &Individual, split: &Split, choice: &[usize]) {
        self.individuals += 1;
        let own = individual.number;
        self.facts.extend(individual.classes.iter().map(|class| [1, class.0, own, 0]));
        let slots = individual.first_slot..;
        let mut values: Vec<(u32, u32)> = individual
            .spans
            .iter()
            .zip(slots)
            .map(|(span, slot)| (span.feature.0, split.pieces[slot][choice[slot]]))
            .collect();
        values.sort_unstable();
        values.dedup();
        self.facts.extend(values.into_iter().map(|(feature, value)| [3, feature, own, value]));
        self.facts
            .extend(individual.children.iter().map(|(role, child)| [2, role.0, own, child.number]));
    }

    /// SPECIFICATION 8.4: it takes 5 × (records + 1) words.
    #[must_use]
    pub fn length(&self) -> usize {
        RECORD * (self.facts.len() + 1)
    }

    /// Writes the words at the front of the output; none when it is too short.
    #[must_use]
    pub fn write(&self, out: &mut [u32]) -> Option<usize> {
        let target = out.get_mut(..self.length())?;
        let last = self.facts.len() as u32;
        let (header, records) = target.split_at_mut(RECORD);
        header.copy_from_slice(&[u32::from(last > 0), self.individuals, 0, 0, 0]);
        for ((record, fact), own) in records.chunks_exact_mut(RECORD).zip(&self.facts).zip(1..) {
            record[..4].copy_from_slice(fact);
            record[4] = if own == last { 0 } else { own + 1 };
        }
        Some(self.length())
    }
}
