//! Many columns, drawn, and what is asked of them.

use crate::filter_draws::HAS_Z;
use crate::filters::Tables;
use crate::names::{MOST_COLUMNS, Many};
use crate::random::Random;

/// From a name to the next. The large ones leave the low bits as they are; with the last two names fall.
const STEPS: [u32; 9] = [
    0,
    1,
    2,
    3,
    512,
    32768,
    65536,
    0u32.wrapping_sub(1),
    0u32.wrapping_sub(65536),
];

impl Random<'_> {
    /// Many columns: a few, some, about 900 or any number. Of ten steps one is any odd number, with
    /// which no name comes twice. The last name is any, the next one, or one that is there.
    pub fn many(&mut self) -> Many {
        let count = match self.below(4) {
            0 => self.below(8),
            1 => self.below(80),
            2 => 890 + self.below(21),
            _ => self.below(MOST_COLUMNS as usize + 1),
        };
        let step = match STEPS.get(self.below(STEPS.len() + 1)) {
            Some(step) => *step,
            None => self.bits() as u32 | 1,
        };
        let next = count.saturating_sub(1);
        let name = |place: usize| step.wrapping_mul(place as u32);
        let last = match self.below(3) {
            0 => self.bits() as u32,
            1 => name(next),
            _ => name(self.below(next.max(1))),
        };
        Many {
            count: count as u32,
            step,
            last,
        }
    }

    /// A name: mostly one of these, often the first or the last; or one with another bit, or any.
    pub fn one_of(&mut self, names: &[u32]) -> u32 {
        let any = self.bits() as u32;
        let Some(last) = names.len().checked_sub(1) else {
            return any;
        };
        let name = names[self.below(names.len())];
        match self.below(8) {
            0 => names[0],
            1 => names[last],
            2 => name ^ 1 << self.below(32),
            3 => any,
            _ => name,
        }
    }

    /// Has most leaves of a filter ask for columns that stand together, by their names, and its
    /// literals hold the places of such, by their x.
    pub fn ask(&mut self, tables: &mut Tables, names: &[u32]) {
        let first = self.below(names.len() + 1);
        for ends in tables.literals.ends.chunks_exact_mut(8) {
            let lo = (first + self.below(3)) as f64;
            let hi = lo + self.below(2) as f64;
            ends[..4].copy_from_slice(&[lo, hi, 0.0, 0.0]);
        }
        let nodes = tables.nodes.chunks_exact_mut(4);
        for leaf in nodes.filter(|node| node[0] <= HAS_Z) {
            leaf[2] = match names.get(first + self.below(4)) {
                Some(name) if self.below(8) > 0 => *name,
                _ => self.one_of(names),
            };
        }
    }
}

#[cfg(test)]
mod tests {
    use super::*;
    use crate::filters::Lookup;
    use crate::names::find_name;
    use std::collections::HashMap;

    #[test]
    fn all_answers_are_drawn() {
        let mut random = Random::new(1, &[]);
        let mut hits = [0; 2];
        let mut answers = HashMap::new();
        for _ in 0..1_000 {
            let names = random.many().names();
            let name = random.one_of(&names);
            hits[usize::from(find_name(&names, name).is_hit)] += 1;
            let mut tables = random.tables();
            random.ask(&mut tables, &names);
            let answer = tables.over(names).may_match(Lookup::ByName);
            *answers.entry(answer).or_insert(0) += 1;
        }
        assert!(hits.iter().all(|count| *count > 200), "{hits:?}");
        for answer in [Ok(false), Ok(true), Err(11)] {
            assert!(answers[&answer] > 200, "{answers:?}");
        }
    }
}
