//! Tables of a filter, drawn.

use crate::filters::{Boxes, Tables};
use crate::random::Random;

const INF: f64 = f64::INFINITY;
const MAX: f64 = f64::MAX;
const NAN: f64 = f64::NAN;

/// Plain intervals, then wrapped ones, then those with an end that is no number or is the largest.
#[rustfmt::skip]
const INTERVALS: [[f64; 2]; 20] = [
    [0.0, 10.0], [-5.0, 5.0], [100.0, 175.0], [-180.0, -100.0],
    [170.0, -170.0], [20.0, 5.0], [90.0, -90.0], [1.0, 0.0],
    [INF, -INF], [-INF, INF], [-INF, 5.0], [5.0, INF],
    [NAN, 5.0], [5.0, NAN], [NAN, NAN], [INF, INF],
    [MAX, -MAX], [-MAX, MAX], [INF, 5.0], [5.0, -INF],
];

/// So many of the intervals are drawn from.
const DOWN_TO: [usize; 4] = [4, 6, 8, INTERVALS.len()];

/// The most boxes of a list.
const MOST_BOXES: usize = 6;

/// The most leaves of a tree.
const MOST_LEAVES: usize = 30;

/// Names are below this.
pub const NAMES: u32 = 6;

/// Intersects, Covers, HasZ, LiteralFalse, Unknown.
const LEAVES: [u32; 16] = [0, 0, 0, 0, 0, 0, 1, 1, 1, 1, 2, 2, 2, 5, 6, 6];
pub const HAS_Z: u32 = 2;

/// The types without z, and the bits at the edges of the four bytes of a type set.
const FLAT: u32 = 0x00ff_00ff;
const EDGES: [u32; 8] = [0, 7, 8, 15, 16, 23, 24, 31];

/// Beyond the number of any box or name.
const FAR: u32 = 1000;

impl Random<'_> {
    /// Tables. Most can be answered; of eight one has a fault, and one has two.
    pub fn tables(&mut self) -> Tables {
        let intervals = &INTERVALS[..DOWN_TO[self.below(4)]];
        let columns = 1 + self.below(MOST_BOXES);
        let records = self.boxes(intervals, columns, 9, &[]);
        let literals = 1 + self.below(MOST_BOXES);
        let base = self.name();
        let mut tables = Tables {
            literals: self.boxes(intervals, literals, 8, &records.ends),
            record_types: (0..columns).map(|_| self.types()).collect(),
            types_known: (0..columns).map(|_| self.below(2) as u8).collect(),
            names: (base..base + columns as u32)
                .map(|name| name % NAMES)
                .collect(),
            nodes: self.nodes(columns, literals, base),
            records,
        };
        for _ in 6..=self.below(8) {
            self.spoil(&mut tables);
        }
        tables
    }

    pub fn name(&mut self) -> u32 {
        self.below(NAMES as usize) as u32
    }

    /// Draws the doubles of tables anew, of every kind. The lists stay as long as they were, so that
    /// faults stay.
    pub fn redraw(&mut self, tables: &mut Tables) {
        let (records, literals) = (&mut tables.records.ends, &mut tables.literals.ends);
        // A list that was cut has no whole number of boxes.
        let first = records.len().next_multiple_of(8);
        let doubles = self.doubles(first + literals.len().next_multiple_of(8), first);
        let (record_ends, literal_ends) = doubles.split_at(first);
        replace(records, record_ends);
        replace(literals, literal_ends);
    }

    /// So many boxes, some of them copied from known ones. Of nine flags one is 0.
    fn boxes(
        &mut self,
        intervals: &[[f64; 2]],
        count: usize,
        flags: usize,
        known: &[f64],
    ) -> Boxes {
        let mut boxes = Boxes::default();
        for _ in 0..count {
            let flag = match self.below(flags) {
                8 => 0,
                n => n as u8 % 4 * 2 + 1,
            };
            boxes.flags.push(flag);
            let place = self.below(2 * MOST_BOXES);
            match known.chunks(8).nth(place) {
                Some(ends) => boxes.ends.extend(ends),
                None => boxes
                    .ends
                    .extend((0..4).flat_map(|_| self.moved(intervals))),
            }
        }
        boxes
    }

    /// The types of a record: none, all, all without z or all with it; a bit or two at the edges; half
    /// of the time any set, which can lose its types with z.
    fn types(&mut self) -> u32 {
        let [one, other] = std::array::from_fn(|_| 1 << EDGES[self.below(EDGES.len())]);
        match self.below(6) {
            0 => [0, u32::MAX, FLAT, !FLAT][self.below(4)],
            1 => one,
            2 => one | other,
            3 => self.set() & FLAT,
            _ => self.set(),
        }
    }

    /// An interval of the list, moved by tenths.
    fn moved(&mut self, intervals: &[[f64; 2]]) -> [f64; 2] {
        let by = self.below(256) as f64 / 10.0;
        intervals[self.below(intervals.len())].map(|end| end + by)
    }

    /// A tree: each node is a leaf, or pairs two of those that are no child yet.
    fn nodes(&mut self, columns: usize, literals: usize, base: u32) -> Vec<u32> {
        let most = 1 + self.below(MOST_LEAVES);
        let mut leaves = 1 + self.below(most);
        let mut open = Vec::new();
        let mut nodes = Vec::new();
        for node in 0..2 * leaves as u32 - 1 {
            let is_pair = self.below(2) == 0;
            if open.len() >= 2 && (is_pair || leaves == 0) {
                let kind = 3 + self.below(2) as u32;
                let [left, right] = std::array::from_fn(|_| {
                    let place = self.below(open.len());
                    open.swap_remove(place)
                });
                nodes.extend([kind, left, right, FAR]);
            } else {
                nodes.extend(self.leaf(columns, literals, base));
                leaves -= 1;
            }
            open.push(node);
        }
        nodes
    }

    /// A leaf. Its name, which is not its index's, can be unknown; what is unread is far off.
    fn leaf(&mut self, columns: usize, literals: usize, base: u32) -> [u32; 4] {
        let kind = LEAVES[self.below(LEAVES.len())];
        if kind > HAS_Z {
            return [kind, FAR, FAR, FAR];
        }
        let index = self.below(columns) as u32;
        let name = (base + self.below(columns + 1) as u32) % NAMES;
        if kind == HAS_Z {
            return [kind, index, name, FAR];
        }
        let literal = self.below(literals) as u32;
        [kind, index, name, literal]
    }

    /// Makes a fault, or now and then none.
    fn spoil(&mut self, tables: &mut Tables) {
        let fault = self.below(13);
        let word = self.below(tables.nodes.len());
        let place = self.below(MOST_BOXES);
        let value = self.below(9) as u32;
        let name = tables.names.first().copied().unwrap_or(0);
        match fault {
            0 => cut(&mut tables.nodes),
            1 => cut(&mut tables.names),
            2 => cut(&mut tables.records.ends),
            3 => cut(&mut tables.literals.flags),
            4 => put(&mut tables.literals.flags, place, value as u8),
            5 => put(&mut tables.records.flags, place, value as u8),
            6 => put(&mut tables.names, place, name),
            7 => self.spoil_types(tables),
            8 | 9 => put(&mut tables.nodes, word / 4 * 4, value),
            _ => put(&mut tables.nodes, word, value),
        }
    }

    /// Makes types or known bytes one too few or too many, or a known byte a bad one.
    fn spoil_types(&mut self, tables: &mut Tables) {
        let place = self.below(tables.records.flags.len());
        match self.below(6) {
            0 => cut(&mut tables.record_types),
            1 => cut(&mut tables.types_known),
            2 => tables.record_types.push(0),
            3 => tables.types_known.push(0),
            4 => put(&mut tables.types_known, place, 2),
            _ => put(&mut tables.types_known, place, 255),
        }
    }
}

/// Drops the last of a list.
fn cut<T>(list: &mut Vec<T>) {
    list.pop();
}

/// Puts a value in a place of a list, where it has that.
pub fn put<T>(list: &mut [T], place: usize, value: T) {
    if let Some(old) = list.get_mut(place) {
        *old = value;
    }
}

/// Replaces each of a list by the drawn one in its place.
fn replace(list: &mut [f64], drawn: &[f64]) {
    list.copy_from_slice(&drawn[..list.len()]);
}

#[cfg(test)]
mod tests {
    use super::*;
    use crate::filters::Lookup;

    #[test]
    fn all_answers_are_drawn() {
        let mut random = Random::new(1, &[]);
        let answers: Vec<String> = (0..10_000)
            .map(|_| random.tables())
            .flat_map(|tables| {
                [Lookup::ByPosition, Lookup::ByName].map(|lookup| tables.evaluate(lookup).text())
            })
            .collect();
        let count = |text: &str| answers.iter().filter(|answer| *answer == text).count();
        assert!(count("may match") > 5_000 && count("cannot match") > 5_000);
        for number in [4, 5, 7, 8, 9, 10, 11] {
            assert!(count(&format!("refused {number}")) > 30, "{number}");
        }
        assert_eq!(count("refused 6"), 0);
    }

    #[test]
    fn both_answers_of_has_z_are_drawn() {
        let mut random = Random::new(1, &[]);
        let mut counts = [0; 2];
        for mut tables in (0..10_000).map(|_| random.tables()) {
            tables.nodes = vec![HAS_Z, 0, 0, FAR];
            if let Ok(may_match) = tables.may_match(Lookup::ByPosition) {
                counts[usize::from(may_match)] += 1;
            }
        }
        assert!(counts.iter().all(|count| *count > 2_000), "{counts:?}");
    }

    /// The Rust's answer, by the bits that stand for types with a z.
    #[test]
    fn has_z_is_told_by_z_and_bits() {
        let mut random = Random::new(1, &[]);
        let drawn: Vec<u32> = (0..10_000).map(|_| random.types()).collect();
        let single = (0..32).map(|bit| 1 << bit);
        // A missing z, then known ones; and whether it is known and empty.
        let dimensions = [
            (1, [INF, -INF], false),
            (3, [0.0, 5.0], false),
            (3, [5.0, 0.0], false),
            (3, [NAN, -INF], false),
            (3, [INF, -INF], true),
            (3, [MAX, -MAX], true),
        ];
        for types in single.chain(drawn) {
            for (flags, [lo, hi], is_empty) in dimensions {
                let mut tables = Tables {
                    nodes: vec![HAS_Z, 0, 0, FAR],
                    records: Boxes {
                        ends: vec![0.0, 1.0, 0.0, 1.0, lo, hi, 0.0, 0.0],
                        flags: vec![flags],
                    },
                    record_types: vec![types],
                    types_known: vec![0],
                    ..Tables::default()
                };
                let by_position = |tables: &Tables| tables.may_match(Lookup::ByPosition);
                assert_eq!(by_position(&tables), Ok(!is_empty));
                tables.types_known = vec![1];
                let is_wanted = !is_empty && types & 0xff00_ff00 != 0;
                assert_eq!(by_position(&tables), Ok(is_wanted), "{types:x}");
            }
        }
    }
}
