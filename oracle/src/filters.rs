//! Filters: the tables that lines of a case file set, and what the Rust answers over them.

use crate::answer::Answer;
use crate::bounding_box::BoundingBox;
use crate::containing::{are_compared, box_contains};
use crate::interval::{Interval, IntervalTrait, WraparoundInterval};
use crate::refusals::check;
use crate::shims::datafusion_physical_expr::expressions::Column;
use crate::spatial_filter::{SpatialFilter, TableGeoStatistics};
use crate::statistics::GeoStatistics;
use crate::text;
use crate::types::GeometryTypeAndDimensionsSet as Set;

/// The most words of a line, and of a chain: one node more than a filter may have.
pub const MOST_WORDS: usize = 48;
const MOST_CHAIN: usize = 4100;

/// What is lent to a call.
#[derive(Default)]
pub struct Tables {
    pub nodes: Vec<u32>,
    pub literals: Boxes,
    pub records: Boxes,
    /// The types of each record, and whether they are known.
    pub record_types: Vec<u32>,
    pub types_known: Vec<u8>,
    pub names: Vec<u32>,
}

/// Eight doubles a box, the ends of x, y, z and m, and a flag.
#[derive(Clone, Default)]
pub struct Boxes {
    pub ends: Vec<f64>,
    pub flags: Vec<u8>,
}

/// How a leaf finds its record, or that there are no records.
#[derive(Clone, Copy, PartialEq)]
pub enum Lookup {
    ByPosition,
    ByName,
    Nothing,
}

impl Tables {
    /// Sets the table that a line names; the old one stays where the words do not spell one.
    pub fn set(&mut self, table: &str, words: &[&str]) -> Option<()> {
        match table {
            "nodes" => self.nodes = read_list(words, text::read_set)?,
            "literals" => self.literals.ends = read_list(words, text::read)?,
            "literal_flags" => self.literals.flags = read_list(words, read_flag)?,
            "records" => self.records.ends = read_list(words, text::read)?,
            "record_flags" => self.set_record_flags(read_list(words, read_flag)?),
            "record_types" => self.record_types = read_list(words, text::read_set)?,
            "types_known" => self.types_known = read_list(words, read_flag)?,
            "names" => self.names = read_list(words, text::read_set)?,
            _ => return None,
        }
        Some(())
    }

    /// Sets the flags of records, and as many types, none of which are known.
    fn set_record_flags(&mut self, flags: Vec<u8>) {
        self.record_types = vec![0; flags.len()];
        self.types_known = vec![0; flags.len()];
        self.records.flags = flags;
    }

    /// The lines that set these tables.
    pub fn lines(&self) -> String {
        let Tables {
            literals, records, ..
        } = self;
        [
            text::write_line("nodes", &written(&self.nodes)),
            text::write_line("literals", &text::write_operands(&literals.ends)),
            text::write_line("literal_flags", &written(&literals.flags)),
            text::write_line("records", &text::write_operands(&records.ends)),
            text::write_line("record_flags", &written(&records.flags)),
            text::write_line("record_types", &written(&self.record_types)),
            text::write_line("types_known", &written(&self.types_known)),
            text::write_line("names", &written(&self.names)),
        ]
        .concat()
    }

    /// Sets the nodes to the first so many words of a chain. It hands the answer of its lowest node
    /// up to the root: each And has an Unknown beside it, and each Or a LiteralFalse.
    pub fn set_chain(&mut self, words: usize) -> Option<()> {
        if words > MOST_CHAIN {
            return None;
        }
        let nodes = (0..MOST_CHAIN as u32 / 4).flat_map(|node| match node % 4 {
            _ if node == 0 => [0, 0, 0, 0],
            0 => [4, node - 2, node - 1, 0],
            1 => [6, 0, 0, 0],
            2 => [3, node - 2, node - 1, 0],
            _ => [5, 0, 0, 0],
        });
        self.nodes = nodes.take(words).collect();
        Some(())
    }

    /// These nodes and literals, over a column for each name. The x of its box is its place, and all
    /// else 0; no types are known.
    pub fn over(&self, names: Vec<u32>) -> Tables {
        let count = names.len();
        let places = (0..count).map(|place| place as f64);
        let ends = places.flat_map(|x| [x, x, 0.0, 0.0, 0.0, 0.0, 0.0, 0.0]);
        Tables {
            nodes: self.nodes.clone(),
            literals: self.literals.clone(),
            records: Boxes {
                ends: ends.collect(),
                flags: vec![1; count],
            },
            record_types: vec![0; count],
            types_known: vec![0; count],
            names,
        }
    }

    /// The four words of a node.
    pub fn node(&self, node: usize) -> [u32; 4] {
        std::array::from_fn(|word| self.nodes[4 * node + word])
    }

    pub fn evaluate(&self, lookup: Lookup) -> Answer {
        Answer::matched(self.may_match(lookup))
    }

    pub fn filter_bbox(&self, name: u32) -> Answer {
        Answer::boxed(self.bounds_of(name))
    }

    /// Whether the filter may match, or the number that refuses it.
    pub fn may_match(&self, lookup: Lookup) -> Result<bool, u64> {
        check(self, lookup)?;
        let answer = self.root(lookup).evaluate(&self.statistics(lookup));
        Ok(answer.expect("every index is lent"))
    }

    /// The filter's box for the column of a name, or the number that refuses it.
    pub fn bounds_of(&self, name: u32) -> Result<BoundingBox, u64> {
        check(self, Lookup::Nothing)?;
        Ok(self.root(Lookup::Nothing).filter_bbox(&name.to_string()))
    }

    fn root(&self, lookup: Lookup) -> SpatialFilter {
        self.filter(self.nodes.len() / 4 - 1, lookup)
    }

    /// The filter of a node. A Covers of which the Rust is not asked is its answer.
    fn filter(&self, node: usize, lookup: Lookup) -> SpatialFilter {
        let [kind, first, second, third] = self.node(node);
        let column = || Column::new(&second.to_string(), first as usize);
        let literal = || self.literals.bounds(third as usize);
        let child = |node: u32| Box::new(self.filter(node as usize, lookup));
        let record = || self.record(lookup, first, second);
        match kind {
            0 => SpatialFilter::Intersects(column(), literal()),
            1 => covers(column(), literal(), record()),
            2 => SpatialFilter::HasZ(column()),
            3 => SpatialFilter::And(child(first), child(second)),
            4 => SpatialFilter::Or(child(first), child(second)),
            5 => SpatialFilter::LiteralFalse,
            6 => SpatialFilter::Unknown,
            _ => unreachable!("refused"),
        }
    }

    /// The box of the record that a leaf finds, by its index or its name.
    fn record(&self, lookup: Lookup, index: u32, name: u32) -> Option<BoundingBox> {
        let place = match lookup {
            Lookup::ByPosition => Some(index as usize),
            Lookup::ByName => self.names.iter().position(|other| *other == name),
            Lookup::Nothing => None,
        };
        self.records.known(place?)
    }

    fn statistics(&self, lookup: Lookup) -> TableGeoStatistics {
        let records = (0..self.records.flags.len()).map(|place| {
            let bounds = self.records.known(place);
            let is_known = self.types_known[place] != 0;
            let types = is_known.then(|| Set::from_bits(self.record_types[place]));
            GeoStatistics::unspecified()
                .with_bbox(bounds)
                .with_geometry_types(types)
        });
        if lookup == Lookup::ByPosition {
            return TableGeoStatistics::ByPosition(records.collect());
        }
        let names = self.names.iter().map(u32::to_string);
        TableGeoStatistics::ByName(names.zip(records).collect())
    }
}

impl Boxes {
    pub fn bounds(&self, place: usize) -> BoundingBox {
        bounds(&self.ends[8 * place..], self.flags[place])
    }

    /// None where the flag says that there is no box.
    pub fn known(&self, place: usize) -> Option<BoundingBox> {
        (self.flags[place] != 0).then(|| self.bounds(place))
    }
}

/// A Covers, which is the Rust's to answer but for some x.
fn covers(column: Column, literal: BoundingBox, record: Option<BoundingBox>) -> SpatialFilter {
    match record {
        Some(record) if !are_compared(record.x(), literal.x()) => {
            if box_contains(&record, &literal) {
                SpatialFilter::Unknown
            } else {
                SpatialFilter::LiteralFalse
            }
        }
        _ => SpatialFilter::Covers(column, literal),
    }
}

/// The box of the first eight ends; its flags say whether it has z and m.
pub fn bounds(ends: &[f64], flags: u8) -> BoundingBox {
    let interval = |k: usize| Interval::new(ends[2 * k], ends[2 * k + 1]);
    let known = |k, bit| (flags & bit != 0).then(|| interval(k));
    let x = WraparoundInterval::new(ends[0], ends[1]);
    BoundingBox::xyzm(x, interval(1), known(2, 2), known(3, 4))
}

pub fn read_flag(word: &str) -> Option<u8> {
    text::read_set(word)?.try_into().ok()
}

fn written<T: ToString>(list: &[T]) -> Vec<String> {
    list.iter().map(T::to_string).collect()
}

pub fn read_list<T>(words: &[&str], read: fn(&str) -> Option<T>) -> Option<Vec<T>> {
    let list: Vec<T> = words.iter().map(|word| read(word)).collect::<Option<_>>()?;
    (list.len() <= MOST_WORDS).then_some(list)
}
