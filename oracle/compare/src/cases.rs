//! What calls are made with, drawn from a seed.

use crate::layout::{BOX, BOX_FLAGS, Bounds, M, PARTS, Record, Records, Z};
use johikape::Interval;
use oracle::bounding_box::BoundingBox;
use oracle::cases::VALUES;
use oracle::filter_draws::put;
use oracle::filters::{Boxes, Tables};
use oracle::random::Random;
use oracle::records::SIZE_BYTES;
use oracle::tariff::Rates;
use std::array;
use std::fmt::Display;

/// The most records of a fold.
const MOST_RECORDS: usize = 40;

/// Kinds of nodes.
const AND: u32 = 3;
const OR: u32 = 4;

/// The doubles of note, and their neighbours one and two bits away. A double itself comes more
/// often than a neighbour.
pub fn values() -> Vec<f64> {
    let near = |value: &f64| {
        let bits = value.to_bits();
        [0, 0, 0, -1, 1, -2, 2].map(|by| f64::from_bits(bits.wrapping_add_signed(by)))
    };
    VALUES.iter().flat_map(near).collect()
}

/// All that a call takes. It is shown where the answers differ.
pub trait Case: Display {
    fn draw(random: &mut Random) -> Self;
}

/// For a call of an interval or an x, alone, with a second one or with a value.
pub struct IntervalCase {
    pub a: Interval,
    pub b: Interval,
    pub value: f64,
}

impl Case for IntervalCase {
    fn draw(random: &mut Random) -> Self {
        let doubles = random.doubles(5, 8);
        let interval = |at| Interval {
            lo: doubles[at],
            hi: doubles[at + 1],
        };
        IntervalCase {
            a: interval(0),
            b: interval(2),
            value: doubles[4],
        }
    }
}

/// For a call of a box, with a second one or with a distance.
pub struct BoxCase {
    pub a: Bounds,
    pub b: Bounds,
    pub distance: f64,
}

impl BoxCase {
    /// Both boxes; none where flags are bad.
    pub fn to_rust(&self) -> Option<(BoundingBox, BoundingBox)> {
        Some((self.a.to_rust()?, self.b.to_rust()?))
    }
}

impl Case for BoxCase {
    fn draw(random: &mut Random) -> Self {
        let doubles = random.doubles(17, 8);
        let [a, b] = array::from_fn(|place| Bounds {
            ends: array::from_fn(|end| doubles[8 * place + end]),
            flags: box_flags(random),
        });
        BoxCase {
            a,
            b,
            distance: doubles[16],
        }
    }
}

/// For the calls of the two layouts: a box, and an array that is not its own.
pub struct LayoutCase {
    pub bounds: Bounds,
    pub array: Vec<f64>,
}

impl Case for LayoutCase {
    fn draw(random: &mut Random) -> Self {
        let doubles = random.doubles(8, 8);
        LayoutCase {
            bounds: Bounds {
                ends: array::from_fn(|end| doubles[end]),
                flags: box_flags(random),
            },
            array: random.array(),
        }
    }
}

/// For the call of a geometry's bytes.
pub struct WkbCase {
    pub bytes: Vec<u8>,
}

impl Case for WkbCase {
    fn draw(random: &mut Random) -> Self {
        WkbCase {
            bytes: random.wkb(),
        }
    }
}

/// Of 32 boxes one has any flags.
fn box_flags(random: &mut Random) -> u8 {
    match random.below(32) {
        0 => random.bits() as u8,
        n => BOX_FLAGS[n % 4],
    }
}

/// For a merge of records.
pub struct RecordCase {
    pub a: Record,
    pub b: Record,
}

impl Case for RecordCase {
    fn draw(random: &mut Random) -> Self {
        let doubles = random.doubles(20, 10);
        let [a, b] = array::from_fn(|place| record(random, &doubles[10 * place..], &BOX_FLAGS, 8));
        RecordCase { a, b }
    }
}

/// A record of drawn doubles, whose box has one of these flags. One in so many of its parts is missing;
/// of eight times as many records one has any flags, and one a flag too many or too few. Of eight one
/// has totals at the ends of their range.
fn record(random: &mut Random, doubles: &[f64], box_flags: &[u8], one_in: usize) -> Record {
    let is_at_ends = random.below(8) == 0;
    let mut good = u32::from(box_flags[random.below(box_flags.len())]);
    if random.below(one_in) == 0 {
        good = 0;
    }
    for part in (0..32)
        .map(|place| 1 << place)
        .filter(|part| PARTS & part != 0)
    {
        if random.below(one_in) > 0 {
            good |= part;
        }
    }
    Record {
        doubles: array::from_fn(|place| doubles[place]),
        totals: array::from_fn(|_| random.total(is_at_ends)),
        types: random.set(),
        flags: match random.below(8 * one_in) {
            0 => random.bits() as u32,
            1 => good ^ 1 << random.below(32),
            _ => good,
        },
    }
}

impl Case for Records {
    /// Of four folds one can be long; of eight one has a list that is too short or too long. The
    /// parts of some lists are seldom missing, so that their sums are known to the end; of half of these
    /// each box has z and m, so that most records know every part.
    fn draw(random: &mut Random) -> Self {
        let most = [8, 8, 8, MOST_RECORDS][random.below(4)];
        let count = random.below(most + 1);
        let one_in = [4, 16, 64, 1024][random.below(4)];
        let box_flags: &[u8] = if random.below(2) == 0 {
            &[BOX | Z | M]
        } else {
            &BOX_FLAGS
        };
        let doubles = random.doubles(10 * count, 10);
        let mut records = Records::default();
        for doubles in doubles.chunks(10) {
            records.push(&record(random, doubles, box_flags, one_in));
        }
        let is_longer = random.below(2) == 0;
        match random.below(32) {
            0 => resize(&mut records.doubles, is_longer),
            1 => resize(&mut records.totals, is_longer),
            2 => resize(&mut records.types, is_longer),
            3 => resize(&mut records.flags, is_longer),
            _ => {}
        }
        records
    }
}

/// Makes a list one longer or shorter.
fn resize<T: Default>(list: &mut Vec<T>, is_longer: bool) {
    if is_longer {
        list.push(T::default());
    } else {
        list.pop();
    }
}

/// For the calls of the tariff: rates, a record, and sizes that are not its own.
pub struct TariffCase {
    pub rates: Rates,
    pub record: Record,
    pub sizes: Vec<i64>,
    pub known: Vec<u8>,
}

impl TariffCase {
    /// The sizes; none where the lists do not fit or a known byte is bad.
    pub fn to_rust(&self) -> Option<Vec<Option<i64>>> {
        if self.sizes.len() != self.known.len() {
            return None;
        }
        let size = |(size, known): (&i64, &u8)| match known {
            0 => Some(None),
            1 => Some(Some(*size)),
            _ => None,
        };
        self.sizes.iter().zip(&self.known).map(size).collect()
    }
}

impl Case for TariffCase {
    /// The record's bytes are a drawn size, or now and then any total; where a size is missing, any
    /// total stands. Of eight cases one has a bad known byte, or a list that is too short or too long.
    fn draw(random: &mut Random) -> Self {
        let doubles = random.doubles(10, 10);
        let mut record = record(random, &doubles, &BOX_FLAGS, 8);
        if let Some(size) = random.size() {
            record.totals[SIZE_BYTES] = size;
        }
        let drawn = random.sizes();
        let mut sizes: Vec<i64> = drawn
            .iter()
            .map(|size| size.unwrap_or_else(|| random.total(true)))
            .collect();
        let mut known: Vec<u8> = drawn.iter().map(|size| size.is_some().into()).collect();
        let is_longer = random.below(2) == 0;
        match random.below(32) {
            0 => resize(&mut sizes, is_longer),
            1 => resize(&mut known, is_longer),
            2 | 3 => spoil_known(random, &mut known),
            _ => {}
        }
        TariffCase {
            rates: random.rates(),
            record,
            sizes,
            known,
        }
    }
}

/// Makes a known byte a bad one, where there is one.
fn spoil_known(random: &mut Random, known: &mut [u8]) {
    let place = random.below(known.len());
    let bad = [2, 255, random.bits() as u8 | 2];
    put(known, place, bad[random.below(bad.len())]);
}

/// For a call of a filter: its tables, and a name.
pub struct FilterCase {
    pub tables: Tables,
    pub name: u32,
}

impl Case for FilterCase {
    /// The oracle's tables, of which a quarter have faults; a third get doubles of every kind. Of
    /// four filters one has no And, so that it often may match; of 16 one has a fault of another
    /// kind; of 256 one is a deep chain, of up to more words than a filter may have.
    fn draw(random: &mut Random) -> Self {
        let mut tables = random.tables();
        if random.below(3) == 0 {
            random.redraw(&mut tables);
        }
        if random.below(4) == 0 {
            drop_ands(&mut tables.nodes);
        }
        if random.below(16) == 0 {
            spoil(random, &mut tables);
        }
        if random.below(256) == 0 {
            let fault = random.below(16).saturating_sub(8);
            let words = 8 * random.below(512) + 4 + fault;
            tables.set_chain(words).expect("not too many words");
        }
        FilterCase {
            tables,
            name: random.name(),
        }
    }
}

/// For a search for a name, and for a filter over many columns: its tables, and a name.
pub struct WideCase {
    pub tables: Tables,
    pub name: u32,
}

impl Case for WideCase {
    /// The oracle's columns; of three lists one has names of any bits, and of three one has a name in
    /// two drawn places. The filter asks for these columns.
    fn draw(random: &mut Random) -> Self {
        let mut names = random.many().names();
        if random.below(3) == 0 {
            names.fill_with(|| random.bits() as u32);
        }
        if random.below(3) == 0 && !names.is_empty() {
            let [place, other] = array::from_fn(|_| random.below(names.len()));
            names[place] = names[other];
        }
        let name = random.one_of(&names);
        let mut tables = random.tables();
        random.ask(&mut tables, &names);
        WideCase {
            tables: tables.over(names),
            name,
        }
    }
}

/// Makes each And an Or.
fn drop_ands(nodes: &mut [u32]) {
    for kind in nodes.iter_mut().step_by(4) {
        if *kind == AND {
            *kind = OR;
        }
    }
}

/// Empties a list, puts any bits into a word, or takes the last column away.
fn spoil(random: &mut Random, tables: &mut Tables) {
    match random.below(8) {
        0 => tables.nodes.clear(),
        1 => tables.names.clear(),
        2 => tables.literals = Boxes::default(),
        3 => {
            tables.records = Boxes::default();
            tables.record_types.clear();
            tables.types_known.clear();
            tables.names.clear();
        }
        4 | 5 => {
            let place = random.below(tables.nodes.len());
            tables.nodes[place] = random.bits() as u32;
        }
        _ => drop_column(tables),
    }
}

/// Takes the last column from tables, but not from the filter.
fn drop_column(tables: &mut Tables) {
    let records = &mut tables.records;
    records.ends.truncate(records.ends.len().saturating_sub(8));
    records.flags.pop();
    tables.record_types.pop();
    tables.types_known.pop();
    tables.names.pop();
}
