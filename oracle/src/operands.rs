//! What calls take, doubles, boxes, type sets and records: how a line spells them, and all that sweeps
//! go over.

use crate::bounding_box::BoundingBox;
use crate::interval::{Interval, IntervalTrait, WraparoundInterval};
use crate::statistics::GeoStatistics;
use crate::types::GeometryTypeAndDimensionsSet as Set;
use crate::{records, text};

/// The word for each end of a missing z or m, and for each word of a missing part of a record.
pub const MISSING: &str = "-";

/// How many doubles, how many intervals and how many type sets a sweep may go over.
const MOST_VALUES: usize = 48;
const MOST_INTERVALS: usize = 6;
const MOST_SETS: usize = 48;

#[derive(Clone, Copy, PartialEq)]
pub enum Kind {
    Double,
    Box,
    Set,
    Record,
}

pub enum Operand {
    Double(f64),
    Box(BoundingBox),
    Set(Set),
    Record(GeoStatistics),
}

impl Kind {
    /// How many words spell one.
    pub fn width(self) -> usize {
        match self {
            Kind::Double | Kind::Set => 1,
            Kind::Box => 8,
            Kind::Record => 18,
        }
    }

    fn read(self, words: &[&str]) -> Option<Operand> {
        match (self, words) {
            (Kind::Double, [word]) => text::read(word).map(Operand::Double),
            (Kind::Set, [word]) => text::read_set(word).map(|bits| set(&bits)),
            (Kind::Box, words) => read_box(words).map(Operand::Box),
            (Kind::Record, words) => records::read(words).map(Operand::Record),
            _ => None,
        }
    }
}

/// The operands that the words of a case spell; none where they are not of these kinds.
pub fn read(kinds: &[Kind], words: &[&str]) -> Option<Vec<Operand>> {
    let mut rest = words;
    let mut operands = Vec::new();
    for kind in kinds {
        let (own, others) = rest.split_at_checked(kind.width())?;
        operands.push(kind.read(own)?);
        rest = others;
    }
    rest.is_empty().then_some(operands)
}

/// `XLO XHI YLO YHI ZLO ZHI MLO MHI`.
pub fn read_box(words: &[&str]) -> Option<BoundingBox> {
    let ends: Vec<_> = words.chunks(2).map(read_ends).collect::<Option<_>>()?;
    match ends[..] {
        [Some(x), Some(y), z, m] => Some(boxed(x, y, z, m)),
        _ => None,
    }
}

/// `LO HI`, or twice the mark of what is missing.
fn read_ends(words: &[&str]) -> Option<Option<Interval>> {
    match words {
        [MISSING, MISSING] => Some(None),
        [lo, hi] => Some(Some(Interval::new(text::read(lo)?, text::read(hi)?))),
        _ => None,
    }
}

fn boxed(x: Interval, y: Interval, z: Option<Interval>, m: Option<Interval>) -> BoundingBox {
    BoundingBox::xyzm(WraparoundInterval::new(x.lo(), x.hi()), y, z, m)
}

fn set(bits: &u32) -> Operand {
    Operand::Set(Set::from_bits(*bits))
}

/// What sweeps go over.
#[derive(Default)]
pub struct Lists {
    values: Vec<f64>,
    intervals: Vec<Interval>,
    sets: Vec<u32>,
}

impl Lists {
    /// Takes the values of a line; the old ones stay where that gives none.
    pub fn set_values(&mut self, words: &[&str]) -> Option<()> {
        self.values = read_list(words, MOST_VALUES, text::read)?;
        Some(())
    }

    /// Takes the intervals of a line in the same way.
    pub fn set_intervals(&mut self, words: &[&str]) -> Option<()> {
        let ends = read_list(words, 2 * MOST_INTERVALS, text::read)?;
        let pairs = ends.chunks_exact(2);
        if !pairs.remainder().is_empty() {
            return None;
        }
        self.intervals = pairs.map(|ends| Interval::new(ends[0], ends[1])).collect();
        Some(())
    }

    /// Takes the type sets of a line in the same way.
    pub fn set_sets(&mut self, words: &[&str]) -> Option<()> {
        self.sets = read_list(words, MOST_SETS, text::read_set)?;
        Some(())
    }

    /// All operands of a kind.
    pub fn operands(&self, kind: Kind) -> Vec<Operand> {
        match kind {
            Kind::Double => self.values.iter().copied().map(Operand::Double).collect(),
            Kind::Box => self.boxes(),
            Kind::Set => self.sets.iter().map(set).collect(),
            Kind::Record => Vec::new(),
        }
    }

    /// Every box of the intervals: x is the slowest to change, z and m are missing first.
    fn boxes(&self) -> Vec<Operand> {
        let known = self.intervals.iter().copied().map(Some);
        let dimensions: Vec<_> = [None].into_iter().chain(known).collect();
        let mut boxes = Vec::new();
        for &x in &self.intervals {
            for &y in &self.intervals {
                for &z in &dimensions {
                    let made = dimensions.iter().map(|&m| boxed(x, y, z, m));
                    boxes.extend(made.map(Operand::Box));
                }
            }
        }
        boxes
    }
}

fn read_list<T>(words: &[&str], most: usize, read: fn(&str) -> Option<T>) -> Option<Vec<T>> {
    let list: Vec<T> = words.iter().map(|word| read(word)).collect::<Option<_>>()?;
    (list.len() <= most).then_some(list)
}

/// The operands of a call as the call takes them.
pub trait Operands {
    fn kinds() -> Vec<Kind>;

    /// From operands of these kinds.
    fn take(operands: &[&Operand]) -> Self;
}

/// A type that is an operand.
pub trait Taken: Sized {
    const KIND: Kind;

    fn taken(operand: &Operand) -> Option<Self>;
}

impl<T: Taken, const N: usize> Operands for [T; N] {
    fn kinds() -> Vec<Kind> {
        vec![T::KIND; N]
    }

    fn take(operands: &[&Operand]) -> Self {
        std::array::from_fn(|place| take(operands[place]))
    }
}

impl<T: Taken, U: Taken> Operands for (T, U) {
    fn kinds() -> Vec<Kind> {
        vec![T::KIND, U::KIND]
    }

    fn take(operands: &[&Operand]) -> Self {
        (take(operands[0]), take(operands[1]))
    }
}

fn take<T: Taken>(operand: &Operand) -> T {
    T::taken(operand).expect("an operand of this kind")
}

/// Says of a type which operands it is.
macro_rules! taken {
    ($($type:ty: $kind:ident;)*) => { $(
        impl Taken for $type {
            const KIND: Kind = Kind::$kind;

            fn taken(operand: &Operand) -> Option<Self> {
                match operand {
                    Operand::$kind(value) => Some(value.clone()),
                    _ => None,
                }
            }
        }
    )* };
}

taken! {
    f64: Double;
    BoundingBox: Box;
    Set: Set;
    GeoStatistics: Record;
}
