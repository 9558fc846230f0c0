//! Cases and what calls gave, as text: each double by its bits and as a number.

use crate::cases::{
    BoxCase, FilterCase, IntervalCase, LayoutCase, RecordCase, TariffCase, WideCase, WkbCase,
};
use crate::layout::{Bounds, Record, Records};
use johikape::Interval;
use oracle::filters::Boxes;
use oracle::text::write_bytes;
use std::fmt::{Display, Formatter, Result};

fn doubles(doubles: &[f64]) -> String {
    let texts = doubles
        .iter()
        .map(|double| format!("x{:016x} ({double:?})", double.to_bits()));
    texts.collect::<Vec<_>>().join(", ")
}

impl Display for Bounds {
    fn fmt(&self, f: &mut Formatter<'_>) -> Result {
        write!(f, "flags {}, ends {}", self.flags, doubles(&self.ends))
    }
}

/// A line for each part. Parts that are 0 are left out, and so are the last doubles that are.
impl Display for Record {
    fn fmt(&self, f: &mut Formatter<'_>) -> Result {
        let used = self
            .doubles
            .iter()
            .rposition(|double| double.to_bits() != 0);
        if let Some(last) = used {
            write!(f, "\n    doubles {}", doubles(&self.doubles[..=last]))?;
        }
        if self.totals != [0; 7] {
            write!(f, "\n    totals {:?}", self.totals)?;
        }
        for (name, bits) in [("types", self.types), ("flags", self.flags)] {
            if bits != 0 {
                write!(f, "\n    {name} {bits}")?;
            }
        }
        Ok(())
    }
}

impl Display for IntervalCase {
    fn fmt(&self, f: &mut Formatter<'_>) -> Result {
        let ends = |i: Interval| doubles(&[i.lo, i.hi]);
        writeln!(f, "a: {}\nb: {}", ends(self.a), ends(self.b))?;
        write!(f, "value: {}", doubles(&[self.value]))
    }
}

impl Display for BoxCase {
    fn fmt(&self, f: &mut Formatter<'_>) -> Result {
        writeln!(f, "a: {}\nb: {}", self.a, self.b)?;
        write!(f, "distance: {}", doubles(&[self.distance]))
    }
}

impl Display for LayoutCase {
    fn fmt(&self, f: &mut Formatter<'_>) -> Result {
        write!(f, "box: {}\narray: {}", self.bounds, doubles(&self.array))
    }
}

impl Display for WkbCase {
    fn fmt(&self, f: &mut Formatter<'_>) -> Result {
        let bytes = write_bytes(&self.bytes).join(" ");
        write!(f, "{} bytes: {bytes}", self.bytes.len())
    }
}

impl Display for RecordCase {
    fn fmt(&self, f: &mut Formatter<'_>) -> Result {
        write!(f, "a:{}\nb:{}", self.a, self.b)
    }
}

impl Display for Records {
    fn fmt(&self, f: &mut Formatter<'_>) -> Result {
        writeln!(f, "flags: {:?}\ntypes: {:?}", self.flags, self.types)?;
        writeln!(f, "totals: {:?}", self.totals)?;
        write!(f, "doubles: {}", doubles(&self.doubles))
    }
}

impl Display for TariffCase {
    fn fmt(&self, f: &mut Formatter<'_>) -> Result {
        writeln!(f, "rates: {:?}\nrecord:{}", self.rates, self.record)?;
        write!(f, "sizes: {:?}\nknown: {:?}", self.sizes, self.known)
    }
}

impl Display for FilterCase {
    fn fmt(&self, f: &mut Formatter<'_>) -> Result {
        let tables = &self.tables;
        writeln!(f, "nodes: {:?}", tables.nodes)?;
        show_boxes(f, "literals", &tables.literals)?;
        show_boxes(f, "records", &tables.records)?;
        writeln!(f, "record types: {:?}", tables.record_types)?;
        writeln!(f, "types known: {:?}", tables.types_known)?;
        write!(f, "names: {:?}\nname: {}", tables.names, self.name)
    }
}

/// The records are not shown: the x of each is its place, and all else 0.
impl Display for WideCase {
    fn fmt(&self, f: &mut Formatter<'_>) -> Result {
        let tables = &self.tables;
        writeln!(f, "nodes: {:?}", tables.nodes)?;
        show_boxes(f, "literals", &tables.literals)?;
        write!(f, "names: {:?}\nname: {}", tables.names, self.name)
    }
}

fn show_boxes(f: &mut Formatter<'_>, name: &str, boxes: &Boxes) -> Result {
    let ends = doubles(&boxes.ends);
    writeln!(f, "{name}: flags {:?}, ends {ends}", boxes.flags)
}
