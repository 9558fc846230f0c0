//! Boxes and records as they cross the boundary, and their way to the Rust's and back.

use johikape::Interval;
use oracle::answer::plus_zero;
use oracle::bounding_box::BoundingBox;
use oracle::filters::bounds;
use oracle::interval::IntervalTrait;
use oracle::names::Search;
use oracle::records::{EXTENTS, TOTALS, WITH_EXTENT, WITH_TOTAL};
use oracle::statistics::GeoStatistics;
use oracle::types::GeometryTypeAndDimensionsSet as Set;

/// The number where the intersection of two x has two parts.
pub const TWO_PARTS: u32 = 1;

/// The number where flags are bad, or lists do not fit.
pub const BAD_FLAGS: u32 = 8;

/// Flags of a box, or of a record's: there is one, it knows z, it knows m.
pub const BOX: u8 = 1;
pub const Z: u8 = 2;
pub const M: u8 = 4;

/// The flag of a record's type set, of its first total and of its first extent.
const TYPES: u32 = 8;
const FIRST_TOTAL: u32 = 16;
const FIRST_EXTENT: u32 = 2048;

/// All flags of a record's parts but its box.
pub const PARTS: u32 = 0x1ff8;

/// The flags that a box may have.
pub const BOX_FLAGS: [u8; 4] = [1, 3, 5, 7];

/// What a pattern has in each byte, to see whether a refused call leaves it.
const PATTERN: u8 = 0xa5;

/// A box: eight ends, and flags.
#[derive(Clone, Copy)]
pub struct Bounds {
    pub ends: [f64; 8],
    pub flags: u8,
}

impl Bounds {
    pub const PATTERN: Bounds = Bounds {
        ends: [f64::from_bits(u64::from_ne_bytes([PATTERN; 8])); 8],
        flags: PATTERN,
    };

    /// The box; none where its flags are bad.
    pub fn to_rust(self) -> Option<BoundingBox> {
        let is_good = BOX_FLAGS.contains(&self.flags);
        is_good.then(|| bounds(&self.ends, self.flags))
    }

    /// With +0 for zero; what is missing is 0.
    pub fn of(rust: &BoundingBox) -> Bounds {
        let z = rust.z().map_or([0.0; 2], |z| [z.lo(), z.hi()]);
        let m = rust.m().map_or([0.0; 2], |m| [m.lo(), m.hi()]);
        let flag = |is_known, flag| if is_known { flag } else { 0 };
        let (x, y) = (rust.x(), rust.y());
        let ends = [x.lo(), x.hi(), y.lo(), y.hi(), z[0], z[1], m[0], m[1]];
        Bounds {
            ends: ends.map(plus_zero),
            flags: BOX | flag(rust.z().is_some(), Z) | flag(rust.m().is_some(), M),
        }
    }
}

/// What is written of a geometry: its box, and its type as a set.
#[derive(Clone, Copy)]
pub struct Typed {
    pub bounds: Bounds,
    pub types: u32,
}

impl Typed {
    pub const PATTERN: Typed = Typed {
        bounds: Bounds::PATTERN,
        types: u32::from_ne_bytes([PATTERN; 4]),
    };
}

/// A `bbox` array: six places, of which the first so many are the array.
#[derive(Clone, Copy)]
pub struct Array {
    pub numbers: [f64; 6],
    pub count: usize,
}

impl Array {
    pub const PATTERN: Array = Array {
        numbers: [Bounds::PATTERN.ends[0]; 6],
        count: PATTERN as usize,
    };

    /// With +0 for zero; behind the array is 0.
    pub fn of(array: &[f64]) -> Array {
        let mut numbers = [0.0; 6];
        numbers[..array.len()].copy_from_slice(array);
        Array {
            numbers: numbers.map(plus_zero),
            count: array.len(),
        }
    }
}

/// What a search for a name writes.
#[derive(Clone, Copy)]
pub struct Found {
    pub place: usize,
    pub compared: usize,
}

impl Found {
    pub const PATTERN: Found = Found {
        place: usize::from_ne_bytes([PATTERN; size_of::<usize>()]),
        compared: usize::from_ne_bytes([PATTERN; size_of::<usize>()]),
    };

    pub fn of(search: &Search) -> Found {
        Found {
            place: search.place,
            compared: search.compared,
        }
    }
}

/// What a call of the tariff writes.
#[derive(Clone, Copy)]
pub struct Fee {
    pub cents: u64,
}

impl Fee {
    pub const PATTERN: Fee = Fee {
        cents: u64::from_ne_bytes([PATTERN; 8]),
    };
}

/// A record; also all that any call writes or gives, which uses some of its parts.
#[derive(Clone, Copy)]
pub struct Record {
    pub doubles: [f64; 10],
    pub totals: [i64; 7],
    pub types: u32,
    pub flags: u32,
}

impl Record {
    pub const NONE: Record = Record {
        doubles: [0.0; 10],
        totals: [0; 7],
        types: 0,
        flags: 0,
    };

    pub const PATTERN: Record = Record {
        doubles: [Bounds::PATTERN.ends[0]; 10],
        totals: [i64::from_ne_bytes([PATTERN; 8]); 7],
        types: Typed::PATTERN.types,
        flags: u32::from_ne_bytes([PATTERN; 4]),
    };

    /// The record; none where it has an unknown flag, or one of z or m without a box.
    pub fn to_rust(self) -> Option<GeoStatistics> {
        let flags = self.flags as u8 & (BOX | Z | M);
        let is_known = self.flags & !PARTS == flags.into();
        if !is_known || flags != 0 && !BOX_FLAGS.contains(&flags) {
            return None;
        }
        let mut rust = GeoStatistics::unspecified();
        if flags != 0 {
            rust = rust.with_bbox(Some(bounds(&self.doubles, flags)));
        }
        if self.flags & TYPES != 0 {
            rust = rust.with_geometry_types(Some(Set::from_bits(self.types)));
        }
        for (place, with) in WITH_TOTAL.into_iter().enumerate() {
            if self.flags & FIRST_TOTAL << place != 0 {
                rust = with(rust, self.totals[place]);
            }
        }
        for (place, with) in WITH_EXTENT.into_iter().enumerate() {
            if self.flags & FIRST_EXTENT << place != 0 {
                rust = with(rust, self.doubles[8 + place]);
            }
        }
        Some(rust)
    }

    /// What is missing is 0.
    pub fn of(rust: &GeoStatistics) -> Record {
        let mut record = match rust.bbox() {
            Some(bounds) => Bounds::of(bounds).into(),
            None => Record::NONE,
        };
        if let Some(types) = rust.geometry_types() {
            record.types = types.bits();
            record.flags |= TYPES;
        }
        for (place, total) in TOTALS.into_iter().enumerate() {
            if let Some(total) = total(rust) {
                record.totals[place] = total;
                record.flags |= FIRST_TOTAL << place;
            }
        }
        for (place, extent) in EXTENTS.into_iter().enumerate() {
            if let Some(extent) = extent(rust) {
                record.doubles[8 + place] = extent;
                record.flags |= FIRST_EXTENT << place;
            }
        }
        record
    }

    /// Whether every bit is the same.
    pub fn is_same(&self, other: &Record) -> bool {
        self.agrees(other, |a, b| a.to_bits() == b.to_bits())
    }

    /// Whether all is the same but for what is left open, a NaN's bits.
    pub fn is_alike(&self, other: &Record) -> bool {
        self.agrees(other, |a, b| {
            a.to_bits() == b.to_bits() || a.is_nan() && b.is_nan()
        })
    }

    /// How many ends of intervals, or numbers of an array, are -0. The last two doubles are extents.
    pub fn minus_zeros(&self) -> u64 {
        let ends = &self.doubles[..8];
        let minus = |end: &&f64| **end == 0.0 && end.is_sign_negative();
        ends.iter().filter(minus).count() as u64
    }

    fn agrees(&self, other: &Record, are_same: fn(f64, f64) -> bool) -> bool {
        let mut doubles = self.doubles.iter().zip(&other.doubles);
        (self.flags, self.types, self.totals) == (other.flags, other.types, other.totals)
            && doubles.all(|(a, b)| are_same(*a, *b))
    }
}

impl From<&[f64]> for Record {
    fn from(doubles: &[f64]) -> Record {
        let mut record = Record::NONE;
        record.doubles[..doubles.len()].copy_from_slice(doubles);
        record
    }
}

impl From<Interval> for Record {
    fn from(ends: Interval) -> Record {
        Record::from(&[ends.lo, ends.hi][..])
    }
}

impl From<Bounds> for Record {
    fn from(bounds: Bounds) -> Record {
        Record {
            flags: bounds.flags.into(),
            ..Record::from(&bounds.ends[..])
        }
    }
}

impl From<Typed> for Record {
    fn from(typed: Typed) -> Record {
        Record {
            types: typed.types,
            ..Record::from(typed.bounds)
        }
    }
}

/// With the count as flags.
impl From<Array> for Record {
    fn from(array: Array) -> Record {
        Record {
            flags: array.count as u32,
            ..Record::from(&array.numbers[..])
        }
    }
}

/// With the place and the count as totals.
impl From<Found> for Record {
    fn from(found: Found) -> Record {
        let mut record = Record::NONE;
        record.totals[0] = found.place as i64;
        record.totals[1] = found.compared as i64;
        record
    }
}

/// With the cents as a total.
impl From<Fee> for Record {
    fn from(fee: Fee) -> Record {
        let mut record = Record::NONE;
        record.totals[0] = fee.cents.cast_signed();
        record
    }
}

/// A list of records: ten doubles, seven totals, a type set and flags each.
#[derive(Default)]
pub struct Records {
    pub doubles: Vec<f64>,
    pub totals: Vec<i64>,
    pub types: Vec<u32>,
    pub flags: Vec<u32>,
}

impl Records {
    pub fn push(&mut self, record: &Record) {
        self.doubles.extend(record.doubles);
        self.totals.extend(record.totals);
        self.types.push(record.types);
        self.flags.push(record.flags);
    }

    /// The records; none where the lists do not fit or flags are bad.
    pub fn to_rust(&self) -> Option<Vec<GeoStatistics>> {
        let (doubles, doubles_left) = self.doubles.as_chunks();
        let (totals, totals_left) = self.totals.as_chunks();
        let count = self.flags.len();
        if !doubles_left.is_empty()
            || !totals_left.is_empty()
            || [doubles.len(), totals.len(), self.types.len()] != [count; 3]
        {
            return None;
        }
        let record = |place| {
            let record = Record {
                doubles: doubles[place],
                totals: totals[place],
                types: self.types[place],
                flags: self.flags[place],
            };
            record.to_rust()
        };
        (0..count).map(record).collect()
    }
}
