//! Boxes, records and sizes as the library reads and writes them: numbers, and flags that say what is
//! known. What is not known is laid out as 0 and not read.

use crate::bounding_box::BoundingBox;
use crate::interval::{Interval, WraparoundInterval};
use crate::statistics::GeoStatistics;

const BOX: u8 = 1;
const Z: u8 = 2;
const M: u8 = 4;

const TYPES: u32 = 8;
/// In the order of a record's totals.
const TOTALS: [u32; 7] = [16, 32, 64, 128, 256, 512, 1024];
const TOTAL_ENVELOPE_WIDTH: u32 = 2048;
const TOTAL_ENVELOPE_HEIGHT: u32 = 4096;

/// A box, or none: low and high of x, y, z and m, and its flags.
#[derive(Clone, Copy)]
pub(crate) struct Ends {
    pub(crate) doubles: [f64; 8],
    pub(crate) flags: u8,
}

impl Ends {
    /// No box.
    pub(crate) const NONE: Ends = Ends {
        doubles: [0.0; 8],
        flags: 0,
    };

    pub(crate) fn of(bbox: &BoundingBox) -> Ends {
        let unread = Interval::new(0.0, 0.0);
        let z = bbox.z.unwrap_or(unread);
        let m = bbox.m.unwrap_or(unread);
        let mut flags = BOX;
        if bbox.z.is_some() {
            flags |= Z;
        }
        if bbox.m.is_some() {
            flags |= M;
        }
        Ends {
            doubles: [
                bbox.x.lo, bbox.x.hi, bbox.y.lo, bbox.y.hi, z.lo, z.hi, m.lo, m.hi,
            ],
            flags,
        }
    }

    /// The box of ends that are one.
    pub(crate) fn bounding_box(&self) -> BoundingBox {
        let [x_lo, x_hi, y_lo, y_hi, z_lo, z_hi, m_lo, m_hi] = self.doubles;
        BoundingBox::of(
            WraparoundInterval::new(x_lo, x_hi),
            Interval::new(y_lo, y_hi),
            (self.flags & Z != 0).then_some(Interval::new(z_lo, z_hi)),
            (self.flags & M != 0).then_some(Interval::new(m_lo, m_hi)),
        )
    }
}

/// A list of boxes, some of which may be none.
#[derive(Clone, Debug, Default, PartialEq)]
pub(crate) struct Boxes {
    pub(crate) doubles: Vec<[f64; 8]>,
    pub(crate) flags: Vec<u8>,
}

impl Boxes {
    pub(crate) fn push(&mut self, ends: Ends) {
        self.doubles.push(ends.doubles);
        self.flags.push(ends.flags);
    }
}

/// What a filter reads of the records of columns: boxes and types, and 1 where the types are known.
pub(crate) struct Columns {
    pub(crate) boxes: Boxes,
    pub(crate) types: Vec<u32>,
    pub(crate) types_known: Vec<u8>,
}

impl Columns {
    pub(crate) fn of<'a>(records: impl ExactSizeIterator<Item = &'a GeoStatistics>) -> Columns {
        let mut columns = Columns {
            boxes: Boxes {
                doubles: Vec::with_capacity(records.len()),
                flags: Vec::with_capacity(records.len()),
            },
            types: Vec::with_capacity(records.len()),
            types_known: Vec::with_capacity(records.len()),
        };
        for record in records {
            let ends = record.bbox.as_ref().map_or(Ends::NONE, Ends::of);
            let types = record.geometry_types;
            columns.boxes.push(ends);
            columns.types.push(types.unwrap_or_default());
            columns.types_known.push(types.is_some().into());
        }
        columns
    }
}

/// A record: its box and two lengths, its totals, its types, and its flags.
pub(crate) struct Record {
    pub(crate) doubles: [f64; 10],
    pub(crate) totals: [i64; 7],
    pub(crate) types: u32,
    pub(crate) flags: u32,
}

impl Record {
    /// A record of which nothing is known.
    pub(crate) const NONE: Record = Record {
        doubles: [0.0; 10],
        totals: [0; 7],
        types: 0,
        flags: 0,
    };

    pub(crate) fn of(record: &GeoStatistics) -> Record {
        let ends = record.bbox.as_ref().map_or(Ends::NONE, Ends::of);
        let mut flags = u32::from(ends.flags);
        let types = lay(record.geometry_types, TYPES, &mut flags);
        let totals = [
            record.total_geometries,
            record.total_size_bytes,
            record.total_points,
            record.puntal_count,
            record.lineal_count,
            record.polygonal_count,
            record.collection_count,
        ];
        let totals = std::array::from_fn(|k| lay(totals[k], TOTALS[k], &mut flags));
        let width = lay(
            record.total_envelope_width,
            TOTAL_ENVELOPE_WIDTH,
            &mut flags,
        );
        let height = lay(
            record.total_envelope_height,
            TOTAL_ENVELOPE_HEIGHT,
            &mut flags,
        );
        let mut doubles = [0.0; 10];
        doubles[..8].copy_from_slice(&ends.doubles);
        doubles[8..].copy_from_slice(&[width, height]);
        Record {
            doubles,
            totals,
            types,
            flags,
        }
    }

    pub(crate) fn statistics(&self) -> GeoStatistics {
        let ends = Ends {
            doubles: std::array::from_fn(|k| self.doubles[k]),
            flags: (self.flags % TYPES) as u8,
        };
        let known = |flag| self.flags & flag != 0;
        let total = |k: usize| known(TOTALS[k]).then_some(self.totals[k]);
        GeoStatistics {
            bbox: known(u32::from(BOX)).then(|| ends.bounding_box()),
            geometry_types: known(TYPES).then_some(self.types),
            total_geometries: total(0),
            total_size_bytes: total(1),
            total_points: total(2),
            puntal_count: total(3),
            lineal_count: total(4),
            polygonal_count: total(5),
            collection_count: total(6),
            total_envelope_width: known(TOTAL_ENVELOPE_WIDTH).then_some(self.doubles[8]),
            total_envelope_height: known(TOTAL_ENVELOPE_HEIGHT).then_some(self.doubles[9]),
        }
    }
}

/// A part as it is laid out; its flag joins the others where it is known.
fn lay<T: Default>(part: Option<T>, flag: u32, flags: &mut u32) -> T {
    if part.is_some() {
        *flags |= flag;
    }
    part.unwrap_or_default()
}

/// A list of records.
pub(crate) struct Records {
    pub(crate) doubles: Vec<[f64; 10]>,
    pub(crate) totals: Vec<[i64; 7]>,
    pub(crate) types: Vec<u32>,
    pub(crate) flags: Vec<u32>,
}

impl Records {
    pub(crate) fn of(records: &[GeoStatistics]) -> Records {
        let mut lists = Records {
            doubles: Vec::with_capacity(records.len()),
            totals: Vec::with_capacity(records.len()),
            types: Vec::with_capacity(records.len()),
            flags: Vec::with_capacity(records.len()),
        };
        for record in records {
            let record = Record::of(record);
            lists.doubles.push(record.doubles);
            lists.totals.push(record.totals);
            lists.types.push(record.types);
            lists.flags.push(record.flags);
        }
        lists
    }
}

/// A list of sizes: numbers of bytes, and 1 where the number is known.
pub(crate) struct Sizes {
    pub(crate) bytes: Vec<i64>,
    pub(crate) known: Vec<u8>,
}

impl Sizes {
    pub(crate) fn of(sizes: &[Option<i64>]) -> Sizes {
        Sizes {
            bytes: sizes.iter().map(|size| size.unwrap_or_default()).collect(),
            known: sizes.iter().map(|size| size.is_some().into()).collect(),
        }
    }
}
