//! The Rust's values as the library reads and writes them (bindings/c/johikape.h).

use oracle::bounding_box::BoundingBox;
use oracle::interval::{Interval, IntervalTrait};
use oracle::shims::datafusion_physical_expr::expressions::Column;
use oracle::spatial_filter::SpatialFilter;
use oracle::statistics::GeoStatistics;

/// A box: low and high of x, y, z and m, and its flags.
#[derive(Clone, Copy, Debug, Default, PartialEq)]
pub struct Ends {
    pub doubles: [f64; 8],
    pub flags: u8,
}

impl Ends {
    pub fn of(bbox: &BoundingBox) -> Ends {
        let unread = Interval::new(0.0, 0.0);
        let (x, y) = (bbox.x(), bbox.y());
        let (z, m) = (bbox.z().unwrap_or(unread), bbox.m().unwrap_or(unread));
        Ends {
            doubles: [
                x.lo(),
                x.hi(),
                y.lo(),
                y.hi(),
                z.lo(),
                z.hi(),
                m.lo(),
                m.hi(),
            ],
            flags: 1 + 2 * u8::from(bbox.z().is_some()) + 4 * u8::from(bbox.m().is_some()),
        }
    }
}

/// The ends of an interval.
pub fn ends(interval: &impl IntervalTrait) -> johikape::Interval {
    johikape::Interval::new(interval.lo(), interval.hi())
}

/// A list of boxes.
#[derive(Default)]
pub struct Boxes {
    pub doubles: Vec<[f64; 8]>,
    pub flags: Vec<u8>,
}

impl Boxes {
    pub fn push(&mut self, ends: Ends) {
        self.doubles.push(ends.doubles);
        self.flags.push(ends.flags);
    }
}

/// What a filter reads of the records of columns: boxes and types, and 1 where the types are known.
#[derive(Default)]
pub struct Columns {
    pub boxes: Boxes,
    pub types: Vec<u32>,
    pub types_known: Vec<u8>,
}

impl Columns {
    pub fn of(records: &[GeoStatistics]) -> Columns {
        let mut columns = Columns::default();
        for record in records {
            let ends = record.bbox().map(Ends::of).unwrap_or_default();
            let types = record.geometry_types().map(|types| types.bits());
            columns.boxes.push(ends);
            columns.types.push(types.unwrap_or_default());
            columns.types_known.push(types.is_some().into());
        }
        columns
    }
}

/// A filter. The text of a column's name is a letter and the name's number.
#[derive(Default)]
pub struct Filter {
    pub nodes: Vec<[u32; 4]>,
    pub literals: Boxes,
}

impl Filter {
    pub fn of(tree: &SpatialFilter) -> Filter {
        let mut filter = Filter::default();
        filter.push(tree);
        filter
    }

    /// Adds a tree, its root last, and answers the root's number.
    fn push(&mut self, tree: &SpatialFilter) -> u32 {
        let node = match tree {
            SpatialFilter::Intersects(column, bbox) => self.leaf(0, column, bbox),
            SpatialFilter::Covers(column, bbox) => self.leaf(1, column, bbox),
            SpatialFilter::HasZ(column) => [2, column.index() as u32, number(column), 0],
            SpatialFilter::And(left, right) => [3, self.push(left), self.push(right), 0],
            SpatialFilter::Or(left, right) => [4, self.push(left), self.push(right), 0],
            _ => unreachable!("the trees timed here have no other nodes"),
        };
        self.nodes.push(node);
        self.nodes.len() as u32 - 1
    }

    fn leaf(&mut self, kind: u32, column: &Column, bbox: &BoundingBox) -> [u32; 4] {
        self.literals.push(Ends::of(bbox));
        let literal = self.literals.flags.len() as u32 - 1;
        [kind, column.index() as u32, number(column), literal]
    }
}

/// The number of a column's name.
fn number(column: &Column) -> u32 {
    column.name()[1..].parse().expect("a letter and a number")
}

/// A record of which every part is known; its box may lack z and m.
#[derive(Debug, Default, PartialEq)]
pub struct Record {
    pub doubles: [f64; 10],
    pub totals: [i64; 7],
    pub types: u32,
    pub flags: u32,
}

impl Record {
    /// Nothing where a part is not known.
    pub fn of(record: &GeoStatistics) -> Option<Record> {
        let ends = Ends::of(record.bbox()?);
        let mut doubles = [0.0; 10];
        doubles[..8].copy_from_slice(&ends.doubles);
        doubles[8] = record.total_envelope_width()?;
        doubles[9] = record.total_envelope_height()?;
        Some(Record {
            doubles,
            totals: [
                record.total_geometries()?,
                record.total_size_bytes()?,
                record.total_points()?,
                record.puntal_count()?,
                record.lineal_count()?,
                record.polygonal_count()?,
                record.collection_count()?,
            ],
            types: record.geometry_types()?.bits(),
            flags: 0b1_1111_1111_1000 + u32::from(ends.flags),
        })
    }
}

/// A list of records.
#[derive(Default)]
pub struct Records {
    pub doubles: Vec<[f64; 10]>,
    pub totals: Vec<[i64; 7]>,
    pub types: Vec<u32>,
    pub flags: Vec<u32>,
}

impl Records {
    pub fn of(records: &[GeoStatistics]) -> Option<Records> {
        let mut lists = Records::default();
        for record in records {
            let record = Record::of(record)?;
            lists.doubles.push(record.doubles);
            lists.totals.push(record.totals);
            lists.types.push(record.types);
            lists.flags.push(record.flags);
        }
        Some(lists)
    }
}
