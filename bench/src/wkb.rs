//! Rows of well-known binary: the box of a geometry, timed per coordinate, which is x and y, with z and
//! m where the type has them.

use crate::draws::Draws;
use crate::layout::Ends;
use crate::timing::{Bench, Row};
use oracle::wkb::wkb_bounds;

const HIGH_FIRST: u8 = 0;
const LOW_FIRST: u8 = 1;

const POINT: u32 = 1;
const LINE_STRING: u32 = 2;
const MULTI_POINT: u32 = 4;
const COLLECTION: u32 = 7;
const ZM: u32 = 3000;

pub fn rows(bench: &Bench) {
    for (which, order) in [("low", LOW_FIRST), ("high", HIGH_FIRST)] {
        let line = Geometry::new(order).list(LINE_STRING, 4000).drawn(4000, 2);
        let what = format!("a LineString of 4000 points, {which} byte first");
        time(bench, &what, line);
    }
    let new = || Geometry::new(LOW_FIRST);
    let deep = new().list(ZM + LINE_STRING, 2000).drawn(2000, 4);
    time(bench, "a LineString ZM of 2000 points", deep);
    let many = new().list(MULTI_POINT, 3000).points(3000);
    time(bench, "a MultiPoint of 3000 points", many);
    let nest = (1..32).fold(new(), |nest, _| nest.list(COLLECTION, 1));
    let nest = nest.list(COLLECTION, 100).points(100);
    time(bench, "100 points in 32 collections", nest);
}

/// The lent files of sedona-db have no reader: beside the library stands the oracle's.
fn time(bench: &Bench, what: &str, geometry: Geometry) {
    bench.row(
        Row {
            name: format!("wkb, a coordinate of {what}"),
            inputs: &[geometry.bytes],
            parts: geometry.coordinates,
        },
        |bytes| wkb_bounds(bytes),
        |answer| {
            let (bbox, types) = answer.as_ref().expect(GOOD);
            (0, Ends::of(bbox), *types)
        },
        |library| {
            let box_from_wkb = library.box_from_wkb()?;
            Some(move |bytes: &Vec<u8>| box_from_wkb(bytes))
        },
    );
}

const GOOD: &str = "these geometries are good";

/// Well-known binary as far as it is written, in one byte order.
struct Geometry {
    order: u8,
    bytes: Vec<u8>,
    coordinates: usize,
    draws: Draws,
}

impl Geometry {
    fn new(order: u8) -> Geometry {
        Geometry {
            order,
            bytes: Vec::new(),
            coordinates: 0,
            draws: Draws::new(),
        }
    }

    /// A head with a count.
    fn list(self, code: u32, count: u32) -> Geometry {
        self.head(code).number(count.to_be_bytes())
    }

    fn head(mut self, code: u32) -> Geometry {
        self.bytes.push(self.order);
        self.number(code.to_be_bytes())
    }

    /// Points with heads of their own.
    fn points(self, count: usize) -> Geometry {
        (0..count).fold(self, |points, _| points.head(POINT).drawn(1, 2))
    }

    /// Coordinates of so many numbers each.
    fn drawn(mut self, count: usize, width: usize) -> Geometry {
        self.coordinates += count;
        (0..count * width).fold(self, |mut drawn, _| {
            let number = drawn.draws.between(-180.0, 180.0);
            drawn.number(number.to_be_bytes())
        })
    }

    /// A number, lent high byte first.
    fn number<const COUNT: usize>(mut self, mut bytes: [u8; COUNT]) -> Geometry {
        if self.order == LOW_FIRST {
            bytes.reverse();
        }
        self.bytes.extend(bytes);
        self
    }
}
