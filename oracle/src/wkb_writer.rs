//! A geometry, and its bytes in well-known binary.

use crate::wkb::{LINE_STRING, POINT};

pub struct Geometry {
    /// The type code.
    pub code: u32,
    /// The coordinates of a Point, of a LineString, or of each ring of a Polygon.
    pub runs: Vec<Vec<f64>>,
    /// The whole geometries that any other type has.
    pub parts: Vec<Geometry>,
}

impl Geometry {
    pub fn of_runs(code: u32, runs: Vec<Vec<f64>>) -> Geometry {
        let parts = Vec::new();
        Geometry { code, runs, parts }
    }

    pub fn of_parts(code: u32, parts: Vec<Geometry>) -> Geometry {
        let runs = Vec::new();
        Geometry { code, runs, parts }
    }

    /// The last digit of the type code.
    pub fn kind(&self) -> u32 {
        self.code % 1000
    }
}

/// How many coordinates a point has.
pub fn width(code: u32) -> usize {
    [2, 3, 3, 4][code as usize / 1000]
}

/// The bytes of a geometry, where its heads begin and where its counts do.
#[derive(Default)]
pub struct Encoded {
    pub bytes: Vec<u8>,
    pub heads: Vec<usize>,
    pub counts: Vec<usize>,
}

impl Encoded {
    /// Of a geometry. Each whole one in it is asked whether its low bytes come first.
    pub fn of(geometry: &Geometry, is_low: &mut impl FnMut() -> bool) -> Encoded {
        let mut encoded = Encoded::default();
        encoded.put(geometry, is_low);
        encoded
    }

    fn put(&mut self, geometry: &Geometry, is_low: &mut impl FnMut() -> bool) {
        let Geometry { code, runs, parts } = geometry;
        let order = is_low();
        self.heads.push(self.bytes.len());
        self.bytes.push(order.into());
        self.bytes.extend(word(*code, order));
        if geometry.kind() > LINE_STRING {
            self.put_count(runs.len() + parts.len(), order);
        }
        for run in runs {
            if geometry.kind() > POINT {
                self.put_count(run.len() / width(*code), order);
            }
            let doubles = run.iter().map(|double| double.to_le_bytes());
            let doubles = doubles.flat_map(|bytes| ordered(bytes, order));
            self.bytes.extend(doubles);
        }
        for part in parts {
            self.put(part, is_low);
        }
    }

    fn put_count(&mut self, count: usize, is_low: bool) {
        self.counts.push(self.bytes.len());
        self.bytes.extend(word(count as u32, is_low));
    }

    /// Changes the word in a place, where it is there.
    pub fn change(&mut self, place: usize, change: impl FnOnce(u32) -> u32) {
        let is_low = self.is_low(place);
        let bytes = self.bytes.get_mut(place..);
        if let Some(old) = bytes.and_then(|bytes| bytes.first_chunk_mut()) {
            let value = u32::from_le_bytes(ordered(*old, is_low));
            *old = word(change(value), is_low);
        }
    }

    /// Whether low bytes come first in a place: the last head before it says so.
    fn is_low(&self, place: usize) -> bool {
        let head = self.heads.iter().rfind(|head| **head <= place);
        head.is_some_and(|head| self.bytes.get(*head) == Some(&1))
    }
}

/// The bytes of a count or a type code.
pub fn word(value: u32, is_low: bool) -> [u8; 4] {
    ordered(value.to_le_bytes(), is_low)
}

/// From low bytes first to an order, or back.
fn ordered<const N: usize>(mut bytes: [u8; N], is_low: bool) -> [u8; N] {
    if !is_low {
        bytes.reverse();
    }
    bytes
}
