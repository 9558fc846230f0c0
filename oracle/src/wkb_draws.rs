//! Geometries, drawn, and their bytes, whole and damaged.

use crate::filter_draws::put;
use crate::random::Random;
use crate::wkb::{COLLECTION, LINE_STRING, MOST_BYTES, POINT, POLYGON, TO_MEMBER};
use crate::wkb_writer::{Encoded, Geometry, width, word};

/// What a type code has besides its last digit: nothing, Z, M, or both.
const DIMENSIONS: [u32; 4] = [0, 1000, 2000, 3000];

/// The flags that another dialect puts into a type code: Z, M, a reference system.
const FLAGS: [u32; 3] = [0x8000_0000, 0x4000_0000, 0x2000_0000];

/// The bytes of a byte order and a type code, and of a count.
const HEAD: usize = 5;
const COUNT: usize = 4;

impl Random<'_> {
    /// Bytes. Of eight, four are a geometry's, three have a fault or two, and one is garbage.
    pub fn wkb(&mut self) -> Vec<u8> {
        let faults = match self.below(16) {
            0 | 1 => return self.garbage(),
            2 => 2,
            3..8 => 1,
            _ => 0,
        };
        let geometry = self.geometry();
        self.encoded(geometry, faults)
    }

    /// The bytes of a long geometry, whose last points are zeros; half of the time with a fault.
    pub fn padded_wkb(&mut self) -> Vec<u8> {
        let dimensions = self.dimensions();
        let geometry = self.long(dimensions);
        let faults = self.below(2);
        self.encoded(geometry, faults)
    }

    /// The bytes of a geometry with so many faults: a part is another, or bytes are damaged.
    fn encoded(&mut self, mut geometry: Geometry, faults: usize) -> Vec<u8> {
        let strays = (0..faults).filter(|_| self.below(4) == 0).count();
        for _ in 0..strays {
            self.stray(&mut geometry);
        }
        let mut encoded = self.ordered(&geometry);
        for _ in strays..faults {
            self.damage(&mut encoded);
        }
        encoded.bytes
    }

    /// The bytes of a geometry: all low first, all high first, or in an order drawn for each part.
    pub fn ordered(&mut self, geometry: &Geometry) -> Encoded {
        let orders = self.below(3);
        Encoded::of(geometry, &mut || match orders {
            0 => true,
            1 => false,
            _ => self.below(2) == 0,
        })
    }

    /// A geometry: mostly a small one, of eight one is deep, of 512 one is long. Half of them have
    /// doubles of every kind.
    pub fn geometry(&mut self) -> Geometry {
        let dimensions = self.dimensions();
        let mut geometry = match self.below(512) {
            0 => self.long(dimensions),
            1..65 => self.deep(dimensions),
            _ => {
                let code = dimensions + self.member(COLLECTION);
                self.small(code)
            }
        };
        if self.below(2) == 0 {
            self.redraw_points(&mut geometry);
        }
        geometry
    }

    fn dimensions(&mut self) -> u32 {
        DIMENSIONS[self.below(DIMENSIONS.len())]
    }

    /// The type of a part, or one that it may have.
    fn member(&mut self, kind: u32) -> u32 {
        match kind {
            COLLECTION => POINT + self.below(COLLECTION as usize) as u32,
            _ => kind - TO_MEMBER,
        }
    }

    /// A geometry of a few points, rings and parts.
    fn small(&mut self, code: u32) -> Geometry {
        let kind = code % 1000;
        let count = self.below(4);
        match kind {
            POINT => Geometry::of_runs(code, vec![self.run(width(code))]),
            LINE_STRING => Geometry::of_runs(code, vec![self.run(count * width(code))]),
            POLYGON => {
                let rings = (0..count).map(|_| {
                    let points = self.below(4);
                    self.run(points * width(code))
                });
                Geometry::of_runs(code, rings.collect())
            }
            _ => {
                let parts = (0..count).map(|_| {
                    let member = self.member(kind);
                    self.small(code - kind + member)
                });
                Geometry::of_parts(code, parts.collect())
            }
        }
    }

    /// So many plain coordinates, now and then a NaN.
    fn run(&mut self, count: usize) -> Vec<f64> {
        let mut run = Vec::with_capacity(count);
        run.resize_with(count, || match self.below(16) {
            0 => f64::NAN,
            _ => self.below(4001) as f64 / 8.0 - 250.0,
        });
        run
    }

    /// Collections within each other, from 28 to 34, around a small geometry. Of 16 one has another
    /// part too.
    fn deep(&mut self, dimensions: u32) -> Geometry {
        let code = dimensions + 1 + self.below(6) as u32;
        let mut geometry = self.small(code);
        for _ in 0..28 + self.below(7) {
            let mut parts = vec![geometry];
            if self.below(16) == 0 {
                let code = dimensions + self.member(COLLECTION);
                parts.insert(self.below(2), self.small(code));
            }
            geometry = Geometry::of_parts(dimensions + COLLECTION, parts);
        }
        geometry
    }

    /// A collection of about as many bytes as there may be.
    fn long(&mut self, dimensions: u32) -> Geometry {
        let length = MOST_BYTES - 3 + self.below(7);
        self.of_length(dimensions, length)
    }

    /// A collection of so many bytes: Points, LineStrings without points, and one of zeros.
    fn of_length(&mut self, dimensions: u32, length: usize) -> Geometry {
        let size = 8 * width(dimensions);
        let line = |count| Geometry::of_runs(dimensions + LINE_STRING, vec![vec![0.0; count]]);
        let mut rest = length - 2 * (HEAD + COUNT);
        let mut parts = Vec::new();
        while !rest.is_multiple_of(size) {
            // Three goes into 24 and into nine, so that here LineStrings alone would never do.
            if size == 24 && !rest.is_multiple_of(3) {
                parts.push(self.small(dimensions + POINT));
                rest -= HEAD + size;
            } else {
                parts.push(line(0));
                rest -= HEAD + COUNT;
            }
        }
        parts.push(line(rest / 8));
        Geometry::of_parts(dimensions + COLLECTION, parts)
    }

    /// Draws the coordinates anew, of every kind.
    fn redraw_points(&mut self, geometry: &mut Geometry) {
        for run in &mut geometry.runs {
            *run = self.doubles(run.len(), run.len());
        }
        for part in &mut geometry.parts {
            self.redraw_points(part);
        }
    }

    /// Makes a part one of any type and dimensions.
    fn stray(&mut self, geometry: &mut Geometry) {
        let place = self.below(geometry.parts.len());
        let Some(part) = geometry.parts.get_mut(place) else {
            return;
        };
        if part.parts.is_empty() || self.below(4) == 0 {
            let code = self.dimensions() + self.member(COLLECTION);
            *part = self.small(code);
        } else {
            self.stray(part);
        }
    }

    /// Makes a fault, or now and then none.
    fn damage(&mut self, encoded: &mut Encoded) {
        let any = self.bits() as u32;
        let place = self.below(encoded.bytes.len());
        let head = encoded.heads[self.below(encoded.heads.len())];
        let count = encoded.counts.get(self.below(encoded.counts.len()));
        match (self.below(10), count.copied()) {
            (0, _) => encoded.bytes.truncate(place),
            (1, _) => put(&mut encoded.bytes, place, any as u8),
            (2, _) => encoded.bytes.extend(&any.to_ne_bytes()[self.below(4)..]),
            (3, _) => put(&mut encoded.bytes, head, [0, 1, 2, 255][self.below(4)]),
            (4, _) => put(&mut encoded.bytes, head, any as u8),
            (5, _) => encoded.change(head + 1, |code| code | FLAGS[self.below(3)]),
            (6, _) => encoded.change(head + 1, |_| self.code()),
            (7, Some(count)) => encoded.change(count, |count| count.wrapping_add(1)),
            (8, Some(count)) => encoded.change(count, |count| count.wrapping_sub(1)),
            (_, Some(count)) => encoded.change(count, |_| any),
            (_, None) => {}
        }
    }

    /// A type code, or a number that is nearly one.
    fn code(&mut self) -> u32 {
        1000 * self.below(5) as u32 + self.below(9) as u32
    }

    /// Up to 15 heads, counts, doubles and bytes.
    fn garbage(&mut self) -> Vec<u8> {
        let mut bytes = Vec::new();
        let mut is_low = true;
        for _ in 0..self.below(16) {
            match self.below(8) {
                0..4 => {
                    is_low = self.below(2) == 0;
                    bytes.push(is_low.into());
                    bytes.extend(word(self.code(), is_low));
                }
                4..6 => bytes.extend(word(self.below(3) as u32, is_low)),
                6 => bytes.extend(self.bits().to_ne_bytes()),
                _ => bytes.push(self.below(4) as u8),
            }
        }
        bytes
    }
}

#[cfg(test)]
mod tests {
    use super::*;
    use crate::bounding_box::BoundingBox;
    use crate::bounds::{geo_traits_bounds_m, geo_traits_bounds_xy, geo_traits_bounds_z};
    use crate::cases::VALUES;
    use crate::error::SedonaGeometryError;
    use crate::types::{GeometryTypeAndDimensions, GeometryTypeAndDimensionsSet};
    use crate::wkb::{MOST_DEEP, wkb_bounds};
    use std::collections::HashSet;

    #[test]
    fn all_answers_are_drawn() {
        let mut random = Random::new(1, &VALUES);
        let mut numbers = [0; 18];
        let mut types = [0; 32];
        let mut lengths = HashSet::new();
        for _ in 0..50_000 {
            let bytes = random.wkb();
            lengths.insert(bytes.len());
            match wkb_bounds(&bytes) {
                Ok((_, bits)) => types[bits.ilog2() as usize] += 1,
                Err(number) => numbers[number as usize] += 1,
            }
        }
        for number in 15..18 {
            assert!(numbers[number] > 500, "{number}: {numbers:?}");
        }
        for (bit, count) in types.into_iter().enumerate() {
            assert_eq!(count > 500, bit % 8 != 0, "{bit}: {types:?}");
        }
        for length in [0, MOST_BYTES, MOST_BYTES + 1] {
            assert!(lengths.contains(&length), "{length}");
        }
    }

    /// However its bytes are ordered, a geometry has one answer: the Rust's, which reads no bytes.
    #[test]
    fn answers_are_those_of_the_rust() {
        let mut random = Random::new(1, &VALUES);
        let mut different = 0;
        let mut numbers = [0; 18];
        let mut types = [0; 3];
        for _ in 0..20_000 {
            let geometry = random.geometry();
            let [one, other] = std::array::from_fn(|_| random.ordered(&geometry).bytes);
            let expected = expected(&geometry, one.len());
            assert_eq!(wkb_bounds(&one), expected);
            assert_eq!(wkb_bounds(&other), expected);
            different += usize::from(one != other);
            if let Ok((bounds, bits)) = &expected {
                let has = |is_such| any(&geometry, is_such);
                let marks = [bounds.is_empty(), has(f64::is_nan), has(f64::is_infinite)];
                for (types, mark) in types.iter_mut().zip(marks) {
                    *types |= bits * u32::from(mark);
                }
            }
            numbers[expected.err().unwrap_or(0) as usize] += 1;
        }
        // Of every type one has an empty box, one a NaN, and one an infinity.
        assert_eq!(types, [0xfefe_fefe; 3]);
        assert!(different > 10_000, "{different}");
        assert!(numbers[0] > 10_000 && numbers[15] > 5 && numbers[17] > 200);
    }

    #[test]
    fn long_ones_are_as_long_as_they_are_asked_for() {
        let mut random = Random::new(1, &VALUES);
        for dimensions in DIMENSIONS {
            for length in MOST_BYTES - 3..MOST_BYTES + 4 {
                let geometry = random.of_length(dimensions, length);
                let bytes = random.ordered(&geometry).bytes;
                assert_eq!(bytes.len(), length, "{dimensions}");
            }
        }
    }

    /// The answer to a geometry of so many bytes.
    fn expected(geometry: &Geometry, length: usize) -> Result<(BoundingBox, u32), u64> {
        if length > MOST_BYTES {
            Err(15)
        } else if depth(geometry) > MOST_DEEP {
            Err(17)
        } else {
            Ok(by_the_rust(geometry).expect("a type of the Rust"))
        }
    }

    fn depth(geometry: &Geometry) -> u32 {
        let deepest = geometry.parts.iter().map(depth).max().unwrap_or(0);
        deepest + u32::from(geometry.kind() == COLLECTION)
    }

    /// Whether a coordinate is such a one.
    fn any(geometry: &Geometry, is_such: fn(f64) -> bool) -> bool {
        let mut coordinates = geometry.runs.iter().flatten();
        let mut parts = geometry.parts.iter();
        coordinates.any(|coordinate| is_such(*coordinate)) || parts.any(|part| any(part, is_such))
    }

    /// The box of a geometry and its type, by the Rust.
    fn by_the_rust(geometry: &Geometry) -> Result<(BoundingBox, u32), SedonaGeometryError> {
        let plane = geo_traits_bounds_xy(geometry)?;
        let z = geo_traits_bounds_z(geometry)?;
        let m = geo_traits_bounds_m(geometry)?;
        let has = |dimension| (geometry.code / 1000) & dimension != 0;
        let (z, m) = (has(1).then_some(z), has(2).then_some(m));
        let bounds = BoundingBox::xyzm(*plane.x(), *plane.y(), z, m);
        let mut types = GeometryTypeAndDimensionsSet::new();
        types.insert(&GeometryTypeAndDimensions::try_from_geom(&geometry)?)?;
        Ok((bounds, types.bits()))
    }
}
