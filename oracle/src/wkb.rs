//! The box and the type of a geometry in well-known binary (OGC 06-103r4, with ISO's type codes).
//! The Rust has such bytes read by another crate, which is not lent: this reader is written after
//! the paper's text alone, not after the code that it tests.

use crate::bounding_box::BoundingBox;
use crate::interval::{Interval, IntervalTrait};
use std::ops::RangeInclusive;

/// Bytes too few, left over, or over `MOST_BYTES`.
const LENGTH: u64 = 15;
/// An unknown byte order, or a wrong type code.
const TYPE: u64 = 16;
/// More than `MOST_DEEP` collections, each within the next.
const DEPTH: u64 = 17;

pub const MOST_BYTES: usize = 65_536;
pub const MOST_DEEP: u32 = 32;

/// Types, by the last digit of their codes.
pub const POINT: u32 = 1;
pub const LINE_STRING: u32 = 2;
pub const POLYGON: u32 = 3;
pub const MULTI_POINT: u32 = 4;
pub const MULTI_LINE_STRING: u32 = 5;
pub const MULTI_POLYGON: u32 = 6;
pub const COLLECTION: u32 = 7;

/// From the type of a MultiPoint, MultiLineString or MultiPolygon to that of its parts.
pub const TO_MEMBER: u32 = MULTI_POINT - POINT;

/// The box of a geometry and its type, as the bits of a set; or the number that refuses it.
pub fn wkb_bounds(bytes: &[u8]) -> Result<(BoundingBox, u32), u64> {
    if bytes.len() > MOST_BYTES {
        return Err(LENGTH);
    }
    let mut rest = bytes;
    let head = Head::read(&mut rest)?;
    let bounds = match head.dimensions {
        0 => {
            let [x, y] = intervals(head, rest)?;
            BoundingBox::xy(x, y)
        }
        1 => {
            let [x, y, z] = intervals(head, rest)?;
            BoundingBox::xyzm(x, y, Some(z), None)
        }
        2 => {
            let [x, y, m] = intervals(head, rest)?;
            BoundingBox::xyzm(x, y, None, Some(m))
        }
        _ => {
            let [x, y, z, m] = intervals(head, rest)?;
            BoundingBox::xyzm(x, y, Some(z), Some(m))
        }
    };
    Ok((bounds, 1 << (8 * head.dimensions + head.kind)))
}

/// The intervals of all that comes behind the outermost head.
fn intervals<const N: usize>(head: Head, rest: &[u8]) -> Result<[Interval; N], u64> {
    let mut reader = Reader {
        rest,
        dimensions: head.dimensions,
        intervals: [Interval::empty(); N],
    };
    reader.body(head, 0)?;
    if !reader.rest.is_empty() {
        return Err(LENGTH);
    }
    Ok(reader.intervals)
}

#[derive(Clone, Copy)]
enum Order {
    HighFirst,
    LowFirst,
}

impl Order {
    fn word(self, bytes: [u8; 4]) -> u32 {
        match self {
            Order::HighFirst => u32::from_be_bytes(bytes),
            Order::LowFirst => u32::from_le_bytes(bytes),
        }
    }
}

/// What a whole geometry begins with: its byte order and its type code.
#[derive(Clone, Copy)]
struct Head {
    order: Order,
    /// From `POINT` to `COLLECTION`.
    kind: u32,
    /// 1 with z, 2 with m, 3 with both, else 0.
    dimensions: u32,
}

impl Head {
    fn read(rest: &mut &[u8]) -> Result<Head, u64> {
        let order = match take(rest)? {
            [0] => Order::HighFirst,
            [1] => Order::LowFirst,
            _ => return Err(TYPE),
        };
        let code = order.word(take(rest)?);
        let (dimensions, kind) = (code / 1000, code % 1000);
        if dimensions > 3 || !(POINT..=COLLECTION).contains(&kind) {
            return Err(TYPE);
        }
        Ok(Head {
            order,
            kind,
            dimensions,
        })
    }
}

/// The next bytes, taken from the rest.
fn take<const N: usize>(rest: &mut &[u8]) -> Result<[u8; N], u64> {
    let (taken, others) = rest.split_first_chunk().ok_or(LENGTH)?;
    *rest = others;
    Ok(*taken)
}

/// The bytes that are still to be read, and an interval for each of the dimensions.
struct Reader<'a, const N: usize> {
    rest: &'a [u8],
    dimensions: u32,
    intervals: [Interval; N],
}

impl<const N: usize> Reader<'_, N> {
    /// Reads what comes behind a head, which has so many collections around it.
    fn body(&mut self, head: Head, around: u32) -> Result<(), u64> {
        let Head { order, kind, .. } = head;
        if kind == COLLECTION && around == MOST_DEEP {
            return Err(DEPTH);
        }
        if kind == POINT {
            return self.points(order, 1);
        }
        let count = self.count(order)?;
        match kind {
            LINE_STRING => self.points(order, count),
            POLYGON => self.rings(order, count),
            COLLECTION => self.parts(count, POINT..=COLLECTION, around + 1),
            _ => self.parts(count, kind - TO_MEMBER..=kind - TO_MEMBER, around),
        }
    }

    fn count(&mut self, order: Order) -> Result<u32, u64> {
        Ok(order.word(take(&mut self.rest)?))
    }

    fn rings(&mut self, order: Order, count: u32) -> Result<(), u64> {
        for _ in 0..count {
            let points = self.count(order)?;
            self.points(order, points)?;
        }
        Ok(())
    }

    /// Reads so many whole geometries of these kinds, which have so many collections around them.
    fn parts(&mut self, count: u32, kinds: RangeInclusive<u32>, around: u32) -> Result<(), u64> {
        for _ in 0..count {
            let head = Head::read(&mut self.rest)?;
            if head.dimensions != self.dimensions || !kinds.contains(&head.kind) {
                return Err(TYPE);
            }
            self.body(head, around)?;
        }
        Ok(())
    }

    fn points(&mut self, order: Order, count: u32) -> Result<(), u64> {
        let length = (8 * N).saturating_mul(count as usize);
        let (points, rest) = self.rest.split_at_checked(length).ok_or(LENGTH)?;
        self.rest = rest;
        match order {
            Order::HighFirst => self.enter(points, f64::from_be_bytes),
            Order::LowFirst => self.enter(points, f64::from_le_bytes),
        }
        Ok(())
    }

    /// Has the coordinates of points enter the intervals.
    fn enter(&mut self, points: &[u8], read: impl Fn([u8; 8]) -> f64) {
        let (coordinates, _) = points.as_chunks();
        let (points, _) = coordinates.as_chunks::<N>();
        for point in points {
            for (interval, coordinate) in self.intervals.iter_mut().zip(point) {
                interval.update_value(read(*coordinate));
            }
        }
    }
}

#[cfg(test)]
mod tests {
    use super::*;
    use crate::answer::Answer;
    use crate::text::read_bytes;

    /// A LineString without points.
    const NO_POINTS: &str = "01 02000000 00000000 ";

    /// The bytes of words. 1, 2 and NaN go by names: low byte first, or high byte first.
    fn bytes(line: &str) -> Vec<u8> {
        let words = line.split_whitespace().map(|word| match word {
            "L1" => "000000000000f03f",
            "L2" => "0000000000000040",
            "LN" => "000000000000f87f",
            "H1" => "3ff0000000000000",
            "H2" => "4000000000000000",
            word => word,
        });
        read_bytes(&words.collect::<Vec<_>>()).expect("hex digits")
    }

    fn answer(line: &str) -> String {
        Answer::typed(wkb_bounds(&bytes(line))).text()
    }

    fn number(line: &str) -> u64 {
        wkb_bounds(&bytes(line)).err().unwrap_or(0)
    }

    /// So many collections, each within the one before.
    fn nest(depth: usize) -> String {
        "01 07000000 01000000 ".repeat(depth)
    }

    /// A collection of LineStrings without points, and of one of zeros.
    fn zeros(count: &str, without_points: usize, points: &str, length: usize) -> Vec<u8> {
        let rest = NO_POINTS.repeat(without_points);
        let mut bytes = bytes(&format!("01 07000000 {count} {rest} 01 02000000 {points}"));
        bytes.resize(length, 0);
        bytes
    }

    #[test]
    fn dimensions() {
        let points = [
            ("01 01000000 L1 L2", "0 1 1 2 2 - - - - 2"),
            ("00 00000001 H1 H2", "0 1 1 2 2 - - - - 2"),
            ("01 e9030000 L1 L2 L2", "0 1 1 2 2 2 2 - - 512"),
            ("00 000003e9 H1 H2 H1", "0 1 1 2 2 1 1 - - 512"),
            ("01 d1070000 L1 L2 L1", "0 1 1 2 2 - - 1 1 131072"),
            ("00 000007d1 H1 H2 H2", "0 1 1 2 2 - - 2 2 131072"),
            ("01 b90b0000 L1 L2 L1 L2", "0 1 1 2 2 1 1 2 2 33554432"),
            ("00 00000bb9 H1 H2 H2 H1", "0 1 1 2 2 2 2 1 1 33554432"),
        ];
        for (line, expected) in points {
            assert_eq!(answer(line), expected, "{line}");
        }
    }

    #[test]
    fn types() {
        let lines = [
            "01 02000000 02000000 L1 L2 L2 L1",
            "01 03000000 02000000 01000000 L1 L2 01000000 L2 L1",
            "01 04000000 02000000 00 00000001 H1 H2 01 01000000 L2 L1",
            "01 05000000 02000000 00 00000002 00000001 H1 H2 01 02000000 01000000 L2 L1",
            "00 00000006 00000001 01 03000000 02000000 01000000 L1 L2 01000000 L2 L1",
            "00 00000007 00000002 01 01000000 L1 L2 00 00000004 00000001 01 01000000 L2 L1",
        ];
        for (line, kind) in lines.into_iter().zip(LINE_STRING..) {
            let expected = format!("0 1 2 1 2 - - - - {}", 1 << kind);
            assert_eq!(answer(line), expected, "{line}");
        }
    }

    #[test]
    fn coordinates() {
        let lines = [
            ("01 01000000 LN LN", "0 inf -inf inf -inf - - - - 2"),
            ("01 01000000 LN L2", "0 inf -inf 2 2 - - - - 2"),
            ("01 02000000 02000000 LN L1 L2 LN", "0 2 2 1 1 - - - - 4"),
            ("00 00000001 7ff0000000000000 H1", "0 inf inf 1 1 - - - - 2"),
            ("00 00000003 00000000", "0 inf -inf inf -inf - - - - 8"),
            (
                "00 000003ea 00000000",
                "0 inf -inf inf -inf inf -inf - - 1024",
            ),
        ];
        for (line, expected) in lines {
            assert_eq!(answer(line), expected, "{line}");
        }
    }

    #[test]
    fn lengths() {
        let whole = bytes("01 07000000 02000000 00 00000001 H1 H2 01 03000000 01000000 00000000");
        assert!(wkb_bounds(&whole).is_ok());
        for end in 0..whole.len() {
            assert_eq!(wkb_bounds(&whole[..end]), Err(LENGTH), "{end}");
        }
        let longer = [&whole[..], &[0]].concat();
        assert_eq!(wkb_bounds(&longer), Err(LENGTH));
        for line in [
            "01 02000000 02000000 L1 L2",
            "01 02000000 ffffffff L1 L2",
            "01 02000000 01000010 L1 L2",
            "01 03000000 01000000 ffffffff L1 L2",
            "01 03000000 ffffffff 00000000",
            "01 04000000 ffffffff 01 01000000 L1 L2",
            "01 07000000 ffffffff 01 02000000 00000000",
        ] {
            assert_eq!(answer(line), "15 inf -inf inf -inf - - - - 0", "{line}");
        }
    }

    #[test]
    fn the_most_bytes() {
        let most = zeros("0f000000", 14, "f70f0000", MOST_BYTES);
        assert!(wkb_bounds(&most).is_ok());
        let mut over = zeros("08000000", 7, "fb0f0000", MOST_BYTES + 1);
        assert_eq!(wkb_bounds(&over), Err(LENGTH));
        over[0] = 2;
        assert_eq!(wkb_bounds(&over), Err(LENGTH));
        over.pop();
        assert_eq!(wkb_bounds(&over), Err(TYPE));
    }

    #[test]
    fn heads() {
        for line in [
            "02",
            "ff 01000000 L1 L2",
            "01 00000000",
            "01 08000000 L1 L2",
            "01 e8030000 00000000",
            "01 a10f0000 L1 L2",
            "00 01000000 H1 H2",
            "01 01000080 L1 L2 L1",
            "01 04000000 01000000 01 02000000 00000000",
            "01 04000000 01000000 01 04000000 00000000",
            "01 05000000 01000000 01 03000000 00000000",
            "01 06000000 01000000 01 07000000 00000000",
            "01 04000000 01000000 01 e9030000 L1 L2 L2",
            "01 ef030000 01000000 01 d1070000 L1 L2 L2",
            "01 07000000 ffffffff 02",
        ] {
            assert_eq!(answer(line), "16 inf -inf inf -inf - - - - 0", "{line}");
        }
    }

    #[test]
    fn depths() {
        let behind = [
            ("00 00000006 00000001 00 00000003 00000000", 0),
            ("01 07000000 00000000", DEPTH),
            ("01 07000000", DEPTH),
            ("01 070000", LENGTH),
            ("01 ef030000", TYPE),
            ("01 04000000 01000000 01 07000000", TYPE),
        ];
        for (line, expected) in behind {
            assert_eq!(number(&(nest(32) + line)), expected, "{line}");
        }
        assert_eq!(number(&(nest(31) + "01 07000000 00000000")), 0);
        let one = nest(31) + NO_POINTS;
        assert_eq!(number(&format!("01 07000000 02000000 {one} {one}")), 0);
    }
}
