//! Inputs drawn from a fixed seed, the same in each run.

use oracle::bounding_box::BoundingBox;
use oracle::interval::Interval;

/// Splitmix64.
pub struct Draws(u64);

impl Draws {
    pub fn new() -> Draws {
        Draws(0)
    }

    fn bits(&mut self) -> u64 {
        self.0 = self.0.wrapping_add(0x9e37_79b9_7f4a_7c15);
        let z = (self.0 ^ (self.0 >> 30)).wrapping_mul(0xbf58_476d_1ce4_e5b9);
        let z = (z ^ (z >> 27)).wrapping_mul(0x94d0_49bb_1331_11eb);
        z ^ (z >> 31)
    }

    /// A double from `lo` up to `hi`.
    pub fn between(&mut self, lo: f64, hi: f64) -> f64 {
        let unit = (self.bits() >> 11) as f64 / (1u64 << 53) as f64;
        lo + unit * (hi - lo)
    }

    /// Numbers of 32 bits that differ.
    pub fn different(&mut self, count: usize) -> Vec<u32> {
        let mut numbers = Vec::new();
        while numbers.len() < count {
            let number = self.bits() as u32;
            if !numbers.contains(&number) {
                numbers.push(number);
            }
        }
        numbers
    }

    /// Puts numbers into a drawn order.
    pub fn shuffle(&mut self, numbers: &mut [u32]) {
        for last in (1..numbers.len()).rev() {
            numbers.swap(last, self.bits() as usize % (last + 1));
        }
    }

    /// A box of longitudes, latitudes, depths and degrees. Its x wraps around where it crosses the
    /// antimeridian.
    pub fn bounding_box(&mut self) -> BoundingBox {
        let west = self.between(-180.0, 180.0);
        let east = west + self.between(0.0, 120.0);
        let x = (west, if east > 180.0 { east - 360.0 } else { east });
        let mut from = |lo, hi, length| {
            let start = self.between(lo, hi);
            (start, start + self.between(0.0, length))
        };
        let y: Interval = from(-60.0, 30.0, 60.0).into();
        let z = from(0.0, 3.0, 3.0).into();
        let m = from(30.0, 60.0, 30.0).into();
        BoundingBox::xyzm(x, y, Some(z), Some(m))
    }
}
