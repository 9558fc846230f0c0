//! A box as GeoParquet's `bbox` array, and back. The Rust has no such calls: these are written after
//! the paper's text alone, not after the code that they test.

use crate::bounding_box::BoundingBox;
use crate::interval::{Interval, IntervalTrait, WraparoundInterval};

/// An array of neither four nor six numbers.
const LENGTH: u64 = 12;
/// Towards an array: m is known.
const KNOWN_M: u64 = 13;
/// A NaN or an infinity in a known number, or a low above its high in y or z.
const NUMBERS: u64 = 14;

/// The numbers of an array with z.
pub const MOST_NUMBERS: usize = 6;

/// Low and high.
type Ends = [f64; 2];

/// The array of a box, or the number that refuses it.
pub fn to_geoparquet(bounds: &BoundingBox) -> Result<Vec<f64>, u64> {
    if bounds.m().is_some() {
        return Err(KNOWN_M);
    }
    let (x, y) = (ends(bounds.x()), ends(bounds.y()));
    let z = bounds.z().as_ref().map(ends);
    check(x, y, z)?;
    Ok(match z {
        None => vec![x[0], y[0], x[1], y[1]],
        Some(z) => vec![x[0], y[0], z[0], x[1], y[1], z[1]],
    })
}

/// The box of an array, or the number that refuses it.
pub fn from_geoparquet(array: &[f64]) -> Result<BoundingBox, u64> {
    let (x, y, z) = match *array {
        [xmin, ymin, xmax, ymax] => ([xmin, xmax], [ymin, ymax], None),
        [xmin, ymin, zmin, xmax, ymax, zmax] => ([xmin, xmax], [ymin, ymax], Some([zmin, zmax])),
        _ => return Err(LENGTH),
    };
    check(x, y, z)?;
    let interval = |[low, high]: Ends| Interval::new(low, high);
    let x = WraparoundInterval::new(x[0], x[1]);
    Ok(BoundingBox::xyzm(x, interval(y), z.map(interval), None))
}

fn ends(interval: &impl IntervalTrait) -> Ends {
    [interval.lo(), interval.hi()]
}

fn check(x: Ends, y: Ends, z: Option<Ends>) -> Result<(), u64> {
    let mut known = [x, y].into_iter().chain(z).flatten();
    let falls = |[low, high]: Ends| low > high;
    if !known.all(f64::is_finite) || falls(y) || z.is_some_and(falls) {
        return Err(NUMBERS);
    }
    Ok(())
}

#[cfg(test)]
mod tests {
    use super::*;
    use crate::cases::VALUES;
    use crate::filters::bounds;
    use crate::random::Random;

    #[test]
    fn all_answers_are_drawn() {
        let mut random = Random::new(1, &VALUES);
        let mut counts = [0; 15];
        for _ in 0..10_000 {
            let (ends, flag) = random.flagged_box();
            let to = to_geoparquet(&bounds(&ends, flag));
            let from = from_geoparquet(&random.array());
            counts[to.err().unwrap_or(0) as usize] += 1;
            counts[from.err().unwrap_or(0) as usize] += 1;
        }
        for number in [0, LENGTH, KNOWN_M, NUMBERS] {
            assert!(counts[number as usize] > 1_000, "{number}");
        }
    }
}
