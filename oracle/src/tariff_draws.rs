//! Sizes and rates of the tariff, drawn.

use crate::random::Random;
use crate::tariff::{MOST_MANY, MOST_RATE, MOST_SIZES, ManySizes, Rates};
use std::array;

const GIB: i64 = 1 << 30;

/// Where the three bands start, and the most bytes there can be.
const EDGES: [i64; 4] = [0, 64 * GIB, 512 * GIB, 1024 * GIB];

impl Random<'_> {
    /// Rates: a third are 0, 1 or the highest, and a third are low. Of eight draws one has a rate too high.
    pub fn rates(&mut self) -> Rates {
        let mut rates = array::from_fn(|_| match self.below(3) {
            0 => [0, 1, MOST_RATE][self.below(3)],
            1 => self.below(20) as u32,
            _ => self.below(MOST_RATE as usize + 1) as u32,
        });
        if self.below(8) == 0 {
            let too_high = [MOST_RATE + 1, u32::MAX, self.bits() as u32 | 1 << 31];
            rates[self.below(3)] = too_high[self.below(3)];
        }
        rates
    }

    /// A size; of eight one is bad.
    pub fn size(&mut self) -> Option<i64> {
        match self.below(8) {
            0 => self.bad_size(),
            _ => Some(self.bytes()),
        }
    }

    /// So many bytes: at an edge of a band, at halves or 32nds of a GiB or anywhere in it, or one byte
    /// beside that. A 32nd at the highest rate has half a cent.
    fn bytes(&mut self) -> i64 {
        let band = self.below(3);
        let width = EDGES[band + 1] - EDGES[band];
        let unit = [width, GIB / 2, GIB / 32, 1][self.below(4)];
        let units = self.below((width / unit + 1) as usize) as i64;
        EDGES[band] + units * unit + [-1, 0, 0, 1][self.below(4)]
    }

    /// A size that is missing, negative or over the most.
    fn bad_size(&mut self) -> Option<i64> {
        let over = EDGES[3] + 1;
        match self.below(8) {
            0..3 => None,
            3 => Some(-1),
            4 => Some(over),
            5 => Some(i64::MIN),
            6 => Some(i64::MAX),
            _ => Some(self.bits().cast_signed() | over),
        }
    }

    /// Sizes: mostly a few, of 16 lists one about as many as there may be, and one any number. Of four
    /// one has a bad size besides.
    pub fn sizes(&mut self) -> Vec<Option<i64>> {
        let count = match self.below(16) {
            0 => self.about_most_sizes(),
            1 => self.below(MOST_MANY as usize),
            2..5 => self.below(45),
            _ => self.below(5),
        };
        let mut sizes = self.parts(count);
        if self.below(4) == 0 {
            let place = self.below(count + 1);
            sizes.insert(place, self.bad_size());
        }
        sizes
    }

    fn about_most_sizes(&mut self) -> usize {
        MOST_SIZES - 2 + self.below(5)
    }

    /// So many sizes with a drawn sum.
    fn parts(&mut self, count: usize) -> Vec<Option<i64>> {
        let mut rest = self.bytes().max(0);
        let parts = (1..=count as i64).rev().map(|left| {
            let size = match left {
                1 => rest,
                _ => self.below((2 * rest / left + 1) as usize) as i64,
            };
            rest -= size;
            Some(size)
        });
        parts.collect()
    }

    /// Many sizes with a drawn sum, half of the time about as many as there may be. Of eight draws one
    /// has a bad last size, and one has bad sizes before it.
    pub fn many_sizes(&mut self) -> ManySizes {
        let count = match self.below(2) {
            0 => self.about_most_sizes(),
            _ => self.below(MOST_MANY as usize + 1),
        };
        let sum = self.bytes().max(0);
        let others = count.saturating_sub(1) as i64;
        let size = sum / (others + 1);
        let mut many = ManySizes {
            count: count as u32,
            size: Some(size),
            last: Some(sum - others * size),
        };
        match self.below(8) {
            0 => many.size = self.bad_size(),
            1 => many.last = self.bad_size(),
            _ => {}
        }
        many
    }
}
