//! The scan tariff, and many sizes, more than a line can spell. The Rust has no such calls: the fees
//! are written after the paper's text alone, not after the code that they test.

use crate::filters::read_list;
use crate::operands::MISSING;
use crate::records::read_known;
use crate::statistics::GeoStatistics;
use crate::text::{read_set, read_total};

/// A size or the sum is missing, negative or over the most bytes, or sizes are too many.
const SIZES: u64 = 18;
/// A rate is over the highest.
const RATES: u64 = 19;

const GIB: i128 = 1 << 30;

/// The most bytes of a size and of a sum, the most sizes, and the highest rate.
const MOST_BYTES: i128 = 1 << 40;
pub const MOST_SIZES: usize = 1_000;
pub const MOST_RATE: u32 = 10_000;

/// The most sizes of a call of many.
pub const MOST_MANY: u32 = 1024;

/// Cents for a GiB in each of the three bands.
pub type Rates = [u32; 3];

/// The fee of a record's bytes in cents, or the number that refuses it.
pub fn fee_of_record(record: &GeoStatistics, rates: Rates) -> Result<u64, u64> {
    fee(known(record.total_size_bytes())?, rates)
}

/// The fee of the sum of sizes in cents, or the number that refuses it.
pub fn fee_of_sizes(sizes: &[Option<i64>], rates: Rates) -> Result<u64, u64> {
    if sizes.len() > MOST_SIZES {
        return Err(SIZES);
    }
    let mut sum = 0;
    for size in sizes {
        sum += known(*size)?;
    }
    fee(in_range(sum)?, rates)
}

/// The bytes of a size that is known and in range.
fn known(size: Option<i64>) -> Result<i128, u64> {
    in_range(size.ok_or(SIZES)?.into())
}

fn in_range(bytes: i128) -> Result<i128, u64> {
    let is_in_range = (0..=MOST_BYTES).contains(&bytes);
    is_in_range.then_some(bytes).ok_or(SIZES)
}

fn fee(bytes: i128, rates: Rates) -> Result<u64, u64> {
    if rates.iter().any(|rate| *rate > MOST_RATE) {
        return Err(RATES);
    }
    Ok(rounded(exact(bytes, rates)))
}

/// The exact fee, as cents times the bytes of a GiB. All bytes cost the first rate; those above a band
/// cost more or less by what the next rate differs.
fn exact(bytes: i128, rates: Rates) -> i128 {
    let [first, second, third] = rates.map(i128::from);
    let above = |gib: i128| (bytes - gib * GIB).max(0);
    bytes * first + above(64) * (second - first) + above(512) * (third - second)
}

/// The nearest cents; halves go upward.
fn rounded(exact: i128) -> u64 {
    let cents = (2 * exact + GIB) / (2 * GIB);
    cents.try_into().expect("no fee is negative")
}

/// The size that a word spells, as a total of a record; it can be missing.
pub fn read_size(word: &str) -> Option<Option<i64>> {
    read_known(word, read_total)
}

pub fn write_size(size: Option<i64>) -> String {
    size.map_or(MISSING.to_string(), |size| size.to_string())
}

/// Many sizes. All are the same, but for the last.
pub struct ManySizes {
    pub count: u32,
    pub size: Option<i64>,
    pub last: Option<i64>,
}

impl ManySizes {
    /// `COUNT SIZE LAST`; none where these are no such words, or sizes too many.
    pub fn read(words: &[&str]) -> Option<ManySizes> {
        let (count, sizes) = words.split_first()?;
        let count = read_set(count).filter(|count| *count <= MOST_MANY)?;
        match read_list(sizes, read_size)?[..] {
            [size, last] => Some(ManySizes { count, size, last }),
            _ => None,
        }
    }

    pub fn words(&self) -> Vec<String> {
        let sizes = [self.size, self.last].map(write_size);
        [self.count.to_string()].into_iter().chain(sizes).collect()
    }

    pub fn sizes(&self) -> Vec<Option<i64>> {
        let mut sizes = vec![self.size; self.count as usize];
        if let Some(size) = sizes.last_mut() {
            *size = self.last;
        }
        sizes
    }
}

#[cfg(test)]
mod tests {
    use super::*;
    use crate::cases::VALUES;
    use crate::random::Random;

    /// The fee of one size, by both calls.
    fn fee_of(bytes: i128, rates: Rates) -> Result<u64, u64> {
        let size = bytes.try_into().expect("a size");
        let record = GeoStatistics::unspecified().with_total_size_bytes(size);
        let fee = fee_of_sizes(&[Some(size)], rates);
        assert_eq!(fee_of_record(&record, rates), fee);
        fee
    }

    #[test]
    fn halves_go_upward() {
        let half = GIB / 2;
        for (bytes, cents) in [(0, 0), (half, 1), (GIB, 1), (3 * half, 2), (5 * half, 3)] {
            assert_eq!(fee_of(bytes, [1, 0, 0]), Ok(cents));
        }
        assert_eq!(fee_of(half - 1, [1, 0, 0]), Ok(0));
        assert_eq!(fee_of(3 * half - 1, [1, 0, 0]), Ok(1));
        let quarter = Some(1 << 28);
        assert_eq!(fee_of_sizes(&[quarter], [1, 0, 0]), Ok(0));
        assert_eq!(fee_of_sizes(&[quarter, quarter], [1, 0, 0]), Ok(1));
    }

    /// Half a GiB beyond an edge costs half a cent, and a byte less does not.
    #[test]
    fn bands_end_at_a_byte() {
        for (edge, rates) in [(64, [0, 1, 0]), (512, [0, 0, 1])] {
            let beyond = edge * GIB + GIB / 2;
            assert_eq!(fee_of(beyond - 1, rates), Ok(0));
            assert_eq!(fee_of(beyond, rates), Ok(1));
        }
        for (edge, rates) in [(64, [1, 0, 0]), (512, [0, 1, 0])] {
            let within = edge * GIB - GIB / 2;
            let whole = fee_of(edge * GIB, rates);
            assert_eq!(fee_of(within, rates), whole);
            assert_eq!(fee_of(within - 1, rates), whole.map(|cents| cents - 1));
            assert_eq!(fee_of(MOST_BYTES, rates), whole);
        }
    }

    #[test]
    fn whole_gib_cost_the_rates_of_their_bands() {
        let rates = [3, 10_000, 7];
        let mut cents = 0;
        for gib in 0..1024 {
            assert_eq!(fee_of(gib * GIB, rates), Ok(cents));
            let band = usize::from(gib >= 64) + usize::from(gib >= 512);
            cents += u64::from(rates[band]);
        }
        assert_eq!(fee_of(MOST_BYTES, rates), Ok(cents));
    }

    #[test]
    fn both_sides_of_each_limit() {
        let most = Some(1 << 40);
        let list = |sizes: &[Option<i64>]| fee_of_sizes(sizes, [1; 3]);
        assert_eq!(list(&[]), Ok(0));
        assert_eq!(list(&[most, Some(0)]), Ok(1024));
        assert_eq!(list(&[most, Some(1)]), Err(SIZES));
        assert_eq!(list(&[Some(0); 1_000]), Ok(0));
        assert_eq!(list(&[Some(0); 1_001]), Err(SIZES));
        for bad in [None, Some(-1), most.map(|most| most + 1)] {
            assert_eq!(list(&[bad, Some(-1)]), Err(SIZES));
            assert_eq!(list(&[Some(1), bad]), Err(SIZES));
        }
        for band in 0..3 {
            let mut rates = [10_000; 3];
            assert_eq!(fee_of(MOST_BYTES, rates), Ok(10_240_000));
            rates[band] += 1;
            assert_eq!(fee_of(0, rates), Err(RATES));
            assert_eq!(fee_of(-1, rates), Err(SIZES));
            assert_eq!(fee_of_sizes(&[most; 2], rates), Err(SIZES));
        }
    }

    #[test]
    fn many_sizes() {
        let many: [(&str, &[Option<i64>]); 4] = [
            ("0 5 7", &[]),
            ("1 5 7", &[Some(7)]),
            ("3 5 -", &[Some(5), Some(5), None]),
            ("2 - -7", &[None, Some(-7)]),
        ];
        for (line, sizes) in many {
            let words: Vec<&str> = line.split(' ').collect();
            let many = ManySizes::read(&words).expect(line);
            assert_eq!(many.words(), words);
            assert_eq!(many.sizes(), sizes);
        }
        for line in ["", "4 3", "4 3 9 1", "- 3 9", "4 3 x", "1025 1 0"] {
            let words: Vec<&str> = line.split(' ').collect();
            assert!(ManySizes::read(&words).is_none(), "{line}");
        }
    }

    #[test]
    fn all_answers_are_drawn() {
        let mut random = Random::new(1, &VALUES);
        let mut counts = [0; 20];
        for _ in 0..10_000 {
            let rates = random.rates();
            let size = random.size();
            let sizes = [vec![size], random.sizes(), random.many_sizes().sizes()];
            for sizes in sizes {
                let fee = fee_of_sizes(&sizes, rates);
                counts[fee.err().unwrap_or(0) as usize] += 1;
            }
        }
        for number in [0, SIZES, RATES] {
            assert!(counts[number as usize] > 2_000, "{number}");
        }
    }

    #[test]
    fn halves_are_drawn_in_each_band() {
        let mut random = Random::new(1, &VALUES);
        let mut fees = [0; 3];
        let mut halves = [0; 3];
        for _ in 0..10_000 {
            let (sizes, rates) = (random.sizes(), random.rates());
            if fee_of_sizes(&sizes, rates).is_ok() {
                let sum = sizes.into_iter().flatten().map(i128::from).sum();
                let band = usize::from(sum > 64 * GIB) + usize::from(sum > 512 * GIB);
                fees[band] += 1;
                halves[band] += usize::from(exact(sum, rates) % GIB == GIB / 2);
            }
        }
        assert!(fees.iter().all(|count| *count > 1_000), "{fees:?}");
        assert!(halves.iter().all(|count| *count > 30), "{halves:?}");
    }
}
