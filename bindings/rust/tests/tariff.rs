//! The scan tariff: fees of records and of lists of sizes.

use johikape::Refusal::{BadRate, BadSize};
use johikape::{BoundingBox, GeoStatistics, Rates, Refusal, fee_of_sizes, fold};

const GIB: i64 = 1 << 30;
const HALF: i64 = GIB / 2;
/// The most bytes that have a fee.
const MOST: i64 = 1 << 40;
const HIGHEST: u32 = 10_000;

const FLAT: Rates = rates(1, 1, 1);
const FALLING: Rates = rates(7, 5, 3);

const fn rates(first: u32, second: u32, third: u32) -> Rates {
    Rates {
        first,
        second,
        third,
    }
}

fn of_size(bytes: Option<i64>) -> GeoStatistics {
    GeoStatistics {
        total_size_bytes: bytes,
        ..GeoStatistics::UNSPECIFIED
    }
}

/// The fee of a record, which is that of its size alone in a list.
fn fee(bytes: Option<i64>, rates: Rates) -> Result<u64, Refusal> {
    let fee = of_size(bytes).fee(rates);
    assert_eq!(fee_of_sizes(&[bytes], rates), fee);
    fee
}

/// Pairs of bytes and what they cost at the rates.
fn cost(rates: Rates, pairs: &[(i64, u64)]) {
    for &(bytes, cents) in pairs {
        assert_eq!(fee(Some(bytes), rates), Ok(cents), "{bytes} at {rates:?}");
    }
}

/// A list without a fee, for a bad size.
fn are_bad(sizes: &[Option<i64>]) {
    assert_eq!(fee_of_sizes(sizes, FLAT), Err(BadSize), "{sizes:?}");
}

#[test]
fn a_half_is_rounded_upward() {
    cost(FLAT, &[(0, 0), (1, 0), (HALF - 1, 0), (HALF, 1)]);
    cost(FLAT, &[(GIB, 1), (GIB + HALF - 1, 1), (GIB + HALF, 2)]);
    cost(rates(3, 0, 0), &[(HALF - 1, 1), (HALF, 2), (GIB, 3)]);
}

#[test]
fn each_band_ends_at_its_byte() {
    let (first, second, third) = (rates(1, 0, 0), rates(0, 1, 0), rates(0, 0, 1));
    let end = 64 * GIB;
    cost(first, &[(end - HALF - 1, 63), (end - HALF, 64)]);
    cost(second, &[(end + HALF - 1, 0), (end + HALF, 1)]);
    let end = 512 * GIB;
    cost(second, &[(end - HALF - 1, 447), (end - HALF, 448)]);
    cost(third, &[(end + HALF - 1, 0), (end + HALF, 1)]);
    for (rates, cents) in [(first, 64), (second, 448), (third, 512)] {
        cost(rates, &[(MOST, cents)]);
    }
}

#[test]
fn the_bands_are_added() {
    cost(FALLING, &[(64 * GIB, 448), (65 * GIB, 453)]);
    cost(FALLING, &[(512 * GIB, 2688), (513 * GIB, 2691)]);
    cost(FALLING, &[(513 * GIB + HALF, 2693), (MOST, 4224)]);
}

#[test]
fn the_most_bytes_at_the_highest_rates() {
    cost(rates(HIGHEST, HIGHEST, HIGHEST), &[(MOST, 10_240_000)]);
    cost(rates(0, 0, 0), &[(MOST, 0)]);
}

#[test]
fn a_bad_size_is_refused() {
    assert_eq!(fee(None, FLAT), Err(BadSize));
    for bytes in [-1, MOST + 1, i64::MIN, i64::MAX] {
        assert_eq!(fee(Some(bytes), FLAT), Err(BadSize), "{bytes}");
    }
}

#[test]
fn a_bad_rate_is_refused_even_where_no_byte_has_it() {
    for over in [HIGHEST + 1, u32::MAX] {
        for bad in [rates(over, 0, 0), rates(0, over, 0), rates(0, 0, over)] {
            assert_eq!(fee(Some(0), bad), Err(BadRate), "{bad:?}");
            assert_eq!(fee(Some(MOST), bad), Err(BadRate), "{bad:?}");
            assert_eq!(fee_of_sizes(&[], bad), Err(BadRate), "{bad:?}");
        }
    }
}

#[test]
fn of_both_faults_the_size_is_named() {
    let bad = rates(HIGHEST + 1, HIGHEST + 1, HIGHEST + 1);
    for bytes in [None, Some(-1), Some(MOST + 1)] {
        assert_eq!(fee(bytes, bad), Err(BadSize), "{bytes:?}");
    }
    assert_eq!(fee_of_sizes(&[Some(0); 1001], bad), Err(BadSize));
}

#[test]
fn of_a_record_only_the_bytes_are_read() {
    let record = GeoStatistics {
        bbox: Some(BoundingBox::xy((f64::NAN, 1.0), (1.0, 0.0))),
        total_geometries: Some(-1),
        total_points: Some(i64::MAX),
        ..of_size(Some(GIB))
    };
    assert_eq!(record.fee(FALLING), Ok(7));
    let missing = GeoStatistics {
        total_size_bytes: None,
        ..record
    };
    assert_eq!(missing.fee(FALLING), Err(BadSize));
}

#[test]
fn a_folded_record_costs_what_its_sizes_cost() {
    let sizes = [Some(63 * GIB + HALF), Some(HALF), Some(3 * GIB)];
    let folded = fold(&sizes.map(of_size)).unwrap();
    assert_eq!(folded.fee(FALLING), Ok(463));
    assert_eq!(fee_of_sizes(&sizes, FALLING), Ok(463));
}

#[test]
fn no_sizes_cost_nothing() {
    assert_eq!(fee_of_sizes(&[], FALLING), Ok(0));
}

#[test]
fn the_sum_is_rounded_and_not_each_size() {
    assert_eq!(fee_of_sizes(&[Some(HALF); 2], FLAT), Ok(1));
    assert_eq!(fee_of_sizes(&[Some(HALF - 1), Some(1)], FLAT), Ok(1));
    assert_eq!(fee_of_sizes(&[Some(HALF - 1); 3], FLAT), Ok(1));
}

#[test]
fn one_bad_size_refuses_a_list() {
    for bad in [None, Some(-1), Some(MOST + 1)] {
        for place in 0..3 {
            let mut sizes = [Some(1); 3];
            sizes[place] = bad;
            are_bad(&sizes);
        }
    }
    // Though the sum is good.
    are_bad(&[Some(MOST + 1), Some(-1)]);
}

#[test]
fn the_sum_is_at_most_the_most_bytes() {
    assert_eq!(fee_of_sizes(&[Some(MOST / 2); 2], FLAT), Ok(1024));
    are_bad(&[Some(MOST), Some(1)]);
    are_bad(&[Some(i64::MAX); 2]);
    are_bad(&[Some(MOST); 1000]);
}

#[test]
fn a_list_has_at_most_1_000_sizes() {
    for (size, cents) in [(0, 0), (HALF, 500)] {
        assert_eq!(fee_of_sizes(&[Some(size); 1000], FLAT), Ok(cents));
        are_bad(&[Some(size); 1001]);
    }
    are_bad(&[None; 1001]);
}
