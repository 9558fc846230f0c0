//! The scan tariff: what it costs to read bytes of files that a filter does not rule out.

use crate::calls;
use crate::layout::Sizes;
use crate::refusal::Refusal;

/// The rates of the tariff, each in whole cents for a GiB (2^30 bytes), at most 10,000.
///
/// A fee adds the bands exactly and is then rounded once to the cent, halves upward.
///
/// ```
/// use johikape::{GeoStatistics, Rates};
///
/// let rates = Rates { first: 7, second: 5, third: 3 };
/// let gib = |count: i64| GeoStatistics {
///     total_size_bytes: Some(count << 30),
///     ..GeoStatistics::UNSPECIFIED
/// };
/// assert_eq!(gib(64).fee(rates)?, 64 * 7);
/// assert_eq!(gib(512).fee(rates)?, 64 * 7 + 448 * 5);
/// assert_eq!(gib(1024).fee(rates)?, 64 * 7 + 448 * 5 + 512 * 3);
/// # Ok::<(), johikape::Refusal>(())
/// ```
#[derive(Clone, Copy, Debug, PartialEq, Eq, Hash)]
pub struct Rates {
    /// That of the bytes up to 64 GiB.
    pub first: u32,
    /// That of the bytes above 64 GiB, up to 512 GiB.
    pub second: u32,
    /// That of the bytes above 512 GiB.
    pub third: u32,
}

/// The fee for reading files of these sizes, in cents: that of the sum of at most 1,000 numbers of
/// bytes, as [`Rates`] says. No sizes cost 0.
///
/// # Errors
///
/// [`Refusal::BadSize`] where a size or the sum is missing, negative or over 2^40, or there are more
/// sizes; then [`Refusal::BadRate`] where a rate is over 10,000.
///
/// ```
/// use johikape::{Rates, Refusal, fee_of_sizes};
///
/// let rates = Rates { first: 1, second: 1, third: 1 };
/// let half_a_gib = Some(1 << 29);
/// assert_eq!(fee_of_sizes(&[half_a_gib, half_a_gib], rates)?, 1);
/// assert_eq!(fee_of_sizes(&[half_a_gib, None], rates), Err(Refusal::BadSize));
/// # Ok::<(), Refusal>(())
/// ```
pub fn fee_of_sizes(sizes: &[Option<i64>], rates: Rates) -> Result<u64, Refusal> {
    calls::fee_of_sizes(&Sizes::of(sizes), rates)
}
