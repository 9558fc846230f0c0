//! Intervals in one dimension: plain ones, as y, z and m are, and x, which may wrap around.

use crate::raw;
use crate::refusal::Refusal;

/// The numbers from `lo` to `hi`, both ends among them: a y, a z or an m. It never wraps around.
///
/// Any two numbers make one. Ends may be infinite; an interval with a NaN end accepts no value.
///
/// ```
/// use johikape::Interval;
///
/// let depth = Interval::new(0.25, 1.5);
/// assert!(depth.intersects_value(1.5));
/// assert!(!depth.intersects(Interval::new(2.0, 3.0)));
/// assert_eq!(depth.merge(Interval::new(2.0, 3.0)), Interval::new(0.25, 3.0));
/// ```
#[derive(Clone, Copy, Debug, PartialEq)]
#[repr(C)]
pub struct Interval {
    /// The lower end.
    pub lo: f64,
    /// The upper end.
    pub hi: f64,
}

impl Interval {
    /// The interval with these ends, a zero as +0.
    pub const fn new(lo: f64, hi: f64) -> Interval {
        Interval {
            lo: lo + 0.0,
            hi: hi + 0.0,
        }
    }

    /// An interval that accepts no value: `(inf, -inf)`.
    pub const fn empty() -> Interval {
        Interval::new(f64::INFINITY, f64::NEG_INFINITY)
    }

    /// An interval that accepts every value but a NaN: `(-inf, inf)`.
    pub const fn full() -> Interval {
        Interval::new(f64::NEG_INFINITY, f64::INFINITY)
    }

    /// Whether the value lies in the interval. A NaN never does.
    pub fn intersects_value(self, value: f64) -> bool {
        raw::johikape_interval_accepts(self, value)
    }

    /// Whether each interval begins at or below the other's end.
    pub fn intersects(self, other: Interval) -> bool {
        raw::johikape_interval_intersects(self, other)
    }

    /// Whether the interval begins at or below the other's low and ends at or above its high.
    ///
    /// ```
    /// # use johikape::Interval;
    /// assert!(Interval::new(0.0, 9.0).contains(Interval::new(0.0, 5.0)));
    /// assert!(!Interval::new(0.0, 9.0).contains(Interval::new(5.0, 10.0)));
    /// ```
    pub fn contains(self, other: Interval) -> bool {
        raw::johikape_interval_contains(self, other)
    }

    /// Whether the width is minus infinity.
    ///
    /// ```
    /// # use johikape::Interval;
    /// assert!(Interval::empty().is_empty());
    /// assert!(!Interval::new(3.0, 3.0).is_empty());
    /// ```
    pub fn is_empty(self) -> bool {
        raw::johikape_interval_is_empty(self)
    }

    /// The upper end less the lower.
    pub fn width(self) -> f64 {
        raw::johikape_interval_width(self)
    }

    /// The midpoint: the lower end and half the width.
    ///
    /// ```
    /// # use johikape::Interval;
    /// assert_eq!(Interval::new(1.0, 4.0).mid(), 2.5);
    /// ```
    pub fn mid(self) -> f64 {
        raw::johikape_interval_mid(self)
    }

    /// The least interval around both. A NaN end is passed over.
    #[must_use]
    pub fn merge(self, other: Interval) -> Interval {
        raw::johikape_interval_merge(self, other)
    }

    /// The least interval around this one and a value. A NaN is passed over.
    ///
    /// ```
    /// # use johikape::Interval;
    /// assert_eq!(Interval::empty().merge_value(55.5), Interval::new(55.5, 55.5));
    /// ```
    #[must_use]
    pub fn merge_value(self, value: f64) -> Interval {
        raw::johikape_interval_merge_value(self, value)
    }

    /// What both hold; empty where they are apart.
    ///
    /// ```
    /// # use johikape::Interval;
    /// let low = Interval::new(0.0, 5.0);
    /// assert_eq!(low.intersection(Interval::new(3.0, 9.0)), Interval::new(3.0, 5.0));
    /// assert!(low.intersection(Interval::new(6.0, 9.0)).is_empty());
    /// ```
    #[must_use]
    pub fn intersection(self, other: Interval) -> Interval {
        raw::johikape_interval_intersection(self, other)
    }

    /// Both ends moved outward. A distance that is NaN or negative changes nothing, and an empty
    /// interval stays as it is.
    ///
    /// ```
    /// # use johikape::Interval;
    /// assert_eq!(Interval::new(1.0, 2.0).expand_by(0.5), Interval::new(0.5, 2.5));
    /// ```
    #[must_use]
    pub fn expand_by(self, distance: f64) -> Interval {
        raw::johikape_interval_expand_by(self, distance)
    }
}

impl From<(f64, f64)> for Interval {
    fn from((lo, hi): (f64, f64)) -> Interval {
        Interval::new(lo, hi)
    }
}

/// An x, which may wrap around.
///
/// With its low at or below its high it is a plain interval. With its low above its high it wraps
/// around: it holds everything at or above the low, and everything at or below the high. So it has
/// two pieces, a left one that ends at `hi` and a right one that begins at `lo`. An empty x,
/// `(inf, -inf)`, does not wrap around.
///
/// ```
/// use johikape::WraparoundInterval;
///
/// let antimeridian = WraparoundInterval::new(170.0, -170.0);
/// assert!(antimeridian.is_wraparound());
/// assert!(antimeridian.intersects_value(175.0));
/// assert!(antimeridian.intersects_value(-175.0));
/// assert!(!antimeridian.intersects_value(0.0));
/// ```
#[derive(Clone, Copy, Debug, PartialEq)]
pub struct WraparoundInterval {
    /// The lower end; the lower end of the right piece where the x wraps around.
    pub lo: f64,
    /// The upper end; the upper end of the left piece where the x wraps around.
    pub hi: f64,
}

impl WraparoundInterval {
    /// The x with these ends, a zero as +0. It wraps around where the low is above the high.
    pub const fn new(lo: f64, hi: f64) -> WraparoundInterval {
        WraparoundInterval {
            lo: lo + 0.0,
            hi: hi + 0.0,
        }
    }

    /// Its ends, as the library takes them of every interval.
    const fn ends(self) -> Interval {
        Interval::new(self.lo, self.hi)
    }

    /// The x with these ends.
    const fn of(ends: Interval) -> WraparoundInterval {
        WraparoundInterval::new(ends.lo, ends.hi)
    }

    /// An x that accepts no value: `(inf, -inf)`.
    pub const fn empty() -> WraparoundInterval {
        WraparoundInterval::new(f64::INFINITY, f64::NEG_INFINITY)
    }

    /// An x that accepts every value but a NaN: `(-inf, inf)`.
    pub const fn full() -> WraparoundInterval {
        WraparoundInterval::new(f64::NEG_INFINITY, f64::INFINITY)
    }

    /// Whether the x wraps around: it is not empty, and its low is above its high.
    pub fn is_wraparound(self) -> bool {
        raw::johikape_x_wraps(self.ends())
    }

    /// Whether the value lies in the x. A NaN never does.
    pub fn intersects_value(self, value: f64) -> bool {
        raw::johikape_x_accepts(self.ends(), value)
    }

    /// Whether some piece of this x and some piece of the other intersect.
    pub fn intersects(self, other: WraparoundInterval) -> bool {
        raw::johikape_x_intersects(self.ends(), other.ends())
    }

    /// Whether each piece of the other that is not empty lies inside a piece of this x.
    ///
    /// A wrapped x has two pieces, from minus infinity to its high and from its low to infinity; any
    /// other is one piece. So what is empty is contained by every x, and what has NaN by none; and
    /// since the pieces are infinite, of the x that do not wrap only the full one contains one that does.
    ///
    /// ```
    /// # use johikape::WraparoundInterval;
    /// let antimeridian = WraparoundInterval::new(170.0, -170.0);
    /// assert!(antimeridian.contains(WraparoundInterval::new(-178.0, -175.0)));
    /// assert!(antimeridian.contains(WraparoundInterval::new(175.0, 178.0)));
    /// assert!(antimeridian.contains(WraparoundInterval::new(175.0, -175.0)));
    /// assert!(!WraparoundInterval::new(-180.0, 180.0).contains(antimeridian));
    /// ```
    pub fn contains(self, other: WraparoundInterval) -> bool {
        raw::johikape_x_contains(self.ends(), other.ends())
    }

    /// Whether the high less the low is minus infinity.
    pub fn is_empty(self) -> bool {
        raw::johikape_x_is_empty(self.ends())
    }

    /// The high less the low; of an x that wraps around infinity.
    pub fn width(self) -> f64 {
        raw::johikape_x_width(self.ends())
    }

    /// The midpoint; of an x that wraps around infinity.
    pub fn mid(self) -> f64 {
        raw::johikape_x_mid(self.ends())
    }

    /// An x around both. An empty one yields the other.
    ///
    /// A plain x joins the piece of a wrapped one whose end is nearer its midpoint, at a tie the
    /// right. Where the two pieces then meet, the x is full.
    ///
    /// ```
    /// # use johikape::WraparoundInterval;
    /// let antimeridian = WraparoundInterval::new(170.0, -170.0);
    /// assert_eq!(
    ///     antimeridian.merge(WraparoundInterval::new(-100.0, 100.0)),
    ///     WraparoundInterval::new(-100.0, -170.0)
    /// );
    /// ```
    #[must_use]
    pub fn merge(self, other: WraparoundInterval) -> WraparoundInterval {
        WraparoundInterval::of(raw::johikape_x_merge(self.ends(), other.ends()))
    }

    /// An x around this one and a value. Of a wrapped one the nearer end moves there, at a tie the
    /// low. A NaN is passed over.
    #[must_use]
    pub fn merge_value(self, value: f64) -> WraparoundInterval {
        WraparoundInterval::of(raw::johikape_x_merge_value(self.ends(), value))
    }

    /// What both hold, empty where they are apart.
    ///
    /// # Errors
    ///
    /// [`Refusal::TwoParts`] where that has two parts, which no x can say.
    ///
    /// ```
    /// # use johikape::{Refusal, WraparoundInterval};
    /// let plain = WraparoundInterval::new(0.0, 30.0);
    /// assert_eq!(
    ///     plain.intersection(WraparoundInterval::new(20.0, -5.0)),
    ///     Ok(WraparoundInterval::new(20.0, 30.0))
    /// );
    /// assert_eq!(
    ///     plain.intersection(WraparoundInterval::new(20.0, 5.0)),
    ///     Err(Refusal::TwoParts)
    /// );
    /// ```
    pub fn intersection(self, other: WraparoundInterval) -> Result<WraparoundInterval, Refusal> {
        let mut met = WraparoundInterval::empty();
        let number =
            raw::johikape_x_intersection(self.ends(), other.ends(), &mut met.lo, &mut met.hi);
        Refusal::check(number).map(|()| met)
    }

    /// Both ends moved outward. A wrapped x whose ends then meet is full. A distance that is NaN or
    /// negative changes nothing, and an empty x stays as it is.
    ///
    /// ```
    /// # use johikape::WraparoundInterval;
    /// let wrapped = WraparoundInterval::new(20.0, 10.0);
    /// assert_eq!(wrapped.expand_by(4.0), WraparoundInterval::new(16.0, 14.0));
    /// assert_eq!(wrapped.expand_by(5.0), WraparoundInterval::full());
    /// ```
    #[must_use]
    pub fn expand_by(self, distance: f64) -> WraparoundInterval {
        WraparoundInterval::of(raw::johikape_x_expand_by(self.ends(), distance))
    }
}

impl From<(f64, f64)> for WraparoundInterval {
    fn from((lo, hi): (f64, f64)) -> WraparoundInterval {
        WraparoundInterval::new(lo, hi)
    }
}
