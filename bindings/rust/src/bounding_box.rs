//! Boxes over x, y, z and m.

use crate::calls;
use crate::interval::{Interval, WraparoundInterval};
use crate::layout::Ends;
use crate::refusal::Refusal;

/// A box: an x that may wrap around, a y, and a z and an m that may be missing.
///
/// Missing means that nothing is known, so it rules nothing out. It is never the same as empty.
///
/// ```
/// use johikape::BoundingBox;
///
/// let pile = BoundingBox::xy((10.0, 20.0), (38.0, 46.0));
/// let probe = BoundingBox::xy((14.0, 17.0), (41.0, 43.0)).with_m((49.0, 63.5));
/// assert!(pile.contains(&probe));
/// assert!(!pile.with_m((70.0, 80.0)).intersects(&probe));
/// ```
#[derive(Clone, Copy, Debug, PartialEq)]
pub struct BoundingBox {
    /// The x.
    pub x: WraparoundInterval,
    /// The y.
    pub y: Interval,
    /// The z, or `None` where nothing is known of it.
    pub z: Option<Interval>,
    /// The m, or `None` where nothing is known of it.
    pub m: Option<Interval>,
}

impl BoundingBox {
    /// The box of these intervals, a zero as +0 in each of them.
    pub(crate) fn of(
        x: WraparoundInterval,
        y: Interval,
        z: Option<Interval>,
        m: Option<Interval>,
    ) -> BoundingBox {
        let made = |Interval { lo, hi }| Interval::new(lo, hi);
        BoundingBox {
            x: WraparoundInterval::new(x.lo, x.hi),
            y: made(y),
            z: z.map(made),
            m: m.map(made),
        }
    }

    /// A box of which z and m are not known. Intervals may be given as pairs, `(low, high)`.
    pub fn xy(x: impl Into<WraparoundInterval>, y: impl Into<Interval>) -> BoundingBox {
        BoundingBox::of(x.into(), y.into(), None, None)
    }

    /// The same box with this z, a zero as +0 in all of it.
    #[must_use]
    pub fn with_z(self, z: impl Into<Interval>) -> BoundingBox {
        BoundingBox::of(self.x, self.y, Some(z.into()), self.m)
    }

    /// The same box with this m, a zero as +0 in all of it.
    #[must_use]
    pub fn with_m(self, m: impl Into<Interval>) -> BoundingBox {
        BoundingBox::of(self.x, self.y, self.z, Some(m.into()))
    }

    /// A box of empty x and y, of which z and m are not known.
    pub const fn empty() -> BoundingBox {
        BoundingBox {
            x: WraparoundInterval::empty(),
            y: Interval::empty(),
            z: None,
            m: None,
        }
    }

    /// Whether x or y is empty.
    pub fn is_empty(&self) -> bool {
        self.x.is_empty() || self.y.is_empty()
    }

    /// Whether the boxes intersect. z and m are tested only where both boxes know them.
    pub fn intersects(&self, other: &BoundingBox) -> bool {
        calls::box_intersects(&Ends::of(self), &Ends::of(other))
    }

    /// Whether this box contains the other. z and m are tested only where both boxes know them; an x
    /// may wrap on either side ([`crate::WraparoundInterval::contains`]).
    pub fn contains(&self, other: &BoundingBox) -> bool {
        calls::box_contains(&Ends::of(self), &Ends::of(other))
    }

    /// A box around both. z and m stay known only where both boxes know them.
    ///
    /// ```
    /// # use johikape::BoundingBox;
    /// let known = BoundingBox::xy((0.0, 1.0), (0.0, 1.0)).with_z((2.0, 3.0)).with_m((4.0, 5.0));
    /// let other = BoundingBox::xy((4.0, 5.0), (0.0, 3.0)).with_z((1.0, 2.0));
    /// assert_eq!(
    ///     known.merge(&other),
    ///     BoundingBox::xy((0.0, 5.0), (0.0, 3.0)).with_z((1.0, 3.0))
    /// );
    /// ```
    #[must_use]
    pub fn merge(&self, other: &BoundingBox) -> BoundingBox {
        calls::box_merge(Ends::of(self), &Ends::of(other)).bounding_box()
    }

    /// What both hold. z and m stay known only where both boxes know them.
    ///
    /// # Errors
    ///
    /// [`Refusal::TwoParts`] where the intersection of the two x has two parts.
    ///
    /// ```
    /// # use johikape::{BoundingBox, Refusal};
    /// let plain = BoundingBox::xy((0.0, 30.0), (0.0, 5.0));
    /// let apart = BoundingBox::xy((20.0, -5.0), (3.0, 9.0));
    /// let both = BoundingBox::xy((20.0, 5.0), (3.0, 9.0));
    /// assert_eq!(plain.intersection(&apart)?, BoundingBox::xy((20.0, 30.0), (3.0, 5.0)));
    /// assert_eq!(plain.intersection(&both), Err(Refusal::TwoParts));
    /// # Ok::<(), Refusal>(())
    /// ```
    pub fn intersection(&self, other: &BoundingBox) -> Result<BoundingBox, Refusal> {
        let met = calls::box_intersection(Ends::of(self), &Ends::of(other))?;
        Ok(met.bounding_box())
    }

    /// x and y moved outward, as in [`WraparoundInterval::expand_by`] and [`Interval::expand_by`];
    /// z and m stay.
    ///
    /// ```
    /// # use johikape::BoundingBox;
    /// let strip = BoundingBox::xy((20.0, 10.0), (0.0, 1.0)).with_z((2.0, 3.0));
    /// assert_eq!(
    ///     strip.expand_by(4.0),
    ///     BoundingBox::xy((16.0, 14.0), (-4.0, 5.0)).with_z((2.0, 3.0))
    /// );
    /// ```
    #[must_use]
    pub fn expand_by(&self, distance: f64) -> BoundingBox {
        calls::box_expand_by(Ends::of(self), distance).bounding_box()
    }

    /// The box as GeoParquet's `bbox` array: `(xmin, ymin, xmax, ymax)`, or where z is known
    /// `(xmin, ymin, zmin, xmax, ymax, zmax)`. An x that wraps around has its `xmin` above its `xmax`.
    ///
    /// # Errors
    ///
    /// [`Refusal::KnownM`] where m is known; then [`Refusal::BadNumbers`] where a known number is NaN
    /// or infinite, or y or z has its low above its high.
    ///
    /// ```
    /// # use johikape::{BoundingBox, Refusal};
    /// let strip = BoundingBox::xy((170.0, -170.0), (-10.0, 10.0)).with_z((-1.5, 0.0));
    /// assert_eq!(strip.to_geoparquet()?, [170.0, -10.0, -1.5, -170.0, 10.0, 0.0]);
    /// assert_eq!(strip.with_m((36.0, 63.5)).to_geoparquet(), Err(Refusal::KnownM));
    /// # Ok::<(), Refusal>(())
    /// ```
    pub fn to_geoparquet(&self) -> Result<Vec<f64>, Refusal> {
        let (numbers, count) = calls::box_to_geoparquet(&Ends::of(self))?;
        Ok(numbers[..count].to_vec())
    }

    /// The box of such an array: turned back, it is the same numbers, a zero as +0.
    ///
    /// # Errors
    ///
    /// [`Refusal::BboxLength`] where it has neither four nor six numbers; then
    /// [`Refusal::BadNumbers`] where a number is NaN or infinite, or y or z has its low above its high.
    ///
    /// ```
    /// # use johikape::{BoundingBox, Refusal};
    /// let pile = BoundingBox::from_geoparquet(&[10.0, 38.0, 20.0, 46.0])?;
    /// assert_eq!(pile, BoundingBox::xy((10.0, 20.0), (38.0, 46.0)));
    /// assert_eq!(
    ///     BoundingBox::from_geoparquet(&[10.0, 46.0, 20.0, 38.0]),
    ///     Err(Refusal::BadNumbers)
    /// );
    /// # Ok::<(), Refusal>(())
    /// ```
    pub fn from_geoparquet(array: &[f64]) -> Result<BoundingBox, Refusal> {
        Ok(calls::box_from_geoparquet(array)?.bounding_box())
    }

    /// The box of a geometry in well-known binary, and a set of the geometry's type alone, as
    /// [`GeoStatistics::geometry_types`](crate::GeoStatistics::geometry_types) has it. z and m are
    /// known where the type has them.
    ///
    /// Read are points, line strings, polygons, their multiples and collections, with the type codes
    /// of ISO and at most 65,536 bytes. NaN is passed over, infinities are not. The x never wraps
    /// around. A dimension without a number is empty, as all are of an empty geometry.
    ///
    /// # Errors
    ///
    /// By the first fault from the front: [`Refusal::WkbLength`] where the bytes are too few or left
    /// over, or, whatever they are, over 65,536; [`Refusal::WkbCode`] where a byte order is unknown or
    /// a type code wrong, as are those of curves, surfaces and TINs, with EWKB's flags, and of a part
    /// that its whole does not take; [`Refusal::WkbDepth`] where a collection is more than 32 deep.
    ///
    /// ```
    /// # use johikape::{BoundingBox, GeoStatistics, Refusal};
    /// let mut point = vec![1, 1, 0, 0, 0]; // low byte first, a point
    /// point.extend(10.0_f64.to_le_bytes());
    /// point.extend(38.0_f64.to_le_bytes());
    /// let (bbox, types) = BoundingBox::from_wkb(&point)?;
    /// assert_eq!(bbox, BoundingBox::xy((10.0, 10.0), (38.0, 38.0)));
    /// assert_eq!(types, 1 << 1);
    /// let record = GeoStatistics { geometry_types: Some(types), ..bbox.into() };
    /// # assert_eq!(record.bbox, Some(bbox));
    /// assert_eq!(BoundingBox::from_wkb(&point[..20]), Err(Refusal::WkbLength));
    /// # Ok::<(), Refusal>(())
    /// ```
    pub fn from_wkb(bytes: &[u8]) -> Result<(BoundingBox, u32), Refusal> {
        let (found, types) = calls::box_from_wkb(bytes)?;
        Ok((found.bounding_box(), types))
    }
}
