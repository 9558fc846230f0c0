//! Records: statistics of a column, their merge and fold, and what reading their bytes costs.

use crate::bounding_box::BoundingBox;
use crate::calls;
use crate::layout::{Record, Records};
use crate::refusal::Refusal;
use crate::tariff::Rates;

/// The record of a column: a box around its geometries, their types, and totals over them.
///
/// Each part may be missing: nothing is known of it then.
///
/// ```
/// use johikape::{BoundingBox, GeoStatistics};
///
/// let mut file = GeoStatistics {
///     bbox: Some(BoundingBox::xy((12.0, 18.0), (40.0, 44.0))),
///     total_points: Some(240),
///     ..GeoStatistics::UNSPECIFIED
/// };
/// let part = GeoStatistics {
///     bbox: Some(BoundingBox::xy((13.5, 19.0), (41.0, 45.0))),
///     total_points: Some(180),
///     ..GeoStatistics::UNSPECIFIED
/// };
/// file.merge(&part)?;
/// assert_eq!(file.bbox, Some(BoundingBox::xy((12.0, 19.0), (40.0, 45.0))));
/// assert_eq!(file.total_points, Some(420));
/// assert_eq!(file.total_geometries, None);
/// # Ok::<(), johikape::Refusal>(())
/// ```
#[derive(Clone, Copy, Debug, Default, PartialEq)]
pub struct GeoStatistics {
    /// A box around all geometries. A record without one may match any literal.
    pub bbox: Option<BoundingBox>,
    /// The set of geometry types, a bit each. The bit is the type's WKB number (1 point, 2 line
    /// string, 3 polygon, 4 to 6 their multiples, 7 collection), and 8 more with z, 16 more with
    /// m, 24 more with both.
    pub geometry_types: Option<u32>,
    /// How many geometries.
    pub total_geometries: Option<i64>,
    /// Their size in bytes.
    pub total_size_bytes: Option<i64>,
    /// Their points.
    pub total_points: Option<i64>,
    /// How many are points or multi points.
    pub puntal_count: Option<i64>,
    /// How many are line strings or multi line strings.
    pub lineal_count: Option<i64>,
    /// How many are polygons or multi polygons.
    pub polygonal_count: Option<i64>,
    /// How many are collections.
    pub collection_count: Option<i64>,
    /// The widths of their envelopes, summed.
    pub total_envelope_width: Option<f64>,
    /// The heights of their envelopes, summed.
    pub total_envelope_height: Option<f64>,
}

impl GeoStatistics {
    /// A record of which nothing is known. It may match anything.
    pub const UNSPECIFIED: GeoStatistics = GeoStatistics {
        bbox: None,
        geometry_types: None,
        total_geometries: None,
        total_size_bytes: None,
        total_points: None,
        puntal_count: None,
        lineal_count: None,
        polygonal_count: None,
        collection_count: None,
        total_envelope_width: None,
        total_envelope_height: None,
    };

    /// What is known of no geometries: an empty box, no types, and totals of 0.
    ///
    /// Its box knows no z and no m, and so neither does a merge with it. To merge a list, use
    /// [`fold`], which starts at the first record.
    pub const fn empty() -> GeoStatistics {
        GeoStatistics {
            bbox: Some(BoundingBox::empty()),
            geometry_types: Some(0),
            total_geometries: Some(0),
            total_size_bytes: Some(0),
            total_points: Some(0),
            puntal_count: Some(0),
            lineal_count: Some(0),
            polygonal_count: Some(0),
            collection_count: Some(0),
            total_envelope_width: Some(0.0),
            total_envelope_height: Some(0.0),
        }
    }

    /// Merges another record into this one.
    ///
    /// The box becomes one around both, and the types those of either; where one record has no box
    /// or no types, the other's stay. Totals add where both are known, and are missing else.
    ///
    /// # Errors
    ///
    /// [`Refusal::Overflow`] where an `i64` total leaves its range. The record stays as it was.
    ///
    /// ```
    /// # use johikape::{GeoStatistics, Refusal};
    /// let mut most = GeoStatistics { total_points: Some(i64::MAX), ..GeoStatistics::UNSPECIFIED };
    /// let one = GeoStatistics { total_points: Some(1), ..GeoStatistics::UNSPECIFIED };
    /// assert_eq!(most.merge(&one), Err(Refusal::Overflow));
    /// assert_eq!(most.total_points, Some(i64::MAX));
    /// ```
    pub fn merge(&mut self, other: &GeoStatistics) -> Result<(), Refusal> {
        let merged = calls::merge(Record::of(self), &Record::of(other))?;
        *self = merged.statistics();
        Ok(())
    }

    /// The fee for reading its bytes, in cents: that of `total_size_bytes`, as [`Rates`] says.
    ///
    /// # Errors
    ///
    /// [`Refusal::BadSize`] where `total_size_bytes` is missing, negative or over 2^40; then
    /// [`Refusal::BadRate`] where a rate is over 10,000.
    ///
    /// ```
    /// # use johikape::{GeoStatistics, Rates, Refusal};
    /// let rates = Rates { first: 1, second: 1, third: 1 };
    /// let file = GeoStatistics { total_size_bytes: Some(1 << 29), ..GeoStatistics::UNSPECIFIED };
    /// assert_eq!(file.fee(rates)?, 1); // half a cent, rounded upward
    /// assert_eq!(GeoStatistics::UNSPECIFIED.fee(rates), Err(Refusal::BadSize));
    /// # Ok::<(), Refusal>(())
    /// ```
    pub fn fee(&self, rates: Rates) -> Result<u64, Refusal> {
        calls::fee_of_record(&Record::of(self), rates)
    }
}

/// A record that knows its box alone, with +0 for zero.
impl From<BoundingBox> for GeoStatistics {
    fn from(bbox: BoundingBox) -> GeoStatistics {
        GeoStatistics {
            bbox: Some(BoundingBox::of(bbox.x, bbox.y, bbox.z, bbox.m)),
            ..GeoStatistics::UNSPECIFIED
        }
    }
}

/// Folds records into one, in their order: the first of them, with each next one merged into it.
///
/// Of an empty list nothing is known.
///
/// # Errors
///
/// [`Refusal::Overflow`] where an `i64` total leaves its range at any step.
///
/// ```
/// use johikape::{BoundingBox, GeoStatistics, fold};
///
/// let parts = [
///     GeoStatistics::from(BoundingBox::xy((0.0, 1.0), (0.0, 1.0))),
///     GeoStatistics::from(BoundingBox::xy((4.0, 5.0), (2.0, 3.0))),
/// ];
/// assert_eq!(fold(&parts)?.bbox, Some(BoundingBox::xy((0.0, 5.0), (0.0, 3.0))));
/// assert_eq!(fold(&[])?, GeoStatistics::UNSPECIFIED);
/// # Ok::<(), johikape::Refusal>(())
/// ```
pub fn fold(records: &[GeoStatistics]) -> Result<GeoStatistics, Refusal> {
    Ok(calls::fold(&Records::of(records))?.statistics())
}
