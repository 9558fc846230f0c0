//! Records of statistics: how a line spells them, and how the Rust merges and folds them.

use crate::operands::{Kind, MISSING, read_box};
use crate::statistics::GeoStatistics;
use crate::text;
use crate::types::GeometryTypeAndDimensionsSet as Set;
use std::panic::{self, UnwindSafe};

/// The number where a total leaves its range.
pub const LEAVES_RANGE: u64 = 3;

/// The totals of a record, in the order of its words.
pub const TOTALS: [fn(&GeoStatistics) -> Option<i64>; 7] = [
    GeoStatistics::total_geometries,
    GeoStatistics::total_size_bytes,
    GeoStatistics::total_points,
    GeoStatistics::puntal_count,
    GeoStatistics::lineal_count,
    GeoStatistics::polygonal_count,
    GeoStatistics::collection_count,
];

/// The place of `total_size_bytes` among the totals.
pub const SIZE_BYTES: usize = 1;

pub const WITH_TOTAL: [fn(GeoStatistics, i64) -> GeoStatistics; 7] = [
    GeoStatistics::with_total_geometries,
    GeoStatistics::with_total_size_bytes,
    GeoStatistics::with_total_points,
    GeoStatistics::with_puntal_count,
    GeoStatistics::with_lineal_count,
    GeoStatistics::with_polygonal_count,
    GeoStatistics::with_collection_count,
];

/// The extents of a record, in the order of its words.
pub const EXTENTS: [fn(&GeoStatistics) -> Option<f64>; 2] = [
    GeoStatistics::total_envelope_width,
    GeoStatistics::total_envelope_height,
];

pub const WITH_EXTENT: [fn(GeoStatistics, f64) -> GeoStatistics; 2] = [
    GeoStatistics::with_total_envelope_width,
    GeoStatistics::with_total_envelope_height,
];

/// The record that a box, a type set, seven totals and two extents spell.
pub fn read(words: &[&str]) -> Option<GeoStatistics> {
    let (bounds, rest) = words.split_at_checked(Kind::Box.width())?;
    let (types, rest) = rest.split_at_checked(1)?;
    let (totals, extents) = rest.split_at_checked(TOTALS.len())?;
    let mut record = GeoStatistics::unspecified();
    if bounds.iter().any(|word| *word != MISSING) {
        record = record.with_bbox(Some(read_box(bounds)?));
    }
    if types != [MISSING] {
        let bits = text::read_set(types[0])?;
        record = record.with_geometry_types(Some(Set::from_bits(bits)));
    }
    let record = with_known(record, totals, text::read_total, &WITH_TOTAL)?;
    with_known(record, extents, text::read, &WITH_EXTENT)
}

/// A record with the parts that words spell, each set by its function.
fn with_known<T>(
    record: GeoStatistics,
    words: &[&str],
    read: fn(&str) -> Option<T>,
    with: &[fn(GeoStatistics, T) -> GeoStatistics],
) -> Option<GeoStatistics> {
    let mut record = record;
    for (word, with) in words.iter().zip(with) {
        if let Some(value) = read_known(word, read)? {
            record = with(record, value);
        }
    }
    (words.len() == with.len()).then_some(record)
}

/// What a word spells, which can be missing.
pub fn read_known<T>(word: &str, read: fn(&str) -> Option<T>) -> Option<Option<T>> {
    match word {
        MISSING => Some(None),
        _ => read(word).map(Some),
    }
}

/// A record with another merged in. The merge is of a copy: where it fails, the record stays.
pub fn merged(record: &GeoStatistics, other: &GeoStatistics) -> Option<GeoStatistics> {
    in_range(|| {
        let mut merged = record.clone();
        merged.merge(other);
        merged
    })
}

/// The records of a list in one: the first, with each next merged in.
pub fn folded(list: &[GeoStatistics]) -> Option<GeoStatistics> {
    let Some((first, rest)) = list.split_first() else {
        return Some(GeoStatistics::unspecified());
    };
    in_range(|| {
        let mut folded = first.clone();
        rest.iter().for_each(|next| folded.merge(next));
        folded
    })
}

/// What merges give; none where a total leaves its range, at which the Rust panics.
fn in_range<T>(merges: impl FnOnce() -> T + UnwindSafe) -> Option<T> {
    let hook = panic::take_hook();
    panic::set_hook(Box::new(|_| {}));
    let result = panic::catch_unwind(merges);
    panic::set_hook(hook);
    match result {
        Ok(merged) => Some(merged),
        Err(cause) if cause.downcast_ref() == Some(&"attempt to add with overflow") => None,
        Err(cause) => panic::resume_unwind(cause),
    }
}
