//! The calls of records.

use crate::cases::RecordCase;
use crate::compared::{Answer, Call, Expected, Given, NUMBER};
use crate::layout::{BAD_FLAGS, Record, Records};
use crate::library;
use oracle::records::{LEAVES_RANGE, folded, merged};
use oracle::statistics::GeoStatistics;

pub fn merges() -> Vec<Call<RecordCase>> {
    vec![Call::new(
        "merge",
        NUMBER,
        |RecordCase { a, b }| Given::lent(*a, |a| library::merge(a, b)),
        |RecordCase { a, b }| {
            let a = a.to_rust().ok_or(BAD_FLAGS)?;
            let b = b.to_rust().ok_or(BAD_FLAGS)?;
            in_range(merged(&a, &b))
        },
    )]
}

pub fn folds() -> Vec<Call<Records>> {
    vec![Call::new(
        "fold",
        NUMBER,
        |records: &Records| Given::lent(Record::PATTERN, |out| library::fold(records, out)),
        |records| in_range(folded(&records.to_rust().ok_or(BAD_FLAGS)?)),
    )]
}

/// The record of merges, where no total left its range.
fn in_range(record: Option<GeoStatistics>) -> Expected {
    let record = record.ok_or(LEAVES_RANGE as u32)?;
    Ok(Answer::written(Record::of(&record)))
}
