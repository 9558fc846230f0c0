//! Rows of folds: many records into one, timed per record.

use crate::draws::Draws;
use crate::layout::{Record, Records};
use crate::timing::{Bench, Row};
use oracle::bounding_box::BoundingBox;
use oracle::statistics::GeoStatistics;
use oracle::types::GeometryTypeAndDimensionsSet;

pub fn rows(bench: &Bench) {
    for count in [10, 1_000, 100_000] {
        time(bench, count, "", |record| record);
    }
    for count in [10, 1_000] {
        time(bench, count, " without z", without_z);
    }
}

fn time(bench: &Bench, count: usize, kind: &str, made: fn(GeoStatistics) -> GeoStatistics) {
    let mut draws = Draws::new();
    let record = |_| made(record(&mut draws));
    let records: Vec<GeoStatistics> = (0..count).map(record).collect();
    let lists = Records::of(&records).expect(KNOWN);
    bench.row(
        Row {
            name: format!("fold, a record of {count}{kind}"),
            inputs: &[(records, lists)],
            parts: count,
        },
        |(records, _)| fold(records),
        |folded| (0, Record::of(folded).expect(KNOWN)),
        |library| {
            let fold = library.fold()?;
            Some(move |(_, lists): &(Vec<GeoStatistics>, Records)| fold(lists))
        },
    );
}

const KNOWN: &str = "every part of these records is known";

/// The Rust has no fold of its own: its callers merge the next record into the first.
fn fold(records: &[GeoStatistics]) -> GeoStatistics {
    let mut folded = records[0].clone();
    records[1..].iter().for_each(|next| folded.merge(next));
    folded
}

fn record(draws: &mut Draws) -> GeoStatistics {
    let mut count = || draws.between(0.0, 1000.0) as i64;
    let record = GeoStatistics::unspecified()
        .with_total_geometries(count())
        .with_total_size_bytes(count())
        .with_total_points(count())
        .with_puntal_count(count())
        .with_lineal_count(count())
        .with_polygonal_count(count())
        .with_collection_count(count())
        .with_total_envelope_width(count() as f64)
        .with_total_envelope_height(count() as f64);
    let types = GeometryTypeAndDimensionsSet::from_bits(2 << (count() % 7));
    record
        .with_geometry_types(Some(types))
        .with_bbox(Some(draws.bounding_box()))
}

fn without_z(record: GeoStatistics) -> GeoStatistics {
    let flat = |bbox: &BoundingBox| BoundingBox::xyzm(*bbox.x(), *bbox.y(), None, *bbox.m());
    let bbox = record.bbox().map(flat);
    record.with_bbox(bbox)
}
