//! Pile six: a query for hot readings, and which of three files it may skip.
//!
//! A reading has x and y on the site, its depth as z and its degrees as m. Each file keeps one
//! record of its readings; a reader that trusts the records opens only the files that may match.

use johikape::{BoundingBox, Column, Evaluation, Filter, GeoStatistics, Interval, Refusal, fold};

/// A part of a file: x, y, depth and degrees of its readings, and how many they are.
type Part = ([(f64, f64); 4], i64);

#[rustfmt::skip]
const FILES: [(&str, [Part; 2]); 3] = [
    ("monday.parquet", [
        ([(12.0, 18.0), (40.0, 44.0), (0.2, 1.1), (31.5, 48.0)], 240),
        ([(13.5, 19.0), (41.0, 45.0), (0.2, 1.4), (33.0, 51.5)], 180),
    ]),
    ("tuesday.parquet", [
        ([(12.5, 18.5), (40.5, 44.5), (0.3, 1.2), (36.0, 52.0)], 220),
        ([(14.0, 17.0), (41.0, 43.0), (0.9, 1.6), (49.0, 63.5)], 36),
    ]),
    ("wednesday.parquet", [
        ([(52.0, 58.0), (40.0, 44.0), (0.2, 1.1), (57.0, 66.0)], 250),
        ([(53.0, 57.5), (41.0, 43.5), (0.4, 1.3), (55.5, 64.0)], 190),
    ]),
];

/// The name number of the column of readings.
const READINGS: u32 = 6;

fn main() -> Result<(), Refusal> {
    let above_55 = BoundingBox::xy((10.0, 20.0), (38.0, 46.0)).with_m((55.0, 120.0));
    let wanted = Filter::intersects(Column::named(0, READINGS), above_55).compile();

    println!("Wanted: readings above 55 degrees in pile six, x 10 to 20 and y 38 to 46.");
    for (name, parts) in FILES {
        let file = fold(&parts.map(record))?;
        let verdict = match wanted.evaluate_by_position(&[file])? {
            Evaluation::MayMatch => "may match, read it",
            Evaluation::CannotMatch => "cannot match, skip it",
        };
        println!("{name:<18} {}: {verdict}", contents(&file));
    }

    let BoundingBox { x, y, m, .. } = wanted.filter_bbox(READINGS)?;
    let degrees = m.unwrap_or(Interval::full());
    println!(
        "The index is asked for x {} to {}, y {} to {}, from {} degrees on.",
        x.lo, x.hi, y.lo, y.hi, degrees.lo
    );
    Ok(())
}

/// The record of a part.
fn record(([x, y, depth, degrees], readings): Part) -> GeoStatistics {
    GeoStatistics {
        bbox: Some(BoundingBox::xy(x, y).with_z(depth).with_m(degrees)),
        total_points: Some(readings),
        ..GeoStatistics::UNSPECIFIED
    }
}

/// What a record knows of readings and degrees, in words.
fn contents(file: &GeoStatistics) -> String {
    match (file.total_points, file.bbox.and_then(|bbox| bbox.m)) {
        (Some(readings), Some(degrees)) => format!(
            "{readings:>3} readings, {:.1} to {:.1} degrees",
            degrees.lo, degrees.hi
        ),
        _ => "nothing known".to_string(),
    }
}
