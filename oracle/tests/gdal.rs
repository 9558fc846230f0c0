//! The geometries that GDAL wrote, as src/gdal.txt has them: our box is that of GDAL and of the
//! text, which has an m where GDAL gives none, and our type is the one that the text names.

use oracle::bounding_box::BoundingBox;
use oracle::interval::{Interval, IntervalTrait};
use oracle::text::read_bytes;
use oracle::wkb::wkb_bounds;
use std::collections::HashSet;

/// The types, from that of number 1 on.
const NAMES: [&str; 7] = [
    "POINT",
    "LINESTRING",
    "POLYGON",
    "MULTIPOINT",
    "MULTILINESTRING",
    "MULTIPOLYGON",
    "GEOMETRYCOLLECTION",
];

#[test]
fn boxes_and_types_are_those_of_gdal() {
    let mut comment = "";
    let mut types = HashSet::new();
    let mut count = 0;
    for line in include_str!("../src/gdal.txt").lines() {
        if let Some(text) = line.strip_prefix("# ") {
            comment = text;
        } else if let Some(digits) = line.strip_prefix("sedona_wkb::wkb_bounds ") {
            let bytes = read_bytes(&[digits]).expect(line);
            let (bounds, bits) = wkb_bounds(&bytes).expect(comment);
            check(comment, &bounds, bits);
            types.insert((bits, bytes[0]));
            count += 1;
        }
    }
    assert_eq!(types.len(), 2 * 4 * NAMES.len());
    assert!(count >= 200);
}

/// Holds an answer against a geometry's text and what GDAL says of its bounds.
fn check(comment: &str, bounds: &BoundingBox, bits: u32) {
    let (text, by_gdal) = comment.split_once(": ").expect(comment);
    let mut words = text.split(' ');
    let name = words.next();
    let tag = words.next();
    let kind = NAMES.iter().position(|known| Some(*known) == name);
    let dimensions = ["Z", "M", "ZM"]
        .iter()
        .position(|known| Some(*known) == tag);
    let dimensions = dimensions.map_or(0, |place| place + 1);
    let kind = kind.expect(comment) + 1;
    assert_eq!(bits, 1 << (kind + 8 * dimensions), "{comment}");

    let (z, m) = [
        (None, None),
        (Some(2), None),
        (None, Some(2)),
        (Some(2), Some(3)),
    ][dimensions];
    let points = points(text);
    let x = Interval::new(bounds.x().lo(), bounds.x().hi());
    let ours = [Some(x), Some(*bounds.y()), *bounds.z(), *bounds.m()];
    let texts = [Some(0), Some(1), z, m].map(|place| place.map(|place| interval(&points, place)));
    assert_eq!(ours, texts, "{comment}");

    if by_gdal.starts_with("empty") {
        assert!(points.is_empty(), "{comment}");
        return;
    }
    let by_gdal: Vec<Interval> = by_gdal.split(", ").map(read_interval).collect();
    let known: Vec<Interval> = ours.into_iter().take(3).flatten().collect();
    assert_eq!(known, by_gdal, "{comment}");
}

/// The points of a geometry's text, which stand between brackets and commas.
fn points(text: &str) -> Vec<Vec<f64>> {
    let parts = text.split(['(', ')', ',']);
    let numbers = |part: &str| part.split(' ').map(|word| word.parse().ok()).collect();
    parts.filter_map(numbers).collect()
}

/// What the coordinates of points span.
fn interval(points: &[Vec<f64>], place: usize) -> Interval {
    let coordinates = points.iter().map(|point| point[place]);
    let lo = coordinates.clone().fold(f64::INFINITY, f64::min);
    Interval::new(lo, coordinates.fold(f64::NEG_INFINITY, f64::max))
}

/// `x LO HI`, or of another letter.
fn read_interval(text: &str) -> Interval {
    let ends: Vec<f64> = text
        .split(' ')
        .filter_map(|word| word.parse().ok())
        .collect();
    match ends[..] {
        [lo, hi] => Interval::new(lo, hi),
        _ => panic!("{text}"),
    }
}
