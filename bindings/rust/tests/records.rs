//! Merging and folding of records.

use johikape::{BoundingBox, GeoStatistics, Interval, Refusal, WraparoundInterval, fold};

/// A record that knows every part.
fn whole() -> GeoStatistics {
    GeoStatistics {
        bbox: Some(
            BoundingBox::xy((0.0, 1.0), (2.0, 3.0))
                .with_z((4.0, 5.0))
                .with_m((6.0, 7.0)),
        ),
        geometry_types: Some(0b0110),
        total_geometries: Some(1),
        total_size_bytes: Some(20),
        total_points: Some(300),
        puntal_count: Some(4_000),
        lineal_count: Some(50_000),
        polygonal_count: Some(600_000),
        collection_count: Some(7_000_000),
        total_envelope_width: Some(0.5),
        total_envelope_height: Some(0.25),
    }
}

fn with_points(points: i64) -> GeoStatistics {
    GeoStatistics {
        total_points: Some(points),
        ..GeoStatistics::UNSPECIFIED
    }
}

#[test]
fn nothing_is_known_at_first() {
    assert_eq!(GeoStatistics::default(), GeoStatistics::UNSPECIFIED);
    assert_eq!(GeoStatistics::UNSPECIFIED.bbox, None);
}

#[test]
fn each_part_is_merged_with_its_like() {
    let mut record = whole();
    let other = GeoStatistics {
        bbox: Some(
            BoundingBox::xy((5.0, 6.0), (0.0, 1.0))
                .with_z((1.0, 2.0))
                .with_m((9.0, 9.5)),
        ),
        geometry_types: Some(0b1010),
        ..whole()
    };
    assert_eq!(record.merge(&other), Ok(()));
    let expected = GeoStatistics {
        bbox: Some(
            BoundingBox::xy((0.0, 6.0), (0.0, 3.0))
                .with_z((1.0, 5.0))
                .with_m((6.0, 9.5)),
        ),
        geometry_types: Some(0b1110),
        total_geometries: Some(2),
        total_size_bytes: Some(40),
        total_points: Some(600),
        puntal_count: Some(8_000),
        lineal_count: Some(100_000),
        polygonal_count: Some(1_200_000),
        collection_count: Some(14_000_000),
        total_envelope_width: Some(1.0),
        total_envelope_height: Some(0.5),
    };
    assert_eq!(record, expected);
}

#[test]
fn a_missing_box_or_type_set_yields_the_others_and_a_missing_total_stays_missing() {
    let alone = GeoStatistics {
        bbox: whole().bbox,
        geometry_types: whole().geometry_types,
        ..GeoStatistics::UNSPECIFIED
    };
    let mut record = whole();
    assert_eq!(record.merge(&GeoStatistics::UNSPECIFIED), Ok(()));
    assert_eq!(record, alone);
    let mut record = GeoStatistics::UNSPECIFIED;
    assert_eq!(record.merge(&whole()), Ok(()));
    assert_eq!(record, alone);
}

#[test]
fn each_part_is_missing_by_itself() {
    type Forget = fn(&mut GeoStatistics);
    let forget: [Forget; 9] = [
        |record| record.total_geometries = None,
        |record| record.total_size_bytes = None,
        |record| record.total_points = None,
        |record| record.puntal_count = None,
        |record| record.lineal_count = None,
        |record| record.polygonal_count = None,
        |record| record.collection_count = None,
        |record| record.total_envelope_width = None,
        |record| record.total_envelope_height = None,
    ];
    let twice = fold(&[whole(), whole()]).unwrap();
    for forget in forget {
        let mut part = whole();
        forget(&mut part);
        let mut expected = twice;
        forget(&mut expected);
        assert_eq!(fold(&[whole(), part]), Ok(expected));
        assert_eq!(fold(&[part, whole()]), Ok(expected));
    }
}

#[test]
fn a_merge_with_the_record_of_nothing_forgets_z_and_m() {
    let mut record = whole();
    assert_eq!(record.merge(&GeoStatistics::empty()), Ok(()));
    let expected = GeoStatistics {
        bbox: Some(BoundingBox::xy((0.0, 1.0), (2.0, 3.0))),
        ..whole()
    };
    assert_eq!(record, expected);
}

#[test]
fn a_total_reaches_its_ends_and_does_not_leave_them() {
    for (end, beyond) in [(i64::MAX, 1), (i64::MIN, -1)] {
        let mut record = with_points(end);
        assert_eq!(record.merge(&with_points(0)), Ok(()));
        assert_eq!(record, with_points(end));
        assert_eq!(record.merge(&with_points(beyond)), Err(Refusal::Overflow));
        assert_eq!(record, with_points(end));
    }
    let mut record = with_points(i64::MAX);
    assert_eq!(record.merge(&with_points(i64::MIN)), Ok(()));
    assert_eq!(record, with_points(-1));
}

#[test]
fn each_total_is_refused_and_nothing_is_changed() {
    type Total = fn(&mut GeoStatistics) -> &mut Option<i64>;
    let totals: [Total; 7] = [
        |record| &mut record.total_geometries,
        |record| &mut record.total_size_bytes,
        |record| &mut record.total_points,
        |record| &mut record.puntal_count,
        |record| &mut record.lineal_count,
        |record| &mut record.polygonal_count,
        |record| &mut record.collection_count,
    ];
    for total in totals {
        let mut record = whole();
        *total(&mut record) = Some(i64::MAX);
        let before = record;
        let mut other = whole();
        *total(&mut other) = Some(1);
        assert_eq!(record.merge(&other), Err(Refusal::Overflow));
        assert_eq!(record, before);
    }
}

#[test]
fn lengths_are_doubles_and_leave_no_range() {
    let mut record = GeoStatistics {
        total_envelope_width: Some(f64::MAX),
        total_envelope_height: Some(f64::NAN),
        ..GeoStatistics::UNSPECIFIED
    };
    let other = record;
    assert_eq!(record.merge(&other), Ok(()));
    assert_eq!(record.total_envelope_width, Some(f64::INFINITY));
    assert!(record.total_envelope_height.is_some_and(f64::is_nan));
}

#[test]
fn boxes_with_nan_ends_are_merged() {
    let mut record = GeoStatistics::from(BoundingBox::xy((f64::NAN, 5.0), (0.0, f64::NAN)));
    let other = GeoStatistics::from(BoundingBox::xy((1.0, 2.0), (3.0, 4.0)));
    assert_eq!(record.merge(&other), Ok(()));
    assert_eq!(record.bbox, Some(BoundingBox::xy((1.0, 5.0), (0.0, 4.0))));
}

#[test]
fn the_fold_of_one_record_is_that_record() {
    assert_eq!(fold(&[whole()]), Ok(whole()));
    assert_eq!(fold(&[GeoStatistics::empty()]), Ok(GeoStatistics::empty()));
}

#[test]
fn of_no_records_nothing_is_known() {
    assert_eq!(fold(&[]), Ok(GeoStatistics::UNSPECIFIED));
}

#[test]
fn the_fold_of_100_000_records() {
    let records: Vec<GeoStatistics> = (0..100_000_u32)
        .map(|k| {
            let k = f64::from(k);
            GeoStatistics {
                bbox: Some(BoundingBox::xy((k, k + 1.0), (-k, 0.0)).with_m((k, k))),
                total_points: Some(3),
                ..GeoStatistics::UNSPECIFIED
            }
        })
        .collect();
    let expected = GeoStatistics {
        bbox: Some(BoundingBox::xy((0.0, 100_000.0), (-99_999.0, 0.0)).with_m((0.0, 99_999.0))),
        total_points: Some(300_000),
        ..GeoStatistics::UNSPECIFIED
    };
    assert_eq!(fold(&records), Ok(expected));
}

#[test]
fn a_fold_is_refused_at_the_step_that_leaves_the_range() {
    let most = with_points(i64::MAX);
    assert_eq!(fold(&[most, with_points(0)]), Ok(most));
    assert_eq!(fold(&[most, with_points(1)]), Err(Refusal::Overflow));
    // Though the sum of all three is in range.
    assert_eq!(
        fold(&[most, with_points(1), with_points(-1)]),
        Err(Refusal::Overflow)
    );
}

#[test]
fn a_fold_is_the_merge_of_its_records_in_their_order() {
    // Around a wrapped x it matters which records meet first.
    let boxes = [(170.0, -170.0), (-100.0, 100.0), (-160.0, -150.0)];
    let records = boxes.map(|x| GeoStatistics::from(BoundingBox::xy(x, (0.0, 1.0))));
    let mut merged = records[0];
    for record in &records[1..] {
        assert_eq!(merged.merge(record), Ok(()));
    }
    assert_eq!(fold(&records), Ok(merged));
    let reversed: Vec<_> = records.into_iter().rev().collect();
    assert_ne!(fold(&reversed), Ok(merged));
}

/// A record of a box that its caller filled with -0, and of lengths that are -0.
fn minus_zeros(points: i64) -> GeoStatistics {
    let minus = Interval { lo: -0.0, hi: -0.0 };
    let bbox = BoundingBox {
        x: WraparoundInterval { lo: -0.0, hi: -0.0 },
        y: minus,
        z: None,
        m: None,
    };
    GeoStatistics {
        bbox: Some(bbox),
        total_envelope_width: Some(-0.0),
        ..with_points(points)
    }
}

fn are_minus(record: &GeoStatistics) -> [bool; 3] {
    let bbox = record.bbox.unwrap();
    let width = record.total_envelope_width.unwrap_or(0.0);
    [bbox.x.lo, bbox.y.hi, width].map(f64::is_sign_negative)
}

#[test]
fn a_records_box_has_plus_zero_and_its_lengths_are_as_they_are_added() {
    let minus = minus_zeros(1);
    assert_eq!(are_minus(&fold(&[minus]).unwrap()), [false, false, true]);
    assert_eq!(
        are_minus(&fold(&[minus, minus]).unwrap()),
        [false, false, true]
    );
    let without = GeoStatistics {
        bbox: None,
        ..minus
    };
    for (mut record, other) in [(minus, without), (without, minus)] {
        assert_eq!(record.merge(&other), Ok(()));
        assert_eq!(are_minus(&record), [false, false, true]);
    }
}

#[test]
fn a_refused_merge_leaves_minus_zero() {
    let mut record = minus_zeros(i64::MAX);
    assert_eq!(record.merge(&with_points(1)), Err(Refusal::Overflow));
    assert_eq!(are_minus(&record), [true; 3]);
}
