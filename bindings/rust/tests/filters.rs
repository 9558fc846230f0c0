//! Filters held against records, by position and by name, and their boxes.

use johikape::Evaluation::{CannotMatch, MayMatch};
use johikape::{
    BoundingBox, Column, CompiledFilter, Evaluation, Filter, GeoStatistics, Interval, Refusal,
    WraparoundInterval, fold,
};

const NAN: f64 = f64::NAN;
const INF: f64 = f64::INFINITY;
const MAX: f64 = f64::MAX;

/// Type sets: points, and points with z.
const POINT: u32 = 1 << 1;
const POINT_Z: u32 = 1 << 9;

/// A box with this x, and y from 0 to 1.
fn strip(lo: f64, hi: f64) -> BoundingBox {
    BoundingBox::xy((lo, hi), (0.0, 1.0))
}

/// A record that knows its box alone.
fn record(lo: f64, hi: f64) -> GeoStatistics {
    strip(lo, hi).into()
}

/// A record of probes that knows a box, its z where there is one, and these types.
fn probes(z: Option<(f64, f64)>, geometry_types: Option<u32>) -> GeoStatistics {
    let bbox = BoundingBox {
        z: z.map(Interval::from),
        ..strip(0.0, 1.0)
    };
    GeoStatistics {
        geometry_types,
        ..bbox.into()
    }
}

/// All x and y.
fn everywhere() -> BoundingBox {
    BoundingBox::xy(WraparoundInterval::full(), Interval::full())
}

fn ask(filter: &Filter, columns: &[GeoStatistics]) -> Result<Evaluation, Refusal> {
    filter.evaluate_by_position(columns)
}

fn ask_by_name(filter: &Filter, columns: &[(u32, GeoStatistics)]) -> Result<Evaluation, Refusal> {
    filter.evaluate_by_name(columns)
}

/// What a has_z says of a record, by position and by name.
fn ask_for_z(record: GeoStatistics) -> [Result<Evaluation, Refusal>; 2] {
    let deep = Filter::has_z(Column::named(0, 41));
    [ask(&deep, &[record]), ask_by_name(&deep, &[(41, record)])]
}

/// Wants x 1 to 2 in the first column.
fn near() -> Filter {
    Filter::intersects(Column::at(0), strip(1.0, 2.0))
}

/// Wants x 50 to 60 in the first column.
fn far() -> Filter {
    Filter::intersects(Column::at(0), strip(50.0, 60.0))
}

/// A chain of joins over so many leaves, each join with the rest of the chain at its left.
fn chain(leaves: usize) -> Filter {
    (1..leaves).fold(near(), |filter, _| filter.and(near()))
}

#[test]
fn intersects_asks_whether_the_boxes_meet() {
    assert_eq!(ask(&near(), &[record(0.0, 10.0)]), Ok(MayMatch));
    assert_eq!(ask(&near(), &[record(2.0, 10.0)]), Ok(MayMatch));
    assert_eq!(ask(&near(), &[record(3.0, 10.0)]), Ok(CannotMatch));
}

#[test]
fn covers_asks_whether_the_column_contains_the_literal() {
    let filter = Filter::covers(Column::at(0), strip(1.0, 2.0));
    assert_eq!(ask(&filter, &[record(0.0, 10.0)]), Ok(MayMatch));
    assert_eq!(ask(&filter, &[record(1.5, 10.0)]), Ok(CannotMatch));
}

#[test]
fn has_z_asks_whether_a_type_has_z() {
    let cases = [
        (None, MayMatch),
        (Some(0), CannotMatch),
        (Some(1 << 7), CannotMatch),
        (Some(1 << 8), MayMatch),
        (Some(1 << 15), MayMatch),
        (Some(1 << 16), CannotMatch),
        (Some(1 << 23), CannotMatch),
        (Some(1 << 24), MayMatch),
        (Some(1 << 31), MayMatch),
        (Some(0x00ff_00ff), CannotMatch),
        (Some(POINT | POINT_Z), MayMatch),
    ];
    for (types, expected) in cases {
        let no_box = GeoStatistics {
            geometry_types: types,
            ..GeoStatistics::UNSPECIFIED
        };
        for record in [no_box, probes(None, types), probes(Some((0.2, 1.4)), types)] {
            assert_eq!(ask_for_z(record), [Ok(expected); 2], "{record:?}");
        }
    }
}

#[test]
fn has_z_asks_whether_z_is_known_and_empty() {
    let cases = [
        (None, MayMatch),
        (Some((0.2, 1.4)), MayMatch),
        (Some((1.4, 0.2)), MayMatch),
        (Some((INF, -INF)), CannotMatch),
        (Some((MAX, -MAX)), CannotMatch),
        (Some((-INF, INF)), MayMatch),
        (Some((INF, INF)), MayMatch),
        (Some((NAN, NAN)), MayMatch),
        (Some((INF, NAN)), MayMatch),
    ];
    for (z, expected) in cases {
        for (types, expected) in [
            (None, expected),
            (Some(POINT_Z), expected),
            (Some(POINT), CannotMatch),
        ] {
            let record = probes(z, types);
            assert_eq!(ask_for_z(record), [Ok(expected); 2], "{record:?}");
        }
    }
}

#[test]
fn has_z_still_finds_its_row_in_a_fold() {
    let rows = [
        probes(Some((0.2, 1.4)), Some(POINT_Z)),
        probes(None, Some(POINT_Z)),
    ];
    let others = [
        probes(None, Some(POINT)),
        probes(Some((INF, -INF)), Some(POINT)),
        probes(Some((MAX, -MAX)), Some(0)),
        probes(Some((NAN, NAN)), None),
        GeoStatistics::UNSPECIFIED,
        GeoStatistics::empty(),
    ];
    for row in rows {
        for other in others {
            for records in [[row, other], [other, row]] {
                let folded = fold(&records).unwrap();
                assert_eq!(ask_for_z(folded), [Ok(MayMatch); 2], "{records:?}");
            }
        }
    }
    // Without its type it is lost beside a record that knows others.
    let lost = fold(&[probes(None, None), probes(None, Some(POINT))]).unwrap();
    assert_eq!(ask_for_z(lost), [Ok(CannotMatch); 2]);
}

#[test]
fn constants_look_at_no_record() {
    assert_eq!(ask(&Filter::literal_false(), &[]), Ok(CannotMatch));
    assert_eq!(ask(&Filter::unknown(), &[]), Ok(MayMatch));
    assert_eq!(ask_by_name(&Filter::literal_false(), &[]), Ok(CannotMatch));
    assert_eq!(ask_by_name(&Filter::unknown(), &[]), Ok(MayMatch));
}

#[test]
fn and_wants_both_and_or_wants_either() {
    let file = [record(0.0, 10.0)];
    let cases = [
        (near().and(near()), MayMatch),
        (near().and(far()), CannotMatch),
        (far().and(near()), CannotMatch),
        (near().or(far()), MayMatch),
        (far().or(near()), MayMatch),
        (far().or(far()), CannotMatch),
        (near().and(Filter::unknown()), MayMatch),
        (far().or(Filter::literal_false()), CannotMatch),
    ];
    for (filter, expected) in cases {
        assert_eq!(ask(&filter, &file), Ok(expected), "{filter:?}");
    }
}

#[test]
fn joins_nest_on_either_side() {
    let file = [record(0.0, 10.0)];
    let pair = || far().and(near());
    assert_eq!(ask(&near().or(pair()), &file), Ok(MayMatch));
    assert_eq!(ask(&pair().or(near()), &file), Ok(MayMatch));
    assert_eq!(ask(&near().and(pair()), &file), Ok(CannotMatch));
    assert_eq!(
        ask(&near().or(far()).and(pair().or(near())), &file),
        Ok(MayMatch)
    );
    assert_eq!(
        ask(&near().or(far()).and(pair().or(far())), &file),
        Ok(CannotMatch)
    );
}

#[test]
fn a_record_without_a_box_may_match_anything() {
    let no_box = GeoStatistics {
        total_points: Some(0),
        ..GeoStatistics::UNSPECIFIED
    };
    let covers = Filter::covers(Column::at(0), strip(1.0, 2.0));
    assert_eq!(ask(&near(), &[no_box]), Ok(MayMatch));
    assert_eq!(ask(&covers, &[no_box]), Ok(MayMatch));
    assert_eq!(ask_by_name(&near(), &[(0, no_box)]), Ok(MayMatch));
}

#[test]
fn a_missing_m_rules_nothing_out_and_an_empty_one_does() {
    let hot = Filter::intersects(Column::at(0), strip(1.0, 2.0).with_m((55.0, 120.0)));
    let unmeasured = strip(0.0, 10.0);
    let no_degrees = unmeasured.with_m(Interval::empty());
    assert_eq!(ask(&hot, &[unmeasured.into()]), Ok(MayMatch));
    assert_eq!(ask(&hot, &[no_degrees.into()]), Ok(CannotMatch));
}

#[test]
fn a_wrapped_record_matches_on_either_side() {
    let file = [record(170.0, -170.0)];
    let at = |lo, hi| Filter::intersects(Column::at(0), strip(lo, hi));
    assert_eq!(ask(&at(175.0, 176.0), &file), Ok(MayMatch));
    assert_eq!(ask(&at(-176.0, -175.0), &file), Ok(MayMatch));
    assert_eq!(ask(&at(0.0, 1.0), &file), Ok(CannotMatch));
}

#[test]
fn covers_asks_a_wrapped_record_by_either_piece() {
    let file = [record(170.0, -170.0)];
    let at = |lo, hi| Filter::covers(Column::at(0), strip(lo, hi));
    assert_eq!(ask(&at(-178.0, -175.0), &file), Ok(MayMatch));
    assert_eq!(ask(&at(175.0, 178.0), &file), Ok(MayMatch));
    assert_eq!(ask(&at(175.0, -175.0), &file), Ok(MayMatch));
    assert_eq!(ask(&at(160.0, 178.0), &file), Ok(CannotMatch));
}

#[test]
fn nan_ends_meet_nothing() {
    assert_eq!(ask(&near(), &[record(NAN, 10.0)]), Ok(CannotMatch));
    let unsure = Filter::intersects(Column::at(0), strip(0.0, NAN));
    assert_eq!(ask(&unsure, &[record(0.0, 10.0)]), Ok(CannotMatch));
}

#[test]
fn by_position_the_index_picks_the_record() {
    let columns = [
        record(50.0, 60.0),
        record(0.0, 10.0),
        GeoStatistics::UNSPECIFIED,
    ];
    let at = |index| Filter::intersects(Column::at(index), strip(1.0, 2.0));
    assert_eq!(ask(&at(0), &columns), Ok(CannotMatch));
    assert_eq!(ask(&at(1), &columns), Ok(MayMatch));
    assert_eq!(ask(&at(2), &columns), Ok(MayMatch));
}

#[test]
fn by_position_an_index_without_a_record_is_refused() {
    let at = |index| Filter::intersects(Column::at(index), strip(1.0, 2.0));
    assert_eq!(ask(&at(0), &[]), Err(Refusal::NoColumn));
    assert_eq!(ask(&at(1), &[record(0.0, 1.0)]), Err(Refusal::NoColumn));
    assert_eq!(
        ask(&at(u32::MAX), &[record(0.0, 1.0)]),
        Err(Refusal::NoColumn)
    );
    let deep = Filter::has_z(Column::at(1));
    assert_eq!(ask(&deep, &[record(0.0, 1.0)]), Err(Refusal::NoColumn));
    // Also where the other side has settled the answer.
    for settled in [
        Filter::literal_false().and(at(1)),
        Filter::unknown().or(deep),
    ] {
        assert_eq!(ask(&settled, &[record(0.0, 1.0)]), Err(Refusal::NoColumn));
    }
}

#[test]
fn by_name_the_name_number_picks_the_record() {
    let columns = [(41, record(50.0, 60.0)), (7, record(0.0, 10.0))];
    let named = |name| Filter::intersects(Column::named(u32::MAX, name), strip(1.0, 2.0));
    assert_eq!(ask_by_name(&named(41), &columns), Ok(CannotMatch));
    assert_eq!(ask_by_name(&named(7), &columns), Ok(MayMatch));
}

#[test]
fn by_name_an_unknown_name_may_match_anything() {
    let columns = [(41, record(50.0, 60.0))];
    let named = |name| Filter::covers(Column::named(0, name), strip(1.0, 2.0));
    assert_eq!(ask_by_name(&named(8), &columns), Ok(MayMatch));
    assert_eq!(ask_by_name(&named(8), &[]), Ok(MayMatch));
    let columns = [(41, probes(None, Some(POINT)))];
    let deep = |name| Filter::has_z(Column::named(u32::MAX, name));
    assert_eq!(ask_by_name(&deep(41), &columns), Ok(CannotMatch));
    assert_eq!(ask_by_name(&deep(8), &columns), Ok(MayMatch));
    assert_eq!(ask_by_name(&deep(8), &[]), Ok(MayMatch));
}

#[test]
fn by_name_a_name_twice_is_refused() {
    let columns = [
        (41, record(0.0, 1.0)),
        (7, record(0.0, 1.0)),
        (41, record(0.0, 1.0)),
    ];
    assert_eq!(ask_by_name(&near(), &columns), Err(Refusal::NameTwice));
    assert_eq!(
        ask_by_name(&Filter::unknown(), &columns),
        Err(Refusal::NameTwice)
    );
    assert_eq!(ask_by_name(&near(), &columns[..2]), Ok(MayMatch));
}

#[test]
fn a_filter_reads_100_000_records() {
    let columns: Vec<GeoStatistics> = (0..100_000_u32)
        .map(|k| record(f64::from(k), f64::from(k)))
        .collect();
    let at = |index, x| Filter::intersects(Column::at(index), strip(x, x));
    assert_eq!(ask(&at(99_999, 99_999.0), &columns), Ok(MayMatch));
    assert_eq!(ask(&at(99_999, 99_998.0), &columns), Ok(CannotMatch));
    assert_eq!(ask(&at(100_000, 0.0), &columns), Err(Refusal::NoColumn));
}

#[test]
fn a_name_is_found_among_1_000() {
    let columns: Vec<(u32, GeoStatistics)> = (0..1_000)
        .map(|k| (1_000_000 - k, record(f64::from(k), f64::from(k))))
        .collect();
    let named = |name, x| Filter::intersects(Column::named(0, name), strip(x, x));
    assert_eq!(ask_by_name(&named(999_001, 999.0), &columns), Ok(MayMatch));
    assert_eq!(
        ask_by_name(&named(999_001, 998.0), &columns),
        Ok(CannotMatch)
    );
}

#[test]
fn names_with_the_same_low_bits_are_not_the_same() {
    let named = |k, x| Filter::intersects(Column::named(0, k * 65_536), strip(x, x));
    for count in [14, 15, 900] {
        let columns: Vec<(u32, GeoStatistics)> = (0..count)
            .map(|k| (k * 65_536, record(f64::from(k), f64::from(k))))
            .collect();
        let last = count - 1;
        let there = named(last, f64::from(last));
        assert_eq!(ask_by_name(&there, &columns), Ok(MayMatch));
        assert_eq!(ask_by_name(&named(last, 0.0), &columns), Ok(CannotMatch));
        assert_eq!(ask_by_name(&named(count, 0.0), &columns), Ok(MayMatch));
    }
}

#[test]
fn a_name_at_both_ends_is_refused() {
    let kinds: [fn(u32) -> u32; 3] = [|k| k, |k| k * 65_536, |k| k.wrapping_mul(0x9e37_79b9)];
    for kind in kinds {
        for count in [14, 15, 900] {
            let mut columns: Vec<(u32, GeoStatistics)> =
                (0..count).map(|k| (kind(k), record(0.0, 1.0))).collect();
            assert_eq!(ask_by_name(&near(), &columns), Ok(MayMatch));
            columns[count as usize - 1].0 = columns[0].0;
            assert_eq!(ask_by_name(&near(), &columns), Err(Refusal::NameTwice));
            assert_eq!(ask_by_name(&near(), &columns[1..]), Ok(MayMatch));
        }
    }
    assert_eq!(Refusal::NameTwice.number(), 11);
}

#[test]
fn a_filter_may_match_and_have_an_empty_box() {
    let at = |lo, hi| Filter::intersects(Column::named(0, 4), strip(lo, hi));
    let filter = at(1.0, 2.0).and(at(5.0, 6.0));
    assert_eq!(ask(&filter, &[record(0.0, 10.0)]), Ok(MayMatch));
    let found = filter.filter_bbox(4).unwrap();
    assert!(found.x.is_empty());
    assert_eq!(found.y, Interval::new(0.0, 1.0));
    assert_eq!((found.z, found.m), (None, None));
}

#[test]
fn the_filter_box_of_each_kind_of_node() {
    let literal = strip(1.0, 2.0).with_m((55.0, 120.0));
    let other = Filter::intersects(Column::at(9), strip(50.0, 60.0));
    let deep = || Filter::has_z(Column::at(0));
    let cases = [
        (Filter::intersects(Column::at(0), literal), literal),
        (Filter::covers(Column::at(0), literal), literal),
        (other.clone(), everywhere()),
        (deep(), everywhere()),
        (Filter::unknown(), everywhere()),
        (Filter::literal_false(), BoundingBox::empty()),
        (near().or(far()), strip(1.0, 60.0)),
        (near().or(other.clone()), everywhere()),
        (near().or(deep()), everywhere()),
        (near().and(deep()), strip(1.0, 2.0)),
        (near().or(Filter::literal_false()), strip(1.0, 2.0)),
        (near().and(other.clone()), strip(1.0, 2.0)),
        // The other column's side knows no m, so neither does the box.
        (
            Filter::covers(Column::at(0), literal).and(other),
            strip(1.0, 2.0),
        ),
    ];
    for (filter, expected) in cases {
        assert_eq!(filter.filter_bbox(0), Ok(expected), "{filter:?}");
    }
}

#[test]
fn the_filter_box_is_everywhere_where_x_would_have_two_parts() {
    let at = |lo, hi| Filter::intersects(Column::at(0), strip(lo, hi));
    let filter = at(0.0, 30.0).and(at(20.0, 5.0));
    assert_eq!(filter.filter_bbox(0), Ok(everywhere()));
}

#[test]
fn a_chain_of_1_023_nodes_passes_and_a_longer_one_is_refused() {
    let file = [record(0.0, 10.0)];
    let named = [(0, record(0.0, 10.0))];
    let longest = chain(512).compile();
    assert_eq!(longest.evaluate_by_position(&file), Ok(MayMatch));
    assert_eq!(longest.evaluate_by_name(&named), Ok(MayMatch));
    assert_eq!(longest.filter_bbox(0), Ok(strip(1.0, 2.0)));
    let longer = chain(513).compile();
    assert_eq!(longer.evaluate_by_position(&file), Err(Refusal::Words));
    assert_eq!(longer.evaluate_by_name(&named), Err(Refusal::Words));
    assert_eq!(longer.filter_bbox(0), Err(Refusal::Words));
}

#[test]
fn a_chain_may_grow_at_the_right() {
    let file = [record(0.0, 10.0)];
    let chain = |leaves| (1..leaves).fold(near(), |filter, _| far().or(filter));
    assert_eq!(ask(&chain(512), &file), Ok(MayMatch));
    assert_eq!(ask(&chain(513), &file), Err(Refusal::Words));
}

#[test]
fn a_far_too_long_chain_is_refused_as_well() {
    let filter = chain(200_000);
    assert_eq!(ask(&filter, &[record(0.0, 10.0)]), Err(Refusal::Words));
}

#[test]
fn the_size_of_a_filter_is_looked_at_first() {
    let twice = [(0, record(0.0, 1.0)), (0, record(0.0, 1.0))];
    assert_eq!(ask_by_name(&chain(513), &twice), Err(Refusal::Words));
    assert_eq!(ask(&chain(513), &[]), Err(Refusal::Words));
}

#[test]
fn a_compiled_filter_answers_as_the_filter_does() {
    let filter = near().and(far().or(Filter::unknown()));
    let compiled = filter.compile();
    for file in [
        record(0.0, 10.0),
        record(3.0, 4.0),
        GeoStatistics::UNSPECIFIED,
    ] {
        assert_eq!(
            compiled.evaluate_by_position(&[file]),
            filter.evaluate_by_position(&[file])
        );
        assert_eq!(
            compiled.evaluate_by_name(&[(0, file)]),
            filter.evaluate_by_name(&[(0, file)])
        );
    }
    assert_eq!(compiled.filter_bbox(0), filter.filter_bbox(0));
}

#[test]
fn threads_share_a_compiled_filter() {
    let filter = near().or(far()).compile();
    let matches = |filter: &CompiledFilter, shift: u32| {
        (0..100)
            .map(|k| f64::from(k + shift))
            .filter(|&x| filter.evaluate_by_position(&[record(x, x)]) == Ok(MayMatch))
            .count()
    };
    std::thread::scope(|scope| {
        let first = scope.spawn(|| matches(&filter, 0));
        let second = scope.spawn(|| matches(&filter, 55));
        // 1 and 2, and 50 to 60; then 55 to 60.
        assert_eq!(first.join().unwrap(), 13);
        assert_eq!(second.join().unwrap(), 6);
    });
}
