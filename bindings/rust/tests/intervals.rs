//! Every call of intervals and of x.

use johikape::{Interval, Refusal, WraparoundInterval};

const INF: f64 = f64::INFINITY;
const NAN: f64 = f64::NAN;

fn plain(lo: f64, hi: f64) -> Interval {
    Interval::new(lo, hi)
}

fn x(lo: f64, hi: f64) -> WraparoundInterval {
    WraparoundInterval::new(lo, hi)
}

#[test]
fn an_interval_accepts_both_of_its_ends() {
    assert!(plain(1.0, 2.0).intersects_value(1.0));
    assert!(plain(1.0, 2.0).intersects_value(2.0));
    assert!(!plain(1.0, 2.0).intersects_value(2.5));
    assert!(!plain(1.0, 2.0).intersects_value(NAN));
    assert!(Interval::full().intersects_value(INF));
    assert!(!Interval::full().intersects_value(NAN));
    assert!(!Interval::empty().intersects_value(0.0));
}

#[test]
fn intervals_that_touch_intersect() {
    assert!(plain(1.0, 2.0).intersects(plain(2.0, 3.0)));
    assert!(!plain(1.0, 2.0).intersects(plain(2.5, 3.0)));
    assert!(!plain(1.0, 2.0).intersects(Interval::empty()));
}

#[test]
fn an_interval_contains_itself_and_what_is_empty() {
    assert!(plain(1.0, 2.0).contains(plain(1.0, 2.0)));
    assert!(plain(1.0, 2.0).contains(Interval::empty()));
    assert!(!plain(1.0, 2.0).contains(plain(1.5, 2.5)));
    assert!(!Interval::empty().contains(plain(1.0, 2.0)));
}

#[test]
fn empty_is_a_width_of_minus_infinity() {
    assert!(Interval::empty().is_empty());
    assert!(plain(INF, 0.0).is_empty());
    assert!(plain(f64::MAX, -f64::MAX).is_empty());
    assert!(!plain(2.0, 1.0).is_empty());
    assert!(!plain(1.0, 1.0).is_empty());
    assert!(!plain(NAN, 1.0).is_empty());
}

#[test]
fn width_and_midpoint() {
    assert_eq!(plain(1.0, 4.0).width(), 3.0);
    assert_eq!(plain(1.0, 4.0).mid(), 2.5);
    assert_eq!(Interval::full().width(), INF);
    assert!(Interval::full().mid().is_nan());
}

#[test]
fn merging_intervals_goes_around_both() {
    assert_eq!(plain(1.0, 2.0).merge(plain(5.0, 6.0)), plain(1.0, 6.0));
    assert_eq!(Interval::empty().merge(plain(5.0, 6.0)), plain(5.0, 6.0));
    assert_eq!(plain(1.0, 2.0).merge_value(7.0), plain(1.0, 7.0));
    assert_eq!(Interval::empty().merge_value(7.0), plain(7.0, 7.0));
}

#[test]
fn merging_intervals_passes_over_a_nan() {
    assert_eq!(plain(NAN, 2.0).merge(plain(1.0, NAN)), plain(1.0, 2.0));
    assert_eq!(plain(1.0, 2.0).merge_value(NAN), plain(1.0, 2.0));
}

#[test]
fn an_interval_with_a_nan_end_meets_nothing() {
    assert!(!plain(NAN, 2.0).intersects_value(1.0));
    assert!(!plain(NAN, 2.0).intersects(Interval::full()));
    assert!(!Interval::full().contains(plain(NAN, 2.0)));
}

#[test]
fn the_intersection_of_intervals_is_empty_where_they_are_apart() {
    assert_eq!(
        plain(0.0, 5.0).intersection(plain(3.0, 9.0)),
        plain(3.0, 5.0)
    );
    assert_eq!(
        plain(0.0, 5.0).intersection(plain(6.0, 9.0)),
        Interval::empty()
    );
}

#[test]
fn an_interval_expands_by_no_nan_and_nothing_negative() {
    assert_eq!(plain(1.0, 2.0).expand_by(3.0), plain(-2.0, 5.0));
    assert_eq!(plain(1.0, 2.0).expand_by(-1.0), plain(1.0, 2.0));
    assert_eq!(plain(1.0, 2.0).expand_by(NAN), plain(1.0, 2.0));
    assert_eq!(Interval::empty().expand_by(INF), Interval::empty());
}

#[test]
fn pairs_are_intervals() {
    assert_eq!(Interval::from((1.0, 2.0)), plain(1.0, 2.0));
    assert_eq!(WraparoundInterval::from((2.0, 1.0)), x(2.0, 1.0));
}

#[test]
fn an_x_wraps_where_its_low_is_above_its_high() {
    assert!(x(170.0, -170.0).is_wraparound());
    assert!(!x(-170.0, 170.0).is_wraparound());
    assert!(!x(1.0, 1.0).is_wraparound());
    assert!(!x(NAN, 1.0).is_wraparound());
    assert!(!WraparoundInterval::empty().is_wraparound());
}

#[test]
fn a_wrapped_x_accepts_what_lies_outside_its_ends() {
    let strip = x(170.0, -170.0);
    for inside in [170.0, 175.0, INF, -170.0, -175.0, -INF] {
        assert!(strip.intersects_value(inside), "{inside}");
    }
    for outside in [0.0, 169.0, -169.0, NAN] {
        assert!(!strip.intersects_value(outside), "{outside}");
    }
}

#[test]
fn a_wrapped_x_intersects_by_either_piece() {
    let strip = x(170.0, -170.0);
    assert!(strip.intersects(x(160.0, 172.0)));
    assert!(strip.intersects(x(-172.0, -160.0)));
    assert!(strip.intersects(x(100.0, -100.0)));
    assert!(!strip.intersects(x(-100.0, 100.0)));
    assert!(!strip.intersects(WraparoundInterval::empty()));
}

#[test]
fn an_x_contains_what_lies_piece_by_piece_in_its_pieces() {
    let strip = x(170.0, -170.0);
    assert!(strip.contains(x(-178.0, -175.0)));
    assert!(strip.contains(x(175.0, 178.0)));
    assert!(strip.contains(x(175.0, -175.0)));
    assert!(strip.contains(WraparoundInterval::empty()));
    assert!(!strip.contains(x(160.0, 178.0)));
    assert!(!strip.contains(x(169.0, -170.0)));
    assert!(!strip.contains(x(175.0, NAN)));
    assert!(x(0.0, 9.0).contains(x(3.0, 9.0)));
    assert!(!x(-180.0, 180.0).contains(strip));
    assert!(WraparoundInterval::full().contains(strip));
}

#[test]
fn an_x_is_empty_as_an_interval_is() {
    assert!(WraparoundInterval::empty().is_empty());
    assert!(!x(170.0, -170.0).is_empty());
    assert!(!WraparoundInterval::full().is_empty());
}

#[test]
fn width_and_midpoint_of_a_wrapped_x_are_infinite() {
    assert_eq!(x(170.0, -170.0).width(), INF);
    assert_eq!(x(170.0, -170.0).mid(), INF);
    assert_eq!(x(1.0, 4.0).width(), 3.0);
    assert_eq!(x(1.0, 4.0).mid(), 2.5);
}

#[test]
fn merging_x_goes_around_both() {
    assert_eq!(x(170.0, -170.0).merge(x(-100.0, 100.0)), x(-100.0, -170.0));
    assert_eq!(x(170.0, -170.0).merge(x(-160.0, -100.0)), x(170.0, -100.0));
    assert_eq!(x(170.0, -170.0).merge(x(160.0, -175.0)), x(160.0, -170.0));
    assert_eq!(
        x(20.0, 10.0).merge(x(5.0, 25.0)),
        WraparoundInterval::full()
    );
    assert_eq!(x(1.0, 2.0).merge(x(5.0, 6.0)), x(1.0, 6.0));
}

#[test]
fn merging_with_an_empty_x_yields_the_other_as_it_is() {
    let wrapped = x(170.0, -170.0);
    assert_eq!(WraparoundInterval::empty().merge(wrapped), wrapped);
    assert_eq!(wrapped.merge(WraparoundInterval::empty()), wrapped);
}

#[test]
fn a_value_moves_the_nearer_end_of_a_wrapped_x() {
    assert_eq!(x(170.0, -170.0).merge_value(100.0), x(100.0, -170.0));
    assert_eq!(x(170.0, -170.0).merge_value(-100.0), x(170.0, -100.0));
    assert_eq!(x(170.0, -170.0).merge_value(0.0), x(0.0, -170.0));
    assert_eq!(x(170.0, -170.0).merge_value(175.0), x(170.0, -170.0));
    assert_eq!(x(170.0, -170.0).merge_value(NAN), x(170.0, -170.0));
    assert_eq!(x(1.0, 2.0).merge_value(7.0), x(1.0, 7.0));
}

#[test]
fn the_intersection_of_x_is_refused_where_it_has_two_parts() {
    assert_eq!(
        x(0.0, 30.0).intersection(x(20.0, 5.0)),
        Err(Refusal::TwoParts)
    );
    assert_eq!(
        x(20.0, 5.0).intersection(x(0.0, 30.0)),
        Err(Refusal::TwoParts)
    );
    assert_eq!(
        x(20.0, 10.0).intersection(x(40.0, 30.0)),
        Err(Refusal::TwoParts)
    );
    assert_eq!(x(0.0, 30.0).intersection(x(20.0, -5.0)), Ok(x(20.0, 30.0)));
    assert_eq!(x(20.0, 10.0).intersection(x(25.0, 5.0)), Ok(x(25.0, 5.0)));
    assert_eq!(x(0.0, 5.0).intersection(x(3.0, 9.0)), Ok(x(3.0, 5.0)));
    assert_eq!(
        x(0.0, 5.0).intersection(x(6.0, 9.0)),
        Ok(WraparoundInterval::empty())
    );
}

#[test]
fn a_wrapped_x_expands_until_its_ends_meet() {
    assert_eq!(x(20.0, 10.0).expand_by(4.0), x(16.0, 14.0));
    assert_eq!(x(20.0, 10.0).expand_by(5.0), WraparoundInterval::full());
    assert_eq!(x(20.0, 10.0).expand_by(-4.0), x(20.0, 10.0));
    assert_eq!(x(20.0, 10.0).expand_by(NAN), x(20.0, 10.0));
    assert_eq!(x(1.0, 2.0).expand_by(3.0), x(-2.0, 5.0));
}

/// Whether both ends are +0.
fn are_plus_zero(ends: [f64; 2]) -> bool {
    ends.map(f64::to_bits) == [0; 2]
}

#[test]
fn every_zero_that_is_given_is_plus_zero() {
    // Filled in by the caller: `new` would make it +0.
    let minus = Interval { lo: -0.0, hi: -0.0 };
    let given = [
        plain(-0.0, -0.0),
        minus.merge(minus),
        minus.merge_value(-0.0),
        plain(NAN, NAN).merge_value(-0.0),
        minus.intersection(minus),
        minus.expand_by(NAN),
        minus.expand_by(-0.0),
    ];
    for zero in given {
        assert!(are_plus_zero([zero.lo, zero.hi]), "{zero:?}");
    }
    let minus = WraparoundInterval { lo: -0.0, hi: -0.0 };
    let empty = WraparoundInterval::empty();
    let given = [
        x(-0.0, -0.0),
        minus.merge(minus),
        minus.merge(empty),
        empty.merge(minus),
        minus.merge_value(-0.0),
        minus.merge_value(NAN),
        minus.expand_by(NAN),
        minus.intersection(minus).unwrap(),
    ];
    for zero in given {
        assert!(are_plus_zero([zero.lo, zero.hi]), "{zero:?}");
    }
}

#[test]
fn minus_zero_is_read_as_zero() {
    let minus = Interval { lo: -0.0, hi: -0.0 };
    assert!(minus.intersects_value(0.0) && plain(0.0, 0.0).intersects_value(-0.0));
    assert!(minus.contains(plain(0.0, 0.0)) && plain(0.0, 0.0).contains(minus));
    let wraps = WraparoundInterval { lo: 5.0, hi: -0.0 };
    assert!(wraps.intersects_value(0.0) && !wraps.intersects_value(1.0));
}
