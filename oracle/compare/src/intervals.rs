//! The calls of intervals and of x.

use crate::cases::IntervalCase;
use crate::compared::{Answer, CONTAINING, Call, Given, NUMBER, TEST, Words};
use crate::layout::{Bounds, TWO_PARTS};
use johikape::Interval;
use johikape::raw::*;
use oracle::containing::x_contains;
use oracle::interval::{Interval as Plain, IntervalTrait, WraparoundInterval as X};

#[rustfmt::skip]
pub fn calls() -> Vec<Call<IntervalCase>> {
    vec![
        with_value("interval_accepts", johikape_interval_accepts, Plain::intersects_value),
        with_other("interval_intersects", johikape_interval_intersects, Plain::intersects_interval),
        with_other("interval_contains", johikape_interval_contains, Plain::contains_interval),
        alone("interval_is_empty", johikape_interval_is_empty, Plain::is_empty),
        alone("interval_width", johikape_interval_width, Plain::width),
        alone("interval_mid", johikape_interval_mid, Plain::mid),
        with_other("interval_merge", johikape_interval_merge, Plain::merge_interval),
        with_value("interval_merge_value", johikape_interval_merge_value, Plain::merge_value),
        with_other("interval_intersection", johikape_interval_intersection, |a: &Plain, b| {
            a.intersection(b).expect("never refused")
        }),
        with_value("interval_expand_by", johikape_interval_expand_by, Plain::expand_by),

        alone("x_wraps", johikape_x_wraps, X::is_wraparound),
        with_value("x_accepts", johikape_x_accepts, X::intersects_value),
        with_other("x_intersects", johikape_x_intersects, X::intersects_interval),
        with_other("x_contains", johikape_x_contains, x_contains).by(CONTAINING),
        alone("x_is_empty", johikape_x_is_empty, X::is_empty),
        alone("x_width", johikape_x_width, X::width),
        alone("x_mid", johikape_x_mid, X::mid),
        with_other("x_merge", johikape_x_merge, X::merge_interval),
        with_value("x_merge_value", johikape_x_merge_value, X::merge_value),
        with_value("x_expand_by", johikape_x_expand_by, X::expand_by),
        x_intersection(),
    ]
}

/// A call of an interval alone.
fn alone<I: IntervalTrait, L: Value + 'static, R: Value>(
    name: &'static str,
    library: extern "C" fn(Interval) -> L,
    rust: impl Fn(&I) -> R + 'static,
) -> Call<IntervalCase> {
    Call::new(
        name,
        L::WORDS,
        move |case: &IntervalCase| library(case.a).answer().into(),
        move |case| Ok(rust(&to_rust(case.a)).answer().plus_zero()),
    )
}

/// A call of an interval with a double.
fn with_value<I: IntervalTrait, L: Value + 'static, R: Value>(
    name: &'static str,
    library: extern "C" fn(Interval, f64) -> L,
    rust: impl Fn(&I, f64) -> R + 'static,
) -> Call<IntervalCase> {
    Call::new(
        name,
        L::WORDS,
        move |case: &IntervalCase| library(case.a, case.value).answer().into(),
        move |case| Ok(rust(&to_rust(case.a), case.value).answer().plus_zero()),
    )
}

/// A call of an interval with another.
fn with_other<I: IntervalTrait, L: Value + 'static, R: Value>(
    name: &'static str,
    library: extern "C" fn(Interval, Interval) -> L,
    rust: impl Fn(&I, &I) -> R + 'static,
) -> Call<IntervalCase> {
    Call::new(
        name,
        L::WORDS,
        move |case: &IntervalCase| library(case.a, case.b).answer().into(),
        move |case| {
            Ok(rust(&to_rust(case.a), &to_rust(case.b))
                .answer()
                .plus_zero())
        },
    )
}

fn x_intersection() -> Call<IntervalCase> {
    Call::new(
        "x_intersection",
        NUMBER,
        |case: &IntervalCase| {
            let [lo, hi, ..] = Bounds::PATTERN.ends;
            Given::lent(Interval { lo, hi }, |out| {
                johikape_x_intersection(case.a, case.b, &mut out.lo, &mut out.hi)
            })
        },
        |case| match to_rust::<X>(case.a).intersection(&to_rust(case.b)) {
            Ok(both) => Ok(both.answer().plus_zero()),
            Err(_) => Err(TWO_PARTS),
        },
    )
}

fn to_rust<I: IntervalTrait>(ends: Interval) -> I {
    I::new(ends.lo, ends.hi)
}

/// What a call returns.
trait Value {
    const WORDS: Words = NUMBER;

    fn answer(self) -> Answer;
}

impl Value for bool {
    const WORDS: Words = TEST;

    fn answer(self) -> Answer {
        Answer::number(self.into())
    }
}

impl Value for f64 {
    fn answer(self) -> Answer {
        Answer::written(&[self][..])
    }
}

impl Value for Interval {
    fn answer(self) -> Answer {
        Answer::written(self)
    }
}

impl Value for Plain {
    fn answer(self) -> Answer {
        Answer::written(&[self.lo(), self.hi()][..])
    }
}

impl Value for X {
    fn answer(self) -> Answer {
        Answer::written(&[self.lo(), self.hi()][..])
    }
}
