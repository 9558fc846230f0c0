//! The table of calls: the names of the case language, and the lent Rust that answers them. Whether an
//! x contains another it is not always asked (containing.rs).

use crate::answer::{Answer, Digest, plus_zero};
use crate::bounding_box::BoundingBox;
use crate::containing::{box_contains, x_contains};
use crate::interval::{Interval, IntervalTrait, WraparoundInterval};
use crate::operands::{Kind, Lists, Operand, Operands, read};
use crate::records::{folded, merged};
use crate::statistics::GeoStatistics;
use crate::types::GeometryTypeAndDimensionsSet as Set;

/// The number where the intersection of two x has two parts.
const TWO_PARTS: u64 = 1;

/// The number where a wrapped x is turned into a plain interval.
const WRAPPED: u64 = 2;

/// What the calls of records are of.
const STATISTICS: &str = "GeoStatistics";

pub struct Call {
    pub name: String,
    /// What it takes.
    pub operands: Vec<Kind>,
    run: Run,
}

type Run = Box<dyn Fn(&[&Operand]) -> Answer>;

impl Call {
    /// The call that a case names `of::name`.
    fn new<O: Operands, T: Into<Answer>>(
        of: &str,
        name: &str,
        call: impl Fn(O) -> T + 'static,
    ) -> Call {
        Call {
            name: format!("{of}::{name}"),
            operands: O::kinds(),
            run: Box::new(move |operands| call(O::take(operands)).into()),
        }
    }

    /// The answer to one case; none where the words do not spell what the call takes.
    pub fn answer(&self, words: &[&str]) -> Option<Answer> {
        let operands = read(&self.operands, words)?;
        Some((self.run)(&operands.iter().collect::<Vec<_>>()))
    }

    /// Whether sweeps make it. Calls of records they do not, since records are in no list.
    pub fn is_swept(&self) -> bool {
        !self.name.starts_with(STATISTICS)
    }

    /// Makes the call with every tuple of operands from the lists, the first operand slowest;
    /// gives the number of calls and the digest of their answers.
    pub fn sweep(&self, lists: &Lists) -> (usize, Digest) {
        let kinds = self.operands.iter();
        let choices: Vec<_> = kinds.map(|kind| lists.operands(*kind)).collect();
        let count = choices.iter().map(Vec::len).product();
        let mut digest = Digest::default();
        for number in 0..count {
            digest.add(&(self.run)(&tuple(&choices, number)));
        }
        (count, digest)
    }
}

/// The operands whose places among the choices are the digits of a number.
fn tuple(choices: &[Vec<Operand>], number: usize) -> Vec<&Operand> {
    let mut rest = number;
    let mut operands = Vec::new();
    for choices in choices.iter().rev() {
        operands.push(&choices[rest % choices.len()]);
        rest /= choices.len();
    }
    operands.reverse();
    operands
}

/// All calls.
pub fn table() -> Vec<Call> {
    let mut calls = calls_of_both("Interval", Interval::contains_interval);
    calls.extend(calls_of_interval());
    calls.extend(calls_of_both("WraparoundInterval", x_contains));
    calls.extend(calls_of_wraparound_interval());
    calls.extend(calls_of_float());
    calls.extend(calls_of_bounding_box());
    calls.extend(calls_of_set());
    calls.extend(calls_of_statistics());
    calls
}

/// The calls that are the same for both types, but for what `contains_interval` gives.
fn calls_of_both<I: IntervalTrait + Into<Answer> + 'static>(
    of: &str,
    contains: fn(&I, &I) -> bool,
) -> Vec<Call> {
    vec![
        Call::new(of, "new", |[lo, hi]: [f64; 2]| I::new(lo, hi)),
        Call::new(of, "empty", |[]: [f64; 0]| I::empty()),
        Call::new(of, "full", |[]: [f64; 0]| I::full()),
        alone(of, "is_wraparound", I::is_wraparound),
        with_value(of, "intersects_value", I::intersects_value),
        with_interval(of, "intersects_interval", I::intersects_interval),
        with_interval(of, "contains_interval", contains),
        alone(of, "width", I::width),
        alone(of, "mid", I::mid),
        alone(of, "is_empty", I::is_empty),
        alone(of, "is_full", I::is_full),
        with_value(of, "expand_by", I::expand_by),
    ]
}

fn calls_of_interval() -> Vec<Call> {
    let of = "Interval";
    vec![
        with_interval(of, "merge_interval", |i: &Interval, other| {
            let mut updated = *i;
            updated.update_interval(other);
            same(updated, i.merge_interval(other))
        }),
        with_value(of, "merge_value", |i: &Interval, value| {
            let mut updated = *i;
            updated.update_value(value);
            same(updated, i.merge_value(value))
        }),
        with_interval(of, "intersection", |i: &Interval, other| {
            i.intersection(other).expect("never refused")
        }),
    ]
}

fn calls_of_wraparound_interval() -> Vec<Call> {
    let of = "WraparoundInterval";
    vec![
        with_interval(of, "merge_interval", WraparoundInterval::merge_interval),
        with_value(of, "merge_value", WraparoundInterval::merge_value),
        with_interval(of, "intersection", |x: &WraparoundInterval, other| {
            Answer::or_refused(x.intersection(other), TWO_PARTS)
        }),
        alone(of, "split", WraparoundInterval::split),
        alone(of, "from_interval", |i: &Interval| {
            WraparoundInterval::from(*i)
        }),
        alone(of, "try_into_interval", |x: &WraparoundInterval| {
            Answer::or_refused(Interval::try_from(*x), WRAPPED)
        }),
    ]
}

fn calls_of_float() -> Vec<Call> {
    let of = "float";
    vec![
        Call::new(of, "min", |[a, b]: [f64; 2]| plus_zero(f64::min(a, b))),
        Call::new(of, "max", |[a, b]: [f64; 2]| plus_zero(f64::max(a, b))),
        Call::new(of, "abs", |[a]: [f64; 1]| f64::abs(a)),
        Call::new(of, "infinity", |[]: [f64; 0]| f64::INFINITY),
    ]
}

fn calls_of_bounding_box() -> Vec<Call> {
    let of = "BoundingBox";
    vec![
        Call::new(of, "xy", |[x_lo, x_hi, y_lo, y_hi]: [f64; 4]| {
            BoundingBox::xy((x_lo, x_hi), (y_lo, y_hi))
        }),
        Call::new(of, "xyzm", |[b]: [BoundingBox; 1]| b),
        Call::new(of, "empty", |[]: [f64; 0]| BoundingBox::empty()),
        Call::new(of, "is_empty", |[b]: [BoundingBox; 1]| b.is_empty()),
        with_box(of, "intersects", BoundingBox::intersects),
        with_box(of, "contains", box_contains),
        Call::new(of, "expand_by", |(b, distance): (BoundingBox, f64)| {
            b.expand_by(distance)
        }),
        with_box(of, "merge_box", updated),
        with_box(of, "update_box", updated),
        with_box(of, "intersection", |b, other| {
            Answer::or_refused(b.intersection(other), TWO_PARTS)
        }),
    ]
}

fn calls_of_set() -> Vec<Call> {
    let of = "GeometryTypeAndDimensionsSet";
    vec![
        Call::new(of, "new", |[]: [f64; 0]| Set::new()),
        Call::new(of, "from_bits", |[set]: [Set; 1]| set),
        Call::new(of, "bits", |[set]: [Set; 1]| set.bits()),
        Call::new(of, "merge", |[mut set, other]: [Set; 2]| {
            set.merge(&other);
            set
        }),
        Call::new(of, "is_empty", |[set]: [Set; 1]| set.is_empty()),
        Call::new(of, "size", |[set]: [Set; 1]| set.size()),
        Call::new(of, "clear", |[mut set]: [Set; 1]| {
            set.clear();
            set
        }),
    ]
}

fn calls_of_statistics() -> Vec<Call> {
    let of = STATISTICS;
    vec![
        Call::new(of, "unspecified", |[]: [f64; 0]| {
            unrefused(GeoStatistics::unspecified())
        }),
        Call::new(
            of,
            "empty",
            |[]: [f64; 0]| unrefused(GeoStatistics::empty()),
        ),
        Call::new(of, "merge_value", |[record, other]: [GeoStatistics; 2]| {
            Answer::numbered(merged(&record, &other), GeoStatistics::unspecified())
        }),
        Call::new(of, "merge", |[record, other]: [GeoStatistics; 2]| {
            Answer::numbered(merged(&record, &other), record)
        }),
        Call::new(of, "fold", |list: [GeoStatistics; 2]| fold(&list)),
        Call::new(of, "fold_one", |list: [GeoStatistics; 1]| fold(&list)),
        Call::new(of, "fold_none", |list: [GeoStatistics; 0]| fold(&list)),
    ]
}

fn unrefused(record: GeoStatistics) -> Answer {
    Answer::numbered(Some(record), GeoStatistics::unspecified())
}

fn fold(list: &[GeoStatistics]) -> Answer {
    Answer::numbered(folded(list), GeoStatistics::unspecified())
}

/// A call of an interval.
fn alone<I: IntervalTrait, T: Into<Answer>>(
    of: &str,
    name: &str,
    call: impl Fn(&I) -> T + 'static,
) -> Call {
    Call::new(of, name, move |[lo, hi]: [f64; 2]| call(&I::new(lo, hi)))
}

/// A call of an interval with a double.
fn with_value<I: IntervalTrait, T: Into<Answer>>(
    of: &str,
    name: &str,
    call: impl Fn(&I, f64) -> T + 'static,
) -> Call {
    Call::new(of, name, move |[lo, hi, value]: [f64; 3]| {
        call(&I::new(lo, hi), value)
    })
}

/// A call of an interval with another.
fn with_interval<I: IntervalTrait, T: Into<Answer>>(
    of: &str,
    name: &str,
    call: impl Fn(&I, &I) -> T + 'static,
) -> Call {
    Call::new(of, name, move |[lo, hi, other_lo, other_hi]: [f64; 4]| {
        call(&I::new(lo, hi), &I::new(other_lo, other_hi))
    })
}

/// The answer of the two ways to merge, which must be the same.
fn same(one: Interval, other: Interval) -> Answer {
    let (one, other) = (Answer::from(one), Answer::from(other));
    assert!(one.words().eq(other.words()), "update and merge differ");
    other
}

/// A call of a box with another.
fn with_box<T: Into<Answer>>(
    of: &str,
    name: &str,
    call: impl Fn(&BoundingBox, &BoundingBox) -> T + 'static,
) -> Call {
    Call::new(of, name, move |[b, other]: [BoundingBox; 2]| {
        call(&b, &other)
    })
}

/// A box after it is lent to `update_box`.
fn updated(b: &BoundingBox, other: &BoundingBox) -> BoundingBox {
    let mut updated = b.clone();
    updated.update_box(other);
    updated
}
