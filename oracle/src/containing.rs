//! Whether an x contains another, and a box another. Where neither x wraps, is empty or has NaN, the
//! Rust's own answer is taken. For the others this is a second implementation, written after the
//! paper's words alone, not after the code that it tests.

use crate::bounding_box::BoundingBox;
use crate::interval::{Interval, IntervalTrait, WraparoundInterval};

pub fn x_contains(x: &WraparoundInterval, other: &WraparoundInterval) -> bool {
    if are_compared(x, other) {
        x.contains_interval(other)
    } else {
        pieces_contain(x, other)
    }
}

pub fn box_contains(bounds: &BoundingBox, other: &BoundingBox) -> bool {
    if are_compared(bounds.x(), other.x()) {
        bounds.contains(other)
    } else {
        pieces_and_rest_contain(bounds, other)
    }
}

/// Whether the Rust's answer is taken.
pub fn are_compared(x: &WraparoundInterval, other: &WraparoundInterval) -> bool {
    let is_compared = |x: &WraparoundInterval| !x.is_wraparound() && !x.is_empty() && !has_nan(x);
    is_compared(x) && is_compared(other)
}

fn has_nan(x: &WraparoundInterval) -> bool {
    x.lo().is_nan() || x.hi().is_nan()
}

/// Whether every non-empty piece of the other lies inside some piece of the first.
fn pieces_contain(x: &WraparoundInterval, other: &WraparoundInterval) -> bool {
    let [pieces, others] = [x, other].map(|x| <[Interval; 2]>::from(x.split()));
    let mut others = others.iter().filter(|other| !other.is_empty());
    others.all(|other| pieces.iter().any(|piece| piece.contains_interval(other)))
}

/// The same of the x of two boxes; y, z and m are the Rust's, which is asked with x that count for
/// nothing.
fn pieces_and_rest_contain(bounds: &BoundingBox, other: &BoundingBox) -> bool {
    let [rest, other_rest] = [bounds, other].map(|bounds| {
        let (y, z, m) = (*bounds.y(), *bounds.z(), *bounds.m());
        BoundingBox::xyzm(Interval::full(), y, z, m)
    });
    pieces_contain(bounds.x(), other.x()) && rest.contains(&other_rest)
}

#[cfg(test)]
mod tests {
    use super::*;
    use crate::cases::VALUES;
    use crate::filters::{Lookup, bounds};
    use crate::random::Random;
    use std::collections::BTreeMap;

    type X = WraparoundInterval;

    const COVERS: u32 = 1;

    /// Every pair of x whose ends are of a list.
    fn pairs(ends: &[f64]) -> Vec<[X; 2]> {
        let xs = squared(ends).into_iter().map(|[lo, hi]| X::new(lo, hi));
        squared(&xs.collect::<Vec<X>>())
    }

    fn squared<T: Copy>(list: &[T]) -> Vec<[T; 2]> {
        let pairs = list.iter().flat_map(|a| list.iter().map(move |b| [*a, *b]));
        pairs.collect()
    }

    /// Two x as calls of them are drawn.
    fn drawn_pairs() -> impl Iterator<Item = [X; 2]> {
        let mut random = Random::new(1, &VALUES);
        (0..100_000).map(move |_| {
            let ends = random.doubles(4, 8);
            [0, 2].map(|at| X::new(ends[at], ends[at + 1]))
        })
    }

    /// Two boxes as calls of them are drawn.
    fn drawn_boxes() -> impl Iterator<Item = [BoundingBox; 2]> {
        let mut random = Random::new(1, &VALUES);
        (0..100_000).map(move |_| {
            let ends = random.doubles(16, 8);
            [0, 8].map(|at| bounds(&ends[at..], 1 + 2 * random.below(4) as u8))
        })
    }

    /// The record and the literal of a Covers as filters are drawn, and whether it may match. By
    /// position the first record is its own, by name the last.
    fn drawn_covers(lookup: Lookup) -> Vec<([BoundingBox; 2], bool)> {
        let mut random = Random::new(1, &VALUES);
        let mut covers = Vec::new();
        for number in 0..20_000 {
            let mut tables = random.tables();
            if number % 2 == 0 {
                random.redraw(&mut tables);
            }
            let last = tables.records.flags.len() - 1;
            let name = tables.names.last().copied().unwrap_or(0);
            tables.nodes = vec![COVERS, 0, name, 0];
            let place = if lookup == Lookup::ByName { last } else { 0 };
            if let Ok(may_match) = tables.may_match(lookup)
                && let Some(record) = tables.records.known(place)
            {
                covers.push(([record, tables.literals.bounds(0)], may_match));
            }
        }
        covers
    }

    #[test]
    fn islands() {
        let contains = |x: (i32, i32), other: (i32, i32)| x_contains(&x.into(), &other.into());
        assert!(contains((170, -170), (-178, -175)));
        assert!(contains((170, -170), (175, 178)));
        assert!(!contains((-180, 180), (170, -170)));
    }

    /// And what the Rust says is contained is contained, of the others too.
    #[test]
    fn pieces_agree_with_the_rust() {
        let check = |x: &X, other: &X, ours: bool, rusts: bool| {
            let agree = ours == rusts || ours && !are_compared(x, other);
            assert!(agree, "{x:?} {other:?}");
        };
        for [x, other] in pairs(&VALUES).into_iter().chain(drawn_pairs()) {
            let ours = pieces_contain(&x, &other);
            check(&x, &other, ours, x.contains_interval(&other));
        }
        for [a, b] in drawn_boxes() {
            let ours = pieces_and_rest_contain(&a, &b);
            check(a.x(), b.x(), ours, a.contains(&b));
        }
    }

    #[test]
    fn empty_is_in_all_and_nan_in_none() {
        for [x, other] in pairs(&VALUES) {
            let answer = x_contains(&x, &other);
            if other.is_empty() {
                assert!(answer, "{x:?} {other:?}");
            } else if x.is_empty() || has_nan(&x) || has_nan(&other) {
                assert!(!answer, "{x:?} {other:?}");
            }
        }
    }

    /// Between small integers: by the four ways to wrap or not, and by the numbers at the ends,
    /// between them and beyond them.
    #[test]
    fn the_same_in_other_words() {
        let ends: Vec<f64> = (-3..=3).map(f64::from).collect();
        let numbers: Vec<f64> = (-8..=8).map(|half| f64::from(half) / 2.0).collect();
        for [x, other] in pairs(&ends) {
            let answer = x_contains(&x, &other);
            let (hi, lo) = (other.hi() <= x.hi(), x.lo() <= other.lo());
            let by_ends = match (x.lo() > x.hi(), other.lo() > other.hi()) {
                (false, false) | (true, true) => hi && lo,
                (true, false) => hi || lo,
                (false, true) => false,
            };
            assert_eq!(answer, by_ends, "{x:?} {other:?}");
            let mut of_other = numbers.iter().filter(|n| other.intersects_value(**n));
            let by_numbers = of_other.all(|number| x.intersects_value(*number));
            assert_eq!(answer, by_numbers, "{x:?} {other:?}");
        }
    }

    #[test]
    fn covers_is_answered_so() {
        for lookup in [Lookup::ByPosition, Lookup::ByName] {
            for ([record, literal], may_match) in drawn_covers(lookup) {
                let contains = box_contains(&record, &literal);
                assert_eq!(may_match, contains, "{record:?} {literal:?}");
            }
        }
    }

    #[test]
    fn all_answers_are_drawn() {
        let of_x = |[x, other]: [X; 2]| {
            let answers = [x_contains(&x, &other), x.contains_interval(&other)];
            (are_compared(&x, &other), answers)
        };
        let of_boxes = |[a, b]: [BoundingBox; 2]| {
            let answers = [box_contains(&a, &b), a.contains(&b)];
            (are_compared(a.x(), b.x()), answers)
        };
        let covers = |lookup| drawn_covers(lookup).into_iter().map(|(boxes, _)| boxes);
        assert_often(drawn_pairs().map(of_x));
        assert_often(drawn_boxes().map(of_boxes));
        assert_often(covers(Lookup::ByPosition).map(of_boxes));
        assert_often(covers(Lookup::ByName).map(of_boxes));
    }

    /// Both answers come often, of x that are compared and of others, and that of the others which is
    /// not the Rust's. The Rust's answer is the second.
    fn assert_often(answers: impl Iterator<Item = (bool, [bool; 2])>) {
        let mut counts = BTreeMap::new();
        for answer in answers {
            *counts.entry(answer).or_insert(0) += 1;
        }
        let is_often = |count: &usize| *count > 100;
        assert!(
            counts.len() == 5 && counts.values().all(is_often),
            "{counts:?}"
        );
    }
}
