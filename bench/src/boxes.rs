//! Rows of single calls: two boxes, two x, two plain intervals.

use crate::draws::Draws;
use crate::layout::{Ends, ends};
use crate::timing::{Bench, Row};
use johikape::Interval;
use oracle::bounding_box::BoundingBox;
use oracle::interval::IntervalTrait;
use std::hint::black_box;

const PAIRS: usize = 64;
const DISTANCE: f64 = 2.5;

/// Two boxes, on both sides.
struct Two {
    a: BoundingBox,
    b: BoundingBox,
    ends: [Ends; 2],
    x: [Interval; 2],
    y: [Interval; 2],
}

impl Two {
    /// The number of a call that changes the first box, and what it makes of a copy. The copy stands where
    /// the answer is to be, as the Rust's does: it is made once.
    fn changed(&self, call: impl Fn(&mut Ends, &Ends) -> u32) -> (u32, Ends) {
        let mut answer = (0, self.ends[0]);
        answer.0 = call(&mut answer.1, &self.ends[1]);
        answer
    }
}

/// A call that changes a box changes a copy, which all sides make anew each time. None of the pairs is
/// one of those where the library and the Rust say differently whether an x contains another. Two x that
/// wrap never are: a piece can lie only in the piece of its number, which is all that the Rust asks.
pub fn rows(bench: &Bench) {
    let drawn = pairs(|_| true);
    let wrapped = pairs(|bbox| bbox.x().is_wraparound());
    let row = |name: &str| Row {
        name: name.to_string(),
        inputs: &drawn,
        parts: 1,
    };
    let both = |name: &str| {
        let wrapped = Row {
            name: format!("{name}, wrapped"),
            inputs: &wrapped,
            parts: 1,
        };
        [row(name), wrapped]
    };
    for row in both("box intersects") {
        bench.row(
            row,
            |two| two.a.intersects(&two.b),
            |answer| u32::from(*answer),
            |library| {
                let intersects = library.johikape_box_intersects?;
                Some(move |Two { ends: [a, b], .. }: &Two| {
                    intersects(&a.doubles, a.flags, &b.doubles, b.flags)
                })
            },
        );
    }
    for row in both("box contains") {
        bench.row(
            row,
            |two| two.a.contains(&two.b),
            |answer| u32::from(*answer),
            |library| {
                let contains = library.johikape_box_contains?;
                Some(move |Two { ends: [a, b], .. }: &Two| {
                    contains(&a.doubles, a.flags, &b.doubles, b.flags)
                })
            },
        );
    }
    for row in both("box merge") {
        bench.row(
            row,
            |two| {
                let mut merged = two.a.clone();
                merged.update_box(&two.b);
                merged
            },
            |merged| (0, Ends::of(merged)),
            |library| {
                let merge = library.johikape_box_merge?;
                Some(move |two: &Two| {
                    two.changed(|a, b| merge(&mut a.doubles, &mut a.flags, &b.doubles, b.flags))
                })
            },
        );
    }
    bench.row(
        row("box intersection"),
        |two| two.a.intersection(&two.b),
        |common| (0, Ends::of(common.as_ref().expect(ONE_PART))),
        |library| {
            let intersection = library.johikape_box_intersection?;
            Some(move |two: &Two| {
                two.changed(|a, b| intersection(&mut a.doubles, &mut a.flags, &b.doubles, b.flags))
            })
        },
    );
    bench.row(
        row("box expand_by"),
        |two| two.a.expand_by(black_box(DISTANCE)),
        |expanded| (0, Ends::of(expanded)),
        |library| {
            let expand_by = library.johikape_box_expand_by?;
            Some(move |two: &Two| {
                two.changed(|a, _| expand_by(&mut a.doubles, &mut a.flags, black_box(DISTANCE)))
            })
        },
    );
    bench.row(
        row("x contains"),
        |two| two.a.x().contains_interval(two.b.x()),
        |answer| *answer,
        |library| {
            let contains = library.johikape_x_contains?;
            Some(move |two: &Two| contains(two.x[0], two.x[1]))
        },
    );
    for row in both("x merge") {
        bench.row(
            row,
            |two| two.a.x().merge_interval(two.b.x()),
            ends,
            |library| {
                let merge = library.johikape_x_merge?;
                Some(move |two: &Two| merge(two.x[0], two.x[1]))
            },
        );
    }
    bench.row(
        row("x intersection"),
        |two| two.a.x().intersection(two.b.x()),
        |common| (0, ends(common.as_ref().expect(ONE_PART))),
        |library| {
            let intersection = library.johikape_x_intersection?;
            Some(move |two: &Two| {
                let mut common = Interval::empty();
                let number = intersection(two.x[0], two.x[1], &mut common.lo, &mut common.hi);
                (number, common)
            })
        },
    );
    bench.row(
        row("interval merge"),
        |two| two.a.y().merge_interval(two.b.y()),
        ends,
        |library| {
            let merge = library.johikape_interval_merge?;
            Some(move |two: &Two| merge(two.y[0], two.y[1]))
        },
    );
}

const ONE_PART: &str = "these pairs have one part in common";

/// Pairs of boxes that are as wanted. Those whose x have two parts in common are left out: the Rust would
/// be timed at the text of its error.
fn pairs(is_wanted: impl Fn(&BoundingBox) -> bool) -> Vec<Two> {
    let mut draws = Draws::new();
    std::iter::repeat_with(|| [draws.bounding_box(), draws.bounding_box()])
        .filter(|[a, b]| is_wanted(a) && is_wanted(b) && a.intersection(b).is_ok())
        .map(|[a, b]| Two {
            ends: [Ends::of(&a), Ends::of(&b)],
            x: [ends(a.x()), ends(b.x())],
            y: [ends(a.y()), ends(b.y())],
            a,
            b,
        })
        .take(PAIRS)
        .collect()
}
