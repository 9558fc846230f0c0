//! The calls of boxes.

use crate::cases::BoxCase;
use crate::compared::{Answer, CONTAINING, Call, Given, NUMBER, TEST};
use crate::layout::{BAD_FLAGS, Bounds, TWO_PARTS};
use johikape::raw::*;
use oracle::bounding_box::BoundingBox;
use oracle::containing::box_contains;

pub fn calls() -> Vec<Call<BoxCase>> {
    vec![
        test(
            "box_intersects",
            johikape_box_intersects,
            BoundingBox::intersects,
        ),
        test("box_contains", johikape_box_contains, box_contains).by(CONTAINING),
        join("box_merge", johikape_box_merge, |a, b| {
            let mut merged = a.clone();
            merged.update_box(b);
            Ok(merged)
        }),
        join("box_intersection", johikape_box_intersection, |a, b| {
            a.intersection(b).map_err(|_| TWO_PARTS)
        }),
        expand_by(),
    ]
}

/// A test of two boxes.
fn test(
    name: &'static str,
    library: extern "C" fn(&[f64; 8], u8, &[f64; 8], u8) -> u32,
    rust: impl Fn(&BoundingBox, &BoundingBox) -> bool + 'static,
) -> Call<BoxCase> {
    Call::new(
        name,
        TEST,
        move |BoxCase { a, b, .. }| {
            Answer::number(library(&a.ends, a.flags, &b.ends, b.flags)).into()
        },
        move |case| {
            let (a, b) = case.to_rust().ok_or(BAD_FLAGS)?;
            Ok(Answer::number(rust(&a, &b).into()))
        },
    )
}

/// A call that makes the first box one of both.
fn join(
    name: &'static str,
    library: extern "C" fn(&mut [f64; 8], &mut u8, &[f64; 8], u8) -> u32,
    rust: impl Fn(&BoundingBox, &BoundingBox) -> Result<BoundingBox, u32> + 'static,
) -> Call<BoxCase> {
    Call::new(
        name,
        NUMBER,
        move |BoxCase { a, b, .. }| {
            Given::lent(*a, |a| library(&mut a.ends, &mut a.flags, &b.ends, b.flags))
        },
        move |case| {
            let (a, b) = case.to_rust().ok_or(BAD_FLAGS)?;
            Ok(Answer::written(Bounds::of(&rust(&a, &b)?)))
        },
    )
}

fn expand_by() -> Call<BoxCase> {
    Call::new(
        "box_expand_by",
        NUMBER,
        |BoxCase { a, distance, .. }| {
            Given::lent(*a, |a| {
                johikape_box_expand_by(&mut a.ends, &mut a.flags, *distance)
            })
        },
        |BoxCase { a, distance, .. }| {
            let a = a.to_rust().ok_or(BAD_FLAGS)?;
            Ok(Answer::written(Bounds::of(&a.expand_by(*distance))))
        },
    )
}
