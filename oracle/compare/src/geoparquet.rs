//! The calls of GeoParquet's `bbox` arrays.

use crate::cases::LayoutCase;
use crate::compared::{Answer, Call, Given, LAYOUTS, NUMBER};
use crate::layout::{Array, BAD_FLAGS, Bounds};
use johikape::raw;
use oracle::layouts::{from_geoparquet, to_geoparquet};

pub fn calls() -> Vec<Call<LayoutCase>> {
    vec![
        Call::new(
            "box_to_geoparquet",
            NUMBER,
            |LayoutCase { bounds, .. }| {
                Given::lent(Array::PATTERN, |out| {
                    let (numbers, count) = (&mut out.numbers, &mut out.count);
                    raw::johikape_box_to_geoparquet(&bounds.ends, bounds.flags, numbers, count)
                })
            },
            |LayoutCase { bounds, .. }| {
                let bounds = bounds.to_rust().ok_or(BAD_FLAGS)?;
                let array = to_geoparquet(&bounds).map_err(|number| number as u32)?;
                Ok(Answer::written(Array::of(&array)))
            },
        )
        .by(LAYOUTS),
        Call::new(
            "box_from_geoparquet",
            NUMBER,
            |LayoutCase { array, .. }| {
                Given::lent(Bounds::PATTERN, |out| {
                    raw::box_from_geoparquet(array, &mut out.ends, &mut out.flags)
                })
            },
            |LayoutCase { array, .. }| {
                let bounds = from_geoparquet(array).map_err(|number| number as u32)?;
                Ok(Answer::written(Bounds::of(&bounds)))
            },
        )
        .by(LAYOUTS),
    ]
}
