//! The call of a geometry in well-known binary.

use crate::cases::WkbCase;
use crate::compared::{Answer, Call, Given, NUMBER, WKB};
use crate::layout::{Bounds, Typed};
use johikape::raw;
use oracle::wkb::wkb_bounds;

pub fn calls() -> Vec<Call<WkbCase>> {
    vec![
        Call::new(
            "box_from_wkb",
            NUMBER,
            |WkbCase { bytes }| {
                Given::lent(Typed::PATTERN, |out| {
                    let Typed { bounds, types } = out;
                    raw::box_from_wkb(bytes, &mut bounds.ends, &mut bounds.flags, types)
                })
            },
            |WkbCase { bytes }| {
                let (bounds, types) = wkb_bounds(bytes).map_err(|number| number as u32)?;
                Ok(Answer::written(Typed {
                    bounds: Bounds::of(&bounds),
                    types,
                }))
            },
        )
        .by(WKB),
    ]
}
