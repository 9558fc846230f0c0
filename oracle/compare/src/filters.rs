//! The calls of filters, and the search for a name.

use crate::cases::{FilterCase, WideCase};
use crate::compared::{Answer, Call, EVALUATION, Expected, FILTERS, Given, NAMES, NUMBER, SEARCH};
use crate::layout::{Bounds, Found};
use crate::library;
use johikape::raw;
use oracle::filters::{Lookup, Tables};
use oracle::names::find_name;

pub fn calls() -> Vec<Call<FilterCase>> {
    vec![
        Call::new(
            "evaluate_by_position",
            EVALUATION,
            |case: &FilterCase| Answer::number(library::evaluate_by_position(&case.tables)).into(),
            |case| evaluate(&case.tables, Lookup::ByPosition),
        )
        .by(FILTERS),
        Call::new(
            "evaluate_by_name",
            EVALUATION,
            |case: &FilterCase| Answer::number(library::evaluate_by_name(&case.tables)).into(),
            |case| evaluate(&case.tables, Lookup::ByName),
        )
        .by(FILTERS),
        Call::new(
            "filter_bbox",
            NUMBER,
            |FilterCase { tables, name }| {
                Given::lent(Bounds::PATTERN, |out| {
                    library::filter_bbox(tables, *name, &mut out.ends, &mut out.flags)
                })
            },
            |FilterCase { tables, name }| {
                let bounds = tables.bounds_of(*name).map_err(|number| number as u32)?;
                Ok(Answer::written(Bounds::of(&bounds)))
            },
        )
        .by(FILTERS),
    ]
}

/// The calls that go through names, over many of them.
pub fn wide_calls() -> Vec<Call<WideCase>> {
    vec![
        Call::new(
            "find_name",
            SEARCH,
            |WideCase { tables, name }| {
                Given::lent(Found::PATTERN, |out| {
                    raw::find_name(&tables.names, *name, &mut out.place, &mut out.compared).into()
                })
            },
            |WideCase { tables, name }| {
                let search = find_name(&tables.names, *name);
                Ok(Answer {
                    number: search.is_hit.into(),
                    written: Found::of(&search).into(),
                })
            },
        )
        .by(NAMES),
        Call::new(
            "evaluate_by_name, wide",
            EVALUATION,
            |case: &WideCase| Answer::number(library::evaluate_by_name(&case.tables)).into(),
            |case| evaluate(&case.tables, Lookup::ByName),
        )
        .by(FILTERS),
    ]
}

fn evaluate(tables: &Tables, lookup: Lookup) -> Expected {
    match tables.may_match(lookup) {
        Ok(may_match) => Ok(Answer::number(may_match.into())),
        Err(number) => Err(number as u32),
    }
}
