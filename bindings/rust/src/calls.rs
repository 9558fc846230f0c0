//! Calls of the library over this crate's values.

use crate::filter::Evaluation;
use crate::layout::{Boxes, Columns, Ends, Record, Records, Sizes};
use crate::name_search::NameSearch;
use crate::raw;
use crate::refusal::Refusal;
use crate::tariff::Rates;

/// Why a box that this crate laid out is never refused by 8.
const GOOD_FLAGS: &str = "the flags of a box are good";

/// What a test of two boxes answers.
fn yes(answer: u32) -> bool {
    match answer {
        1 => true,
        number => {
            Refusal::check(number).expect(GOOD_FLAGS);
            false
        }
    }
}

pub(crate) fn box_intersects(a: &Ends, b: &Ends) -> bool {
    yes(raw::johikape_box_intersects(
        &a.doubles, a.flags, &b.doubles, b.flags,
    ))
}

pub(crate) fn box_contains(a: &Ends, b: &Ends) -> bool {
    yes(raw::johikape_box_contains(
        &a.doubles, a.flags, &b.doubles, b.flags,
    ))
}

pub(crate) fn box_merge(mut a: Ends, b: &Ends) -> Ends {
    let number = raw::johikape_box_merge(&mut a.doubles, &mut a.flags, &b.doubles, b.flags);
    Refusal::check(number).expect(GOOD_FLAGS);
    a
}

pub(crate) fn box_intersection(mut a: Ends, b: &Ends) -> Result<Ends, Refusal> {
    let number = raw::johikape_box_intersection(&mut a.doubles, &mut a.flags, &b.doubles, b.flags);
    Refusal::check(number).map(|()| a)
}

pub(crate) fn box_expand_by(mut a: Ends, distance: f64) -> Ends {
    let number = raw::johikape_box_expand_by(&mut a.doubles, &mut a.flags, distance);
    Refusal::check(number).expect(GOOD_FLAGS);
    a
}

/// The array of a box: its numbers, and how many of them it has.
pub(crate) fn box_to_geoparquet(a: &Ends) -> Result<([f64; 6], usize), Refusal> {
    let (mut numbers, mut count) = ([0.0; 6], 0);
    let number = raw::johikape_box_to_geoparquet(&a.doubles, a.flags, &mut numbers, &mut count);
    Refusal::check(number).map(|()| (numbers, count))
}

pub(crate) fn box_from_geoparquet(array: &[f64]) -> Result<Ends, Refusal> {
    let mut found = Ends::NONE;
    let number = raw::box_from_geoparquet(array, &mut found.doubles, &mut found.flags);
    Refusal::check(number).map(|()| found)
}

/// The box of a geometry, and its type set.
pub(crate) fn box_from_wkb(bytes: &[u8]) -> Result<(Ends, u32), Refusal> {
    let (mut found, mut types) = (Ends::NONE, 0);
    let number = raw::box_from_wkb(bytes, &mut found.doubles, &mut found.flags, &mut types);
    Refusal::check(number).map(|()| (found, types))
}

pub(crate) fn merge(mut a: Record, b: &Record) -> Result<Record, Refusal> {
    let number = raw::johikape_merge(
        &mut a.doubles,
        &mut a.totals,
        &mut a.types,
        &mut a.flags,
        &b.doubles,
        &b.totals,
        b.types,
        b.flags,
    );
    Refusal::check(number).map(|()| a)
}

pub(crate) fn fold(records: &Records) -> Result<Record, Refusal> {
    let mut folded = Record::NONE;
    let number = raw::fold(
        records.doubles.as_flattened(),
        records.totals.as_flattened(),
        &records.types,
        &records.flags,
        &mut folded.doubles,
        &mut folded.totals,
        &mut folded.types,
        &mut folded.flags,
    );
    Refusal::check(number).map(|()| folded)
}

pub(crate) fn fee_of_record(record: &Record, rates: Rates) -> Result<u64, Refusal> {
    let mut cents = 0;
    let number = raw::johikape_fee_of_record(
        &record.doubles,
        &record.totals,
        record.types,
        record.flags,
        rates.first,
        rates.second,
        rates.third,
        &mut cents,
    );
    Refusal::check(number).map(|()| cents)
}

pub(crate) fn fee_of_sizes(sizes: &Sizes, rates: Rates) -> Result<u64, Refusal> {
    let mut cents = 0;
    let number = raw::fee_of_sizes(
        &sizes.bytes,
        &sizes.known,
        rates.first,
        rates.second,
        rates.third,
        &mut cents,
    );
    Refusal::check(number).map(|()| cents)
}

/// What an evaluation answers. The numbers that refuse one begin at 4, so none of them is 0 or 1.
fn evaluation(answer: u32) -> Result<Evaluation, Refusal> {
    match answer {
        1 => Ok(Evaluation::MayMatch),
        number => Refusal::check(number).map(|()| Evaluation::CannotMatch),
    }
}

pub(crate) fn evaluate_by_position(
    nodes: &[[u32; 4]],
    literals: &Boxes,
    columns: &Columns,
) -> Result<Evaluation, Refusal> {
    evaluation(raw::evaluate_by_position(
        nodes.as_flattened(),
        literals.doubles.as_flattened(),
        &literals.flags,
        columns.boxes.doubles.as_flattened(),
        &columns.boxes.flags,
        &columns.types,
        &columns.types_known,
    ))
}

pub(crate) fn evaluate_by_name(
    nodes: &[[u32; 4]],
    literals: &Boxes,
    columns: &Columns,
    names: &[u32],
) -> Result<Evaluation, Refusal> {
    evaluation(raw::evaluate_by_name(
        nodes.as_flattened(),
        literals.doubles.as_flattened(),
        &literals.flags,
        columns.boxes.doubles.as_flattened(),
        &columns.boxes.flags,
        &columns.types,
        &columns.types_known,
        names,
    ))
}

pub(crate) fn find_name(names: &[u32], name: u32) -> NameSearch {
    let (mut place, mut compared) = (0, 0);
    let hit = raw::find_name(names, name, &mut place, &mut compared);
    NameSearch {
        place: hit.then_some(place),
        compared,
    }
}

pub(crate) fn filter_bbox(
    nodes: &[[u32; 4]],
    literals: &Boxes,
    name: u32,
) -> Result<Ends, Refusal> {
    let mut found = Ends::NONE;
    let number = raw::filter_bbox(
        nodes.as_flattened(),
        literals.doubles.as_flattened(),
        &literals.flags,
        name,
        &mut found.doubles,
        &mut found.flags,
    );
    Refusal::check(number).map(|()| found)
}
