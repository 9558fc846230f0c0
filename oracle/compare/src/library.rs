//! Calls of the proved library over what is drawn here.

use crate::layout::{Record, Records};
use johikape::raw;
use oracle::filters::Tables;
use oracle::tariff::Rates;

pub fn merge(record: &mut Record, other: &Record) -> u32 {
    raw::johikape_merge(
        &mut record.doubles,
        &mut record.totals,
        &mut record.types,
        &mut record.flags,
        &other.doubles,
        &other.totals,
        other.types,
        other.flags,
    )
}

pub fn fold(records: &Records, out: &mut Record) -> u32 {
    raw::fold(
        &records.doubles,
        &records.totals,
        &records.types,
        &records.flags,
        &mut out.doubles,
        &mut out.totals,
        &mut out.types,
        &mut out.flags,
    )
}

pub fn fee_of_record(record: &Record, rates: Rates, cents: &mut u64) -> u32 {
    let [first, second, third] = rates;
    raw::johikape_fee_of_record(
        &record.doubles,
        &record.totals,
        record.types,
        record.flags,
        first,
        second,
        third,
        cents,
    )
}

pub fn fee_of_sizes(sizes: &[i64], known: &[u8], rates: Rates, cents: &mut u64) -> u32 {
    let [first, second, third] = rates;
    raw::fee_of_sizes(sizes, known, first, second, third, cents)
}

pub fn evaluate_by_position(tables: &Tables) -> u32 {
    raw::evaluate_by_position(
        &tables.nodes,
        &tables.literals.ends,
        &tables.literals.flags,
        &tables.records.ends,
        &tables.records.flags,
        &tables.record_types,
        &tables.types_known,
    )
}

pub fn evaluate_by_name(tables: &Tables) -> u32 {
    raw::evaluate_by_name(
        &tables.nodes,
        &tables.literals.ends,
        &tables.literals.flags,
        &tables.records.ends,
        &tables.records.flags,
        &tables.record_types,
        &tables.types_known,
        &tables.names,
    )
}

pub fn filter_bbox(tables: &Tables, name: u32, ends: &mut [f64; 8], flags: &mut u8) -> u32 {
    raw::filter_bbox(
        &tables.nodes,
        &tables.literals.ends,
        &tables.literals.flags,
        name,
        ends,
        flags,
    )
}
