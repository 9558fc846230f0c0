//! The library's functions, as `johikape.h` declares them, for callers that have tables of their own.
//! All the unsafe code is here; every call is safe.
//!
//! The header says what the numbers, flags and tables mean. The library keeps no state and no
//! pointer, writes only through what is `&mut` below, and gives a bad value a number. So a call is
//! sound where each pointer is good for what its type and count say, and where what is written
//! overlaps no other argument. Arguments that are references are both by their type, and the
//! functions that take nothing else are declared `safe`. The eight that take lists as pointers and
//! counts are called here alone, over slices.

#![allow(missing_docs)]

use crate::interval::Interval;

// SAFETY: the declarations are those of johikape.h. Its `johikape_interval`, two doubles, is laid
// out as `Interval` is, which is `repr(C)`; an array argument is a pointer to its first number, as a
// reference to an array is.
unsafe extern "C" {
    pub safe fn johikape_interval_accepts(a: Interval, value: f64) -> bool;
    pub safe fn johikape_interval_intersects(a: Interval, b: Interval) -> bool;
    pub safe fn johikape_interval_contains(a: Interval, b: Interval) -> bool;
    pub safe fn johikape_interval_is_empty(a: Interval) -> bool;
    pub safe fn johikape_interval_width(a: Interval) -> f64;
    pub safe fn johikape_interval_mid(a: Interval) -> f64;
    pub safe fn johikape_interval_merge(a: Interval, b: Interval) -> Interval;
    pub safe fn johikape_interval_merge_value(a: Interval, value: f64) -> Interval;
    pub safe fn johikape_interval_intersection(a: Interval, b: Interval) -> Interval;
    pub safe fn johikape_interval_expand_by(a: Interval, distance: f64) -> Interval;

    pub safe fn johikape_x_wraps(a: Interval) -> bool;
    pub safe fn johikape_x_accepts(a: Interval, value: f64) -> bool;
    pub safe fn johikape_x_intersects(a: Interval, b: Interval) -> bool;
    pub safe fn johikape_x_contains(a: Interval, b: Interval) -> bool;
    pub safe fn johikape_x_is_empty(a: Interval) -> bool;
    pub safe fn johikape_x_width(a: Interval) -> f64;
    pub safe fn johikape_x_mid(a: Interval) -> f64;
    pub safe fn johikape_x_merge(a: Interval, b: Interval) -> Interval;
    pub safe fn johikape_x_merge_value(a: Interval, value: f64) -> Interval;
    pub safe fn johikape_x_expand_by(a: Interval, distance: f64) -> Interval;
    pub safe fn johikape_x_intersection(
        a: Interval,
        b: Interval,
        lo: &mut f64,
        hi: &mut f64,
    ) -> u32;

    pub safe fn johikape_box_intersects(
        a: &[f64; 8],
        a_flags: u8,
        b: &[f64; 8],
        b_flags: u8,
    ) -> u32;
    pub safe fn johikape_box_contains(a: &[f64; 8], a_flags: u8, b: &[f64; 8], b_flags: u8) -> u32;
    pub safe fn johikape_box_merge(
        a: &mut [f64; 8],
        a_flags: &mut u8,
        b: &[f64; 8],
        b_flags: u8,
    ) -> u32;
    pub safe fn johikape_box_intersection(
        a: &mut [f64; 8],
        a_flags: &mut u8,
        b: &[f64; 8],
        b_flags: u8,
    ) -> u32;
    pub safe fn johikape_box_expand_by(a: &mut [f64; 8], a_flags: &mut u8, distance: f64) -> u32;
    pub safe fn johikape_box_to_geoparquet(
        ends: &[f64; 8],
        flags: u8,
        array: &mut [f64; 6],
        count: &mut usize,
    ) -> u32;

    fn johikape_box_from_geoparquet(
        array: *const f64,
        array_count: usize,
        ends: &mut [f64; 8],
        flags: &mut u8,
    ) -> u32;

    fn johikape_box_from_wkb(
        bytes: *const u8,
        bytes_count: usize,
        ends: &mut [f64; 8],
        flags: &mut u8,
        types: &mut u32,
    ) -> u32;

    pub safe fn johikape_merge(
        doubles: &mut [f64; 10],
        totals: &mut [i64; 7],
        types: &mut u32,
        flags: &mut u32,
        other_doubles: &[f64; 10],
        other_totals: &[i64; 7],
        other_types: u32,
        other_flags: u32,
    ) -> u32;

    fn johikape_fold(
        doubles: *const f64,
        doubles_count: usize,
        totals: *const i64,
        totals_count: usize,
        types: *const u32,
        types_count: usize,
        flags: *const u32,
        flags_count: usize,
        out_doubles: &mut [f64; 10],
        out_totals: &mut [i64; 7],
        out_types: &mut u32,
        out_flags: &mut u32,
    ) -> u32;

    pub safe fn johikape_fee_of_record(
        doubles: &[f64; 10],
        totals: &[i64; 7],
        types: u32,
        flags: u32,
        first: u32,
        second: u32,
        third: u32,
        cents: &mut u64,
    ) -> u32;

    fn johikape_fee_of_sizes(
        sizes: *const i64,
        sizes_count: usize,
        known: *const u8,
        known_count: usize,
        first: u32,
        second: u32,
        third: u32,
        cents: &mut u64,
    ) -> u32;

    fn johikape_evaluate_by_position(
        nodes: *const u32,
        nodes_count: usize,
        literals: *const f64,
        literals_count: usize,
        literal_flags: *const u8,
        literal_flags_count: usize,
        records: *const f64,
        records_count: usize,
        record_flags: *const u8,
        record_flags_count: usize,
        record_types: *const u32,
        record_types_count: usize,
        types_known: *const u8,
        types_known_count: usize,
    ) -> u32;

    fn johikape_evaluate_by_name(
        nodes: *const u32,
        nodes_count: usize,
        literals: *const f64,
        literals_count: usize,
        literal_flags: *const u8,
        literal_flags_count: usize,
        records: *const f64,
        records_count: usize,
        record_flags: *const u8,
        record_flags_count: usize,
        record_types: *const u32,
        record_types_count: usize,
        types_known: *const u8,
        types_known_count: usize,
        names: *const u32,
        names_count: usize,
    ) -> u32;

    fn johikape_find_name(
        names: *const u32,
        names_count: usize,
        name: u32,
        place: &mut usize,
        compared: &mut usize,
    ) -> bool;

    fn johikape_filter_bbox(
        nodes: *const u32,
        nodes_count: usize,
        literals: *const f64,
        literals_count: usize,
        literal_flags: *const u8,
        literal_flags_count: usize,
        name: u32,
        ends: &mut [f64; 8],
        flags: &mut u8,
    ) -> u32;
}

// SAFETY, of the eight below: each pointer and count are those of one slice, which is lent for the
// whole call and only read. What is written is borrowed by the call alone.

/// `johikape_box_from_geoparquet`.
#[inline]
pub fn box_from_geoparquet(array: &[f64], ends: &mut [f64; 8], flags: &mut u8) -> u32 {
    unsafe { johikape_box_from_geoparquet(array.as_ptr(), array.len(), ends, flags) }
}

/// `johikape_box_from_wkb`.
#[inline]
pub fn box_from_wkb(bytes: &[u8], ends: &mut [f64; 8], flags: &mut u8, types: &mut u32) -> u32 {
    unsafe { johikape_box_from_wkb(bytes.as_ptr(), bytes.len(), ends, flags, types) }
}

/// `johikape_fold`.
#[inline]
#[allow(clippy::too_many_arguments)]
pub fn fold(
    doubles: &[f64],
    totals: &[i64],
    types: &[u32],
    flags: &[u32],
    out_doubles: &mut [f64; 10],
    out_totals: &mut [i64; 7],
    out_types: &mut u32,
    out_flags: &mut u32,
) -> u32 {
    unsafe {
        johikape_fold(
            doubles.as_ptr(),
            doubles.len(),
            totals.as_ptr(),
            totals.len(),
            types.as_ptr(),
            types.len(),
            flags.as_ptr(),
            flags.len(),
            out_doubles,
            out_totals,
            out_types,
            out_flags,
        )
    }
}

/// `johikape_fee_of_sizes`.
#[inline]
pub fn fee_of_sizes(
    sizes: &[i64],
    known: &[u8],
    first: u32,
    second: u32,
    third: u32,
    cents: &mut u64,
) -> u32 {
    unsafe {
        johikape_fee_of_sizes(
            sizes.as_ptr(),
            sizes.len(),
            known.as_ptr(),
            known.len(),
            first,
            second,
            third,
            cents,
        )
    }
}

/// `johikape_evaluate_by_position`.
#[inline]
pub fn evaluate_by_position(
    nodes: &[u32],
    literals: &[f64],
    literal_flags: &[u8],
    records: &[f64],
    record_flags: &[u8],
    record_types: &[u32],
    types_known: &[u8],
) -> u32 {
    unsafe {
        johikape_evaluate_by_position(
            nodes.as_ptr(),
            nodes.len(),
            literals.as_ptr(),
            literals.len(),
            literal_flags.as_ptr(),
            literal_flags.len(),
            records.as_ptr(),
            records.len(),
            record_flags.as_ptr(),
            record_flags.len(),
            record_types.as_ptr(),
            record_types.len(),
            types_known.as_ptr(),
            types_known.len(),
        )
    }
}

/// `johikape_evaluate_by_name`.
#[inline]
#[allow(clippy::too_many_arguments)]
pub fn evaluate_by_name(
    nodes: &[u32],
    literals: &[f64],
    literal_flags: &[u8],
    records: &[f64],
    record_flags: &[u8],
    record_types: &[u32],
    types_known: &[u8],
    names: &[u32],
) -> u32 {
    unsafe {
        johikape_evaluate_by_name(
            nodes.as_ptr(),
            nodes.len(),
            literals.as_ptr(),
            literals.len(),
            literal_flags.as_ptr(),
            literal_flags.len(),
            records.as_ptr(),
            records.len(),
            record_flags.as_ptr(),
            record_flags.len(),
            record_types.as_ptr(),
            record_types.len(),
            types_known.as_ptr(),
            types_known.len(),
            names.as_ptr(),
            names.len(),
        )
    }
}

/// `johikape_find_name`.
#[inline]
pub fn find_name(names: &[u32], name: u32, place: &mut usize, compared: &mut usize) -> bool {
    unsafe { johikape_find_name(names.as_ptr(), names.len(), name, place, compared) }
}

/// `johikape_filter_bbox`.
#[inline]
pub fn filter_bbox(
    nodes: &[u32],
    literals: &[f64],
    literal_flags: &[u8],
    name: u32,
    ends: &mut [f64; 8],
    flags: &mut u8,
) -> u32 {
    unsafe {
        johikape_filter_bbox(
            nodes.as_ptr(),
            nodes.len(),
            literals.as_ptr(),
            literals.len(),
            literal_flags.as_ptr(),
            literal_flags.len(),
            name,
            ends,
            flags,
        )
    }
}
