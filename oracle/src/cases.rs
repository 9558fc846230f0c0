//! Writes the case file of the replay program.

use crate::calls::Call;
use crate::text::{write_line, write_operand, write_operands};

const TINY: f64 = f64::from_bits(1);
const BELOW_1: f64 = 1.0_f64.next_down();
const ABOVE_1: f64 = 1.0_f64.next_up();

/// The doubles that sweeps go over.
#[rustfmt::skip]
pub const VALUES: [f64; 28] = [
    0.0, -0.0, 1.0, -1.0, 0.1, 2.0, 5.0, 10.0, 20.0, 90.0, -90.0, 100.0, -100.0,
    170.0, -170.0, 180.0, -180.0, BELOW_1, ABOVE_1, TINY, f64::MIN_POSITIVE,
    1e308, -1e308, f64::MAX, f64::MIN, f64::INFINITY, f64::NEG_INFINITY, f64::NAN,
];

/// The intervals that sweeps make boxes of: plain, empty, one that wraps as an x, full, a NaN end.
const INTERVALS: [[f64; 2]; 5] = [
    [0.0, 10.0],
    [f64::INFINITY, f64::NEG_INFINITY],
    [20.0, 5.0],
    [f64::NEG_INFINITY, f64::INFINITY],
    [5.0, f64::NAN],
];

/// The type sets that sweeps go over.
#[rustfmt::skip]
const SETS: [u32; 22] = [
    0, 1, 2, 3, 4, 64, 127, 128, 255, 256, 0x8000, 0xff00, 0xffff, 0x1_0000, 0xff_0000,
    0x100_0000, 0x8000_0000, 0xff00_0000, 0x5555_5555, 0xaaaa_aaaa, u32::MAX - 1, u32::MAX,
];

/// The names that singles.txt has for doubles.
const NAMED: [(&str, f64); 7] = [
    ("MAX", f64::MAX),
    ("-MAX", f64::MIN),
    ("HUGE", 1e308),
    ("-HUGE", -1e308),
    ("TINY", TINY),
    ("BELOW_1", BELOW_1),
    ("ABOVE_1", ABOVE_1),
];

const HEADER: &str = "\
# The cases of the replay program, as `oracle cases` writes them.
# First each call with every tuple of operands from the three lists, but for calls of records and of
# filters, which are in no list; then single cases.
";

/// The case file: a sweep of every call whose operands are listed, and the cases of singles.txt,
/// filters.txt, layouts.txt, has_z.txt, names.txt, wkb.txt, gdal.txt, containing.txt, plus_zero.txt,
/// tariff.txt and shorter_ways.txt.
pub fn cases(calls: &[Call]) -> String {
    let sweeps: String = calls
        .iter()
        .filter(|call| call.is_swept())
        .map(|call| format!("sweep {}\n", call.name))
        .collect();
    [HEADER, &list_lines(), &sweeps, &singles()].concat()
}

/// The lines that set what sweeps go over.
pub fn list_lines() -> String {
    [
        write_line("values", &write_operands(&VALUES)),
        write_line("intervals", &write_operands(INTERVALS.as_flattened())),
        write_line("sets", &SETS.map(|bits| bits.to_string())),
    ]
    .concat()
}

fn singles() -> String {
    let files = [
        include_str!("singles.txt"),
        include_str!("filters.txt"),
        include_str!("layouts.txt"),
        include_str!("has_z.txt"),
        include_str!("names.txt"),
        include_str!("wkb.txt"),
        include_str!("gdal.txt"),
        include_str!("containing.txt"),
        include_str!("plus_zero.txt"),
        include_str!("tariff.txt"),
        include_str!("shorter_ways.txt"),
    ];
    let lines = files.into_iter().flat_map(str::lines);
    lines.map(|line| spelled(line) + "\n").collect()
}

/// A line with its named doubles written out. A comment stays as it is.
fn spelled(line: &str) -> String {
    if line.starts_with('#') {
        return line.to_string();
    }
    let words: Vec<_> = line.split(' ').map(spell).collect();
    words.join(" ")
}

fn spell(word: &str) -> String {
    let named = NAMED.iter().find(|(name, _)| *name == word);
    named.map_or(word.to_string(), |(_, value)| write_operand(*value))
}
