//! Rows of names: one leaf over files of many columns, and the search for a name alone.

use crate::draws::Draws;
use crate::filters::Query;
use crate::timing::{Bench, Row};

/// The widest table.
const WIDEST: usize = 900;

pub fn rows(bench: &Bench) {
    for columns in [10, 100, WIDEST] {
        let count = columns + 1;
        time_leaf(bench, "dense names", &steps(count, 1));
        time_leaf(bench, "drawn names", &Draws::new().different(count));
        let mut equal = steps(count, 65_536);
        time_leaf(bench, "names with equal low bits", &equal);
        Draws::new().shuffle(&mut equal);
        time_leaf(bench, "names with equal low bits, shuffled", &equal);
    }
    time_search(bench);
}

fn steps(count: usize, step: u32) -> Vec<u32> {
    (0..count as u32).map(|k| k * step).collect()
}

/// The places at which a name is sought, in words. At the last one is a name that no column has.
fn places(columns: usize) -> [(&'static str, usize); 4] {
    [
        ("the first", 0),
        ("the middle one", columns / 2),
        ("the last", columns - 1),
        ("a missing one", columns),
    ]
}

/// A leaf that wants one of the names. Without words only some are timed: the table is to stay short.
fn time_leaf(bench: &Bench, kind: &str, names: &[u32]) {
    let columns = names.len() - 1;
    for (which, place) in places(columns) {
        let row = format!("evaluate by name, {columns} {kind}, {which} wanted");
        if bench.takes(&row, columns > 10 && place == columns / 2) {
            Query::of_name(names, place).time_by_name(bench, row);
        }
    }
}

/// sedona-db has no such call of its own: beside it stands `position` of Rust's iterators, on the same
/// list.
fn time_search(bench: &Bench) {
    let drawn = Draws::new().different(WIDEST + 1);
    let names = &drawn[..WIDEST];
    for (which, place) in places(WIDEST) {
        bench.row(
            Row {
                name: format!("find_name, {WIDEST} names, {which}"),
                inputs: &drawn[place..=place],
                parts: 1,
            },
            |name| names.iter().position(|other| other == name),
            |place| match *place {
                Some(place) => (true, place, place + 1),
                None => (false, WIDEST, WIDEST),
            },
            |library| {
                let find_name = library.find_name()?;
                Some(move |name: &u32| find_name(names, *name))
            },
        );
    }
}
