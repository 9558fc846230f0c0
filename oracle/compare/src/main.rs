//! Makes the same drawn calls to the proved library and to the Rust, or to a second implementation where the
//! Rust has no such call, and compares what they give.

mod boxes;
mod cases;
mod compared;
mod filters;
mod geoparquet;
mod intervals;
mod layout;
mod library;
mod records;
mod show;
mod tariff;
mod wkb;

use compared::Group;
use oracle::random::Random;
use std::{env, process::ExitCode};

const USAGE: &str = "\
compare [SEED] [COUNT]    makes at least COUNT calls (10000000), drawn from SEED (1)";

const SEED: u64 = 1;
const COUNT: u64 = 10_000_000;

/// The groups of `compare` to draw from, by their places. Those of intervals and of boxes are made
/// fast, and come twice as often.
const TURNS: [usize; 9] = [0, 0, 1, 1, 2, 3, 4, 5, 6];

/// The group of wide tables, which are made slowly: of so many turns it has one.
const WIDE: usize = 7;
const ONE_WIDE_IN: usize = 32;

/// The group of the tariff. One in so many calls is its own; these come last.
const TARIFF: usize = 8;
const ONE_TARIFF_IN: u64 = 8;

fn main() -> ExitCode {
    let Some((seed, count)) = read_arguments() else {
        eprintln!("{USAGE}");
        return ExitCode::FAILURE;
    };
    match compare(seed, count) {
        Ok(table) => {
            print!("{table}");
            ExitCode::SUCCESS
        }
        Err(difference) => {
            println!("{difference}");
            ExitCode::FAILURE
        }
    }
}

fn read_arguments() -> Option<(u64, u64)> {
    let words: Vec<String> = env::args().skip(1).collect();
    let number = |place: usize, otherwise| match words.get(place) {
        Some(word) => word.parse().ok(),
        None => Some(otherwise),
    };
    let arguments = (number(0, SEED)?, number(1, COUNT)?);
    (words.len() <= 2).then_some(arguments)
}

/// Makes the calls; gives the table of what they gave, or the first difference.
fn compare(seed: u64, count: u64) -> Result<String, String> {
    let mut groups: [Box<dyn Group>; 9] = [
        Box::new(intervals::calls()),
        Box::new(boxes::calls()),
        Box::new(records::merges()),
        Box::new(records::folds()),
        Box::new(filters::calls()),
        Box::new(geoparquet::calls()),
        Box::new(wkb::calls()),
        Box::new(filters::wide_calls()),
        Box::new(tariff::calls()),
    ];
    let values = cases::values();
    let mut random = Random::new(seed, &values);
    let others = count - count / ONE_TARIFF_IN;
    let mut made = 0;
    while made < count {
        let place = if made < others {
            turn(&mut random)
        } else {
            TARIFF
        };
        let more = groups[place].compare(&mut random);
        made += more.map_err(|case| format!("seed {seed}, after {made} calls: {case}"))?;
    }
    let table: String = groups.iter().map(|group| group.table()).collect();
    let minus_zeros: u64 = groups.iter().map(|group| group.minus_zeros()).sum();
    Ok(format!(
        "{table}{minus_zeros} of the ends and numbers given are -0\n{made} calls agree (seed {seed})\n"
    ))
}

/// The group that is next.
fn turn(random: &mut Random) -> usize {
    match random.below(ONE_WIDE_IN) {
        0 => WIDE,
        _ => TURNS[random.below(TURNS.len())],
    }
}
