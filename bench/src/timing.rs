//! Calls timed in turns.

use crate::library::Library;
use std::env;
use std::fmt::Debug;
use std::hint::black_box;
use std::time::{Duration, Instant};

/// About how long a batch is: far over what reading the clock takes, and so short that many batches
/// are left in peace by whatever else the machine does.
const BATCH: Duration = Duration::from_micros(50);
const FEWEST_ROUNDS: usize = 15;

/// Which rows are timed, for how long, the library and the earlier one that is timed beside it.
pub struct Bench {
    words: Vec<String>,
    budget: Duration,
    now: Library,
    before: Option<Library>,
}

pub struct Row<'a, I> {
    pub name: String,
    pub inputs: &'a [I],
    /// What a call's time is divided by: 1, or how many records or coordinates it goes through.
    pub parts: usize,
}

impl Bench {
    pub fn from_environment() -> Bench {
        let milliseconds = env::var("BENCH_MS").map_or(300, |text| {
            text.parse().expect("BENCH_MS is a whole number")
        });
        let loaded = |variable| env::var(variable).ok().map(|path| Library::loaded(&path));
        Bench {
            words: env::args().skip(1).collect(),
            budget: Duration::from_millis(milliseconds),
            now: loaded("BENCH_NOW").unwrap_or_else(Library::linked),
            before: loaded("BENCH_BEFORE"),
        }
    }

    /// Prints the head of the table.
    pub fn head(&self) {
        match self.before {
            Some(_) => {
                println!("| call | Rust ns | before ns | before ratio | now ns | ratio |");
                println!("|---|---:|---:|---:|---:|---:|");
            }
            None => {
                println!("| call | Rust ns | proved ns | ratio |");
                println!("|---|---:|---:|---:|");
            }
        }
    }

    /// Whether a row is timed: with words where its name has one of them, else where it is usual.
    pub fn takes(&self, name: &str, is_usual: bool) -> bool {
        if self.words.is_empty() {
            is_usual
        } else {
            self.words.iter().any(|word| name.contains(word))
        }
    }

    /// Asserts that all sides answer the same on each input, times them, and prints the row. `laid` is the
    /// Rust's answer as the library gives it; `proved` is the call by a library, nothing where that one
    /// lacks the function.
    pub fn row<'b, I, R, P: PartialEq + Debug, C: Fn(&I) -> P>(
        &'b self,
        row: Row<I>,
        rust: impl Fn(&I) -> R,
        laid: impl Fn(&R) -> P,
        proved: impl Fn(&'b Library) -> Option<C>,
    ) {
        let Row {
            name,
            inputs,
            parts,
        } = row;
        if !self.takes(&name, true) {
            return;
        }
        let now = proved(&self.now).unwrap_or_else(|| panic!("the library lacks {name}"));
        let before = self.before.as_ref().and_then(proved);
        for input in inputs {
            let answer = laid(&rust(input));
            assert_eq!(answer, now(input), "{name}");
            if let Some(before) = &before {
                assert_eq!(answer, before(input), "{name}, before");
            }
        }
        let rust = || all(inputs, &rust);
        // One closure for both libraries, so that the same code calls them.
        let by = |proved: C| move || all(inputs, &proved);
        let (now, before) = (by(now), before.map(by));
        let mut sides: Vec<&dyn Fn()> = vec![&rust, &now];
        if let Some(before) = &before {
            sides.insert(1, before);
        }
        let done = (inputs.len() * parts) as f64;
        let seconds = self.in_turns(&sides);
        self.print(&name, seconds.iter().map(|least| least * 1e9 / done));
    }

    /// Prints the row of what the Rust took, the earlier library where there is one, and the library.
    fn print(&self, name: &str, mut nanoseconds: impl ExactSizeIterator<Item = f64>) {
        let rust = nanoseconds.next().expect("the Rust is timed");
        let mut row = format!("| {name} | {} |", shown(rust));
        if self.before.is_some() && nanoseconds.len() == 1 {
            row += " - | - |";
        }
        for proved in nanoseconds {
            row += &format!(" {} | {:.2} |", shown(proved), proved / rust);
        }
        println!("{row}");
    }

    /// The least seconds that one run of each side takes.
    fn in_turns(&self, sides: &[&dyn Fn()]) -> Vec<f64> {
        let runs: Vec<usize> = sides.iter().map(|side| runs_in_a_batch(side)).collect();
        let mut least = vec![f64::INFINITY; sides.len()];
        let start = Instant::now();
        let mut rounds = 0;
        while rounds < FEWEST_ROUNDS || start.elapsed() < self.budget {
            for ((side, runs), least) in sides.iter().zip(&runs).zip(&mut least) {
                *least = least.min(batch(side, *runs).as_secs_f64() / *runs as f64);
            }
            rounds += 1;
        }
        least
    }
}

fn shown(nanoseconds: f64) -> String {
    let digits = if nanoseconds < 100.0 { 1 } else { 0 };
    format!("{nanoseconds:.digits$}")
}

/// Calls one side on each input.
fn all<I, A>(inputs: &[I], call: impl Fn(&I) -> A) {
    for input in inputs {
        black_box(call(black_box(input)));
    }
}

fn runs_in_a_batch(side: &dyn Fn()) -> usize {
    let mut runs = 1;
    while batch(side, runs) < BATCH / 2 {
        runs *= 2;
    }
    runs
}

/// The run before the clock starts brings back to the caches what the other side has pushed out.
fn batch(side: &dyn Fn(), runs: usize) -> Duration {
    side();
    let start = Instant::now();
    for _ in 0..runs {
        side();
    }
    start.elapsed()
}
