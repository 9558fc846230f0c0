//! A call of the library beside that of the Rust, or of a second implementation where the Rust has no such
//! call, and whether what they gave is the same.

use crate::cases::Case;
use crate::layout::Record;
use oracle::answer::plus_zero;
use oracle::random::Random;
use std::panic::{self, AssertUnwindSafe};

/// What the library gave: a number, and what it could write to, before the call and after it. A
/// value that it returned counts as written.
pub struct Given {
    pub number: u32,
    pub before: Record,
    pub after: Record,
}

/// What the library is to give: a number and what is written; or the number that refuses the call, which
/// then writes nothing.
pub type Expected = Result<Answer, u32>;

pub struct Answer {
    pub number: u32,
    pub written: Record,
}

impl Answer {
    /// A number alone.
    pub fn number(number: u32) -> Answer {
        let written = Record::NONE;
        Answer { number, written }
    }

    /// With +0 for zero, as the Rust's answers of intervals are compared.
    pub fn plus_zero(mut self) -> Answer {
        self.written.doubles = self.written.doubles.map(plus_zero);
        self
    }

    /// The number 0, and what is written.
    pub fn written(written: impl Into<Record>) -> Answer {
        Answer {
            number: 0,
            written: written.into(),
        }
    }
}

impl From<Answer> for Given {
    fn from(answer: Answer) -> Given {
        Given {
            number: answer.number,
            before: Record::NONE,
            after: answer.written,
        }
    }
}

impl Given {
    /// What a call gave that could write to what it was lent.
    pub fn lent<T: Into<Record> + Copy>(mut lent: T, call: impl FnOnce(&mut T) -> u32) -> Given {
        let before = lent.into();
        let number = call(&mut lent);
        let after = lent.into();
        Given {
            number,
            before,
            after,
        }
    }

    fn is(&self, expected: &Expected) -> bool {
        match expected {
            Ok(answer) => self.number == answer.number && self.after.is_alike(&answer.written),
            Err(number) => self.number == *number && self.after.is_same(&self.before),
        }
    }
}

/// How the numbers 0 and 1 of a call are called.
pub type Words = [&'static str; 2];

pub const TEST: Words = ["no", "yes"];
pub const SEARCH: Words = ["none", "hit"];
pub const EVALUATION: Words = ["cannot match", "may match"];
pub const NUMBER: Words = ["given", "refused 1"];

/// A number that a call gives is below this.
const NUMBERS: usize = 20;

/// Whose answers a call is held against, in the words of a difference; `RUST` is said of the others.
const RUST: &str = "the Rust";
pub const CONTAINING: &str = "the Rust, or oracle/src/containing.rs where it is not asked";
pub const FILTERS: &str =
    "the Rust, or oracle/src/refusals.rs and containing.rs where it is not asked";
pub const LAYOUTS: &str = "oracle/src/layouts.rs";
pub const NAMES: &str = "oracle/src/names.rs";
pub const TARIFF: &str = "oracle/src/tariff.rs";
pub const WKB: &str = "oracle/src/wkb.rs";

/// A call by the library and by another, and how often it gave each number.
pub struct Call<C> {
    name: &'static str,
    words: Words,
    library: Box<dyn Fn(&C) -> Given>,
    other: Box<dyn Fn(&C) -> Expected>,
    /// Who the other is.
    by: &'static str,
    counts: [u64; NUMBERS],
    /// How many -0 were in what the library gave.
    minus_zeros: u64,
}

impl<C: Case> Call<C> {
    pub fn new(
        name: &'static str,
        words: Words,
        library: impl Fn(&C) -> Given + 'static,
        other: impl Fn(&C) -> Expected + 'static,
    ) -> Call<C> {
        Call {
            name,
            words,
            library: Box::new(library),
            other: Box::new(other),
            by: RUST,
            counts: [0; NUMBERS],
            minus_zeros: 0,
        }
    }

    /// The same call, with another than the Rust named.
    pub fn by(self, by: &'static str) -> Call<C> {
        Call { by, ..self }
    }

    /// Makes the call; gives the case and both answers as text where these differ.
    fn compare(&mut self, case: &C) -> Result<(), String> {
        let given = (self.library)(case);
        // A panic of the other is a difference too, and its case is to be seen.
        let expected = panic::catch_unwind(AssertUnwindSafe(|| (self.other)(case)));
        let other = match expected {
            Ok(expected) if given.is(&expected) => {
                self.counts[given.number as usize] += 1;
                if expected.is_ok() {
                    self.minus_zeros += given.after.minus_zeros();
                }
                return Ok(());
            }
            Ok(Ok(answer)) => format!("number {}{}", answer.number, answer.written),
            Ok(Err(number)) => format!("refused {number}{}", given.before),
            Err(_) => "a panic".to_string(),
        };
        let library = format!("number {}{}", given.number, given.after);
        let (name, by) = (self.name, self.by);
        Err(format!(
            "johikape_{name} differs\n{case}\nthe library: {library}\n{by}: {other}"
        ))
    }

    /// How often the call was made, and what it gave how often.
    fn line(&self) -> String {
        let made: u64 = self.counts.iter().sum();
        let counts = self.counts.iter().enumerate();
        let given = counts.filter(|(_, count)| **count > 0);
        let given = given.map(|(number, count)| match self.words.get(number) {
            Some(word) => format!("{word} {count}"),
            None => format!("refused {number} {count}"),
        });
        let given = given.collect::<Vec<_>>().join(", ");
        format!("{:22} {made:>9}: {given}\n", self.name)
    }
}

/// Calls that take the same.
pub trait Group {
    /// Makes all calls with one drawn case, and gives how many these are; or the first difference.
    fn compare(&mut self, random: &mut Random) -> Result<u64, String>;

    /// A line for each call.
    fn table(&self) -> String;

    /// How many -0 were in what the library gave.
    fn minus_zeros(&self) -> u64;
}

impl<C: Case> Group for Vec<Call<C>> {
    fn compare(&mut self, random: &mut Random) -> Result<u64, String> {
        let case = C::draw(random);
        self.iter_mut().try_for_each(|call| call.compare(&case))?;
        Ok(self.len() as u64)
    }

    fn table(&self) -> String {
        self.iter().map(Call::line).collect()
    }

    fn minus_zeros(&self) -> u64 {
        self.iter().map(|call| call.minus_zeros).sum()
    }
}
