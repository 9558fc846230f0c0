//! What a call answers, as text and as the words of a digest.

use crate::bounding_box::BoundingBox;
use crate::interval::{Interval, IntervalTrait, WraparoundInterval};
use crate::layouts::MOST_NUMBERS;
use crate::names::Search;
use crate::operands::{Kind, MISSING};
use crate::records::{EXTENTS, LEAVES_RANGE, TOTALS};
use crate::statistics::GeoStatistics;
use crate::text;
use crate::types::GeometryTypeAndDimensionsSet;
use std::fmt;

/// An answer is a list of parts.
pub struct Answer(Vec<Part>);

enum Part {
    Bool(bool),
    /// Whether a filter may match.
    Match(bool),
    /// Whether a search for a name has a hit.
    Hit(bool),
    Double(f64),
    /// A count, a place, a type set by its bits, a fee in cents, or the number before a record, a box
    /// or a fee.
    Integer(u64),
    /// A total of a record.
    Total(i64),
    /// All of a missing z or m, or of a missing part of a record: so many words.
    Missing(usize),
    /// Comes first in what could have been missing; has no text.
    Known,
    /// Comes first in an answer that could have been refused; has no text.
    NotRefused,
    /// The number of the refusal, and all of the answer.
    Refused(u64),
}

impl Part {
    fn text(&self) -> Option<String> {
        match self {
            Part::Bool(value) => Some(value.to_string()),
            Part::Match(true) => Some("may match".to_string()),
            Part::Match(false) => Some("cannot match".to_string()),
            Part::Hit(true) => Some("hit".to_string()),
            Part::Hit(false) => Some("none".to_string()),
            Part::Double(value) => Some(text::write(*value)),
            Part::Integer(value) => Some(value.to_string()),
            Part::Total(value) => Some(value.to_string()),
            Part::Missing(words) => Some(vec![MISSING; *words].join(" ")),
            Part::Known | Part::NotRefused => None,
            Part::Refused(number) => Some(format!("refused {number}")),
        }
    }

    /// A word: of a double its bits, where every NaN counts as one.
    fn word(&self) -> u64 {
        match self {
            Part::Bool(value) | Part::Match(value) | Part::Hit(value) => u64::from(*value),
            Part::Double(value) if value.is_nan() => 0x7ff8_0000_0000_0000,
            Part::Double(value) => value.to_bits(),
            Part::Integer(value) => *value,
            Part::Total(value) => value.cast_unsigned(),
            Part::Missing(_) | Part::NotRefused => 0,
            Part::Known => 1,
            Part::Refused(number) => *number,
        }
    }
}

impl Answer {
    /// The answer of a call that the Rust may refuse; `number` stands for its message.
    pub fn or_refused<T: Into<Answer>, E>(result: Result<T, E>, number: u64) -> Answer {
        match result {
            Ok(value) => Answer::joined([Answer(vec![Part::NotRefused]), value.into()]),
            Err(_) => Answer(vec![Part::Refused(number)]),
        }
    }

    /// The number 0 and a record; where there is none, since a total leaves its range, the number
    /// for that and what then stands for it, as it is.
    pub fn numbered(given: Option<GeoStatistics>, otherwise: GeoStatistics) -> Answer {
        let (number, record) = match given {
            Some(given) => (0, record(&given, plus_zero)),
            None => (LEAVES_RANGE, record(&otherwise, |end| end)),
        };
        Answer::joined([Answer(vec![Part::Integer(number)]), record])
    }

    /// Whether a filter may match, or the number that refuses it.
    pub fn matched(result: Result<bool, u64>) -> Answer {
        match result {
            Ok(value) => Answer(vec![Part::NotRefused, Part::Match(value)]),
            Err(number) => Answer(vec![Part::Refused(number)]),
        }
    }

    /// The number 0 and a box; or the number that refuses it, and an empty one.
    pub fn boxed(result: Result<BoundingBox, u64>) -> Answer {
        let number = result.as_ref().map_or_else(|number| *number, |_| 0);
        let bounds = result.unwrap_or_else(|_| BoundingBox::empty());
        Answer::joined([Answer(vec![Part::Integer(number)]), bounds.into()])
    }

    /// The number 0, a box, and a type set by its bits; or the number that refuses them, an empty
    /// box and an empty set.
    pub fn typed(result: Result<(BoundingBox, u32), u64>) -> Answer {
        let types = result.as_ref().map_or(0, |(_, types)| *types);
        let bounds = result.map(|(bounds, _)| bounds);
        Answer::joined([Answer::boxed(bounds), types.into()])
    }

    /// The number 0, how many numbers an array has, and these with 0 behind them; or the number that
    /// refuses it, and an empty array.
    pub fn laid_out(result: Result<Vec<f64>, u64>) -> Answer {
        let number = result.as_ref().map_or_else(|number| *number, |_| 0);
        let mut array = result.unwrap_or_default();
        let counts = [number, array.len() as u64].map(Part::Integer);
        array.resize(MOST_NUMBERS, 0.0);
        let numbers = array.into_iter().map(plus_zero).map(Part::Double);
        Answer(counts.into_iter().chain(numbers).collect())
    }

    /// The number 0 and a fee in cents; or the number that refuses it, and 0.
    pub fn priced(result: Result<u64, u64>) -> Answer {
        let words = match result {
            Ok(cents) => [0, cents],
            Err(number) => [number, 0],
        };
        Answer(words.map(Part::Integer).into())
    }

    fn joined(answers: impl IntoIterator<Item = Answer>) -> Answer {
        Answer(answers.into_iter().flat_map(|answer| answer.0).collect())
    }

    pub fn text(&self) -> String {
        let texts: Vec<_> = self.0.iter().filter_map(Part::text).collect();
        texts.join(" ")
    }

    pub fn words(&self) -> impl Iterator<Item = u64> {
        self.0.iter().map(Part::word)
    }
}

impl From<bool> for Answer {
    fn from(value: bool) -> Self {
        Answer(vec![Part::Bool(value)])
    }
}

impl From<f64> for Answer {
    fn from(value: f64) -> Self {
        Answer(vec![Part::Double(value)])
    }
}

impl From<Interval> for Answer {
    fn from(value: Interval) -> Self {
        ends(&value, plus_zero)
    }
}

impl From<WraparoundInterval> for Answer {
    fn from(value: WraparoundInterval) -> Self {
        ends(&value, plus_zero)
    }
}

/// +0 for -0. The Rust leaves the sign of a zero in an interval open; request 6 asks for this one.
pub fn plus_zero(value: f64) -> f64 {
    if value == 0.0 { 0.0 } else { value }
}

/// What is done to each end of an interval.
type EachEnd = fn(f64) -> f64;

fn ends(interval: &impl IntervalTrait, each: EachEnd) -> Answer {
    let ends = [interval.lo(), interval.hi()];
    Answer(ends.map(|end| Part::Double(each(end))).into())
}

impl From<(Interval, Interval)> for Answer {
    fn from((left, right): (Interval, Interval)) -> Self {
        Answer::joined([left.into(), right.into()])
    }
}

impl From<BoundingBox> for Answer {
    fn from(value: BoundingBox) -> Self {
        bounds(&value, plus_zero)
    }
}

fn bounds(value: &BoundingBox, each: EachEnd) -> Answer {
    let dimension = |part: &Option<Interval>| known(part.map(|part| ends(&part, each)), 2);
    let (x, y) = (ends(value.x(), each), ends(value.y(), each));
    Answer::joined([x, y, dimension(value.z()), dimension(value.m())])
}

/// A part that can be missing, which is so many words then.
fn known<T: Into<Answer>>(part: Option<T>, words: usize) -> Answer {
    match part {
        Some(value) => Answer::joined([Answer(vec![Part::Known]), value.into()]),
        None => Answer(vec![Part::Missing(words)]),
    }
}

impl From<u32> for Answer {
    fn from(value: u32) -> Self {
        Answer(vec![Part::Integer(value.into())])
    }
}

impl From<usize> for Answer {
    fn from(value: usize) -> Self {
        Answer(vec![Part::Integer(value as u64)])
    }
}

impl From<GeometryTypeAndDimensionsSet> for Answer {
    fn from(value: GeometryTypeAndDimensionsSet) -> Self {
        value.bits().into()
    }
}

impl From<i64> for Answer {
    fn from(value: i64) -> Self {
        Answer(vec![Part::Total(value)])
    }
}

/// A record. Its extents are no intervals: they are as they were added.
fn record(value: &GeoStatistics, each: EachEnd) -> Answer {
    let bounds = value.bbox().map(|value| bounds(value, each));
    let bounds = known(bounds, Kind::Box.width());
    let types = known(value.geometry_types().cloned(), 1);
    let totals = TOTALS.map(|total| known(total(value), 1));
    let extents = EXTENTS.map(|extent| known(extent(value), 1));
    let parts = [bounds, types].into_iter().chain(totals).chain(extents);
    Answer::joined(parts)
}

impl From<Search> for Answer {
    fn from(value: Search) -> Self {
        let counts = [value.place.into(), value.compared.into()];
        let is_hit = Answer(vec![Part::Hit(value.is_hit)]);
        Answer::joined([is_hit].into_iter().chain(counts))
    }
}

/// The digest of the answers of a sweep.
#[derive(Default)]
pub struct Digest(u64);

impl Digest {
    pub fn add(&mut self, answer: &Answer) {
        for word in answer.words() {
            for half in [word >> 32, word & 0xffff_ffff] {
                self.0 = (self.0 * 1_000_003 + half) % 4_294_967_291;
            }
        }
    }
}

impl fmt::Display for Digest {
    fn fmt(&self, f: &mut fmt::Formatter<'_>) -> fmt::Result {
        write!(f, "{:08x}", self.0)
    }
}

#[cfg(test)]
mod tests {
    use super::*;

    fn record() -> GeoStatistics {
        GeoStatistics::unspecified()
            .with_bbox(Some(BoundingBox::xy((-0.0, 5.0), (-5.0, -0.0))))
            .with_total_envelope_width(-0.0)
    }

    #[test]
    fn intervals_have_plus_zero_and_other_doubles_their_own() {
        assert_eq!(Answer::from(Interval::new(-0.0, -0.0)).text(), "0 0");
        assert_eq!(Answer::from(-0.0).text(), "-0");
        assert_eq!(
            Answer::laid_out(Ok(vec![-0.0; 4])).text(),
            "0 4 0 0 0 0 0 0"
        );
        assert!(Answer::from(-0.0).words().eq([1 << 63]));
    }

    #[test]
    fn a_record_that_is_left_is_as_it_was() {
        let given = Answer::numbered(Some(record()), GeoStatistics::unspecified());
        assert!(given.text().starts_with("0 0 5 -5 0 "), "{}", given.text());
        assert!(given.text().ends_with(" -0 -"), "{}", given.text());
        let left = Answer::numbered(None, record());
        assert!(left.text().starts_with("3 -0 5 -5 -0 "), "{}", left.text());
    }
}
