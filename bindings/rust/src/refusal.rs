//! The numbers that refuse a call.

use std::error::Error;
use std::fmt;

/// Why a call was refused.
///
/// Every number of the library is here, so that a log reads the same in each language. Those that
/// the types of this crate rule out say so.
///
/// ```
/// use johikape::{Refusal, WraparoundInterval};
///
/// let plain = WraparoundInterval::new(0.0, 30.0);
/// let wrapped = WraparoundInterval::new(20.0, 5.0);
/// assert_eq!(plain.intersection(wrapped), Err(Refusal::TwoParts));
/// assert_eq!(Refusal::TwoParts.number(), 1);
/// assert_eq!(
///     Refusal::TwoParts.to_string(),
///     "refused by 1: the intersection of two x has two parts"
/// );
/// ```
#[derive(Clone, Copy, Debug, PartialEq, Eq, Hash)]
#[non_exhaustive]
#[repr(u32)]
pub enum Refusal {
    /// 1: the intersection of two x has two parts.
    TwoParts = 1,
    /// 3: a total leaves the range of an `i64`.
    Overflow = 3,
    /// 4: a filter of more than 1,024 nodes. (A node is four words, and at most 4,096 are read.)
    Words = 4,
    /// 5: a node of a kind that does not exist. A [`Filter`](crate::Filter) has none.
    UnknownKind = 5,
    /// 7: nodes that are not one tree. Those of a [`Filter`](crate::Filter) always are.
    BadTree = 7,
    /// 8: bad flags or known bytes, or lists whose lengths do not fit. This crate makes none.
    Boxes = 8,
    /// 9: a literal that is not lent. A [`Filter`](crate::Filter) lends all of its own.
    NoLiteral = 9,
    /// 10: by position, a column index at which there is no record.
    NoColumn = 10,
    /// 11: by name, a name number twice among the records.
    NameTwice = 11,
    /// 12: a `bbox` array of neither four nor six numbers.
    BboxLength = 12,
    /// 13: a known m, for which a `bbox` array has no place.
    KnownM = 13,
    /// 14: a NaN or an infinity in a number of a `bbox` array or of its box, or a low above its high
    /// in y or z.
    BadNumbers = 14,
    /// 15: well-known binary with bytes too few, left over, or over 65,536.
    WkbLength = 15,
    /// 16: well-known binary with an unknown byte order or a wrong type code.
    WkbCode = 16,
    /// 17: well-known binary with a collection more than 32 deep.
    WkbDepth = 17,
    /// 18: a size or the sum missing, negative or over 2^40 bytes, or over 1,000 sizes.
    BadSize = 18,
    /// 19: a rate over 10,000 cents.
    BadRate = 19,
}

impl Refusal {
    /// The number, the same in every language.
    pub const fn number(self) -> u32 {
        self as u32
    }

    /// What the number means, in a sentence.
    const fn sentence(self) -> &'static str {
        match self {
            Refusal::TwoParts => "the intersection of two x has two parts",
            Refusal::Overflow => "a total leaves the range of an i64",
            Refusal::Words => "node words are none, not in fours, or over 4,096 (1,024 nodes)",
            Refusal::UnknownKind => "a node has a kind over 6",
            Refusal::BadTree => {
                "a child is not below its parent, or a node but the root is not used once"
            }
            Refusal::Boxes => "flags or known bytes are bad, or lists have lengths that do not fit",
            Refusal::NoLiteral => "a literal number is not lent",
            Refusal::NoColumn => "there is no record at a column index",
            Refusal::NameTwice => "a name number stands twice among the records",
            Refusal::BboxLength => "a bbox array has neither four nor six numbers",
            Refusal::KnownM => "m is known, and a bbox array has no place for it",
            Refusal::BadNumbers => {
                "a number is NaN or infinite, or y or z has its low above its high"
            }
            Refusal::WkbLength => {
                "bytes of well-known binary are too few, left over, or over 65,536"
            }
            Refusal::WkbCode => "well-known binary has an unknown byte order or a wrong type code",
            Refusal::WkbDepth => "well-known binary has a collection more than 32 deep",
            Refusal::BadSize => {
                "a size or the sum is missing, negative or over 2^40, or there are over 1,000 sizes"
            }
            Refusal::BadRate => "a rate is over 10,000 cents",
        }
    }

    /// What the library's number says of a call: 0 is no refusal.
    ///
    /// # Panics
    ///
    /// On a number that the header does not list: the linked library is not the one that this
    /// crate was written for, and none of its answers can be trusted.
    pub(crate) fn check(number: u32) -> Result<(), Refusal> {
        Err(match number {
            0 => return Ok(()),
            1 => Refusal::TwoParts,
            3 => Refusal::Overflow,
            4 => Refusal::Words,
            5 => Refusal::UnknownKind,
            7 => Refusal::BadTree,
            8 => Refusal::Boxes,
            9 => Refusal::NoLiteral,
            10 => Refusal::NoColumn,
            11 => Refusal::NameTwice,
            12 => Refusal::BboxLength,
            13 => Refusal::KnownM,
            14 => Refusal::BadNumbers,
            15 => Refusal::WkbLength,
            16 => Refusal::WkbCode,
            17 => Refusal::WkbDepth,
            18 => Refusal::BadSize,
            19 => Refusal::BadRate,
            _ => panic!("the linked johikape answered {number}, which its header does not list"),
        })
    }
}

impl fmt::Display for Refusal {
    fn fmt(&self, f: &mut fmt::Formatter<'_>) -> fmt::Result {
        write!(f, "refused by {}: {}", self.number(), self.sentence())
    }
}

impl Error for Refusal {}

#[cfg(test)]
mod tests {
    use super::Refusal;

    #[test]
    fn each_number_is_that_of_its_refusal() {
        assert_eq!(Refusal::check(0), Ok(()));
        for number in [1, 3, 4, 5].into_iter().chain(7..=19) {
            let refusal = Refusal::check(number).unwrap_err();
            assert_eq!(refusal.number(), number);
            let words = refusal.to_string();
            assert!(
                words.starts_with(&format!("refused by {number}: ")),
                "{words}"
            );
        }
    }

    #[test]
    #[should_panic(expected = "which its header does not list")]
    fn a_number_that_the_header_does_not_list_is_no_answer() {
        let _ = Refusal::check(2);
    }
}
