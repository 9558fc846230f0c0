//! Which files of a spatial archive a query may skip.
//!
//! An archive keeps readings in files: x, y, a depth as z, degrees as m. Of each file it keeps a
//! record, [`GeoStatistics`], folded over the file's parts. A [`Filter`] held against the record
//! says whether the file may have a row that is wanted. One that cannot is not opened.
//!
//! ```
//! use johikape::{BoundingBox, Column, Evaluation, Filter, GeoStatistics, fold};
//!
//! let parts = [
//!     GeoStatistics::from(BoundingBox::xy((12.5, 18.5), (40.5, 44.5)).with_m((36.0, 52.0))),
//!     GeoStatistics::from(BoundingBox::xy((14.0, 17.0), (41.0, 43.0)).with_m((49.0, 63.5))),
//! ];
//! let file = fold(&parts)?;
//! let hot = BoundingBox::xy((10.0, 20.0), (38.0, 46.0)).with_m((55.0, 120.0));
//! let wanted = Filter::intersects(Column::at(0), hot);
//! assert_eq!(wanted.evaluate_by_position(&[file])?, Evaluation::MayMatch);
//! # Ok::<(), johikape::Refusal>(())
//! ```
//!
//! What it costs to read files that may match, [`GeoStatistics::fee`] and [`fee_of_sizes`] say.
//!
//! # What is proved
//!
//! The answers are those of a library each of whose functions is proved to give what its definition
//! says, NaN, infinities and rounding included. This crate lays values out as that library reads
//! them, and reads back what it writes; that much is tested, not proved. The library keeps no state
//! and allocates nothing, so any number of threads may call it at once.
//!
//! # Linking
//!
//! The static library, `libjohikape.a`, is looked for in the folder that the variable
//! `JOHIKAPE_LIB_DIR` names, else where `bindings/build` puts it. A program that uses this crate
//! has it inside: nothing is loaded when it starts.
//!
//! A caller that has the library's tables already calls it by [`raw`].
//!
//! # Rules that hold throughout
//!
//! * An x may **wrap around**. With its low above its high it is everything at or above the low,
//!   and everything at or below the high: `(170, -170)` is the strip at the antimeridian.
//! * An interval is **empty** where its high less its low is minus infinity, as in `(inf, -inf)`.
//! * A z or an m may be **missing**. That rules nothing out; missing is never empty.
//! * A record **without a box** may match any literal, and one without types too may match
//!   anything.
//! * A **zero** at an end of an interval or a box, or in an array, is given as +0: two boxes without NaN
//!   that are equal have the same bits. -0 that a caller puts into a field is read as 0.
//! * A call that cannot be answered is refused by a number: [`Refusal`] has them all. A refused
//!   call has changed nothing.

#![deny(unsafe_code)]
#![warn(missing_docs)]

mod bounding_box;
mod calls;
mod filter;
mod interval;
mod layout;
mod name_search;
#[allow(unsafe_code)]
pub mod raw;
mod refusal;
mod statistics;
mod tariff;

pub use bounding_box::BoundingBox;
pub use filter::{Column, CompiledFilter, Evaluation, Filter};
pub use interval::{Interval, WraparoundInterval};
pub use name_search::{NameSearch, find_name};
pub use refusal::Refusal;
pub use statistics::{GeoStatistics, fold};
pub use tariff::{Rates, fee_of_sizes};
