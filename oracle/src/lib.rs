//! The lent Rust files of sedona-db, compiled unchanged, each a module of its name; and what makes
//! cases and answers them by these files.

pub mod answer;
pub mod answers;
pub mod calls;
pub mod cases;
pub mod containing;
pub mod filter_draws;
pub mod filters;
pub mod layouts;
pub mod name_draws;
pub mod names;
pub mod operands;
pub mod random;
pub mod records;
pub mod refusals;
pub mod shims;
pub mod tariff;
pub mod tariff_draws;
pub mod text;
pub mod wkb;
pub mod wkb_draws;
pub mod wkb_writer;

// The lent files of sedona-expr name these two as their neighbours.
use shims::{metadata_preserving_column, utils};

/// Declares a module for each lent file; build.rs says where a file is that it has checked.
macro_rules! lent {
    ($($name:ident)*) => { $(
        #[allow(unreachable_patterns, unused_unsafe, clippy::all)]
        pub mod $name {
            use crate::shims::*;
            include!(env!(concat!("LENT_", stringify!($name))));
        }
    )* };
}

lent!(error interval bounding_box types bounds statistics spatial_filter);
