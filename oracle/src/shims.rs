//! What the lent files import from other crates, a module for each crate. Functions panic, but for
//! those of `Column`, which keep a name and an index, those that make an error of a message, and
//! those of a geometry, which give what it has.

pub mod arrow_schema;
pub mod datafusion_common;
pub mod datafusion_expr;
pub mod datafusion_physical_expr;
pub mod geo_traits;
pub mod metadata_preserving_column;
pub mod sedona_common;
pub mod sedona_schema;
pub mod serde;
pub mod serde_json;
pub mod utils;
pub mod wkb;

/// The lent files of sedona-expr name those of sedona-geometry by this.
pub(crate) use crate as sedona_geometry;

pub mod arrow_array {
    pub struct RecordBatch;
}

pub mod serde_with {
    pub use shim_macros::{DeserializeFromStr, SerializeDisplay, serde_as};
}

pub mod thiserror {
    pub use shim_macros::Error;
}
