//! Stands in for sedona_common: the macros that make an error of a message.

pub(crate) use super::datafusion_common::exec_datafusion_err as sedona_internal_datafusion_err;

macro_rules! sedona_internal_err {
    ($($message:tt)*) => {
        Err($crate::shims::sedona_common::sedona_internal_datafusion_err!($($message)*))
    };
}
pub(crate) use sedona_internal_err;
