//! Stands in for datafusion_common: its error, its scalars and what holds them.

use super::arrow_schema::DataType;
use std::error::Error;
use std::fmt;

#[derive(Debug)]
pub enum DataFusionError {
    Message(String),
    External(Box<dyn Error + Send + Sync>),
}

impl fmt::Display for DataFusionError {
    fn fmt(&self, f: &mut fmt::Formatter<'_>) -> fmt::Result {
        write!(f, "{self:?}")
    }
}

impl Error for DataFusionError {}

pub type Result<T, E = DataFusionError> = std::result::Result<T, E>;

macro_rules! exec_datafusion_err {
    ($($message:tt)*) => {
        $crate::shims::datafusion_common::DataFusionError::Message(format!($($message)*))
    };
}
pub(crate) use exec_datafusion_err;

#[derive(Clone)]
pub enum ScalarValue {
    Boolean(Option<bool>),
    Float64(Option<f64>),
    Binary(Option<Vec<u8>>),
    LargeBinary(Option<Vec<u8>>),
    BinaryView(Option<Vec<u8>>),
}

impl ScalarValue {
    pub fn cast_to(&self, _: &DataType) -> Result<ScalarValue> {
        unimplemented!()
    }
}

pub struct ColumnStatistics {
    pub sum_value: stats::Precision<ScalarValue>,
}

impl ColumnStatistics {
    pub fn new_unknown() -> Self {
        unimplemented!()
    }

    pub fn with_sum_value(self, _: stats::Precision<ScalarValue>) -> Self {
        unimplemented!()
    }
}

pub mod config {
    #[derive(Default)]
    pub struct ConfigOptions;
}

pub mod metadata {
    #[derive(Clone)]
    pub struct FieldMetadata;
}

pub mod stats {
    pub enum Precision<T> {
        Exact(T),
    }
}
