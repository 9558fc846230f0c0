//! Stands in for datafusion_physical_expr: the physical expressions. `Column` is the one that
//! a filter holds.

use super::arrow_array::RecordBatch;
use super::arrow_schema::{FieldRef, Schema};
use super::datafusion_common::{Result, config::ConfigOptions};
use super::datafusion_expr::{ColumnarValue, ScalarUDF};
use std::{any::Any, fmt, sync::Arc};

pub trait PhysicalExpr: Any {
    fn evaluate(&self, _: &RecordBatch) -> Result<ColumnarValue> {
        unimplemented!()
    }

    fn children(&self) -> Vec<&Arc<dyn PhysicalExpr>> {
        unimplemented!()
    }

    fn with_new_children(
        self: Arc<Self>,
        _: Vec<Arc<dyn PhysicalExpr>>,
    ) -> Result<Arc<dyn PhysicalExpr>> {
        unimplemented!()
    }

    fn fmt_sql(&self, _: &mut fmt::Formatter<'_>) -> fmt::Result {
        unimplemented!()
    }

    fn return_field(&self, _: &Schema) -> Result<FieldRef> {
        unimplemented!()
    }
}

impl dyn PhysicalExpr {
    pub fn downcast_ref<T: PhysicalExpr>(&self) -> Option<&T> {
        unimplemented!()
    }
}

pub struct ScalarFunctionExpr;

impl PhysicalExpr for ScalarFunctionExpr {}

impl ScalarFunctionExpr {
    pub fn new(
        _: &str,
        _: Arc<ScalarUDF>,
        _: Vec<Arc<dyn PhysicalExpr>>,
        _: FieldRef,
        _: Arc<ConfigOptions>,
    ) -> Self {
        unimplemented!()
    }

    pub fn args(&self) -> &[Arc<dyn PhysicalExpr>] {
        unimplemented!()
    }

    pub fn fun(&self) -> &ScalarUDF {
        unimplemented!()
    }
}

pub mod expressions {
    use super::PhysicalExpr;
    use crate::shims::datafusion_common::{ScalarValue, metadata::FieldMetadata};
    use crate::shims::datafusion_expr::Operator;
    use std::sync::Arc;

    #[derive(Debug, Clone)]
    pub struct Column {
        name: String,
        index: usize,
    }

    impl PhysicalExpr for Column {}

    impl Column {
        pub fn new(name: &str, index: usize) -> Self {
            let name = name.to_string();
            Self { name, index }
        }

        pub fn name(&self) -> &str {
            &self.name
        }

        pub fn index(&self) -> usize {
            self.index
        }
    }

    pub struct Literal;

    impl PhysicalExpr for Literal {}

    impl Literal {
        pub fn new_with_metadata(_: ScalarValue, _: Option<FieldMetadata>) -> Self {
            unimplemented!()
        }

        pub fn value(&self) -> &ScalarValue {
            unimplemented!()
        }
    }

    pub struct BinaryExpr;

    impl PhysicalExpr for BinaryExpr {}

    impl BinaryExpr {
        pub fn new(_: Arc<dyn PhysicalExpr>, _: Operator, _: Arc<dyn PhysicalExpr>) -> Self {
            unimplemented!()
        }

        pub fn left(&self) -> &Arc<dyn PhysicalExpr> {
            unimplemented!()
        }

        pub fn op(&self) -> &Operator {
            unimplemented!()
        }

        pub fn right(&self) -> &Arc<dyn PhysicalExpr> {
            unimplemented!()
        }
    }
}
