//! Stands in for datafusion_expr: the logical expressions.

use super::datafusion_common::{ScalarValue, metadata::FieldMetadata};
use std::sync::Arc;

pub enum Expr {
    Column(Column),
    Literal(ScalarValue, Option<FieldMetadata>),
    BinaryExpr(BinaryExpr),
    ScalarFunction(ScalarFunction),
}

pub struct Column {
    pub name: String,
}

pub struct BinaryExpr {
    pub left: Box<Expr>,
    pub op: Operator,
    pub right: Box<Expr>,
}

pub struct ScalarFunction {
    pub func: Arc<ScalarUDF>,
    pub args: Vec<Expr>,
}

#[derive(Clone, Copy)]
pub enum Operator {
    And,
    Or,
}

pub struct ScalarUDF;

impl ScalarUDF {
    pub fn name(&self) -> &str {
        unimplemented!()
    }
}

pub struct ColumnarValue;
