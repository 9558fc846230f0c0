//! Stands in for the file of sedona-expr that wraps a column, which is not lent.

use super::datafusion_physical_expr::PhysicalExpr;
use std::sync::Arc;

pub struct MetadataPreservingColumn;

impl PhysicalExpr for MetadataPreservingColumn {}

impl MetadataPreservingColumn {
    pub fn inner(&self) -> &Arc<dyn PhysicalExpr> {
        unimplemented!()
    }
}
