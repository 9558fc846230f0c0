//! Stands in for the file of sedona-expr that takes distance predicates apart, which is not lent.

use super::datafusion_physical_expr::PhysicalExpr;
use std::sync::Arc;

pub struct ParsedDistancePredicate {
    pub arg0: Arc<dyn PhysicalExpr>,
    pub arg1: Arc<dyn PhysicalExpr>,
    pub arg_distance: Arc<dyn PhysicalExpr>,
}

pub fn parse_distance_predicate(_: &Arc<dyn PhysicalExpr>) -> Option<ParsedDistancePredicate> {
    unimplemented!()
}
