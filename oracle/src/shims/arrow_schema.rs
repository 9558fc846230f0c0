//! Stands in for arrow_schema: the names of a schema.

use std::sync::Arc;

pub enum DataType {
    Boolean,
    Float64,
}

pub struct Field;

pub type FieldRef = Arc<Field>;

impl Field {
    pub fn new(_: &str, _: DataType, _: bool) -> Self {
        unimplemented!()
    }

    pub fn name(&self) -> &String {
        unimplemented!()
    }
}

pub struct Schema;

impl Schema {
    pub fn empty() -> Self {
        unimplemented!()
    }

    pub fn field(&self, _: usize) -> &Field {
        unimplemented!()
    }
}
