//! Stands in for sedona_schema: the type of a column and the geometry columns of a schema.

pub mod datatypes {
    use crate::shims::{arrow_schema::Field, datafusion_common::Result};
    use crate::types::Edges;

    #[derive(Debug)]
    pub enum SedonaType {
        Wkb(Edges, ()),
        WkbLarge(Edges, ()),
        WkbView(Edges, ()),
    }

    impl SedonaType {
        pub fn from_storage_field(_: &Field) -> Result<SedonaType> {
            unimplemented!()
        }
    }
}

pub mod schema {
    use crate::shims::{arrow_schema::Schema, datafusion_common::Result};

    pub trait SedonaSchema {
        fn geometry_column_indices(&self) -> Result<Vec<usize>>;
    }

    impl SedonaSchema for Schema {
        fn geometry_column_indices(&self) -> Result<Vec<usize>> {
            unimplemented!()
        }
    }
}
