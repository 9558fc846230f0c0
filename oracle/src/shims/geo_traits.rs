//! Stands in for geo_traits: the traits of geometries, which those of the writer have.

use crate::wkb::{
    COLLECTION, LINE_STRING, MULTI_LINE_STRING, MULTI_POINT, MULTI_POLYGON, POINT, POLYGON,
};
use crate::wkb_writer::{Geometry, width};
use std::slice::{Chunks, Iter};

#[derive(Debug, Clone, Copy, PartialEq, Eq, Hash)]
pub enum Dimensions {
    Xy,
    Xyz,
    Xym,
    Xyzm,
    Unknown(usize),
}

pub enum GeometryType<'a> {
    Point(&'a [f64]),
    LineString(Chunks<'a, f64>),
    Polygon(&'a Geometry),
    MultiPoint(&'a Geometry),
    MultiLineString(&'a Geometry),
    MultiPolygon(&'a Geometry),
    GeometryCollection(&'a Geometry),
}

pub trait GeometryTrait {
    type T;
    fn dim(&self) -> Dimensions;
    fn as_type(&self) -> GeometryType<'_>;
}

impl GeometryTrait for &Geometry {
    type T = f64;

    fn dim(&self) -> Dimensions {
        use Dimensions::{Xy, Xym, Xyz, Xyzm};
        [Xy, Xyz, Xym, Xyzm][self.code as usize / 1000]
    }

    fn as_type(&self) -> GeometryType<'_> {
        match self.kind() {
            POINT => GeometryType::Point(&self.runs[0]),
            LINE_STRING => GeometryType::LineString(line(self, &self.runs[0])),
            POLYGON => GeometryType::Polygon(self),
            MULTI_POINT => GeometryType::MultiPoint(self),
            MULTI_LINE_STRING => GeometryType::MultiLineString(self),
            MULTI_POLYGON => GeometryType::MultiPolygon(self),
            COLLECTION => GeometryType::GeometryCollection(self),
            kind => panic!("no type has the number {kind}"),
        }
    }
}

/// A run of a geometry, as the coordinates of its points.
fn line<'a>(geometry: &Geometry, run: &'a [f64]) -> Chunks<'a, f64> {
    run.chunks(width(geometry.code))
}

/// Declares traits, and what a type has for them.
macro_rules! traits {
    ($($name:ident for $type:ty {
        $($method:ident(&$self:ident $(, $operand:ident: $of:ty)?) -> $result:ty $body:block)*
    })*) => { $(
        pub trait $name {
            $(fn $method(&$self $(, $operand: $of)?) -> $result;)*
        }

        impl $name for $type {
            $(fn $method(&$self $(, $operand: $of)?) -> $result $body)*
        }
    )* };
}

traits! {
    CoordTrait for [f64] {
        x(&self) -> f64 { self[0] }
        y(&self) -> f64 { self[1] }
        nth_unchecked(&self, n: usize) -> f64 { self[n] }
    }
    PointTrait for [f64] {
        // The crate wkb has none where all are NaN; these enter no interval, so it is the same.
        coord(&self) -> Option<&Self> { Some(self) }
    }
    LineStringTrait for Chunks<'_, f64> {
        coords(&self) -> Self { self.clone() }
    }
    PolygonTrait for Geometry {
        exterior(&self) -> Option<Chunks<'_, f64>> {
            self.runs.first().map(|run| line(self, run))
        }
        interiors(&self) -> impl Iterator<Item = Chunks<'_, f64>> {
            self.runs.iter().skip(1).map(|run| line(self, run))
        }
    }
    MultiPointTrait for Geometry {
        points(&self) -> Iter<'_, Geometry> { self.parts.iter() }
    }
    MultiLineStringTrait for Geometry {
        line_strings(&self) -> Iter<'_, Geometry> { self.parts.iter() }
    }
    MultiPolygonTrait for Geometry {
        polygons(&self) -> Iter<'_, Geometry> { self.parts.iter() }
    }
    GeometryCollectionTrait for Geometry {
        geometries(&self) -> Iter<'_, Geometry> { self.parts.iter() }
    }
}
