//! Stands in for serde: the traits that the set of types is written for. The derives are empty.

pub use shim_macros::{Deserialize, Serialize};

pub trait Serialize {
    fn serialize<S: Serializer>(&self, serializer: S) -> Result<S::Ok, S::Error>;
}

pub trait Serializer {
    type Ok;
    type Error;
    type SerializeSeq: ser::SerializeSeq<Ok = Self::Ok, Error = Self::Error>;
    fn serialize_seq(self, len: Option<usize>) -> Result<Self::SerializeSeq, Self::Error>;
}

pub trait Deserialize<'de>: Sized {
    fn deserialize<D: Deserializer<'de>>(deserializer: D) -> Result<Self, D::Error>;
}

pub trait Deserializer<'de> {
    type Error: de::Error;
}

impl<'de, T> Deserialize<'de> for Vec<T> {
    fn deserialize<D: Deserializer<'de>>(_: D) -> Result<Self, D::Error> {
        unimplemented!()
    }
}

pub mod ser {
    pub trait SerializeSeq {
        type Ok;
        type Error;
        fn serialize_element<T>(&mut self, value: &T) -> Result<(), Self::Error>;
        fn end(self) -> Result<Self::Ok, Self::Error>;
    }
}

pub mod de {
    pub trait Error {
        fn custom<T>(message: T) -> Self;
    }
}
