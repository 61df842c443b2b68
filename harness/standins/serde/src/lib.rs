//! Stand-in for the crate `serde`: the names that the original mentions, so that it compiles. Nothing is serialized.
pub use serde_derive::{Deserialize, Serialize};

pub trait Serializer: Sized {
    type Ok;
    type Error;
    fn serialize_bytes(self, v: &[u8]) -> Result<Self::Ok, Self::Error>;
}

pub trait Deserializer<'de>: Sized {
    type Error: de::Error;
    fn deserialize_bytes<V: de::Visitor<'de>>(self, visitor: V) -> Result<V::Value, Self::Error>;
}

pub mod de {
    use std::fmt;

    pub trait Error: Sized {
        fn custom<T: fmt::Display>(msg: T) -> Self;
    }

    pub trait Visitor<'de>: Sized {
        type Value;
        fn expecting(&self, formatter: &mut fmt::Formatter) -> fmt::Result;
        fn visit_bytes<E: Error>(self, v: &[u8]) -> Result<Self::Value, E>;
    }
}
