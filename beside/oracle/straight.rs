//! The original's Deserialize straight over versions and rows, with no text and no tree in between: what its rebuild costs at the least.
use crate::Words;

/// A map of slotmap's that can be made of versions and rows. An error is what its Deserialize says.
pub trait Straight: Sized {
    fn straight(slots: &[(u32, Option<Words>)]) -> Result<Self, String>;
}

#[cfg(not(feature = "rebuild"))]
impl<M> Straight for M {
    fn straight(_: &[(u32, Option<Words>)]) -> Result<Self, String> {
        Err("the original was built without serde".to_string())
    }
}

#[cfg(feature = "rebuild")]
mod through_serde {
    use serde::de::value::{Error, SeqDeserializer};
    use serde::de::{DeserializeOwned, Deserializer, IntoDeserializer, Visitor};
    use serde::forward_to_deserialize_any;

    use super::Straight;
    use crate::Words;

    impl<M: DeserializeOwned> Straight for M {
        fn straight(slots: &[(u32, Option<Words>)]) -> Result<Self, String> {
            M::deserialize(SeqDeserializer::<_, Error>::new(slots.iter().map(Slot))).map_err(|error| error.to_string())
        }
    }

    /// A slot is the sequence of its two fields, in slotmap's order.
    struct Slot<'s>(&'s (u32, Option<Words>));

    enum Field<'s> {
        Value(&'s Option<Words>),
        Version(u32),
    }

    impl<'de> Deserializer<'de> for Slot<'_> {
        type Error = Error;

        fn deserialize_any<V: Visitor<'de>>(self, visitor: V) -> Result<V::Value, Error> {
            let (version, value) = self.0;
            visitor.visit_seq(SeqDeserializer::new([Field::Value(value), Field::Version(*version)].into_iter()))
        }

        forward_to_deserialize_any! {
            bool i8 i16 i32 i64 i128 u8 u16 u32 u64 u128 f32 f64 char str string bytes byte_buf option unit unit_struct newtype_struct seq tuple
            tuple_struct map struct enum identifier ignored_any
        }
    }

    impl<'de> Deserializer<'de> for Field<'_> {
        type Error = Error;

        fn deserialize_any<V: Visitor<'de>>(self, visitor: V) -> Result<V::Value, Error> {
            match self {
                Field::Version(version) => visitor.visit_u32(version),
                Field::Value(None) => visitor.visit_none(),
                Field::Value(Some(words)) => visitor.visit_some(SeqDeserializer::new(words.iter().copied())),
            }
        }

        forward_to_deserialize_any! {
            bool i8 i16 i32 i64 i128 u8 u16 u32 u64 u128 f32 f64 char str string bytes byte_buf option unit unit_struct newtype_struct seq tuple
            tuple_struct map struct enum identifier ignored_any
        }
    }

    impl IntoDeserializer<'_, Error> for Slot<'_> {
        type Deserializer = Self;

        fn into_deserializer(self) -> Self {
            self
        }
    }

    impl IntoDeserializer<'_, Error> for Field<'_> {
        type Deserializer = Self;

        fn into_deserializer(self) -> Self {
            self
        }
    }
}
