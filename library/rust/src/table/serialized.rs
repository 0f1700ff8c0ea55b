//! Keys as serde writes and reads them, with the feature `serde`.
use super::Key;
use serde::de::{Error, Unexpected, Visitor};
use serde::{Deserialize, Deserializer, Serialize, Serializer};
use std::fmt;
use std::marker::PhantomData;

impl<R> Serialize for Key<R> {
    fn serialize<S: Serializer>(&self, serializer: S) -> Result<S::Ok, S::Error> {
        if serializer.is_human_readable() {
            serializer.collect_str(self)
        } else {
            serializer.serialize_u64(self.to_bits())
        }
    }
}

impl<'de, R> Deserialize<'de> for Key<R> {
    fn deserialize<D: Deserializer<'de>>(deserializer: D) -> Result<Key<R>, D::Error> {
        if deserializer.is_human_readable() {
            deserializer.deserialize_str(Written(PhantomData))
        } else {
            deserializer.deserialize_u64(Written(PhantomData))
        }
    }
}

/// Reads a key from either form.
struct Written<R>(PhantomData<fn() -> R>);

impl<R> Visitor<'_> for Written<R> {
    type Value = Key<R>;

    fn expecting(&self, f: &mut fmt::Formatter<'_>) -> fmt::Result {
        f.write_str("a key, a number from 1 to 18446744073709551615")
    }

    fn visit_u64<E: Error>(self, bits: u64) -> Result<Key<R>, E> {
        Key::from_bits(bits).ok_or_else(|| E::invalid_value(Unexpected::Unsigned(bits), &self))
    }

    fn visit_str<E: Error>(self, text: &str) -> Result<Key<R>, E> {
        text.parse().map_err(|_| E::invalid_value(Unexpected::Str(text), &self))
    }
}
