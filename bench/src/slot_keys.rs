//! The keys of `slotmap` as numbers, with their generations.
use slotmap::{DefaultKey, Key, KeyData};

pub fn number_of(key: DefaultKey) -> u64 {
    key.data().as_ffi()
}

pub fn key_of(number: u64) -> DefaultKey {
    KeyData::from_ffi(number).into()
}
