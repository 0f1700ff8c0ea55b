//! What replaces the module `history` without the feature `record`: nothing is kept, and each call is only made.
use crate::error::Error;
use crate::ffi::LiveKey;
use crate::key::Key;
use crate::value::Value;

#[derive(Debug)]
pub(crate) struct Recorder;

impl Recorder {
    pub(crate) fn new(_holds: u32) -> Recorder {
        Recorder
    }

    pub(crate) fn log(&self) -> Log {
        Log
    }
}

#[derive(Debug)]
pub(crate) struct Log;

impl Log {
    #[inline(always)]
    pub(crate) fn is_on(&self) -> bool {
        false
    }

    #[inline(always)]
    pub(crate) fn insert(&self, _words: &[u64], call: impl FnOnce() -> Result<Key, Error>) -> Result<Key, Error> {
        call()
    }

    #[inline(always)]
    pub(crate) fn get(&self, _key: Key, call: impl FnOnce() -> Result<(), Error>) -> Result<(), Error> {
        call()
    }

    #[inline(always)]
    pub(crate) fn release(&self, _key: Key, call: impl FnOnce() -> Result<(), Error>) -> Result<(), Error> {
        call()
    }

    #[inline(always)]
    pub(crate) fn remove(&self, _key: Key, call: impl FnOnce() -> Result<(), Error>) -> Result<(), Error> {
        call()
    }

    #[inline(always)]
    pub(crate) fn read(
        &self,
        _key: Key,
        value: &mut Value,
        call: impl FnOnce(&mut Value) -> Result<(), Error>,
    ) -> Result<(), Error> {
        call(value)
    }

    #[inline(always)]
    pub(crate) fn load(
        &self,
        _key: Key,
        value: &mut Value,
        call: impl FnOnce(&mut Value) -> Result<(), Error>,
    ) -> Result<(), Error> {
        call(value)
    }

    #[inline(always)]
    pub(crate) fn next_live(&self, met: &mut LiveKey, call: impl FnOnce(&mut LiveKey) -> bool) -> bool {
        call(met)
    }

    #[inline(always)]
    pub(crate) fn next_held(
        &self,
        call: impl FnOnce() -> Result<Option<(Key, bool)>, Error>,
    ) -> Result<Option<(Key, bool)>, Error> {
        call()
    }

    pub(crate) fn close(&mut self) {}
}
