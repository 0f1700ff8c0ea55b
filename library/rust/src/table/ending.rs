//! What a table calls as its keys end.
use super::members::Members;
use super::{Key, Table};
use crate::ended::{Ended, Hook, OfTable};
use crate::ffi::LiveKey;
use crate::{Record, Value};
use std::mem;

/// The hook of a table, if it has one.
#[derive(Debug)]
pub(super) struct OnEnd(Hook<OfTable>);

impl OnEnd {
    pub(super) fn none() -> OnEnd {
        OnEnd(Hook::none())
    }

    #[inline]
    pub(super) fn is_set(&self) -> bool {
        self.0.is_set()
    }

    fn tell(&self, key: crate::Key, value: &Value) {
        if let Some(hook) = self.0.get() {
            hook(key, value);
        }
    }

    // Makes a call of the table, and calls the hook with what it ended. The thread has no place and no lock of the
    // table then, so that the hook may call it.
    #[cold]
    fn told<T>(&self, call: impl FnOnce(&mut Ended) -> T) -> T {
        let (answer, ended) = Ended::told(call);
        if let Some(Ended { key, value }) = ended {
            self.tell(key, &value);
        }
        answer
    }

    pub(super) fn load(&self, members: &Members, key: crate::Key, value: &mut Value) -> bool {
        self.told(|ended| members.load_ended(key, value, ended))
    }

    pub(super) fn remove(&self, members: &Members, key: crate::Key) -> bool {
        self.told(|ended| members.remove_ended(key, ended))
    }

    pub(super) fn take(&self, members: &Members, key: crate::Key, value: &mut Value) -> bool {
        self.told(|ended| members.take_ended(key, value, ended))
    }

    /// Calls the hook with all keys that have a record, as the table ends.
    pub(super) fn end_all(&self, members: &Members) {
        let mut rest = Rest { on_end: self, members, met: LiveKey::none() };
        rest.tell();
        mem::forget(rest);
    }
}

/// What the hook was not called with yet, as the table ends.
struct Rest<'a> {
    on_end: &'a OnEnd,
    members: &'a Members,
    met: LiveKey,
}

impl Rest<'_> {
    fn tell(&mut self) {
        while self.members.next_live(&mut self.met) {
            self.on_end.tell(self.met.key, &self.met.value);
        }
    }
}

impl Drop for Rest<'_> {
    /// If the hook panicked, it is still called with the others.
    fn drop(&mut self) {
        self.tell();
    }
}

impl<R: Record> Table<R> {
    /// Has `hook` called with each key that ends from now on, and its record. It is called once for each key that is
    /// removed, by the thread whose call was the last to use the key, at the end of that call. It is also called for
    /// each key that is left as the table is dropped. So what a record names, such as a file, is closed once. It
    /// replaces the hook before.
    ///
    /// **An end waits for no copy that [`get`](Table::get) returned.** So another thread may free what the copy names
    /// at any time. A program that follows a pointer or uses a file takes the guards of a [`Growing`](crate::Growing)
    /// heap instead: see [`Pass::on_end`](crate::Pass::on_end) and `examples/boxes.rs`.
    ///
    /// The hook may call the table. If it panics, its call is done, and panics in place of its result; the rest of a
    /// [`clear`](Table::clear) or a walk is not done. As the table is dropped the hook is still called for the others,
    /// and a second panic ends the process. A thread that is stopped for good within a call may keep a key from its
    /// end. So does `std::mem::forget` of the table.
    ///
    /// With a hook a get writes to memory that all readers of the key share, as [there](crate::Pass::on_end).
    ///
    /// ```
    /// # use gearlongan::{Error, Table};
    /// use std::sync::atomic::{AtomicU64, Ordering::Relaxed};
    /// use std::sync::Arc;
    ///
    /// let sum = Arc::new(AtomicU64::new(0));
    /// let (mut table, ends) = (Table::new(), sum.clone());
    /// table.on_end(move |_, number: u64| _ = ends.fetch_add(number, Relaxed));
    /// let key = table.insert(&7)?;
    /// table.insert(&100)?;
    /// assert!(table.remove(key) && !table.remove(key));
    /// assert_eq!(sum.load(Relaxed), 7);
    /// drop(table);
    /// assert_eq!(sum.load(Relaxed), 107);
    /// # Ok::<(), Error>(())
    /// ```
    pub fn on_end(&mut self, hook: impl Fn(Key<R>, R) + Send + Sync + 'static) {
        self.on_end.0.set(Box::new(move |key, value| {
            if let (Some(key), Ok(record)) = (Key::from_bits(key.into()), value.record()) {
                hook(key, record);
            }
        }));
    }
}
