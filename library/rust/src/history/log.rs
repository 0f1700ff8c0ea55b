//! What one pass recorded.
use super::book::Recording;
use crate::error::Error;
use crate::ffi::LiveKey;
use crate::key::Key;
use crate::value::Value;
use std::cell::RefCell;
use std::fmt;
use std::sync::atomic::{AtomicU64, Ordering};

/// The clock of the process. It is never read 2^64 times.
static CLOCK: AtomicU64 = AtomicU64::new(0);

fn now() -> u64 {
    CLOCK.fetch_add(1, Ordering::SeqCst)
}

/// The times between which a call was made.
#[derive(Clone, Copy, Debug)]
struct Span {
    begin: u64,
    end: u64,
}

impl Span {
    fn at(time: u64) -> Span {
        Span { begin: time, end: time }
    }

    /// Makes a call.
    fn of<T>(call: impl FnOnce() -> T) -> (Span, T) {
        let begin = now();
        let answer = call();
        (Span { begin, end: now() }, answer)
    }
}

/// What a call returned about a key.
#[derive(Clone, Debug, PartialEq, Eq)]
enum Answer {
    Insert(Box<[u64]>),
    /// With the value, if it was read.
    Got(Option<Box<[u64]>>),
    Seen(Box<[u64]>),
    Gone,
    Crowded,
    Removed,
    Released,
}

/// An answer of a pass.
#[derive(Clone, Debug)]
pub(super) struct Entry {
    span: Span,
    pass: u32,
    key: Key,
    answer: Answer,
}

impl Entry {
    pub(super) fn begin(&self) -> u64 {
        self.span.begin
    }

    pub(super) fn is_before(&self, other: &Entry) -> bool {
        self.span.end < other.span.begin
    }

    /// Writes it as a line.
    pub(super) fn write(&self, f: &mut fmt::Formatter<'_>, has_times: bool) -> fmt::Result {
        if has_times {
            write!(f, "{} {} ", self.span.begin, self.span.end)?;
        }
        let (name, words) = match &self.answer {
            Answer::Insert(words) => ("Insert", Some(words)),
            Answer::Got(words) => ("Got", words.as_ref()),
            Answer::Seen(words) => ("Seen", Some(words)),
            Answer::Gone => ("Gone", None),
            Answer::Crowded => ("Crowded", None),
            Answer::Removed => ("Removed", None),
            Answer::Released => ("Released", None),
        };
        write!(f, "{} {name} {}", self.pass, self.key)?;
        if let Some(words) = words {
            write!(f, " {}", words.len())?;
            words.iter().try_for_each(|word| write!(f, " {word}"))?;
        }
        writeln!(f)
    }
}

/// The entries of a pass, until they are handed over.
#[derive(Debug)]
struct Entries {
    recording: Recording,
    pass: u32,
    all: Vec<Entry>,
    // The places of those gets whose holds are not released. A pass has at most 16 holds.
    held: Vec<usize>,
}

impl Entries {
    fn new(recording: Recording) -> Entries {
        let pass = recording.number();
        Entries { recording, pass, all: Vec::new(), held: Vec::new() }
    }

    fn note(&mut self, span: Span, key: Key, answer: Answer) {
        self.all.push(Entry { span, pass: self.pass, key, answer });
    }

    fn note_got(&mut self, span: Span, key: Key) {
        self.held.push(self.all.len());
        self.note(span, key, Answer::Got(None));
    }

    fn note_released(&mut self, span: Span, key: Key) {
        if let Some(place) = self.held.iter().rposition(|&get| self.all[get].key == key) {
            self.held.remove(place);
        }
        self.note(span, key, Answer::Released);
    }

    fn note_read(&mut self, span: Span, key: Key, words: &[u64]) {
        let mut is_another = false;
        for &get in &self.held {
            match &mut self.all[get] {
                Entry { key: held, answer: Answer::Got(value), .. } if *held == key => {
                    is_another |= **value.get_or_insert_with(|| words.into()) != *words;
                }
                _ => {}
            }
        }
        if is_another {
            self.note(Span::at(span.begin), key, Answer::Got(Some(words.into())));
            self.note(Span::at(span.end), key, Answer::Released);
        }
    }

    // A refusal that says something about the key.
    fn note_refused(&mut self, span: Span, key: Key, error: Error) {
        match error {
            Error::Gone => self.note(span, key, Answer::Gone),
            Error::Crowded => self.note(span, key, Answer::Crowded),
            _ => {}
        }
    }
}

impl Drop for Entries {
    fn drop(&mut self) {
        self.recording.add(self.pass, &mut self.all);
    }
}

/// Records the calls of a pass, if its heap is recorded.
#[derive(Debug)]
pub(crate) struct Log {
    // (In a box, so that a pass is not much larger for it.)
    entries: Option<Box<RefCell<Entries>>>,
}

impl Log {
    pub(super) fn of(recording: Option<Recording>) -> Log {
        Log { entries: recording.map(|recording| Box::new(RefCell::new(Entries::new(recording)))) }
    }

    #[inline]
    pub(crate) fn is_on(&self) -> bool {
        self.entries.is_some()
    }

    // Makes a call, and notes what it returned.
    #[inline]
    fn noted<T>(
        &self,
        call: impl FnOnce() -> Result<T, Error>,
        note: impl FnOnce(&mut Entries, Span, &Result<T, Error>),
    ) -> Result<T, Error> {
        let Some(entries) = &self.entries else { return call() };
        let (span, answer) = Span::of(call);
        note(&mut entries.borrow_mut(), span, &answer);
        answer
    }

    #[inline]
    pub(crate) fn insert(&self, words: &[u64], call: impl FnOnce() -> Result<Key, Error>) -> Result<Key, Error> {
        self.noted(call, |entries, span, answer| {
            if let Ok(key) = answer {
                entries.note(span, *key, Answer::Insert(words.into()));
            }
        })
    }

    #[inline]
    pub(crate) fn get(&self, key: Key, call: impl FnOnce() -> Result<(), Error>) -> Result<(), Error> {
        self.noted(call, |entries, span, answer| match answer {
            Ok(()) => entries.note_got(span, key),
            Err(error) => entries.note_refused(span, key, *error),
        })
    }

    #[inline]
    pub(crate) fn release(&self, key: Key, call: impl FnOnce() -> Result<(), Error>) -> Result<(), Error> {
        self.noted(call, |entries, span, answer| {
            if answer.is_ok() {
                entries.note_released(span, key);
            }
        })
    }

    #[inline]
    pub(crate) fn remove(&self, key: Key, call: impl FnOnce() -> Result<(), Error>) -> Result<(), Error> {
        self.noted(call, |entries, span, answer| match answer {
            Ok(()) => entries.note(span, key, Answer::Removed),
            Err(error) => entries.note_refused(span, key, *error),
        })
    }

    /// A read into this value.
    #[inline]
    pub(crate) fn read(
        &self,
        key: Key,
        value: &mut Value,
        call: impl FnOnce(&mut Value) -> Result<(), Error>,
    ) -> Result<(), Error> {
        let Some(entries) = &self.entries else { return call(value) };
        let (span, answer) = Span::of(|| call(value));
        if answer.is_ok() {
            entries.borrow_mut().note_read(span, key, value);
        }
        answer
    }

    /// A load into this value.
    #[inline]
    pub(crate) fn load(
        &self,
        key: Key,
        value: &mut Value,
        call: impl FnOnce(&mut Value) -> Result<(), Error>,
    ) -> Result<(), Error> {
        let Some(entries) = &self.entries else { return call(value) };
        let (span, answer) = Span::of(|| call(value));
        match answer {
            Ok(()) => entries.borrow_mut().note(span, key, Answer::Seen((**value).into())),
            Err(error) => entries.borrow_mut().note_refused(span, key, error),
        }
        answer
    }

    /// A step of a walk: a look at the key that it meets.
    #[inline]
    pub(crate) fn next_live(&self, met: &mut LiveKey, call: impl FnOnce(&mut LiveKey) -> bool) -> bool {
        let Some(entries) = &self.entries else { return call(met) };
        let (span, is_met) = Span::of(|| call(met));
        if is_met {
            entries.borrow_mut().note(span, met.key, Answer::Seen((*met.value).into()));
        }
        is_met
    }

    /// The same with a hold: a get of the key.
    pub(crate) fn next_held(
        &self,
        call: impl FnOnce() -> Result<Option<(Key, bool)>, Error>,
    ) -> Result<Option<(Key, bool)>, Error> {
        self.noted(call, |entries, span, answer| match answer {
            Ok(Some((key, true))) => entries.note_got(span, *key),
            Ok(Some((key, false))) => entries.note(span, *key, Answer::Crowded),
            _ => {}
        })
    }

    /// Hands the entries over. It comes before the pass is at home, where another thread may take it.
    pub(crate) fn close(&mut self) {
        self.entries = None;
    }
}

#[cfg(test)]
mod tests {
    use super::*;

    fn text(record: impl FnOnce(&Log, Key)) -> String {
        let recording = Recording::new(1, 4);
        let log = Log::of(Some(recording.clone()));
        record(&log, Key::from(5));
        drop(log);
        recording.history().expect("the pass is at home").to_string()
    }

    fn read(log: &Log, key: Key, words: &[u64]) {
        let mut value = Value::default();
        let call = |value: &mut Value| {
            *value = Value::new(words)?;
            Ok(())
        };
        assert_eq!(log.read(key, &mut value, call), Ok(()));
        assert_eq!(value, *words);
    }

    #[test]
    fn reads_fill_all_holds_on_their_key() {
        let lines = text(|log, key| {
            let other = Key::from(6);
            for held in [key, other, key] {
                assert_eq!(log.get(held, || Ok(())), Ok(()));
            }
            read(log, key, &[7]);
            read(log, key, &[7]);
            assert_eq!(log.release(key, || Ok(())), Ok(()));
        });
        assert_eq!(lines, "history 1 4\n0 Got 5 1 7\n0 Got 6\n0 Got 5 1 7\n0 Released 5\n");
    }

    #[test]
    fn a_read_of_another_value_is_a_get_of_its_own() {
        let lines = text(|log, key| {
            assert_eq!(log.get(key, || Ok(())), Ok(()));
            read(log, key, &[7]);
            read(log, key, &[]);
            assert_eq!(log.release(key, || Ok(())), Ok(()));
        });
        assert_eq!(lines, "history 1 4\n0 Got 5 1 7\n0 Got 5 0\n0 Released 5\n0 Released 5\n");
    }

    #[test]
    fn a_load_is_a_look() {
        let lines = text(|log, key| {
            let mut value = Value::default();
            let call = |value: &mut Value| {
                *value = Value::new(&[7, 8])?;
                Ok(())
            };
            assert_eq!(log.load(key, &mut value, call), Ok(()));
            for error in [Error::BadKey, Error::Gone, Error::Crowded, Error::HoldsFull] {
                assert_eq!(log.load(key, &mut value, |_| Err(error)), Err(error));
            }
            assert_eq!(value, [7, 8]);
        });
        assert_eq!(lines, "history 1 4\n0 Seen 5 2 7 8\n0 Gone 5\n0 Crowded 5\n");
    }

    #[test]
    fn refusals_are_recorded_if_they_are_about_the_key() {
        let lines = text(|log, key| {
            for error in [Error::BadKey, Error::Gone, Error::Crowded, Error::HoldsFull] {
                assert_eq!(log.get(key, || Err(error)), Err(error));
            }
            assert_eq!(log.remove(key, || Err(Error::Gone)), Err(Error::Gone));
            assert_eq!(log.release(key, || Err(Error::NotHeld)), Err(Error::NotHeld));
            assert_eq!(log.insert(&[7], || Err(Error::Full)), Err(Error::Full));
            assert_eq!(log.read(key, &mut Value::default(), |_| Err(Error::NotHeld)), Err(Error::NotHeld));
        });
        assert_eq!(lines, "history 1 4\n0 Gone 5\n0 Crowded 5\n0 Gone 5\n");
    }

    #[test]
    fn calls_that_overlap_have_times() {
        let recording = Recording::new(2, 4);
        let logs = [Log::of(Some(recording.clone())), Log::of(Some(recording.clone()))];
        let (outer, inner) = (Key::from(5), Key::from(6));
        let inserted = logs[0].insert(&[], || {
            logs[1].insert(&[1, 2], || Ok(inner))?;
            Ok(outer)
        });
        assert_eq!(inserted, Ok(outer));
        drop(logs);
        let history = recording.history().expect("both passes are at home");
        assert!(!history.is_ordered() && history.len() == 2);
        let text = history.to_string();
        let lines: Vec<Vec<&str>> = text.lines().map(|line| line.split(' ').collect()).collect();
        assert_eq!(lines[0], ["history", "2", "4"]);
        assert_eq!(
            (&lines[1][2..], &lines[2][2..]),
            (&["0", "Insert", "5", "0"][..], &["1", "Insert", "6", "2", "1", "2"][..])
        );
        let time = |line: usize, word: usize| lines[line][word].parse::<u64>().expect("a time");
        assert!(time(1, 0) < time(2, 0) && time(2, 0) < time(2, 1) && time(2, 1) < time(1, 1), "{text}");
    }
}
