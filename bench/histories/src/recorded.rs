//! Records the answers of maps of other crates. The heap records its own.
use crate::caller::Caller;
use crate::maps::Peer;
use std::fmt::Write;
use std::sync::atomic::{AtomicU64, Ordering};
use std::sync::{Mutex, PoisonError};

/// The clock of all callers. Each reading is another time, and they are ordered by happens before.
static CLOCK: AtomicU64 = AtomicU64::new(0);

fn now() -> u64 {
    CLOCK.fetch_add(1, Ordering::SeqCst)
}

/// What a map returned about a key.
#[derive(Clone, Copy, Debug)]
enum Answer {
    Insert(u64),
    Got(u64),
    Seen(u64),
    Gone,
    Removed,
    Released,
}

/// An answer to a pass, with the times between which the call was made.
#[derive(Clone, Copy, Debug)]
struct Line {
    begin: u64,
    end: u64,
    pass: usize,
    key: u64,
    answer: Answer,
}

impl Line {
    fn write(&self, text: &mut String, has_times: bool) -> std::fmt::Result {
        let Line { begin, end, pass, key, answer } = self;
        if has_times {
            write!(text, "{begin} {end} ")?;
        }
        match answer {
            Answer::Insert(value) => writeln!(text, "{pass} Insert {key} 1 {value}"),
            Answer::Got(value) => writeln!(text, "{pass} Got {key} 1 {value}"),
            Answer::Seen(value) => writeln!(text, "{pass} Seen {key} 1 {value}"),
            Answer::Gone => writeln!(text, "{pass} Gone {key}"),
            Answer::Removed => writeln!(text, "{pass} Removed {key}"),
            Answer::Released => writeln!(text, "{pass} Released {key}"),
        }
    }
}

/// Which answers are written.
#[derive(Clone, Copy, Debug, PartialEq, Eq)]
pub enum Kept {
    All,
    /// Those on the key that was inserted first.
    OfFirstKey,
}

/// The answers of all callers that are done.
#[derive(Debug, Default)]
pub struct Book {
    lines: Mutex<Vec<Line>>,
}

impl Book {
    /// The text of a history of this number of passes. The lines have times unless each call ended before the next
    /// began.
    pub fn text(self, passes: usize) -> String {
        let mut lines = self.lines.into_inner().unwrap_or_else(PoisonError::into_inner);
        lines.sort_unstable_by_key(|line| line.begin);
        let has_times = lines.windows(2).any(|two| two[0].end >= two[1].begin);
        // The maps have no limit on holds.
        let mut text = format!("history {passes} {}\n", u32::MAX);
        for line in &lines {
            line.write(&mut text, has_times).expect("a String takes all");
        }
        text
    }
}

/// A caller of a peer, and what it returned.
pub struct Recorded<'a, P> {
    peer: &'a P,
    pass: usize,
    kept: Kept,
    first_key: Option<u64>,
    lines: Vec<Line>,
    book: &'a Book,
}

impl<'a, P: Peer> Recorded<'a, P> {
    pub fn new(peer: &'a P, pass: usize, kept: Kept, book: &'a Book) -> Self {
        Recorded { peer, pass, kept, first_key: None, lines: Vec::new(), book }
    }

    fn note(&mut self, begin: u64, end: u64, key: u64, answer: Answer) {
        let first_key = *self.first_key.get_or_insert(key);
        if self.kept == Kept::All || key == first_key {
            self.lines.push(Line { begin, end, pass: self.pass, key, answer });
        }
    }
}

impl<P: Peer> Caller for Recorded<'_, P> {
    fn insert(&mut self, value: u64) -> u64 {
        let begin = now();
        let key = self.peer.insert(value);
        self.note(begin, now(), key, Answer::Insert(value));
        key
    }

    fn hold(&mut self, key: u64, act: &mut dyn FnMut(u64)) -> Option<u64> {
        let begin = now();
        // The value, and the time at which its release began.
        let mut held = None;
        let peer = self.peer;
        peer.hold(key, &mut |value| {
            self.note(begin, now(), key, Answer::Got(value));
            act(value);
            held = Some((value, now()));
        });
        let Some((value, release)) = held else {
            self.note(begin, now(), key, Answer::Gone);
            return None;
        };
        self.note(release, now(), key, Answer::Released);
        Some(value)
    }

    fn load(&mut self, key: u64) -> Option<u64> {
        let begin = now();
        let mut found = None;
        self.peer.hold(key, &mut |value| found = Some(value));
        self.note(begin, now(), key, found.map_or(Answer::Gone, Answer::Seen));
        found
    }

    fn remove(&mut self, key: u64) -> bool {
        let begin = now();
        let is_removed = self.peer.remove(key);
        self.note(begin, now(), key, if is_removed { Answer::Removed } else { Answer::Gone });
        is_removed
    }
}

impl<P> Drop for Recorded<'_, P> {
    fn drop(&mut self) {
        self.book.lines.lock().unwrap_or_else(PoisonError::into_inner).append(&mut self.lines);
    }
}
