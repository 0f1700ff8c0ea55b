//! What it takes to open a heap and to fill it: time and memory.
use gearlongan::{Heap, Layout, Room};
use std::fmt::{self, Display};
use std::fs;
use std::time::{Duration, Instant};

/// One heap with room for values of one word, in one shard. Bytes are those that the process has more than before.
#[derive(Debug)]
pub struct Opening {
    /// The words that the heap is made of.
    words: u64,
    time: Duration,
    /// Once it is open.
    opened: u64,
    /// The most while it was opened.
    most: u64,
    /// Once it has all its values.
    filled: u64,
}

// The words of the least heap with room for this many values: pages of 195 words, each with 48 slots, come in eights
// and the shard has two words.
fn words_for(values: u64) -> u64 {
    values.div_ceil(48).div_ceil(8) * 8 * 195 + 2
}

// What the system reports of the process under this name, in bytes.
fn memory(name: &str) -> Result<u64, String> {
    let status = fs::read_to_string("/proc/self/status").map_err(|error| error.to_string())?;
    let line = status.lines().find(|line| line.starts_with(name)).ok_or(format!("no {name} is told"))?;
    let number = line.split_whitespace().nth(1).and_then(|word| word.parse::<u64>().ok());
    number.map(|kilobytes| kilobytes * 1024).ok_or(format!("{line} is no number"))
}

impl Opening {
    /// Of this many values. The process should have done nothing before.
    pub fn of(values: u64) -> Result<Opening, String> {
        let before = memory("VmRSS:")?;
        let room = Room { owners: 1, values, words: 1, passes: 1 };
        let start = Instant::now();
        let heap = Heap::open_for(Layout::Deep, room).map_err(|error| error.to_string())?;
        let time = start.elapsed();
        let more = |name| Ok::<u64, String>(memory(name)?.saturating_sub(before));
        let (opened, most) = (more("VmRSS:")?, more("VmHWM:")?);
        let pass = heap.take().map_err(|error| error.to_string())?;
        let owner = pass.adopt(0).map_err(|refused| refused.to_string())?;
        for value in 0..values {
            owner.insert(&[value]).map_err(|error| error.to_string())?;
        }
        Ok(Opening { words: words_for(values), time, opened, most, filled: more("VmRSS:")? })
    }
}

impl Display for Opening {
    fn fmt(&self, out: &mut fmt::Formatter<'_>) -> fmt::Result {
        writeln!(out, "words {}\nnanoseconds {}", self.words, self.time.as_nanos())?;
        write!(out, "opened {}\nmost {}\nfilled {}", self.opened, self.most, self.filled)
    }
}

#[cfg(test)]
mod tests {
    use super::*;

    #[test]
    fn a_heap_has_the_words_of_its_pages_and_its_shard() {
        assert_eq!(words_for(1), 1562);
        assert_eq!(words_for(384), 1562);
        assert_eq!(words_for(385), 3122);
    }

    #[test]
    fn a_heap_takes_the_bytes_of_its_words() {
        let opening = Opening::of(100_000).expect("there is memory");
        let bytes = 8 * opening.words;
        assert!(opening.opened >= bytes, "{opening:?}");
        assert!(opening.most >= opening.opened && opening.filled >= opening.opened, "{opening:?}");
    }
}
