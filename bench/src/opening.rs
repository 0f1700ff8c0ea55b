//! The table of opening: what a heap takes to open and to be filled, by the library from Rust.
use crate::markdown::{head, line};
use crate::times::{text, Times};
use crate::title::grouped;
use std::path::Path;
use std::process::Command;

const VALUES: [usize; 3] = [100_000, 1_000_000, 10_000_000];

/// What one process reported of one heap.
struct Opening {
    nanoseconds: f64,
    words: f64,
    /// Bytes: once it is open, the most until then, and once it is filled.
    bytes: [f64; 3],
}

// The number behind this name in the report.
fn number(told: &str, name: &str) -> Result<f64, String> {
    let found = told.lines().find_map(|line| line.strip_prefix(name)?.trim().parse().ok());
    found.ok_or_else(|| format!("{name} is not told"))
}

impl Opening {
    fn read(told: &str) -> Result<Opening, String> {
        let bytes = [number(told, "opened ")?, number(told, "most ")?, number(told, "filled ")?];
        Ok(Opening { nanoseconds: number(told, "nanoseconds ")?, words: number(told, "words ")?, bytes })
    }

    // Of a heap with room for this many values, in a process of its own.
    fn of(program: &Path, values: usize) -> Result<Opening, String> {
        let run = Command::new(program).args(["opening", &values.to_string()]).output();
        let run = run.map_err(|error| format!("{}: {error}", program.display()))?;
        match run.status.success() {
            true => Opening::read(&String::from_utf8_lossy(&run.stdout)),
            false => Err(String::from_utf8_lossy(&run.stderr).trim().to_string()),
        }
    }
}

fn places() -> Vec<String> {
    let words = ["Values", "Words", "open, ms", "ns a word", "Bytes a value: open", "most while opened", "filled"];
    words.map(str::to_string).to_vec()
}

// The bytes are those of the last round: they hardly differ.
fn told(values: usize, openings: &[Opening]) -> Vec<String> {
    let times = |unit: fn(&Opening) -> f64| Times::of(openings.iter().map(|one| one.nanoseconds / unit(one)).collect());
    let time = |times: Option<Times>, places| times.map_or("none".to_string(), |times| text(&[times], places));
    let last = openings.last();
    let words = last.map_or("none".to_string(), |one| grouped(one.words as usize));
    let bytes = |at: usize| last.map_or("none".to_string(), |one| format!("{:.1}", one.bytes[at] / values as f64));
    let [open, word] = [time(times(|_| 1e6), 2), time(times(|one| one.words), 2)];
    vec![grouped(values), words, open, word, bytes(0), bytes(1), bytes(2)]
}

/// The whole table, by this many rounds.
pub fn table(program: &Path, rounds: usize) -> Result<String, String> {
    let mut lines = vec![head(&places())];
    for values in VALUES {
        eprintln!("opening for {} values", grouped(values));
        let openings: Result<Vec<_>, _> = (0..rounds).map(|_| Opening::of(program, values)).collect();
        lines.push(line(&told(values, &openings?)));
    }
    Ok(lines.join("\n"))
}

#[cfg(test)]
mod tests {
    use super::*;

    #[test]
    fn a_line_has_what_was_told() {
        let opening = Opening::read("words 200\nnanoseconds 3000000\nopened 1600\nmost 3200\nfilled 2000\n");
        let line = told(100, &[opening.expect("all is told")]);
        assert_eq!(line, ["100", "200", "3.00 / 3.00", "15000.00 / 15000.00", "16.0", "32.0", "20.0"]);
        assert_eq!(line.len(), places().len());
    }

    #[test]
    fn what_is_not_told_is_an_error() {
        assert_eq!(Opening::read("words 200").err(), Some("opened  is not told".to_string()));
    }
}
