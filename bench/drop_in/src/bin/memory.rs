//! usage: memory VALUES
//!
//! Stores this many `u64` in a slab, and prints the resident memory that each takes, and what is left of it once the
//! slab is dropped. Linux only. `../../measure` builds it with both crates, beside its own program.
use sharded_slab::Slab;
use std::fs;
use std::process::ExitCode;

/// The resident bytes of this process, as Linux counts them.
fn resident() -> Option<usize> {
    let status = fs::read_to_string("/proc/self/status").ok()?;
    let line = status.lines().find_map(|line| line.strip_prefix("VmRSS:"))?;
    let kilobytes: usize = line.split_whitespace().next()?.parse().ok()?;
    Some(kilobytes << 10)
}

fn run(values: u64) -> Option<()> {
    let begin = resident()?;
    let slab = Slab::new();
    assert!((0..values).all(|n| slab.insert(n).is_some()), "there is room");
    let full = resident()?;
    drop(slab);
    let left = resident()?.saturating_sub(begin);
    println!("{:.1} bytes a value, {:.1} MB left", (full - begin) as f64 / values as f64, left as f64 / 1e6);
    Some(())
}

fn main() -> ExitCode {
    let values = std::env::args().nth(1).and_then(|word| word.parse().ok()).filter(|values| *values > 0);
    let Some(()) = values.and_then(run) else {
        eprintln!("usage: memory VALUES, on Linux");
        return ExitCode::FAILURE;
    };
    ExitCode::SUCCESS
}
