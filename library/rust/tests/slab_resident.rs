//! What a slab takes of the system's memory, and what it returns. One test of one slab, since it counts all of its
//! process, and glibc keeps more for a process that has freed before.
#![cfg(all(target_os = "linux", target_env = "gnu"))]
use gearlongan::slab::Slab;
use std::fs;

/// The resident bytes of this process.
fn resident() -> usize {
    let status = fs::read_to_string("/proc/self/status").expect("Linux has it");
    let line = status.lines().find(|line| line.starts_with("VmRSS:")).expect("it has this line");
    let kilobytes: usize = line.split_whitespace().nth(1).and_then(|word| word.parse().ok()).expect("it is a number");
    kilobytes << 10
}

const COUNT: usize = 2_000_000;

/// The crate sharded-slab 0.1.4 takes 67.2 MB for these values, 33.6 bytes each.
#[test]
fn a_slab_takes_at_most_1_6_times_the_bytes_of_sharded_slab_and_returns_them() {
    let begin = resident();
    let slab = Slab::new();
    assert!((0..COUNT as u64).all(|n| slab.insert(n).is_some()));
    let taken = resident() - begin;
    assert!(taken <= 67_200_000 / 10 * 16, "{COUNT} values take {taken} bytes");
    drop(slab);
    let left = resident().saturating_sub(begin);
    assert!(left <= 4_000_000, "{left} bytes are left");
}
