//! Whether a removed key finds another value, and whether two callers both remove one value: two attempts on
//! `sharded_slab`, and the same two on the heap through the library.
use crate::program::Program;
use crate::title::grouped;
use sharded_slab::Slab;
use std::fmt::{self, Display};
use std::fs;
use std::path::Path;
use std::process::Command;
use std::thread;
use std::time::{Duration, Instant};

/// The first attempt ends after this many inserts.
const MOST_INSERTS: usize = 1_000_000;

/// What the documentation of `sharded_slab` 0.1.4 says of its keys, in the head of the crate.
const PEER_SAYS: &str = "\
Since a fixed number of bits are set aside to use for storing the generation counter, the counter will wrap around after
being incremented a number of times. To avoid situations where a returned index lives long enough to see the generation
counter wrap around to the same value, it is good to be fairly generous when configuring the allocation of index bits.";

/// What that of `slotmap` 1.0.6 says. An attempt takes seconds, and is not made.
const SLOTMAP_SAYS: &str = "\
After 2^31 deletions and insertions to the same underlying slot the version wraps around and such a spurious reference
could potentially occur. It is incredibly unlikely however, and in all circumstances is the behavior safe.";

/// A removed key found a value that was inserted later.
#[derive(Debug)]
struct Reused {
    /// The inserts until then, each with a removal.
    inserts: usize,
    time: Duration,
}

/// What the two attempts on `sharded_slab` showed.
#[derive(Debug)]
struct Peer {
    version: String,
    reused: Option<Reused>,
    /// What `remove` returned to the first caller and to the second.
    removed: [bool; 2],
}

// Removes a key, and looks it up after each further insert.
fn reused(most_inserts: usize) -> Option<Reused> {
    let slab = Slab::new();
    let old = slab.insert(0).expect("the slab has room");
    slab.remove(old);
    let start = Instant::now();
    (1..=most_inserts).find_map(|inserts| {
        let key = slab.insert(inserts).expect("the slab has room");
        let is_found = slab.get(old).is_some();
        slab.remove(key);
        is_found.then(|| Reused { inserts, time: start.elapsed() })
    })
}

// What `remove` returns in a thread of its own.
fn removed_in_a_thread(slab: &Slab<u64>, key: usize) -> bool {
    thread::scope(|scope| scope.spawn(|| slab.remove(key)).join().expect("the thread ends well"))
}

// What two callers get that remove one value, first one and then the other, while this thread has a guard of it.
fn removed_twice() -> [bool; 2] {
    let slab = Slab::new();
    let key = slab.insert(7).expect("the slab has room");
    let guard = slab.get(key).expect("the key is there");
    let removed = [removed_in_a_thread(&slab, key), removed_in_a_thread(&slab, key)];
    assert_eq!(*guard, 7);
    removed
}

// The version of a package in the text of a Cargo.lock.
fn version_in<'a>(lock: &'a str, package: &str) -> Option<&'a str> {
    let name = format!("name = \"{package}\"");
    let mut lines = lock.lines().skip_while(|line| *line != name);
    lines.nth(1)?.strip_prefix("version = \"")?.strip_suffix('"')
}

// The version that this program was built with: cargo wrote the file beside the manifest.
fn peer_version() -> String {
    let lock = fs::read_to_string(Path::new(env!("CARGO_MANIFEST_DIR")).join("Cargo.lock")).unwrap_or_default();
    version_in(&lock, "sharded-slab").unwrap_or("of an unknown version").to_string()
}

fn quoted(text: &str) -> String {
    text.lines().map(|line| format!("    | {line}")).collect::<Vec<_>>().join("\n")
}

impl Peer {
    fn tried() -> Peer {
        Peer { version: peer_version(), reused: reused(MOST_INSERTS), removed: removed_twice() }
    }
}

impl Display for Peer {
    fn fmt(&self, out: &mut fmt::Formatter<'_>) -> fmt::Result {
        writeln!(out, "sharded_slab {}, default configuration", self.version)?;
        match &self.reused {
            Some(Reused { inserts, time }) => writeln!(
                out,
                "  the key of a removed value: found another value after {} inserts, each with a removal ({:.2} ms)",
                grouped(*inserts),
                time.as_secs_f64() * 1e3
            ),
            None => writeln!(
                out,
                "  the key of a removed value: found nothing after {} inserts, each with a removal",
                grouped(MOST_INSERTS)
            ),
        }?;
        let [first, second] = self.removed;
        writeln!(out, "  two callers remove one value while a guard is held: remove returned {first} and {second}")?;
        write!(out, "  its documentation says of the first:\n{}", quoted(PEER_SAYS))
    }
}

// What the program of the library prints of the same two attempts on the heap.
fn ours(program: &Path) -> Result<String, String> {
    let run = Command::new(program).arg("reuse").output().map_err(|why| format!("{}: {why}", program.display()))?;
    match run.status.success() {
        true => Ok(String::from_utf8_lossy(&run.stdout).trim_end().to_string()),
        false => Err(format!("{} reuse: {}", program.display(), String::from_utf8_lossy(&run.stderr).trim_end())),
    }
}

// What the heap does, in lines. Without the program it is skipped: what the peer does needs nothing of ours.
fn ours_or_skipped(through: Result<Program, String>) -> Result<String, String> {
    match through {
        Ok(through) => ours(&through.path),
        Err(why) => Ok(format!("the heap here: skipped, {why}")),
    }
}

/// What both sides do, in lines. Without the program of the library the heap is skipped.
pub fn text() -> Result<String, String> {
    let heap = ours_or_skipped(Program::through())?;
    let slotmap = format!("slotmap: not tried\n  its documentation says:\n{}", quoted(SLOTMAP_SAYS));
    Ok(format!("{}\n{slotmap}\n{heap}", Peer::tried()))
}

#[cfg(test)]
mod tests {
    use super::*;

    // A generation of the default configuration has 13 bits on a machine of 64 bits, and the greatest number is left
    // out.
    #[test]
    #[cfg(target_pointer_width = "64")]
    fn the_peer_uses_a_key_again_after_8191_inserts() {
        assert!(reused(8190).is_none());
        assert_eq!(reused(8191).map(|reused| reused.inserts), Some(8191));
    }

    #[test]
    fn the_peer_returns_true_to_two_callers() {
        assert_eq!(removed_twice(), [true, true]);
    }

    #[test]
    fn without_a_guard_one_caller_removes() {
        let slab = Slab::new();
        let key = slab.insert(7).expect("there is room");
        assert_eq!([removed_in_a_thread(&slab, key), removed_in_a_thread(&slab, key)], [true, false]);
    }

    #[test]
    fn a_version_is_read_from_the_lock_file() {
        let lock = "[[package]]\nname = \"slab\"\nversion = \"0.4.4\"\n\n[[package]]\nname = \"sharded-slab\"\n\
                    version = \"0.1.4\"\ndependencies = [\n \"lazy_static\",\n]\n";
        assert_eq!(version_in(lock, "sharded-slab"), Some("0.1.4"));
        assert_eq!(version_in(lock, "slab"), Some("0.4.4"));
        assert_eq!(version_in(lock, "slotmap"), None);
    }

    #[test]
    fn both_attempts_are_printed() {
        let time = Duration::from_micros(340);
        let peer = |reused| Peer { version: "0.1.4".to_string(), reused, removed: [true, false] }.to_string();
        let text = peer(Some(Reused { inserts: 8191, time }));
        assert!(text.starts_with("sharded_slab 0.1.4, default configuration\n"), "{text}");
        assert!(text.contains("found another value after 8,191 inserts, each with a removal (0.34 ms)\n"), "{text}");
        assert!(text.contains("remove returned true and false\n"), "{text}");
        assert!(peer(None).contains("found nothing after 1,000,000 inserts"));
    }

    #[test]
    fn without_its_program_the_heap_is_skipped_in_one_line() {
        let skipped = ours_or_skipped(Err("no program /nowhere/through".to_string()));
        assert_eq!(skipped, Ok("the heap here: skipped, no program /nowhere/through".to_string()));
    }

    #[test]
    fn a_program_that_fails_is_named_in_one_line() {
        let why = ours(Path::new("/nowhere/through")).expect_err("there is none");
        assert!(why.starts_with("/nowhere/through: ") && !why.contains('\n'), "{why}");
        assert_eq!(ours(Path::new("false")), Err("false reuse: ".to_string()));
    }
}
