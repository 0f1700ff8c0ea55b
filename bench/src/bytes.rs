//! The table of bytes a value: ours computed from the layout, the rivals' counted in this program.
use crate::counting::counted;
use crate::layout::{heap_bytes, in_full_pages};
use crate::markdown::{head, line};
use crate::rival::Rival;
use crate::rivals::{with_rival, Room, Task};
use crate::samples::{Lengths, Samples};
use crate::sides::{Side, RIVALS};

const VALUES: [usize; 4] = [1000, 10_000, 100_000, 1_000_000];
const WORDS: [usize; 2] = [1, 16];

// Fills a rival, and answers how many bytes it and its owner then have.
struct Fills(Room);

impl Task for Fills {
    type Answer = isize;

    fn with<H: Rival>(self, open: impl FnOnce() -> H) -> isize {
        let samples = Samples::new(self.0.lengths);
        let (rival, opening) = counted(open);
        let (_owner, filling) = counted(|| {
            let mut owner = rival.owner(0);
            for place in 0..self.0.values {
                rival.insert(&mut owner, samples.at(place));
            }
            owner
        });
        opening + filling
    }
}

// The bytes of a rival with this many values. It is filled twice: what is taken once for all, as by the first use of a
// crate in a thread, is not counted.
fn rival_bytes(side: Side, values: usize, words: usize) -> Option<isize> {
    let room = Room { shards: 1, values, lengths: Lengths::Each(words) };
    with_rival(side, &room, Fills(room));
    with_rival(side, &room, Fills(room))
}

// The sides of the table. The bytes of plain stores are those of the bare atomics.
fn sides() -> impl Iterator<Item = Side> {
    RIVALS.into_iter().filter(|side| *side != Side::PlainStores)
}

fn a_value(bytes: f64, values: usize) -> String {
    format!("{:.1}", bytes / values as f64)
}

fn places(values: usize, words: usize) -> Vec<String> {
    let ours = [format!("{:.1}", in_full_pages(words)), a_value(heap_bytes(values, words) as f64, values)];
    let of_rival = |side| match rival_bytes(side, values, words) {
        Some(bytes) => a_value(bytes as f64, values),
        None => "none".to_string(),
    };
    [values.to_string(), words.to_string()].into_iter().chain(ours).chain(sides().map(of_rival)).collect()
}

fn names() -> Vec<String> {
    let first = ["Values", "Words", "ours, full pages", "ours, whole segments"].map(str::to_string);
    first.into_iter().chain(sides().map(|rival| rival.name().to_string())).collect()
}

/// The whole table.
pub fn table() -> String {
    let lines = WORDS.iter().flat_map(|words| VALUES.map(|values| format!("\n{}", line(&places(values, *words)))));
    format!("{}{}", head(&names()), lines.collect::<String>())
}

/// What the table's numbers are.
pub const ABOUT: &str = "\
Bytes a value. Ours: computed from the layout of its words; what stands beside them (of passes, owners and queues) is
not in it. The others: counted as this program asked for them, without what the system's allocator adds for itself.";

#[cfg(test)]
mod tests {
    use super::*;

    #[test]
    fn lines_have_as_many_places_as_the_head() {
        assert_eq!(places(10, 1).len(), names().len());
    }

    #[test]
    fn plain_stores_have_no_column() {
        assert_eq!(names().last().map(String::as_str), Some("bare atomics"));
    }

    #[test]
    fn each_rival_has_room_for_its_words() {
        for words in WORDS {
            for side in RIVALS {
                let bytes = rival_bytes(side, 1000, words).expect("it is a rival");
                assert!(bytes >= 8000 * words as isize, "{side:?}: {bytes}");
            }
        }
    }

    #[test]
    fn a_slab_has_room_for_a_power_of_two_of_values() {
        // A value and whether it is there, for 1,024 values.
        assert_eq!(rival_bytes(Side::MutexSlab, 1000, 1), Some(1024 * 16));
    }
}
