//! What callers do with a map.
use crate::caller::Caller;
use crate::recorded::Kept;
use crate::scenes::{board, race, removers, reuse};

/// Beyond this number of inserts only the answers on the first key are kept.
const MOST_KEPT: u64 = 100_000;

/// What is done.
#[derive(Clone, Copy, Debug, PartialEq, Eq)]
pub enum Scene {
    Reuse { inserts: u64 },
    Removers,
    Race { rounds: u64 },
    Board { threads: usize, operations: u64 },
}

fn number(word: &str) -> Result<u64, String> {
    word.parse().map_err(|_| format!("{word} is no number"))
}

impl Scene {
    /// The scene of this name, with its numbers or the usual ones.
    pub fn named(name: &str, numbers: &[String]) -> Result<Scene, String> {
        let numbers = numbers.iter().map(|word| number(word)).collect::<Result<Vec<u64>, String>>()?;
        match (name, &numbers[..]) {
            ("reuse", []) => Ok(Scene::Reuse { inserts: 10_000 }),
            ("reuse", &[inserts]) => Ok(Scene::Reuse { inserts }),
            ("removers", []) => Ok(Scene::Removers),
            ("race", []) => Ok(Scene::Race { rounds: 2_000 }),
            ("race", &[rounds]) => Ok(Scene::Race { rounds }),
            ("board", []) => Ok(Scene::Board { threads: 4, operations: 200_000 }),
            ("board", &[threads @ 1..=64, operations]) => Ok(Scene::Board { threads: threads as usize, operations }),
            _ => Err(format!("there is no scene {name} with these numbers")),
        }
    }

    /// How many callers it needs.
    pub fn callers(&self) -> usize {
        match self {
            Scene::Reuse { .. } => 1,
            Scene::Removers | Scene::Race { .. } => 3,
            Scene::Board { threads, .. } => *threads,
        }
    }

    /// Which answers are kept.
    pub fn kept(&self) -> Kept {
        match self {
            Scene::Reuse { inserts } if *inserts > MOST_KEPT => Kept::OfFirstKey,
            _ => Kept::All,
        }
    }

    /// Does it with these callers, and returns what was counted, as comments of a history.
    pub fn play<C: Caller>(&self, callers: Vec<C>) -> String {
        match *self {
            Scene::Reuse { inserts } => reuse::play(callers, inserts),
            Scene::Removers => removers::play(callers),
            Scene::Race { rounds } => race::play(callers, rounds),
            Scene::Board { operations, .. } => board::play(callers, operations),
        }
    }
}

#[cfg(test)]
mod tests {
    use super::*;

    fn named(words: &[&str]) -> Result<Scene, String> {
        let words: Vec<String> = words.iter().map(|word| word.to_string()).collect();
        Scene::named(&words[0], &words[1..])
    }

    #[test]
    fn scenes_have_names_and_numbers() {
        assert_eq!(named(&["reuse"]), Ok(Scene::Reuse { inserts: 10_000 }));
        assert_eq!(named(&["board", "2", "9"]), Ok(Scene::Board { threads: 2, operations: 9 }));
        assert_eq!(named(&["race", "no"]), Err("no is no number".to_string()));
        for words in [&["removers", "1"][..], &["board", "0", "1"], &["board", "65", "1"], &["other"]] {
            assert!(named(words).is_err(), "{words:?}");
        }
    }

    #[test]
    fn long_runs_keep_one_key() {
        assert_eq!(named(&["reuse", "100000"]).map(|scene| scene.kept()), Ok(Kept::All));
        assert_eq!(named(&["reuse", "100001"]).map(|scene| scene.kept()), Ok(Kept::OfFirstKey));
    }
}
