//! The command line.

/// What is done over and over: the workloads of `tool_bench` by their names, and those of the library alone.
#[derive(Clone, Copy, Debug, PartialEq, Eq)]
pub enum Workload {
    Get,
    /// As `Get`, by the owner of the shard.
    GetOwn,
    Read,
    ReadInto,
    /// The value of a key by one call, which keeps no hold.
    Load,
    /// As `Load`, by the owner of the shard.
    LoadOwn,
    /// The same, into a value of the caller's.
    LoadInto,
    /// Loads in batches of eight keys, each by one call.
    LoadEach,
    /// The owner goes through the keys of its shard, again and again. One operation is a key that it is given.
    OwnKeys,
    /// Walks over all live keys with their values. The heap has no room for more values, and one operation is a place.
    Walk,
    /// The same, and no value was inserted.
    WalkBlank,
    Insert,
    Remove,
}

/// What is measured: the same numbers as the options of `tool_bench`.
#[derive(Clone, Copy, Debug, PartialEq, Eq)]
pub struct Options {
    pub workload: Workload,
    /// How many threads use the keys.
    pub threads: usize,
    /// Of each thread.
    pub operations: usize,
    /// How many values there are.
    pub live: usize,
    /// How many in a hundred of them stay. The owner removes the others before the time is taken.
    pub percent: usize,
    pub words: usize,
    /// How many chunks the heap may have, or 0 for one that does not grow.
    pub chunks: u32,
}

impl Workload {
    // Whether the owner of the shard does it.
    fn is_of_the_owner(self) -> bool {
        use Workload::*;
        matches!(self, GetOwn | LoadOwn | OwnKeys | Insert | Remove)
    }

    /// Whether it walks.
    pub fn is_a_walk(self) -> bool {
        matches!(self, Workload::Walk | Workload::WalkBlank)
    }
}

fn workload(name: &str) -> Result<Workload, String> {
    match name {
        "get" => Ok(Workload::Get),
        "get-own" => Ok(Workload::GetOwn),
        "read" => Ok(Workload::Read),
        "read-into" => Ok(Workload::ReadInto),
        "load" => Ok(Workload::Load),
        "load-own" => Ok(Workload::LoadOwn),
        "load-into" => Ok(Workload::LoadInto),
        "load-each" => Ok(Workload::LoadEach),
        "own-keys" => Ok(Workload::OwnKeys),
        "walk" => Ok(Workload::Walk),
        "walk-blank" => Ok(Workload::WalkBlank),
        "insert" => Ok(Workload::Insert),
        "remove" => Ok(Workload::Remove),
        _ => Err(format!("no workload {name}")),
    }
}

impl Options {
    /// What the words ask for, of which the first is the workload, and then options and their numbers.
    pub fn of(words: &[&str]) -> Result<Options, String> {
        let (name, rest) = words.split_first().ok_or("no workload")?;
        let mut options = Options::usual(workload(name)?);
        for pair in rest.chunks(2) {
            options.set(pair)?;
        }
        options.checked()
    }

    /// The usual ones of a workload.
    pub fn usual(workload: Workload) -> Options {
        Options { workload, threads: 1, operations: 1000, live: 1, percent: 100, words: 1, chunks: 0 }
    }

    fn checked(self) -> Result<Options, String> {
        match self.workload {
            Workload::OwnKeys if self.chunks > 0 => Err("a heap that grows lists no keys".to_string()),
            workload if self.threads > 1 && workload.is_a_walk() => Err("a walk has one thread".to_string()),
            workload if workload != Workload::Walk && self.percent < 100 => Err("all values are used".to_string()),
            workload if self.threads > 1 && workload.is_of_the_owner() => Err("a shard has one owner".to_string()),
            _ => Ok(self),
        }
    }

    fn set(&mut self, pair: &[&str]) -> Result<(), String> {
        let number = || pair.get(1).and_then(|word| word.parse::<usize>().ok()).ok_or(format!("{} of what?", pair[0]));
        match (pair[0], number()?) {
            ("--threads", number @ 1..=16) => self.threads = number,
            ("--operations", number) => self.operations = number,
            ("--live", number) if number > 0 => self.live = number,
            ("--percent", number @ 0..=100) => self.percent = number,
            ("--words", number @ 1..=16) => self.words = number,
            ("--chunks", number @ 1..=256) => self.chunks = number as u32,
            (option, number) => return Err(format!("no option {option} {number}")),
        }
        Ok(())
    }
}

#[cfg(test)]
mod tests {
    use super::*;

    #[test]
    fn words_are_options() {
        let words = "load-into --threads 4 --operations 9 --live 3 --words 16 --chunks 2";
        let workload = Workload::LoadInto;
        let options = Options { threads: 4, operations: 9, live: 3, words: 16, chunks: 2, ..Options::usual(workload) };
        assert_eq!(Options::of(&words.split(' ').collect::<Vec<_>>()), Ok(options));
        assert_eq!(Options::of(&["get"]), Ok(Options::usual(Workload::Get)));
        let some = Options { percent: 10, ..Options::usual(Workload::Walk) };
        assert_eq!(Options::of(&["walk", "--percent", "10"]), Ok(some));
    }

    #[test]
    fn wrong_words_are_refused() {
        for words in [&[][..], &["set"], &["get", "--live"], &["get", "--live", "0"], &["get", "--words", "17"]] {
            assert!(Options::of(words).is_err(), "{words:?}");
        }
        let numbers = [["get", "--chunks", "257"], ["own-keys", "--chunks", "1"], ["get", "--threads", "17"]];
        let alone = ["load-own", "insert", "walk-blank"].map(|workload| [workload, "--threads", "2"]);
        let percents = [["get", "--percent", "99"], ["walk", "--percent", "101"]];
        for words in numbers.into_iter().chain(alone).chain(percents) {
            assert!(Options::of(&words).is_err(), "{words:?}");
        }
    }
}
