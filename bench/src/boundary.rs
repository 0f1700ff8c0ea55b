//! What the library's boundary costs: its calls from Rust and from C, beside the same ones inside.
use crate::markdown::{head, line};
use crate::ours::spent;
use crate::times::{text, Times};
use crate::title::grouped;
use std::path::Path;

// The calls inside, and the library's from Rust and from C.
const SIDES: usize = 3;

/// A workload: by which name each program has it, and its numbers.
#[derive(Clone, Copy)]
struct Call {
    title: &'static str,
    // None if `tool_bench` has no such workload.
    inside: Option<&'static str>,
    through: &'static str,
    operations: usize,
    live: usize,
    words: usize,
}

/// The path of a program, and the words by which it does a workload.
struct Job<'a> {
    program: &'a Path,
    words: Vec<String>,
}

// What is done, its names in `tool_bench` and in `through`, and how often. With a read go the get and the release of
// its hold. A load is a look inside.
const WAYS: [(&str, &str, &str, usize); 8] = [
    ("get + release", "get", "get", 1_000_000),
    ("read", "read", "read", 400_000),
    ("read into", "read-into", "read-into", 400_000),
    ("load", "look", "load", 400_000),
    ("load into", "look", "load-into", 400_000),
    ("load, eight a call", "look", "load-each", 400_000),
    ("insert", "insert", "insert", 200_000),
    ("remove by the owner", "remove", "remove", 400_000),
];

// How many values there are, and how long they are. A get does not look at its key's value.
const VALUES: [(usize, usize); 4] = [(1, 1), (10_000, 1), (1, 16), (1000, 16)];

// How many values of one word a shard of layout `wide` has room for. Beside more the layout is `deep`.
const WIDE: usize = 49_152;

// Beside so many values no cache has the words of a key, and the waits for those of eight keys may overlap.
const MANY: usize = 1_000_000;

fn calls() -> Vec<Call> {
    let of = |(title, inside, through, operations)| {
        VALUES.map(|(live, words)| Call { title, inside: Some(inside), through, operations, live, words })
    };
    let is_batched = |call: &&Call| call.live == 1 && call.words == 1 && call.through.starts_with("load-");
    let all = WAYS.map(of).concat();
    let beside_many: Vec<Call> = all.iter().filter(is_batched).map(|call| Call { live: MANY, ..*call }).collect();
    let all = [all, beside_many].concat();
    let walk = ("next key of a shard", "own-keys", 100_000);
    let walks = [9600, 96].map(|live| {
        let (title, through, operations) = walk;
        Call { title, inside: None, through, operations, live, words: 1 }
    });
    all.into_iter().filter(|call| call.words == 1 || call.inside != Some("get")).chain(walks).collect()
}

impl Call {
    fn title(&self) -> String {
        let keys = if self.live == 1 { "one key".to_string() } else { format!("{} keys", grouped(self.live)) };
        match self.inside {
            Some("get") | None => format!("{}, {keys}", self.title),
            _ if self.words == 1 => format!("{}, 1 word, {keys}", self.title),
            _ => format!("{}, {} words, {keys}", self.title, self.words),
        }
    }

    // The words for a program, of which these are the first ones.
    fn words(&self, first: &[&str]) -> Vec<String> {
        let numbers = [("--operations", self.operations), ("--live", self.live), ("--words", self.words)];
        let options = numbers.iter().flat_map(|(option, n)| [option.to_string(), n.to_string()]);
        first.iter().map(|word| word.to_string()).chain(options).collect()
    }

    // The words for `tool_bench`. (`through` takes the layout that has the room.)
    fn words_inside(&self, name: &str) -> Vec<String> {
        let layout: &[&str] = if self.live > WIDE { &["--layout", "deep"] } else { &[] };
        self.words(&[name]).into_iter().chain(layout.iter().map(|word| word.to_string())).collect()
    }

    // (Without such a workload inside the first one has none.)
    fn jobs<'a>(&self, inside: &'a Path, through: &'a Path) -> [Option<Job<'a>>; SIDES] {
        [
            self.inside.map(|name| Job { program: inside, words: self.words_inside(name) }),
            Some(Job { program: through, words: self.words(&["rust", self.through]) }),
            Some(Job { program: through, words: self.words(&["c", self.through]) }),
        ]
    }

    // In each round another side is first.
    fn measure(&self, jobs: &[Option<Job<'_>>; SIDES], rounds: usize) -> Result<[Vec<f64>; SIDES], String> {
        let mut times: [Vec<f64>; SIDES] = Default::default();
        for turn in 0..rounds * SIDES {
            let at = (turn / SIDES + turn) % SIDES;
            let Some(job) = &jobs[at] else { continue };
            let all = spent(job.program, &job.words, self.operations)?;
            times[at].push(all / self.operations as f64);
        }
        Ok(times)
    }

    fn line(&self, times: [Vec<f64>; SIDES]) -> String {
        let [inside, rust, c] = times.map(Times::of);
        let nanoseconds = |side: Option<Times>| side.map_or("none".to_string(), |side| text(&[side], 1));
        let ratio = |side: Option<Times>| match (side, inside) {
            (Some(side), Some(inside)) => text(&[side.over(inside)], 2),
            _ => "none".to_string(),
        };
        line(&[self.title(), nanoseconds(inside), nanoseconds(rust), ratio(rust), nanoseconds(c), ratio(c)])
    }
}

fn places() -> Vec<String> {
    let words = ["Call", "inside, ns", "from Rust, ns", "to inside", "from C, ns", "to inside"];
    words.map(str::to_string).to_vec()
}

/// The whole table, by this many rounds.
pub fn table(inside: &Path, through: &Path, rounds: usize) -> Result<String, String> {
    let mut lines = vec![head(&places())];
    for call in calls() {
        eprintln!("{}", call.title());
        lines.push(call.line(call.measure(&call.jobs(inside, through), rounds)?));
    }
    Ok(lines.join("\n"))
}

#[cfg(test)]
mod tests {
    use super::*;

    #[test]
    fn each_call_has_a_title_of_its_own() {
        let mut titles: Vec<String> = calls().iter().map(Call::title).collect();
        let all = titles.len();
        titles.sort();
        titles.dedup();
        assert_eq!((titles.len(), all), (34, 34));
        assert!(titles.contains(&"next key of a shard, 9,600 keys".to_string()));
        assert!(titles.contains(&"get + release, 10,000 keys".to_string()));
        assert!(titles.contains(&"load into, 16 words, one key".to_string()));
        assert!(titles.contains(&"load, eight a call, 1 word, 1,000,000 keys".to_string()));
    }

    #[test]
    fn a_line_has_as_many_places_as_the_head() {
        let times = [vec![10.0, 30.0, 20.0], vec![12.0, 30.0, 18.0], vec![]];
        let line = calls()[0].line(times);
        assert_eq!(line, "| get + release, one key | 10.0 / 20.0 | 12.0 / 18.0 | 1.20 / 0.90 | none | none |");
        assert_eq!(line.matches(" |").count(), places().len());
    }

    #[test]
    fn a_call_that_is_not_inside_has_no_ratio() {
        let walk = calls().pop().expect("there are calls");
        assert!(walk.jobs(Path::new("/a"), Path::new("/b"))[0].is_none());
        let line = walk.line([vec![], vec![12.0], vec![9.0]]);
        assert_eq!(line, "| next key of a shard, 96 keys | none | 12.0 / 12.0 | none | 9.0 / 9.0 | none |");
    }

    #[test]
    fn the_programs_are_told_the_same_numbers() {
        let (inside, through) = (Path::new("/tool_bench"), Path::new("/through"));
        let jobs = calls()[2].jobs(inside, through).map(|job| job.map_or(String::new(), |job| job.words.join(" ")));
        let numbers = "--operations 400000 --live 1 --words 1";
        assert_eq!(jobs, ["read", "rust read", "c read"].map(|first| format!("{first} {numbers}")));
    }

    #[test]
    fn beside_many_values_the_layout_inside_is_deep() {
        let deep = |call: &Call| call.words_inside("read").ends_with(&["--layout".to_string(), "deep".to_string()]);
        assert_eq!(calls().iter().filter(|call| deep(call)).map(|call| call.live).collect::<Vec<_>>(), [MANY; 2]);
    }
}
