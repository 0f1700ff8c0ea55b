//! The rows of the table: what is measured, and the options of `tool_bench` that ask for it.
use crate::samples::Lengths;
use crate::sides::Side;
use crate::workload::Workload;

/// One row: the same numbers as the options of `tool_bench`.
#[derive(Clone, Copy, Debug, PartialEq)]
pub struct Row {
    pub workload: Workload,
    /// In `hand` pairs of threads.
    pub threads: usize,
    pub operations: usize,
    pub lengths: Lengths,
    pub live: usize,
    pub freed: usize,
    pub passes: usize,
    /// Whether the keys are of layout `deep`, whose shards have room for millions of values; else of `wide`.
    pub is_deep: bool,
    pub aims: Aims,
}

/// The ratios to `sharded_slab` and to bare atomics that the heap was designed for.
#[derive(Clone, Copy, Debug, Default, PartialEq)]
pub struct Aims {
    pub sharded: Option<f64>,
    pub model: Option<f64>,
}

impl Row {
    pub fn new(workload: Workload, threads: usize, operations: usize) -> Self {
        let lengths = Lengths::Each(1);
        let aims = Aims::default();
        Row { workload, threads, operations, lengths, live: 1, freed: 0, passes: 1, is_deep: false, aims }
    }

    pub fn lengths(self, lengths: Lengths) -> Self {
        Row { lengths, ..self }
    }

    pub fn live(self, live: usize) -> Self {
        Row { live, ..self }
    }

    pub fn freed(self, freed: usize) -> Self {
        Row { freed, ..self }
    }

    pub fn passes(self, passes: usize) -> Self {
        Row { passes, ..self }
    }

    pub fn deep(self) -> Self {
        Row { is_deep: true, ..self }
    }

    pub fn aims(self, sharded: f64, model: f64) -> Self {
        Row { aims: Aims { sharded: Some(sharded), model: Some(model) }, ..self }
    }

    pub fn aim_at_model(self, model: f64) -> Self {
        Row { aims: Aims { sharded: None, model: Some(model) }, ..self }
    }

    /// The ratio to a rival that was aimed at.
    pub fn aim(&self, rival: Side) -> Option<f64> {
        match rival {
            Side::Sharded => self.aims.sharded,
            Side::Model => self.aims.model,
            _ => None,
        }
    }

    /// How many values each thread keeps, with those by which it fills its shard.
    pub fn most(&self) -> usize {
        match self.workload {
            Workload::Fill => self.live + self.operations,
            _ => self.live,
        }
    }

    /// Whether it is a row of the table of large heaps.
    pub fn is_large(&self) -> bool {
        self.is_deep || self.workload == Workload::Fill
    }

    /// How many pages have values or free slots, if these have one word.
    pub fn pages(&self) -> usize {
        (self.live + self.freed).div_ceil(48)
    }

    /// The words of the command line of `tool_bench`: its workload, and all of its numbers as options, which each of
    /// them takes. `--live` is how many values there are beside what is inserted or churned.
    pub fn arguments(&self) -> Vec<String> {
        let mut words = vec![self.workload.name().to_string()];
        let numbers = [
            ("--threads", self.threads),
            ("--operations", self.operations),
            ("--live", self.live),
            ("--freed", self.freed),
            ("--passes", self.passes),
        ];
        words.extend(numbers.iter().flat_map(|(option, n)| [option.to_string(), n.to_string()]));
        match self.lengths {
            Lengths::Each(len) => words.extend(["--words".to_string(), len.to_string()]),
            Lengths::Mixed => words.push("--mixed".to_string()),
        }
        if self.is_deep {
            words.extend(["--layout", "deep"].map(str::to_string));
        }
        words
    }

    /// The words of the command line of `through`, if ours is a call of the library. It takes the layout that has room.
    pub fn arguments_through(&self) -> Option<Vec<String>> {
        let (Some(first), Lengths::Each(len)) = (self.workload.through(), self.lengths) else { return None };
        let numbers =
            [("--threads", self.threads), ("--operations", self.operations), ("--live", self.live), ("--words", len)];
        let options = numbers.iter().flat_map(|(option, n)| [option.to_string(), n.to_string()]);
        Some(first.iter().map(|word| word.to_string()).chain(options).collect())
    }

    /// The row that has these arguments, without its aims.
    pub fn of_arguments(words: &[&str]) -> Option<Self> {
        let (name, options) = words.split_first()?;
        let mut row = Row::new(Workload::of_name(name)?, 1, 1);
        let mut rest = options.iter();
        while let Some(option) = rest.next() {
            match *option {
                "--mixed" => row.lengths = Lengths::Mixed,
                "--layout" => row.is_deep = *rest.next()? == "deep",
                option => row.set(option, rest.next()?.parse().ok()?)?,
            }
        }
        Some(row)
    }

    // Sets the number of an option.
    fn set(&mut self, option: &str, number: usize) -> Option<()> {
        match option {
            "--threads" => self.threads = number,
            "--operations" => self.operations = number,
            "--live" => self.live = number,
            "--freed" => self.freed = number,
            "--passes" => self.passes = number,
            "--words" => self.lengths = Lengths::Each(number),
            _ => return None,
        }
        Some(())
    }

    /// How many threads run.
    pub fn running(&self) -> usize {
        match self.workload {
            Workload::Hand => 2 * self.threads,
            _ => self.threads,
        }
    }
}

#[cfg(test)]
mod tests {
    use super::*;

    #[test]
    fn a_row_is_told_to_the_program_by_its_name_and_options() {
        let row = Row::new(Workload::ReadInto, 2, 300).live(1000).lengths(Lengths::Each(16));
        let told = "read-into --threads 2 --operations 300 --live 1000 --freed 0 --passes 1 --words 16";
        assert_eq!(row.arguments().join(" "), told);
    }

    #[test]
    fn a_load_is_told_to_the_program_through_the_library() {
        let row = Row::new(Workload::LoadFromC, 4, 300).live(1_000_000).deep();
        let told = "c load --threads 4 --operations 300 --live 1000000 --words 1";
        assert_eq!(row.arguments_through().map(|words| words.join(" ")), Some(told.to_string()));
        assert_eq!(Row::new(Workload::Look, 1, 1).arguments_through(), None);
    }

    #[test]
    fn a_deep_row_names_its_layout() {
        let told = Row::new(Workload::Get, 1, 5).live(1_000_000).deep().arguments().join(" ");
        assert!(told.ends_with("--words 1 --layout deep"), "{told}");
    }

    #[test]
    fn arguments_tell_the_row() {
        let rows = [
            Row::new(Workload::ReadInto, 2, 300).live(1000).lengths(Lengths::Each(16)),
            Row::new(Workload::Get, 1, 5).live(1_000_000).deep(),
            Row::new(Workload::Leave, 1, 5).freed(7).passes(3).lengths(Lengths::Mixed),
            Row::new(Workload::LoadFromRust, 4, 5).live(10),
        ];
        for row in rows {
            let words = row.arguments();
            let words: Vec<&str> = words.iter().map(String::as_str).collect();
            assert_eq!(Row::of_arguments(&words), Some(row));
        }
        assert_eq!(Row::of_arguments(&["jump"]), None);
        assert_eq!(Row::of_arguments(&["get", "--speed", "1"]), None);
        assert_eq!(Row::of_arguments(&["get", "--threads"]), None);
    }

    #[test]
    fn values_of_all_lengths_are_a_flag() {
        let told = Row::new(Workload::Churn, 1, 5).lengths(Lengths::Mixed).arguments();
        assert_eq!(told.last().map(String::as_str), Some("--mixed"));
    }
}
