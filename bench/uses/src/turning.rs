//! Turns, each in a process of its own: this program is run with the words of one turn.
use crate::maps::Side;
use crate::scenes::{self, Row, Scene};
use crate::times::Times;
use crate::together::Spent;
use crate::waiting;
use std::env;
use std::ffi::OsStr;
use std::process::Command;

/// How often a turn is tried in which threads waited for a processor.
const TRIES: usize = 4;

/// What a turn printed: names, and the numbers behind them.
pub struct Report(String);

impl Report {
    /// The numbers behind a name; none if it has no line.
    pub fn numbers(&self, name: &str) -> Option<Vec<f64>> {
        let line = self.0.lines().find_map(|line| line.strip_prefix(name)?.strip_prefix(' '))?;
        line.split_whitespace().map(|word| word.parse().ok()).collect()
    }

    /// The first number behind a name.
    pub fn number(&self, name: &str) -> Result<f64, String> {
        let numbers = self.numbers(name).ok_or_else(|| format!("{name} is not told"))?;
        numbers.first().copied().ok_or_else(|| format!("{name} has no number"))
    }

    // Whether all threads had a processor, or the kernel does not count it.
    fn ran_at_once(&self) -> bool {
        self.numbers("waited").into_iter().flatten().all(|share| share <= waiting::MOST)
    }
}

/// The words of a turn of this row.
pub fn words_of(row: Row) -> Vec<String> {
    let scene = match row.scene {
        Scene::Session(reads) => format!("session-{reads}"),
        Scene::Batches => "batches".to_string(),
        Scene::Churned => "churned".to_string(),
        Scene::Handing => "handing".to_string(),
    };
    vec![scene, row.threads.to_string()]
}

/// The row of which these are the words.
pub fn row_of(words: &[&str]) -> Option<Row> {
    scenes::rows().into_iter().find(|row| words_of(*row) == words)
}

/// A line for the share of the time in which threads waited, if that shows whether they ran at once. It does not of one
/// thread, or if threads sleep, as a consumer does.
pub fn waited_line(side: Side, row: Row, spent: &Spent) -> String {
    let sleep = side.sleeps() || row.scene == Scene::Batches;
    let share = spent.waited.filter(|_| row.threads > 1 && !sleep);
    share.map_or(String::new(), |share| format!("waited {share:.4}\n"))
}

/// What a turn of this name and these words printed.
pub fn report_of<W: AsRef<OsStr>>(name: &str, words: &[W]) -> Result<Report, String> {
    let program = env::current_exe().map_err(|why| format!("this program's file: {why}"))?;
    let run = Command::new(program).args(["turn", name]).args(words).output();
    let run = run.map_err(|why| format!("a turn of {name}: {why}"))?;
    match run.status.success() {
        true => Ok(Report(String::from_utf8_lossy(&run.stdout).into_owned())),
        false => Err(format!("a turn of {name}: {}", String::from_utf8_lossy(&run.stderr).trim())),
    }
}

/// A turn of this side in which all threads ran at once; none if there was none in some tries.
pub fn turn(side: Side, words: &[String]) -> Result<Option<Report>, String> {
    for _try in 0..TRIES {
        let report = report_of(side.name(), words)?;
        if report.ran_at_once() {
            return Ok(Some(report));
        }
    }
    Ok(None)
}

/// What each side returns in each of these rounds. In each round another side is first.
pub fn of_sides<const N: usize, T>(
    rounds: usize,
    mut one: impl FnMut(usize) -> Result<T, String>,
) -> Result<[Vec<T>; N], String> {
    let mut all = std::array::from_fn(|_| Vec::new());
    for round in 0..rounds {
        for place in 0..N {
            let at = (round + place) % N;
            all[at].push(one(at)?);
        }
    }
    Ok(all)
}

/// The numbers of this name in the rounds, in this unit.
pub fn times_of(rounds: &[Report], name: &str, unit: f64) -> Result<Times, String> {
    let numbers: Result<Vec<f64>, String> = rounds.iter().map(|report| Ok(report.number(name)? / unit)).collect();
    Times::of(numbers?).ok_or_else(|| "there was no round".to_string())
}

#[cfg(test)]
mod tests {
    use super::*;

    #[test]
    fn a_report_has_numbers_by_name() {
        let report = Report("read 1 2.5\nreads 7\nwaited 0.02\n".to_string());
        assert_eq!(report.numbers("read"), Some(vec![1.0, 2.5]));
        assert_eq!(report.numbers("reads"), Some(vec![7.0]));
        assert_eq!(report.numbers("rea"), None);
        assert_eq!([report.number("read").ok(), report.number("rea").ok()], [Some(1.0), None]);
        assert!(report.ran_at_once() && Report(String::new()).ran_at_once());
        assert!(!Report("waited 0.5\n".to_string()).ran_at_once());
    }

    #[test]
    fn only_threads_that_do_not_sleep_are_looked_at() {
        let spent = Spent { longest: std::time::Duration::ZERO, waited: Some(0.5) };
        let row = |scene, threads| Row { scene, threads };
        let is_looked_at = |side, row| !waited_line(side, row, &spent).is_empty();
        assert!(is_looked_at(Side::Heap, row(Scene::Churned, 2)));
        assert!(!is_looked_at(Side::Heap, row(Scene::Session(90), 1)));
        assert!(!is_looked_at(Side::Heap, row(Scene::Batches, 2)));
        assert!(!is_looked_at(Side::ParkingHash, row(Scene::Churned, 2)));
    }

    #[test]
    fn words_are_those_of_one_row() {
        for row in scenes::rows() {
            let words = words_of(row);
            assert_eq!(row_of(&words.iter().map(String::as_str).collect::<Vec<_>>()), Some(row));
        }
        assert_eq!(row_of(&["session-90", "3"]), None);
    }
    #[test]
    fn each_side_is_first_in_turn() {
        let mut turns = Vec::new();
        let numbers: [Vec<usize>; 3] = of_sides(2, |at| {
            turns.push(at);
            Ok(at)
        })
        .expect("no turn fails");
        assert_eq!((turns, numbers), (vec![0, 1, 2, 1, 2, 0], [vec![0, 0], vec![1, 1], vec![2, 2]]));
    }
}
