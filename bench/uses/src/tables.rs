//! The tables.
use crate::maps::{Side, SIDES};
use crate::markdown::{head, line};
use crate::probe::CALLS;
use crate::room;
use crate::scenes::{self, Row};
use crate::times::{text, Times};
use crate::turning::{turn, words_of};

/// A row with several threads does not repeat, so it has this many runs, one after all rows had theirs.
pub const RUNS: usize = 3;
/// What a cell has if in no turn all threads ran at once.
pub const NOT_AT_ONCE: &str = "not at once";
/// The sides of the table of latencies, and its numbers of threads.
pub const TIMED: [Side; 7] =
    [Side::Heap, Side::Table, Side::Slab, Side::Sharded, Side::Dash, Side::ParkingHash, Side::Epoch];
pub const THREADS: [usize; 2] = [1, 4];
const REMOVED: [usize; 4] = [100, 99, 90, 50];

fn runs_of(row: Row) -> usize {
    match row.threads {
        1 => 1,
        _ => RUNS,
    }
}

/// The times of the sides in one run; none for a side that had no turn in which all threads ran at once.
type Run = [Option<Times>; SIDES.len()];

// In each round another side is first.
fn run(row: Row, rounds: usize) -> Result<Run, String> {
    let mut times: [Vec<f64>; SIDES.len()] = Default::default();
    for round in 0..rounds {
        for place in 0..SIDES.len() {
            let at = (round + place) % SIDES.len();
            let report = turn(SIDES[at], &words_of(row))?;
            times[at].extend(report.and_then(|report| report.numbers("nanoseconds")).into_iter().flatten());
        }
    }
    Ok(times.map(Times::of))
}

/// The cell of one run, with this many digits behind the point.
pub fn told(times: Times, digits: usize) -> String {
    text(&[times], digits)
}

/// The same with what was aimed at.
pub fn aimed(times: Times, digits: usize, aim: &str) -> String {
    format!("{} ({aim})", told(times, digits))
}

/// A table with these names above its lines.
pub fn table(names: &[&str], lines: Vec<String>) -> String {
    let names: Vec<String> = names.iter().map(|name| name.to_string()).collect();
    [vec![head(&names)], lines].concat().join("\n")
}

// One number of each run that has it.
fn cell(runs: &[Run], digits: usize, of: impl Fn(&Run) -> Option<Times>) -> String {
    let times: Vec<Times> = runs.iter().filter_map(of).collect();
    match times.is_empty() {
        true => NOT_AT_ONCE.to_string(),
        false => text(&times, digits),
    }
}

fn uses_line(row: Row, runs: &[Run]) -> String {
    let ratio = |at: usize| cell(runs, 2, move |run| Some(run[0]?.over(run[at]?)));
    let first = [row.scene.title(), row.threads.to_string(), cell(runs, 1, |run| run[0])];
    line(&first.into_iter().chain((1..SIDES.len()).map(ratio)).collect::<Vec<_>>())
}

fn uses_head() -> Vec<String> {
    let first = ["Workload", "Threads", "ns"].map(str::to_string);
    first.into_iter().chain(SIDES[1..].iter().map(|side| format!("to {}", side.name()))).collect()
}

/// The table of uses by this many rounds, of rows with this word in their title.
pub fn uses(rounds: usize, word: &str) -> Result<String, String> {
    let rows: Vec<Row> = scenes::rows().into_iter().filter(|row| row.scene.title().contains(word)).collect();
    let mut all: Vec<Vec<Run>> = rows.iter().map(|_| Vec::new()).collect();
    for number in 1..=RUNS {
        for (row, runs) in rows.iter().zip(&mut all).filter(|(row, _)| number <= runs_of(**row)) {
            eprintln!("run {number} of {}: {}, threads: {}", runs_of(*row), row.scene.title(), row.threads);
            runs.push(run(*row, rounds)?);
        }
    }
    let lines = rows.iter().zip(&all).map(|(row, runs)| uses_line(*row, runs));
    Ok([head(&uses_head())].into_iter().chain(lines).collect::<Vec<_>>().join("\n"))
}

fn latency_head() -> String {
    head(&["Call", "Threads", "Map", "half, ns", "99 %, ns", "99.9 %, ns", "greatest, ns"].map(str::to_string))
}

fn latency_lines(side: Side, threads: usize) -> Result<Vec<String>, String> {
    eprintln!("latency of {}, threads: {threads}", side.name());
    let report = turn(side, &["latency".to_string(), threads.to_string()])?;
    let times = |name: &str| match report.as_ref().and_then(|report| report.numbers(name)) {
        Some(times) => times.iter().map(|time| format!("{time}")).collect(),
        None => vec![NOT_AT_ONCE.to_string(); 4],
    };
    let first = |name: &str| [name.to_string(), threads.to_string(), side.name().to_string()];
    Ok(CALLS.map(|call| line(&[&first(call.name())[..], &times(call.name())].concat())).to_vec())
}

/// The table of latencies.
pub fn latency() -> Result<String, String> {
    let mut lines = vec![latency_head()];
    for threads in THREADS {
        for side in TIMED {
            lines.extend(latency_lines(side, threads)?);
        }
    }
    Ok(lines.join("\n"))
}

/// The table of memory.
pub fn memory() -> Result<String, String> {
    let round = |rounds: &usize| format!("after {rounds} rounds");
    let first = "Bytes a value".to_string();
    let mut lines = vec![head(&[first].into_iter().chain(scenes::ROUNDS.iter().map(round)).collect::<Vec<_>>())];
    for side in SIDES {
        eprintln!("memory of {}", side.name());
        let report = turn(side, &["memory".to_string()])?.ok_or("a turn with one thread waited")?;
        let bytes = report.numbers("bytes").ok_or("no bytes were reported")?;
        let first = side.name().to_string();
        lines.push(line(&[first].into_iter().chain(bytes.iter().map(|it| format!("{it:.0}"))).collect::<Vec<_>>()));
    }
    Ok(lines.join("\n"))
}

/// The table of room, which needs no time.
pub fn room() -> String {
    let names = ["Removed of the values of 1 word", "Room for values of 16 words", "of an empty shard"];
    let lines = REMOVED
        .map(room::left)
        .map(|left| line(&[format!("{} %", left.removed), left.values.to_string(), left.fresh.to_string()]));
    [head(&names.map(str::to_string))].into_iter().chain(lines).collect::<Vec<_>>().join("\n")
}

#[cfg(test)]
mod tests {
    use super::*;
    use crate::scenes::Scene;

    fn run_of(ours: f64, other: Option<f64>) -> Run {
        let times = |time| Times { least: time, median: 2.0 * time };
        let mut run = [None; SIDES.len()];
        (run[0], run[1]) = (Some(times(ours)), other.map(times));
        run
    }

    #[test]
    fn a_line_has_the_range_of_runs_with_turns_at_once() {
        let row = Row { scene: Scene::Batches, threads: 2 };
        let line = uses_line(row, &[run_of(10.0, Some(5.0)), run_of(20.0, None), run_of(30.0, Some(10.0))]);
        let wanted = "values | 2 | 10.0-30.0 / 20.0-60.0 | 2.00-3.00 / 2.00-3.00 | not at once |";
        assert!(line.contains(wanted), "{line}");
        assert_eq!(line.matches(" |").count(), uses_head().len());
    }

    #[test]
    fn only_rows_with_several_threads_are_repeated() {
        assert_eq!([1, 2, 4].map(|threads| runs_of(Row { scene: Scene::Session(90), threads })), [1, 3, 3]);
    }

    #[test]
    fn the_room_is_that_of_each_share() {
        assert_eq!(room().lines().count(), 2 + REMOVED.len());
    }
}
