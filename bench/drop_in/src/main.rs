//! usage: drop-in WORKLOAD THREADS ROUNDS
//!
//! Runs a workload in this many threads, and prints a line for each of its rows. The line has the name, and the
//! nanoseconds of processor time of one operation, in the mean of the threads. `measure` beside this runs it in turns,
//! built with `sharded-slab` as it is and with the one of this repository.
mod clock;
mod pool;
mod slab;
mod spans;

use std::process::ExitCode;
use std::sync::Barrier;
use std::thread;

/// A row of a workload: its name, and the nanoseconds of one operation.
type Row = (&'static str, f64);

/// Runs `work` in this many threads that begin at the same time, and returns the mean of each of its rows.
fn in_threads(threads: usize, work: impl Fn(&Barrier, usize) -> Vec<Row> + Sync) -> Vec<Row> {
    let start = Barrier::new(threads);
    let all: Vec<Vec<Row>> = thread::scope(|scope| {
        let begin = |number| {
            scope.spawn({
                let (work, start) = (&work, &start);
                move || work(start, number)
            })
        };
        let workers: Vec<_> = (0..threads).map(begin).collect();
        workers.into_iter().map(|worker| worker.join().expect("the thread ends well")).collect()
    });
    let mean = |row: usize| all.iter().map(|rows| rows[row].1).sum::<f64>() / threads as f64;
    all[0].iter().enumerate().map(|(row, (name, _))| (*name, mean(row))).collect()
}

fn run(workload: &str, threads: usize, rounds: usize) -> Option<Vec<Row>> {
    match workload {
        "slab" => Some(slab::calls(threads, rounds)),
        "idle" => Some(slab::beside_idle(threads, rounds)),
        "pool" => Some(pool::calls(threads, rounds)),
        "spans" => Some(spans::calls(threads, rounds)),
        _ => None,
    }
}

fn main() -> ExitCode {
    let words: Vec<String> = std::env::args().skip(1).collect();
    let rows = match &words[..] {
        [workload, threads, rounds] => match (threads.parse(), rounds.parse()) {
            (Ok(threads), Ok(rounds)) if threads > 0 && rounds > 0 => run(workload, threads, rounds),
            _ => None,
        },
        _ => None,
    };
    let Some(rows) = rows else {
        eprintln!("usage: drop-in slab|idle|pool|spans THREADS ROUNDS");
        return ExitCode::FAILURE;
    };
    rows.iter().for_each(|(name, nanoseconds)| println!("{name}: {nanoseconds:.2}"));
    ExitCode::SUCCESS
}
