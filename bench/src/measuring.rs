//! Rounds and runs. A run is a number of rounds of a row, in each of which every side has a turn.
use crate::ours::Programs;
use crate::row::Row;
use crate::sides::{Side, SIDES};
use crate::times::Times;

/// Rows with several threads do not repeat: they are measured so often.
const RUNS: usize = 3;

/// What one run of a row came to, on each side that has its workload.
#[derive(Clone, Copy)]
struct Run([Option<Times>; SIDES.len()]);

/// A row, and what its runs came to.
pub struct Measured {
    pub row: Row,
    runs: Vec<Run>,
}

/// Which programs are measured beside the rivals, and in how many rounds.
pub struct Plan<'a> {
    pub programs: Programs<'a>,
    pub rounds: usize,
}

fn runs_of(row: &Row) -> usize {
    if row.running() > 1 {
        RUNS
    } else {
        1
    }
}

impl Run {
    fn of(&self, side: Side) -> Option<Times> {
        let place = SIDES.iter().position(|at| *at == side)?;
        self.0[place]
    }

    fn ratio(&self, rival: Side) -> Option<Times> {
        Some(self.of(Side::Ours)?.over(self.of(rival)?))
    }
}

impl Measured {
    /// A row that had no run yet.
    pub fn new(row: Row) -> Self {
        Measured { row, runs: Vec::new() }
    }

    /// The times of a side, one for each run; none if it has no such workload.
    pub fn times(&self, side: Side) -> Vec<Times> {
        self.runs.iter().filter_map(|run| run.of(side)).collect()
    }

    /// The ratios of ours to a rival, one for each run.
    pub fn ratios(&self, rival: Side) -> Vec<Times> {
        self.runs.iter().filter_map(|run| run.ratio(rival)).collect()
    }
}

impl Plan<'_> {
    // In each round another side is first.
    fn run(&self, row: &Row) -> Result<Run, String> {
        let mut times: [Vec<f64>; SIDES.len()] = Default::default();
        for round in 0..self.rounds {
            for turn in 0..SIDES.len() {
                let at = (round + turn) % SIDES.len();
                times[at].extend(SIDES[at].turn(&self.programs, row)?);
            }
        }
        Ok(Run(times.map(Times::of)))
    }

    // One run of each row that has so many runs; a row that cannot be measured is reported and left out.
    fn pass(&self, number: usize, rows: &mut Vec<Measured>) {
        rows.retain_mut(|measured| {
            let row = measured.row;
            if number > runs_of(&row) {
                return true;
            }
            eprintln!("run {number} of {}: {}, threads: {}", runs_of(&row), row.title(), row.running());
            match self.run(&row) {
                Ok(run) => measured.runs.push(run),
                Err(why) => eprintln!("left out: {}: {why}", row.title()),
            }
            measured.runs.len() == number
        });
    }

    /// Measures the rows. All are measured once before any is measured again, so that the runs of one lie apart.
    pub fn measure(&self, rows: Vec<Row>) -> Vec<Measured> {
        let mut measured = rows.into_iter().map(Measured::new).collect();
        for number in 1..=RUNS {
            self.pass(number, &mut measured);
        }
        measured
    }
}

#[cfg(test)]
mod tests {
    use super::*;
    use crate::workload::Workload;
    use std::path::Path;

    fn run(ours: f64, model: f64) -> Run {
        let times = |time| Some(Times { least: time, median: 2.0 * time });
        Run(SIDES.map(|side| match side {
            Side::Ours => times(ours),
            Side::Model => times(model),
            _ => None,
        }))
    }

    #[test]
    fn rows_with_several_threads_have_three_runs() {
        let runs = |workload, threads| runs_of(&Row::new(workload, threads, 1));
        assert_eq!([runs(Workload::Get, 1), runs(Workload::Get, 2), runs(Workload::Hand, 1)], [1, 3, 3]);
    }

    #[test]
    fn a_ratio_is_that_of_one_run() {
        let measured = Measured { row: Row::new(Workload::Get, 2, 1), runs: vec![run(6.0, 3.0), run(1.0, 2.0)] };
        assert_eq!(measured.times(Side::Model).iter().map(|times| times.median).collect::<Vec<_>>(), [6.0, 4.0]);
        assert_eq!(measured.ratios(Side::Model).iter().map(|ratio| ratio.least).collect::<Vec<_>>(), [2.0, 0.5]);
        assert_eq!(measured.ratios(Side::Sharded), []);
    }

    #[test]
    fn a_row_that_the_program_does_not_measure_is_left_out() {
        let programs = Programs { inside: Path::new("/nowhere/tool_bench"), through: None };
        let plan = Plan { programs, rounds: 1 };
        let rows = [Workload::Get, Workload::LoadFromC].map(|workload| Row::new(workload, 1, 1));
        assert!(plan.measure(rows.to_vec()).is_empty());
    }
}
