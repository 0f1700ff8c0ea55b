//! What is reported of the rounds of a run: the least and the median. And of several runs: the range.

/// The least and the median of the rounds of one run: nanoseconds, or ratios of them.
#[derive(Clone, Copy, Debug, PartialEq)]
pub struct Times {
    pub least: f64,
    pub median: f64,
}

// The middle of sorted times, or what lies between the two in the middle.
fn median(sorted: &[f64]) -> Option<f64> {
    let upper = *sorted.get(sorted.len() / 2)?;
    match sorted.len() % 2 {
        1 => Some(upper),
        _ => Some((sorted[sorted.len() / 2 - 1] + upper) / 2.0),
    }
}

impl Times {
    /// Nothing if there was no round.
    pub fn of(mut rounds: Vec<f64>) -> Option<Self> {
        rounds.sort_by(f64::total_cmp);
        Some(Times { least: *rounds.first()?, median: median(&rounds)? })
    }

    /// The ratio of the least ones, and that of the medians.
    pub fn over(self, other: Self) -> Self {
        Times { least: self.least / other.least, median: self.median / other.median }
    }

    /// The share of one of this many.
    pub fn each(self, of: usize) -> Self {
        Times { least: self.least / of as f64, median: self.median / of as f64 }
    }
}

// One number, or the range that several of them have.
fn span(numbers: impl Iterator<Item = f64> + Clone, digits: usize) -> String {
    let least = numbers.clone().fold(f64::INFINITY, f64::min);
    let greatest = numbers.clone().fold(f64::NEG_INFINITY, f64::max);
    match numbers.count() {
        1 => format!("{least:.digits$}"),
        _ => format!("{least:.digits$}-{greatest:.digits$}"),
    }
}

/// The results of several runs, with this many digits behind the point: the least ones, and then the medians.
pub fn text(runs: &[Times], digits: usize) -> String {
    let least = span(runs.iter().map(|run| run.least), digits);
    let median = span(runs.iter().map(|run| run.median), digits);
    format!("{least} / {median}")
}

#[cfg(test)]
mod tests {
    use super::*;

    #[test]
    fn the_median_of_an_odd_number_of_rounds_is_the_one_in_the_middle() {
        assert_eq!(Times::of(vec![9.0, 1.0, 5.0]), Some(Times { least: 1.0, median: 5.0 }));
        assert_eq!(Times::of(vec![7.0]), Some(Times { least: 7.0, median: 7.0 }));
    }

    #[test]
    fn the_median_of_an_even_number_of_rounds_lies_between_two() {
        assert_eq!(Times::of(vec![4.0, 9.0, 1.0, 2.0]), Some(Times { least: 1.0, median: 3.0 }));
    }

    #[test]
    fn no_rounds_have_no_times() {
        assert_eq!(Times::of(vec![]), None);
    }

    #[test]
    fn least_goes_by_least_and_median_by_median() {
        let (ours, other) = (Times { least: 3.0, median: 8.0 }, Times { least: 2.0, median: 4.0 });
        assert_eq!(ours.over(other), Times { least: 1.5, median: 2.0 });
        assert_eq!(ours.each(4), Times { least: 0.75, median: 2.0 });
    }

    #[test]
    fn one_run_is_told_as_numbers_and_three_as_ranges() {
        let runs = [(1.25, 2.0), (0.5, 3.5), (1.0, 3.0)].map(|(least, median)| Times { least, median });
        assert_eq!(text(&runs[..1], 2), "1.25 / 2.00");
        assert_eq!(text(&runs, 1), "0.5-1.2 / 2.0-3.5");
    }
}
