//! The table of calls as a run printed it, read back: a kept output is enough to draw its pictures.
use crate::sides::{Side, RIVALS};
use crate::table::NOT_AT_ONCE;

/// The least times of one row, or its least ratios: one number, or a range if the row had several runs.
#[derive(Clone, Copy, Debug, PartialEq)]
pub struct Span {
    pub least: f64,
    pub greatest: f64,
}

/// One row: its title, its threads, the nanoseconds of ours, and the ratio to each rival, if it has the workload.
#[derive(Clone, Debug, PartialEq)]
pub struct Figure {
    pub title: String,
    pub threads: usize,
    pub ours: Span,
    ratios: [Option<Span>; RIVALS.len()],
}

// The columns that are the same in each run.
const HEAD: &str = "| Workload | Threads | ns |";

impl Span {
    // The numbers before the stroke, as in `0.42-0.51 / 0.44-0.60 (0.9)`.
    fn of(place: &str) -> Option<Self> {
        let (least, _) = place.split_once(" / ")?;
        let (from, to) = least.split_once('-').unwrap_or((least, least));
        Some(Span { least: from.parse().ok()?, greatest: to.parse().ok()? })
    }

    /// The number in the middle of the range.
    pub fn middle(self) -> f64 {
        (self.least + self.greatest) / 2.0
    }
}

impl Figure {
    /// The ratios of ours to a rival; none if it has no such workload.
    pub fn ratio(&self, rival: Side) -> Option<Span> {
        let place = RIVALS.iter().position(|side| *side == rival)?;
        self.ratios[place]
    }

    /// The nanoseconds of a side. Those of a rival are ours divided by the ratio, so as exact as its two digits.
    pub fn nanoseconds(&self, side: Side) -> Option<f64> {
        match side {
            Side::Ours => Some(self.ours.middle()),
            rival => Some(self.ours.middle() / self.ratio(rival)?.middle()),
        }
    }
}

fn places(line: &str) -> Vec<&str> {
    line.trim().trim_matches('|').split('|').map(str::trim).collect()
}

// The rival of each column of ratios.
fn rivals(head: &str) -> Vec<Option<Side>> {
    let name = |place: &&str| Side::of_name(place.strip_prefix("to ")?.trim_end_matches(" (aim)"));
    places(head).iter().skip(3).map(name).collect()
}

fn figure(line: &str, rivals: &[Option<Side>]) -> Option<Figure> {
    let places = places(line);
    let [title, threads, ours, ratios @ ..] = &places[..] else { return None };
    let of = |rival: Side| {
        let column = rivals.iter().position(|side| *side == Some(rival))?;
        Span::of(ratios.get(column)?)
    };
    let threads = threads.parse().ok()?;
    Some(Figure { title: title.to_string(), threads, ours: Span::of(ours)?, ratios: RIVALS.map(of) })
}

/// The rows of the first table of calls in the text. The error says in one line why there are none.
pub fn figures(text: &str) -> Result<Vec<Figure>, String> {
    let mut lines = text.lines().skip_while(|line| !line.starts_with(HEAD));
    let head = lines.next().ok_or("the text has no table of calls")?;
    let rivals = rivals(head);
    let rows = lines.skip(1).take_while(|line| line.starts_with('|'));
    // A row that has no time of ours, since its threads did not run at once, has no place in a picture.
    let rows = rows.filter(|line| places(line).get(2) != Some(&NOT_AT_ONCE));
    rows.map(|line| figure(line, &rivals).ok_or(format!("no row of the table of calls: {line}"))).collect()
}

#[cfg(test)]
mod tests {
    use super::*;

    const TEXT: &str = "\
rounds: 15

| Workload | Threads | ns | to `sharded_slab` (aim) | to bare atomics (aim) |
|---|---|---|---|---|
| get + release, one key | 1 | 24.2 / 31.9 | 1.03 / 1.19 (0.9) | none |
| get + release, one key | 2 | 40.0-80.0 / 88.7-102.7 | 0.50-1.00 / 0.45-0.59 | 0.87-2.09 / 1.29-1.46 (1.1) |
| get + release, one key | 4 | not at once | not at once | not at once |

| Workload | Threads | ns | to `sharded_slab` (aim) |
|---|---|---|---|
| another table | 1 | 1.0 / 2.0 | 1.00 / 1.00 |
";

    #[test]
    fn a_kept_output_has_the_rows_of_its_first_table() {
        let rows = figures(TEXT).expect("it has a table");
        assert_eq!(rows.len(), 2);
        assert_eq!((rows[0].title.as_str(), rows[0].threads), ("get + release, one key", 1));
        assert_eq!(rows[0].ours, Span { least: 24.2, greatest: 24.2 });
        assert_eq!(rows[0].ratio(Side::Sharded), Some(Span { least: 1.03, greatest: 1.03 }));
        assert_eq!(rows[1].ratio(Side::Model), Some(Span { least: 0.87, greatest: 2.09 }));
    }

    #[test]
    fn a_side_without_the_workload_or_without_a_column_has_no_time() {
        let rows = figures(TEXT).expect("it has a table");
        assert_eq!([Side::Model, Side::Dash].map(|side| rows[0].nanoseconds(side)), [None, None]);
    }

    #[test]
    fn the_time_of_a_rival_is_ours_divided_by_the_ratio() {
        let rows = figures(TEXT).expect("it has a table");
        assert_eq!(rows[1].nanoseconds(Side::Ours), Some(60.0));
        assert_eq!(rows[1].nanoseconds(Side::Sharded), Some(80.0));
    }

    #[test]
    fn what_is_no_table_of_calls_is_refused_in_one_line() {
        assert_eq!(figures("rounds: 15\n"), Err("the text has no table of calls".to_string()));
        let line = "| get | many | fast |";
        let text = format!("{HEAD}\n|---|---|---|\n{line}\n");
        assert_eq!(figures(&text), Err(format!("no row of the table of calls: {line}")));
    }
}
