//! The tables: their heads and lines. Each cell has the least of the rounds and the median.
use crate::markdown::{head, line};
use crate::measuring::Measured;
use crate::row::Row;
use crate::rows;
use crate::sides::{Side, RIVALS};
use crate::times::{text, Times};

/// The tables of a run.
#[derive(Clone, Copy, Debug, PartialEq, Eq)]
pub enum Table {
    Calls,
    /// The reads without a hold, inside and by the library's calls: only if they are asked for.
    Reads,
    /// The calls in large heaps, which take long to fill: only if they are asked for.
    Large,
    Passes,
    Changes,
}

/// Those of the usual run.
pub const TABLES: [Table; 3] = [Table::Calls, Table::Passes, Table::Changes];

/// What a cell has if the side has the workload, and in no turn all threads ran at once.
pub const NOT_AT_ONCE: &str = "not at once";

fn nanoseconds(times: &[Times]) -> String {
    if times.is_empty() {
        NOT_AT_ONCE.to_string()
    } else {
        text(times, 1)
    }
}

// The ratio to a rival, and behind it what was aimed at.
fn ratio(measured: &Measured, rival: Side) -> String {
    let behind = measured.row.aim(rival).map_or(String::new(), |aim| format!(" ({aim})"));
    match measured.ratios(rival) {
        none if none.is_empty() && rival.has(&measured.row) => NOT_AT_ONCE.to_string(),
        none if none.is_empty() => "none".to_string(),
        ratios => format!("{}{behind}", text(&ratios, 2)),
    }
}

fn ratio_head(rival: Side) -> String {
    match rival {
        Side::Sharded | Side::Model => format!("to {} (aim)", rival.name()),
        _ => format!("to {}", rival.name()),
    }
}

fn for_a_page(measured: &Measured, side: Side) -> String {
    let pages = measured.row.pages();
    let times: Vec<Times> = measured.times(side).into_iter().map(|times| times.each(pages)).collect();
    nanoseconds(&times)
}

// The rivals that have reads: the stores of a value are no part of them.
fn readers() -> impl Iterator<Item = Side> {
    RIVALS.into_iter().filter(|rival| *rival != Side::PlainStores)
}

fn calls_line(measured: &Measured, rivals: impl IntoIterator<Item = Side>) -> Vec<String> {
    let first = [measured.row.title(), measured.row.running().to_string(), nanoseconds(&measured.times(Side::Ours))];
    first.into_iter().chain(rivals.into_iter().map(|rival| ratio(measured, rival))).collect()
}

fn changes_line(measured: &Measured) -> Vec<String> {
    let ours = nanoseconds(&measured.times(Side::Ours));
    let [our_page, model_page] = [Side::Ours, Side::Model].map(|side| for_a_page(measured, side));
    vec![measured.row.title(), ours, our_page, model_page, ratio(measured, Side::Model)]
}

impl Table {
    pub fn rows(self) -> Vec<Row> {
        match self {
            Table::Calls => rows::calls(),
            Table::Reads => rows::looks(),
            Table::Large => rows::large(),
            Table::Passes => rows::passes(),
            Table::Changes => rows::changes(),
        }
    }

    fn places(self) -> Vec<String> {
        let words: &[&str] = match self {
            Table::Calls | Table::Large => &["Workload", "Threads", "ns"],
            Table::Reads => &["Call", "Threads", "ns"],
            Table::Passes => &["Workload", "ns"],
            Table::Changes => &["Workload", "ns", "ns a page", "ns a page, bare atomics", "to bare atomics (aim)"],
        };
        let ratios = match self {
            Table::Calls | Table::Large => RIVALS.map(ratio_head).to_vec(),
            Table::Reads => readers().map(|rival| format!("to {}", rival.name())).collect(),
            Table::Passes | Table::Changes => Vec::new(),
        };
        words.iter().map(|word| word.to_string()).chain(ratios).collect()
    }

    fn line(self, measured: &Measured) -> String {
        line(&match self {
            Table::Calls | Table::Large => calls_line(measured, RIVALS),
            Table::Reads => calls_line(measured, readers()),
            Table::Passes => vec![measured.row.title(), nanoseconds(&measured.times(Side::Ours))],
            Table::Changes => changes_line(measured),
        })
    }

    /// The whole table.
    pub fn text(self, measured: &[Measured]) -> String {
        let lines = measured.iter().map(|measured| format!("\n{}", self.line(measured)));
        format!("{}{}", head(&self.places()), lines.collect::<String>())
    }
}

#[cfg(test)]
mod tests {
    use super::*;
    use crate::workload::Workload;

    #[test]
    fn a_row_without_a_turn_at_once_says_so() {
        let line = calls_line(&Measured::new(Row::new(Workload::Get, 4, 1)), RIVALS);
        assert_eq!(line[2..9], [NOT_AT_ONCE; 7]);
        assert_eq!(line[9], "none");
        assert_eq!(ratio(&Measured::new(Row::new(Workload::Heed, 1, 1)), Side::Sharded), "none");
    }

    #[test]
    fn lines_have_as_many_places_as_their_head() {
        for table in [&TABLES[..], &[Table::Reads, Table::Large]].concat() {
            for row in table.rows() {
                let line = table.line(&Measured::new(row));
                assert_eq!(line.matches(" |").count(), table.places().len(), "{line}");
            }
        }
    }
}
