//! The tables: of calls, of fills, of words, and of openings; and of callers and of soaks.
use super::callers::{self, SHARED_VALUES, THREADS};
use super::calls::{self, Call, CALLS};
use super::filling::{self, VALUES};
use super::opening::{What, ALL};
use super::soak::{Order, ORDERS};
use crate::markdown::line;
use crate::tables::{aimed, table, told, RUNS};
use crate::times::{text, Times};
use crate::turning::{of_sides, report_of, times_of, Report};

/// What was aimed at. A call in one chunk, one in forty, and the greatest fill are beside those of a plain heap. Words
/// are beside those of pages that have a class. A level is beside the first one. The others are microseconds and KiB of
/// opening.
const ONE_CHUNK: &str = "1.15";
const FORTY_CHUNKS: &str = "1.3";
const FILL: &str = "1.15";
const AIMED_FILL: u64 = 10_000_000;
const WORDS: &str = "2";
const LEVEL: &str = "1.3";
const MICROSECONDS: &str = "50";
const KIBIBYTES: &str = "128";

/// The name by which a turn of these tables is asked for.
pub const NAME: &str = "growing";

fn turn(words: &[&str]) -> Result<Report, String> {
    report_of(NAME, words)
}

const OF_CALLS: [&str; 11] = [
    "Workload",
    "Threads",
    "plain heap, ns",
    "1 chunk, ns",
    "1 chunk to plain (aim)",
    "40 chunks, ns",
    "40 chunks to plain (aim)",
    "`Table`, ns",
    "`Table` to 1 chunk",
    "`sharded_slab`, ns",
    "1 chunk to `sharded_slab`",
];

fn call_line(title: &str, [plain, one, forty, of_table, sharded]: [Times; 5]) -> String {
    line(&[
        title.to_string(),
        "1".to_string(),
        told(plain, 1),
        told(one, 1),
        aimed(one.over(plain), 2, ONE_CHUNK),
        told(forty, 1),
        aimed(forty.over(plain), 2, FORTY_CHUNKS),
        told(of_table, 1),
        told(of_table.over(one), 2),
        told(sharded, 1),
        told(one.over(sharded), 2),
    ])
}

fn of_calls(rounds: usize) -> Result<String, String> {
    let sides = of_sides(rounds, |at| {
        eprintln!("calls: {}", calls::SIDES[at].name());
        turn(&["calls", calls::SIDES[at].name()])
    })?;
    let of_call = |call: Call| {
        let of_side = |side: &Vec<Report>| times_of(side, call.name(), 1.0);
        let [plain, one, forty, of_table, sharded] = sides.each_ref().map(of_side);
        Ok(call_line(call.title(), [plain?, one?, forty?, of_table?, sharded?]))
    };
    let lines: Result<Vec<String>, String> = CALLS.into_iter().map(of_call).collect();
    Ok(table(&OF_CALLS, lines?))
}

const OF_FILLS: [&str; 7] = [
    "Workload",
    "Threads",
    "plain heap, ns",
    "growing heap, ns",
    "growing to plain (aim)",
    "`sharded_slab`, ns",
    "growing to `sharded_slab`",
];

fn grouped(number: u64) -> String {
    match number {
        0..=999 => number.to_string(),
        _ => format!("{},{:03}", grouped(number / 1000), number % 1000),
    }
}

fn fill_line(values: u64, rounds: usize) -> Result<String, String> {
    let [plain, growing, sharded] = of_sides(rounds, |at| {
        eprintln!("fill with {} values: {}", grouped(values), filling::SIDES[at].name());
        turn(&["fill", filling::SIDES[at].name(), &values.to_string()])
    })?;
    let of_side = |side: &[Report]| times_of(side, "nanoseconds", 1.0);
    let [plain, growing, sharded] = [of_side(&plain)?, of_side(&growing)?, of_side(&sharded)?];
    let to_plain = growing.over(plain);
    Ok(line(&[
        format!("open, and fill with {} values, 1 word", grouped(values)),
        "1".to_string(),
        told(plain, 1),
        told(growing, 1),
        if values == AIMED_FILL { aimed(to_plain, 2, FILL) } else { told(to_plain, 2) },
        told(sharded, 1),
        told(growing.over(sharded), 2),
    ]))
}

const OF_WORDS: [&str; 4] = ["Workload", "words of all chunks", "of pages with a class", "greatest ratio (aim)"];

// Nothing of this differs from round to round.
fn word_line(values: u64) -> Result<String, String> {
    let report = turn(&["words", &values.to_string()])?;
    let most = report.number("most")?;
    Ok(line(&[
        format!("words, at {} values", grouped(values)),
        grouped(report.number("chunks")? as u64),
        grouped(report.number("classed")? as u64),
        aimed(Times { least: most, median: most }, 2, WORDS),
    ]))
}

const OF_OPENINGS: [&str; 3] = ["Workload", "µs (aim)", "KiB (aim)"];

fn opening_line(what: What, rounds: usize) -> Result<String, String> {
    let reports: Result<Vec<Report>, String> = (0..rounds).map(|_| turn(&["open", what.name()])).collect();
    let reports = reports?;
    let (time, bytes) = (times_of(&reports, "nanoseconds", 1e3)?, times_of(&reports, "bytes", 1024.0)?);
    let cells = match what {
        What::Growing => [aimed(time, 1, MICROSECONDS), aimed(bytes, 1, KIBIBYTES)],
        What::Plain | What::Caller => [told(time, 1), told(bytes, 1)],
    };
    Ok(line(&[&[what.title().to_string()], &cells[..]].concat()))
}

/// All tables, of this many rounds.
pub fn tables(rounds: usize) -> Result<String, String> {
    let fills: Result<Vec<String>, String> = VALUES.into_iter().map(|values| fill_line(values, rounds)).collect();
    let words: Result<Vec<String>, String> = VALUES.into_iter().map(word_line).collect();
    let openings: Result<Vec<String>, String> = ALL.into_iter().map(|what| opening_line(what, rounds)).collect();
    let [fills, words] = [table(&OF_FILLS, fills?), table(&OF_WORDS, words?)];
    Ok([of_calls(rounds)?, fills, words, table(&OF_OPENINGS, openings?)].join("\n\n"))
}

const OF_CALLERS: [&str; 5] = ["Workload", "Threads", "growing heap, µs", "plain heap, µs", "growing to plain"];

// Of some runs, each with the times of both heaps.
fn caller_line(title: String, threads: usize, runs: &[[Times; 2]]) -> String {
    let cell = |of: fn(&[Times; 2]) -> Times| text(&runs.iter().map(of).collect::<Vec<_>>(), 2);
    let ratio = cell(|[growing, plain]| growing.over(*plain));
    line(&[title, threads.to_string(), cell(|[growing, _]| *growing), cell(|[_, plain]| *plain), ratio])
}

// What both heaps tell of these words, with the name of the heap behind the first one.
fn of_heaps(rounds: usize, what: &str, rest: &[&str]) -> Result<[Vec<Report>; 2], String> {
    of_sides(rounds, |at| {
        let name = callers::SIDES[at].name();
        eprintln!("{what} {}: {name}", rest.join(" "));
        turn(&[&[what, name], rest].concat())
    })
}

fn microseconds([growing, plain]: &[Vec<Report>; 2], name: &str) -> Result<[Times; 2], String> {
    Ok([times_of(growing, name, 1e3)?, times_of(plain, name, 1e3)?])
}

// The lines of a first insert, and of a take and drop.
fn begun_lines(values: u64, rounds: usize) -> Result<[String; 2], String> {
    let heaps = of_heaps(rounds, "callers", &[&values.to_string()])?;
    let title = |what: &str| format!("{what}, beside {} values", grouped(values));
    Ok([
        caller_line(title("first insert of a fresh caller"), 1, &[microseconds(&heaps, "insert")?]),
        caller_line(title("take and drop of a caller"), 1, &[microseconds(&heaps, "take")?]),
    ])
}

fn request_line(rounds: usize) -> Result<String, String> {
    let run = |_| microseconds(&of_heaps(rounds, "requests", &[])?, "nanoseconds");
    let runs: Result<Vec<[Times; 2]>, String> = (0..RUNS).map(run).collect();
    Ok(caller_line(format!("a caller a request, beside {} values", grouped(SHARED_VALUES)), THREADS, &runs?))
}

fn caller_table(rounds: usize) -> Result<String, String> {
    let begun: Result<Vec<[String; 2]>, String> =
        callers::VALUES.into_iter().map(|values| begun_lines(values, rounds)).collect();
    let (inserts, takes): (Vec<String>, Vec<String>) = begun?.into_iter().map(<(String, String)>::from).unzip();
    Ok(table(&OF_CALLERS, [inserts, takes, vec![request_line(rounds)?]].concat()))
}

const OF_SOAK: [&str; 4] = ["Workload", "at first, MB", "at most, MB", "ratio (aim)"];

fn level_line(title: &str, first: f64, most: f64) -> String {
    let ratio = most / first;
    let megabytes = |bytes: f64| format!("{:.1}", bytes / 1e6);
    line(&[
        title.to_string(),
        megabytes(first),
        megabytes(most),
        aimed(Times { least: ratio, median: ratio }, 2, LEVEL),
    ])
}

// The lines of the chunks' words and of the process. (The words do not differ from round to round, so there is one.)
fn soak_lines(order: Order) -> Result<[String; 2], String> {
    eprintln!("soak {}", order.name());
    let report = turn(&["soak", order.name()])?;
    let count = |name: &str| Ok::<String, String>(grouped(report.number(name)? as u64));
    let title = format!("soak {}, {} inserts, {} values", order.name(), count("inserts")?, count("live")?);
    let level = |name: &str, what: &str| match report.numbers(name).as_deref() {
        Some([first, most]) => Ok(level_line(&format!("{title}: {what}"), *first, *most)),
        _ => Err(format!("{name} has no levels")),
    };
    Ok([level("chunks", "words of the chunks")?, level("resident", "the process")?])
}

fn soak_table() -> Result<String, String> {
    let lines: Result<Vec<[String; 2]>, String> = ORDERS.into_iter().map(soak_lines).collect();
    Ok(table(&OF_SOAK, lines?.concat()))
}

/// The tables of callers that come and go, of this many rounds, and of the soaks.
pub fn of_callers(rounds: usize) -> Result<String, String> {
    Ok([caller_table(rounds)?, soak_table()?].join("\n\n"))
}

#[cfg(test)]
mod tests {
    use super::*;

    #[test]
    fn a_line_of_calls_has_a_place_below_each_name() {
        let line = call_line("get", [10.0, 11.0, 12.0, 13.0, 22.0].map(|least| Times { least, median: 2.0 * least }));
        assert!(line.starts_with("| get | 1 | 10.0 / 20.0 | 11.0 / 22.0 | 1.10 / 1.10 (1.15) | 12.0 "), "{line}");
        assert_eq!(line.matches(" |").count(), OF_CALLS.len());
    }

    #[test]
    fn a_level_is_beside_the_first_one() {
        assert_eq!(level_line("soak", 2e7, 2.5e7), "| soak | 20.0 | 25.0 | 1.25 / 1.25 (1.3) |");
        assert_eq!(OF_SOAK.len(), 4);
    }

    #[test]
    fn a_line_of_callers_has_the_range_of_its_runs() {
        let run = |least: f64| [least, 2.0].map(|least| Times { least, median: 2.0 * least });
        let line = caller_line("take".to_string(), 4, &[run(3.0), run(6.0)]);
        assert_eq!(line, "| take | 4 | 3.00-6.00 / 6.00-12.00 | 2.00-2.00 / 4.00-4.00 | 1.50-3.00 / 1.50-3.00 |");
        assert_eq!(line.matches(" |").count(), OF_CALLERS.len());
    }

    #[test]
    fn numbers_are_grouped() {
        assert_eq!([7, 1000, 10_000_000].map(grouped), ["7", "1,000", "10,000,000"]);
    }
}
