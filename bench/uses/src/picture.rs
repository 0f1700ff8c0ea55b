//! The picture of the table of latencies. Each call in each number of threads has a line for each map. It goes from the
//! time that half of the calls take at most to the greatest.
use crate::svg::{Anchor, Sheet, FAINT, INK, PALE};
use crate::tables::NOT_AT_ONCE;

/// The head of the table, as a run printed it.
const HEAD: &str = "| Call | Threads | Map |";
const LEFT: f64 = 190.0;
const SCALE: f64 = 520.0;
const ROW: f64 = 18.0;
const HEADING: f64 = 28.0;
// How far the first row of a group is below its heading.
const GAP: f64 = 6.0;
const TOP: f64 = 54.0;
// From ten nanoseconds to a hundred milliseconds, so over seven powers of ten.
const TICKS: [(f64, &str); 8] = [
    (1e1, "10 ns"),
    (1e2, "100 ns"),
    (1e3, "1 µs"),
    (1e4, "10 µs"),
    (1e5, "100 µs"),
    (1e6, "1 ms"),
    (1e7, "10 ms"),
    (1e8, "100 ms"),
];
// Each quantile with its color: the greatest is the palest.
const COLORS: [(&str, &str); 4] =
    [("half", "#0b3c6f"), ("99 %", "#0b6fb8"), ("99.9 %", "#d1660f"), ("greatest", "#999999")];

/// A row of the table: what it is of, and its times in nanoseconds; none if in no turn all threads ran at once.
#[derive(Clone, Debug, PartialEq)]
struct Line {
    group: String,
    map: String,
    times: Option<[f64; COLORS.len()]>,
}

fn times(cells: &[&str]) -> Option<[f64; COLORS.len()]> {
    let times: Vec<f64> = cells.iter().map(|time| time.parse().ok()).collect::<Option<_>>()?;
    times.try_into().ok()
}

// The row of a line of Markdown.
fn line(text: &str) -> Option<Line> {
    let cells: Vec<&str> = text.trim().trim_matches('|').split('|').map(str::trim).collect();
    let [call, threads, map, rest @ ..] = &cells[..] else { return None };
    let plural = if *threads == "1" { "" } else { "s" };
    let group = format!("{call}, {threads} thread{plural}");
    Some(Line { group, map: map.replace('`', ""), times: times(rest) })
}

// The rows of the table in the text, those of one call and number of threads next to each other.
fn lines(text: &str) -> Vec<Line> {
    let rows = text.lines().skip_while(|line| !line.starts_with(HEAD)).skip(2).take_while(|line| line.starts_with('|'));
    let mut lines: Vec<Line> = rows.filter_map(line).collect();
    lines.sort_by(|one, other| one.group.cmp(&other.group));
    lines
}

fn place(time: f64) -> f64 {
    LEFT + SCALE * ((time.max(10.0).log10() - 1.0) / 7.0).clamp(0.0, 1.0)
}

fn scale(sheet: &mut Sheet, bottom: f64) {
    for (time, words) in TICKS {
        sheet.line((place(time), TOP - 6.0), (place(time), bottom), FAINT, 1.0);
        sheet.words((place(time), TOP - 12.0), Anchor::Middle, words);
    }
}

fn legend(sheet: &mut Sheet) {
    for (at, (name, color)) in COLORS.iter().enumerate() {
        let x = LEFT + 110.0 * at as f64;
        sheet.dot((x, 16.0), color);
        sheet.words((x + 10.0, 20.0), Anchor::Start, name);
    }
}

fn draw(sheet: &mut Sheet, line: &Line, y: f64) {
    sheet.words((LEFT - 12.0, y + 4.0), Anchor::End, &line.map);
    let Some(times) = line.times else {
        sheet.words((LEFT + 8.0, y + 4.0), Anchor::Start, NOT_AT_ONCE);
        return;
    };
    sheet.line((place(times[0]), y), (place(times[3]), y), INK, 0.5);
    times.iter().zip(COLORS).for_each(|(time, (_, color))| sheet.dot((place(*time), y), color));
}

/// The picture of the table in what a run printed; none if it has no row.
pub fn picture(text: &str) -> Option<String> {
    let lines = lines(text);
    let groups: Vec<&[Line]> = lines.chunk_by(|one, next| one.group == next.group).collect();
    let bottom = TOP + HEADING * groups.len() as f64 + ROW * lines.len() as f64;
    let about = "Time of a call in a table of sessions with 90 % reads: what half, 99 % and 99.9 % of the calls take \
                 at most, and the greatest";
    let mut sheet = Sheet::new(LEFT + SCALE + 40.0, bottom + 12.0, "Latency of each call", about);
    let mut y = TOP;
    for (number, group) in groups.iter().enumerate() {
        let height = HEADING + ROW * group.len() as f64;
        if number % 2 == 0 {
            sheet.field((0.0, y), LEFT + SCALE + 40.0, height, PALE);
        }
        sheet.heading((12.0, y + 18.0), &group[0].group);
        y += height;
    }
    scale(&mut sheet, bottom);
    legend(&mut sheet);
    let mut y = TOP;
    for group in groups {
        group.iter().enumerate().for_each(|(at, line)| draw(&mut sheet, line, y + HEADING + GAP + ROW * at as f64));
        y += HEADING + ROW * group.len() as f64;
    }
    (!lines.is_empty()).then(|| sheet.text())
}

#[cfg(test)]
mod tests {
    use super::*;

    const TEXT: &str = "\
rounds: 1

| Call | Threads | Map | half, ns | 99 %, ns | 99.9 %, ns | greatest, ns |
|---|---|---|---|---|---|---|
| read | 1 | `DashMap` | 40 | 90 | 400 | 90000 |
| insert | 4 | `DashMap` | 60 | 100 | 500 | 2000000 |
| read | 1 | the heap from Rust | 30 | 80 | 300 | 70000 |
| read | 4 | `DashMap` | not at once | not at once | not at once | not at once |
";

    #[test]
    fn rows_of_one_call_are_next_to_each_other() {
        let groups: Vec<String> = lines(TEXT).iter().map(|line| format!("{}: {}", line.group, line.map)).collect();
        assert_eq!(
            groups,
            [
                "insert, 4 threads: DashMap",
                "read, 1 thread: DashMap",
                "read, 1 thread: the heap from Rust",
                "read, 4 threads: DashMap"
            ]
        );
        assert_eq!(lines(TEXT)[0].times, Some([60.0, 100.0, 500.0, 2e6]));
    }

    #[test]
    fn times_are_on_a_scale_of_powers_of_ten() {
        assert_eq!([1e1, 1e8, 1.0].map(place), [LEFT, LEFT + SCALE, LEFT]);
        assert!((place(1e4) - place(1e3) - SCALE / 7.0).abs() < 1e-9);
    }

    #[test]
    fn each_time_is_a_dot() {
        let picture = picture(TEXT).expect("it has rows");
        // Three rows with four times each, and the four of the legend.
        assert_eq!(picture.matches("<circle").count(), 16);
        assert_eq!(picture.matches(">not at once</text>").count(), 1);
        assert_eq!(super::picture("nothing"), None);
    }
}
