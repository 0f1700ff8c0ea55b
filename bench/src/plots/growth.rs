//! What an insert, and a removal with an insert, take as the heap fills.
use super::name;
use crate::results::Figure;
use crate::row::Row;
use crate::rows;
use crate::samples::Lengths;
use crate::sides::Side;
use crate::svg::{Anchor, Sheet, FAINT, INK};
use crate::workload::Workload;

/// The sides of the picture, each with its color.
const GROWTH: [(Side, &str); 4] =
    [(Side::Ours, "#1b8a3a"), (Side::Sharded, "#0b6fb8"), (Side::Dash, "#d1660f"), (Side::Model, "#777777")];

const TOP: f64 = 62.0;
const CHART: (f64, f64) = (300.0, 240.0);
const DECADES: f64 = 5.0;
const GAP: f64 = 14.0;

/// A chart of one workload: the nanoseconds of an operation by the number of values.
struct Chart<'a> {
    rows: Vec<(usize, &'a Figure)>,
    left: f64,
    step: f64,
    most: f64,
}

// The least of 1, 2, 5, 10, 20 .. of which at most five reach this number.
fn round_step(most: f64) -> f64 {
    let steps = (0..9).flat_map(|power| [1.0, 2.0, 5.0].map(|digit| digit * 10_f64.powi(power)));
    steps.into_iter().find(|step| most <= 5.0 * step).unwrap_or(most)
}

// A rival's time is known to two digits.
fn rounded(side: Side, time: f64) -> String {
    match side {
        Side::Ours => format!("{time:.0}"),
        _ if time < 100.0 => format!("{time:.0}"),
        _ => format!("{:.0}", (time / 10.0).round() * 10.0),
    }
}

// Places from the top down, moved so that no two are closer than the gap.
fn apart(mut places: Vec<(f64, Side)>) -> Vec<(f64, Side)> {
    places.sort_by(|one, other| one.0.total_cmp(&other.0));
    for at in 1..places.len() {
        places[at].0 = places[at].0.max(places[at - 1].0 + GAP);
    }
    places
}

impl<'a> Chart<'a> {
    // The rows of one thread and one word of this workload, by the number of values.
    fn of(figures: &'a [Figure], workload: Workload, left: f64) -> Self {
        let is_of = |row: &Row| row.workload == workload && row.threads == 1 && row.lengths == Lengths::Each(1);
        let found = |row: Row| {
            let is_its = |figure: &&Figure| figure.threads == 1 && figure.title == row.title();
            Some((row.live, figures.iter().find(is_its)?))
        };
        let mut rows: Vec<_> = rows::calls().into_iter().filter(is_of).filter_map(found).collect();
        rows.sort_by_key(|(live, _)| *live);
        let times = rows.iter().flat_map(|(_, figure)| GROWTH.iter().filter_map(|(side, _)| figure.nanoseconds(*side)));
        let most = times.fold(1.0, f64::max);
        let step = round_step(most);
        Chart { rows, left, step, most: (most / step).ceil() * step }
    }

    // 1 to 100,000 values on the one axis, 0 to the most nanoseconds on the other.
    fn place(&self, live: usize, time: f64) -> (f64, f64) {
        let (width, height) = CHART;
        let x = self.left + width * (live.max(1) as f64).log10() / DECADES;
        (x, TOP + height * (1.0 - time / self.most))
    }

    fn scales(&self, sheet: &mut Sheet, title: &str) {
        let (width, height) = CHART;
        for step in 0..=(self.most / self.step).round() as u32 {
            let time = self.step * f64::from(step);
            let (x, y) = self.place(1, time);
            sheet.line((x, y), (x + width, y), FAINT, 1.0);
            sheet.words((x - 8.0, y + 4.0), Anchor::End, &format!("{time:.0}"));
        }
        for (live, words) in
            [(1, "1"), (10, "10"), (100, "100"), (1000, "1,000"), (10_000, "10,000"), (100_000, "100,000")]
        {
            let (x, y) = self.place(live, 0.0);
            sheet.line((x, y), (x, y + 4.0), INK, 1.0);
            sheet.words((x, TOP + height + 18.0), Anchor::Middle, words);
        }
        sheet.heading((self.left - 30.0, TOP - 34.0), title);
        sheet.words((self.left - 30.0, TOP - 16.0), Anchor::Start, "ns");
        let under = "values in the heap (logarithmic axis)";
        sheet.words((self.left + width / 2.0, TOP + height + 38.0), Anchor::Middle, under);
    }

    fn lines(&self, sheet: &mut Sheet) {
        for (side, color) in GROWTH {
            let of = |(live, figure): &(usize, &Figure)| Some(self.place(*live, figure.nanoseconds(side)?));
            let places: Vec<(f64, f64)> = self.rows.iter().filter_map(of).collect();
            places.windows(2).for_each(|two| sheet.line(two[0], two[1], color, 2.0));
            places.into_iter().for_each(|at| sheet.dot(at, color));
        }
    }

    // Next to the last point of each side its name and its time.
    fn labels(&self, sheet: &mut Sheet) {
        let Some((live, figure)) = self.rows.last() else { return };
        let at = |side: Side| Some((self.place(*live, figure.nanoseconds(side)?).1, side));
        for (y, side) in apart(GROWTH.iter().filter_map(|(side, _)| at(*side)).collect()) {
            let color = GROWTH.iter().find(|(other, _)| *other == side).map_or(INK, |(_, color)| color);
            let time = figure.nanoseconds(side).map_or(String::new(), |time| rounded(side, time));
            let x = self.left + CHART.0 + 12.0;
            sheet.colored((x, y + 4.0), Anchor::Start, &format!("{} {time}", name(side)), color);
        }
    }
}

/// What an insert, and a removal with an insert, take beside more and more values: nanoseconds, the least of the
/// rounds.
pub fn growth(figures: &[Figure]) -> String {
    let about = "Two charts of the time of one operation over 1 to 90,000 values, on a logarithmic axis, with a line \
                 each for ours, sharded_slab, DashMap of Arc and bare atomics, and the last time of each in numbers.";
    let title = "The time of an insert, and of a removal with an insert, as the heap fills";
    let mut sheet = Sheet::new(980.0, TOP + CHART.1 + 52.0, title, about);
    let charts = [
        (Workload::Insert, 50.0, "insert"),
        (Workload::Churn, 540.0, "remove and insert, in a mixed order of the keys"),
    ];
    for (workload, left, title) in charts {
        let chart = Chart::of(figures, workload, left);
        chart.scales(&mut sheet, title);
        chart.lines(&mut sheet);
        chart.labels(&mut sheet);
    }
    sheet.text()
}

#[cfg(test)]
mod tests {
    use super::super::tests::figures;
    use super::*;

    #[test]
    fn ticks_are_round() {
        let table = [(1.0, 1.0), (5.0, 1.0), (9.0, 2.0), (137.0, 50.0), (500.0, 100.0), (504.0, 200.0)];
        for (most, step) in table {
            assert_eq!(round_step(most), step, "{most}");
        }
    }

    #[test]
    fn labels_are_apart() {
        let places = vec![(10.0, Side::Dash), (3.0, Side::Ours), (5.0, Side::Model)];
        assert_eq!(apart(places), [(3.0, Side::Ours), (3.0 + GAP, Side::Model), (3.0 + 2.0 * GAP, Side::Dash)]);
    }

    #[test]
    fn rows_are_ordered_by_the_number_of_values() {
        let figures = figures(&[
            "| insert, 1 word, beside 1,000 values | 1 | 31.8 / 35.2 | 0.50 / 0.73 |",
            "| insert, 1 word, beside 1 value | 1 | 32.4 / 38.4 | 0.94 / 0.92 |",
        ]);
        let chart = Chart::of(&figures, Workload::Insert, 0.0);
        assert_eq!(chart.rows.iter().map(|(live, _)| *live).collect::<Vec<_>>(), [1, 1000]);
        assert_eq!((chart.step, chart.most), (20.0, 80.0));
        assert!(growth(&figures).contains(">sharded_slab 64</text>"));
    }
}
