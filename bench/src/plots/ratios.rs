//! The ratios of the heap's times to others', by call.
use super::name;
use crate::results::Figure;
use crate::sides::Side;
use crate::svg::{Anchor, Sheet, FAINT, INK, PALE};

/// The rivals of the picture, each with its color.
const RATIOS: [(Side, &str); 3] = [(Side::Sharded, "#0b6fb8"), (Side::Dash, "#d1660f"), (Side::Model, "#777777")];

// The names of the rivals, each next to its color, in the first line.
fn legend(sheet: &mut Sheet) {
    for (at, (side, color)) in RATIOS.iter().enumerate() {
        let x = 16.0 + 150.0 * at as f64;
        sheet.dot((x, 16.0), color);
        sheet.words((x + 10.0, 20.0), Anchor::Start, &name(*side));
    }
}

const TOP: f64 = 62.0;
const ROW: f64 = 22.0;
const HEADING: f64 = 24.0;
// A column has its labels and, right of them, the scale: from a sixteenth to eight, so over seven doublings.
const LABELS: f64 = 210.0;
const SCALE: f64 = 262.0;
const COLUMN: f64 = LABELS + SCALE + 32.0;
const TICKS: [(f64, &str); 8] =
    [(0.0625, "1/16"), (0.125, "1/8"), (0.25, "1/4"), (0.5, "1/2"), (1.0, "1"), (2.0, "2"), (4.0, "4"), (8.0, "8")];

/// The rows of one call: what all their titles begin with, and the rows.
struct Group<'a> {
    call: &'a str,
    rows: Vec<&'a Figure>,
}

fn call_of(figure: &Figure) -> &str {
    figure.title.split_once(", ").map_or(&figure.title, |(call, _)| call)
}

impl Group<'_> {
    fn height(&self) -> f64 {
        HEADING + ROW * self.rows.len() as f64
    }
}

// Rows of one call are next to each other.
fn groups(figures: &[Figure]) -> Vec<Group<'_>> {
    figures
        .chunk_by(|one, next| call_of(one) == call_of(next))
        .map(|rows| Group { call: call_of(&rows[0]), rows: rows.iter().collect() })
        .collect()
}

fn height(groups: &[Group<'_>]) -> f64 {
    groups.iter().map(Group::height).sum()
}

// After how many groups the second column begins, so that both are about as high.
fn split(groups: &[Group<'_>]) -> usize {
    let apart = |at: &usize| (height(&groups[..*at]) - height(&groups[*at..])).abs();
    (0..=groups.len()).min_by(|one, other| apart(one).total_cmp(&apart(other))).unwrap_or(0)
}

fn ratio_place(ratio: f64) -> f64 {
    LABELS + SCALE * ((ratio.log2() + 4.0) / 7.0).clamp(0.0, 1.0)
}

fn ratio_scale(sheet: &mut Sheet, left: f64, bottom: f64) {
    for (ratio, words) in TICKS {
        let x = left + ratio_place(ratio);
        let color = if ratio == 1.0 { INK } else { FAINT };
        sheet.line((x, TOP - 6.0), (x, bottom), color, 1.0);
        sheet.words((x, TOP - 12.0), Anchor::Middle, words);
    }
}

// The least ratio of a row's runs and the greatest of them, with a line between.
fn ratio_dots(sheet: &mut Sheet, figure: &Figure, at: (f64, f64)) {
    let (left, middle) = at;
    for (number, (rival, color)) in RATIOS.iter().enumerate() {
        let Some(ratio) = figure.ratio(*rival) else { continue };
        let y = middle + 5.0 * (number as f64 - 1.0);
        let ends = [ratio.least, ratio.greatest].map(|ratio| (left + ratio_place(ratio), y));
        sheet.line(ends[0], ends[1], color, 2.0);
        ends.into_iter().for_each(|end| sheet.dot(end, color));
    }
}

// What a row has besides its call.
fn row_name(figure: &Figure) -> String {
    let rest = figure.title.strip_prefix(call_of(figure)).unwrap_or("").trim_start_matches(", ");
    let threads = if figure.threads == 1 { "1 thread".to_string() } else { format!("{} threads", figure.threads) };
    if rest.is_empty() {
        return threads;
    }
    format!("{}, {threads}", rest.replace("beside ", "+ "))
}

fn column(sheet: &mut Sheet, groups: &[Group<'_>], left: f64) {
    let mut y = TOP;
    for group in groups {
        sheet.field((left, y + 3.0), COLUMN - 14.0, HEADING - 6.0, PALE);
        sheet.heading((left + 6.0, y + 16.0), group.call);
        y += HEADING;
        for (number, figure) in group.rows.iter().enumerate() {
            if number > 0 {
                sheet.line((left + 6.0, y), (left + COLUMN - 20.0, y), PALE, 1.0);
            }
            sheet.words((left + LABELS - 10.0, y + ROW / 2.0 + 4.0), Anchor::End, &row_name(figure));
            y += ROW;
        }
    }
}

fn column_dots(sheet: &mut Sheet, groups: &[Group<'_>], left: f64) {
    let mut y = TOP;
    for group in groups {
        y += HEADING;
        for figure in &group.rows {
            ratio_dots(sheet, figure, (left, y + ROW / 2.0));
            y += ROW;
        }
    }
}

/// The heap's least times by the others', a line for each row, grouped by call: left of the 1 the heap is faster.
pub fn ratios(figures: &[Figure]) -> String {
    let groups = groups(figures);
    let (first, second) = groups.split_at(split(&groups));
    let bottom = TOP + height(first).max(height(second));
    let about = "Two columns of rows, grouped by call. Each row has a dot, or a line between two dots, for the ratio \
                 of the heap's time to that of sharded_slab, of DashMap of Arc and of bare atomics, on a logarithmic \
                 axis.";
    let mut sheet = Sheet::new(2.0 * COLUMN, bottom + 40.0, "Ratios of the heap's times to others', by call", about);
    legend(&mut sheet);
    for (groups, left) in [(first, 10.0), (second, COLUMN + 10.0)] {
        column(&mut sheet, groups, left);
        ratio_scale(&mut sheet, left, TOP + height(groups));
        column_dots(&mut sheet, groups, left);
    }
    let words = "our time divided by theirs, least of the rounds, on a logarithmic axis: left of 1 ours is faster; a \
                 line is the range of up to three runs";
    sheet.words((16.0, bottom + 26.0), Anchor::Start, words);
    sheet.text()
}

#[cfg(test)]
mod tests {
    use super::super::tests::figures;
    use super::*;

    #[test]
    fn ratios_are_around_the_1_and_stay_on_the_scale() {
        let middle = ratio_place(1.0);
        assert!(ratio_place(0.5) < middle && middle < ratio_place(2.0));
        assert_eq!(ratio_place(0.001), LABELS);
        assert_eq!(ratio_place(1000.0), LABELS + SCALE);
    }

    #[test]
    fn rows_are_grouped_by_call_and_named_by_the_rest() {
        let figures = figures(&[
            "| get + release, one key | 1 | 24.2 / 31.9 | 1.03 / 1.19 |",
            "| get + release, one key | 2 | 24.2-30.0 / 31.9-40.0 | 1.03-1.10 / 1.19-1.20 |",
            "| insert, 1 word, beside 100 values | 1 | 32.4 / 42.8 | 0.89 / 0.89 |",
        ]);
        let groups = groups(&figures);
        assert_eq!(
            groups.iter().map(|group| (group.call, group.rows.len())).collect::<Vec<_>>(),
            [("get + release", 2), ("insert", 1)]
        );
        assert_eq!(split(&groups), 1);
        let picture = ratios(&figures);
        assert!(picture.contains(">one key, 2 threads</text>"), "{picture}");
        assert!(picture.contains(">1 word, + 100 values, 1 thread</text>"), "{picture}");
    }
}
