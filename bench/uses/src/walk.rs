//! Walks over all places of a map by one thread, which sums the values that it meets or removes some of them. All values
//! have one word.
use crate::dice::Dice;
use crate::growing::room;
use crate::markdown::line;
use crate::tables::{aimed, table, told};
use crate::times::Times;
use crate::turning::{of_sides, report_of, times_of};
use dashmap::DashMap;
use gearlongan::{Heap, Layout, Pass, Shard, Table};
use std::hint::black_box;
use std::time::{Duration, Instant};

/// The slots of 250 segments, for values of one word: a map has room for as many values as it opens.
const PLACES: usize = 96_000;
// This many walks are timed, after one that is not.
const WALKS: usize = 20;
// The word of a value is below this, by chance.
const HUNDRED: usize = 100;

/// The name by which a turn of this table is asked for.
pub const NAME: &str = "walk";

/// A map with its walks.
trait Walked {
    fn insert(&mut self, word: u64);

    /// The sum of all values.
    fn sum(&self) -> u64;

    /// Removes each value below this one, and returns how many these were.
    fn remove_below(&mut self, least: u64) -> usize;
}

/// The owner of the only shard of a heap, and the pass that walks.
struct OfHeap {
    owner: Shard,
    janitor: Pass,
}

impl OfHeap {
    fn open() -> Self {
        let heap = Heap::open_for(Layout::Deep, room(PLACES as u64)).expect("there is memory");
        let take = || heap.take().expect("a pass is at home");
        OfHeap { owner: take().adopt(0).expect("nobody has the shard"), janitor: take() }
    }
}

impl Walked for OfHeap {
    fn insert(&mut self, word: u64) {
        self.owner.insert(&[word]).expect("there is room");
    }

    fn sum(&self) -> u64 {
        self.janitor.walk().map(|(_, value)| value[0]).sum()
    }

    fn remove_below(&mut self, least: u64) -> usize {
        self.janitor.remove_if(|_, words| words[0] < least)
    }
}

fn open_table() -> Table<u64> {
    Table::builder().threads(1).room(PLACES as u64).open().expect("there is memory")
}

impl Walked for Table<u64> {
    fn insert(&mut self, word: u64) {
        Table::insert(self, &word).expect("there is room");
    }

    fn sum(&self) -> u64 {
        self.iter().map(|(_, word)| word).sum()
    }

    fn remove_below(&mut self, least: u64) -> usize {
        self.remove_if(|_, word| word < least)
    }
}

/// A `DashMap`, whose keys count up, and the next key.
struct OfDash(DashMap<u64, u64>, u64);

impl OfDash {
    fn open() -> Self {
        OfDash(DashMap::with_capacity(PLACES), 0)
    }
}

impl Walked for OfDash {
    fn insert(&mut self, word: u64) {
        self.0.insert(self.1, word);
        self.1 += 1;
    }

    fn sum(&self) -> u64 {
        self.0.iter().map(|entry| *entry.value()).sum()
    }

    // (`retain` counts nothing.)
    fn remove_below(&mut self, least: u64) -> usize {
        let mut count = 0;
        self.0.retain(|_, word| {
            let stays = *word >= least;
            count += usize::from(!stays);
            stays
        });
        count
    }
}

/// What is compared.
#[derive(Clone, Copy, Debug, PartialEq, Eq)]
enum Side {
    Heap,
    Table,
    Dash,
}

const SIDES: [Side; 3] = [Side::Heap, Side::Table, Side::Dash];

/// A row.
#[derive(Clone, Copy, Debug, PartialEq, Eq)]
enum Row {
    /// A walk over slots that were all used, of which this many in a hundred still have a value.
    Live(u64),
    /// A walk over a map that never had a value.
    Blank,
    /// A walk over a map that is full, which removes this many in a hundred of its values.
    Removing(u64),
}

const ROWS: [Row; 6] = [Row::Live(100), Row::Live(10), Row::Live(0), Row::Blank, Row::Removing(10), Row::Removing(100)];

impl Row {
    fn title(self) -> String {
        match self {
            Row::Live(percent) => format!("walk, {percent} % live"),
            Row::Blank => "walk, blank pages".to_string(),
            Row::Removing(percent) => format!("walk, 100 % live, {percent} % removed"),
        }
    }

    // The nanoseconds of a place of the heap that were aimed at.
    fn aim(self) -> Option<&'static str> {
        match self {
            Row::Live(100) => Some("12"),
            Row::Live(10) => Some("3"),
            Row::Live(_) => Some("0.8"),
            Row::Blank => Some("0.1"),
            Row::Removing(_) => None,
        }
    }
}

fn insert_below(map: &mut impl Walked, limit: u64, count: usize, dice: &mut Dice) {
    (0..count).for_each(|_| map.insert(dice.below(limit as usize) as u64));
}

fn fill(map: &mut impl Walked, dice: &mut Dice) {
    insert_below(map, HUNDRED as u64, PLACES, dice);
}

fn timed_walks(map: &impl Walked, walks: usize) -> Duration {
    black_box(map.sum());
    let start = Instant::now();
    (0..walks).for_each(|_| _ = black_box(map.sum()));
    start.elapsed()
}

// The values that a walk removed are stored again, which is not timed.
fn timed_removals(map: &mut impl Walked, percent: u64, walks: usize, dice: &mut Dice) -> Duration {
    let mut one = || {
        let start = Instant::now();
        let count = map.remove_below(percent);
        let time = start.elapsed();
        insert_below(map, percent, count, dice);
        time
    };
    one();
    (0..walks).map(|_| one()).sum()
}

// The nanoseconds of one place.
fn nanoseconds_of(mut map: impl Walked, row: Row, walks: usize) -> f64 {
    let dice = &mut Dice::new(0);
    let time = match row {
        Row::Live(percent) => {
            fill(&mut map, dice);
            map.remove_below(HUNDRED as u64 - percent);
            timed_walks(&map, walks)
        }
        Row::Blank => timed_walks(&map, walks),
        Row::Removing(percent) => {
            fill(&mut map, dice);
            timed_removals(&mut map, percent, walks, dice)
        }
    };
    time.as_nanos() as f64 / (walks * PLACES) as f64
}

fn nanoseconds(side: Side, row: Row, walks: usize) -> f64 {
    match side {
        Side::Heap => nanoseconds_of(OfHeap::open(), row, walks),
        Side::Table => nanoseconds_of(open_table(), row, walks),
        Side::Dash => nanoseconds_of(OfDash::open(), row, walks),
    }
}

/// What one turn prints. Its words are the numbers of a side and of a row.
pub fn report(words: &[&str]) -> Option<String> {
    let [side, row] = words else { return None };
    let side = SIDES.get(side.parse::<usize>().ok()?)?;
    let row = ROWS.get(row.parse::<usize>().ok()?)?;
    Some(format!("nanoseconds {}\n", nanoseconds(*side, *row, WALKS)))
}

const HEAD: [&str; 6] =
    ["Workload", "Threads", "the heap, ns (aim)", "`Table`, ns", "`DashMap`, ns", "the heap to `DashMap`"];

fn row_line(row: Row, [heap, of_table, dash]: [Times; 3]) -> String {
    let of_heap = row.aim().map_or_else(|| told(heap, 2), |aim| aimed(heap, 2, aim));
    let cells = [of_heap, told(of_table, 2), told(dash, 2), told(heap.over(dash), 2)];
    line(&[&[row.title(), "1".to_string()], &cells[..]].concat())
}

fn measured_line(at: usize, rounds: usize) -> Result<String, String> {
    eprintln!("{}", ROWS[at].title());
    let sides: [_; 3] = of_sides(rounds, |side| report_of(NAME, &[side.to_string(), at.to_string()]))?;
    let [heap, of_table, dash] = sides.each_ref().map(|side| times_of(side, "nanoseconds", 1.0));
    Ok(row_line(ROWS[at], [heap?, of_table?, dash?]))
}

/// The table, of this many rounds.
pub fn of_walks(rounds: usize) -> Result<String, String> {
    let lines: Result<Vec<String>, String> = (0..ROWS.len()).map(|at| measured_line(at, rounds)).collect();
    Ok(table(&HEAD, lines?))
}

#[cfg(test)]
mod tests {
    use super::*;

    fn walks_over_all(mut map: impl Walked) {
        assert_eq!(map.sum(), 0);
        (0..PLACES as u64).for_each(|n| map.insert(n % HUNDRED as u64));
        let hundreds = PLACES as u64 / HUNDRED as u64;
        assert_eq!(map.sum(), hundreds * (0..100).sum::<u64>());
        assert_eq!(map.remove_below(90), 90 * hundreds as usize);
        assert_eq!(map.sum(), hundreds * (90..100).sum::<u64>());
        assert_eq!([map.remove_below(90), map.remove_below(100)], [0, 10 * hundreds as usize]);
        assert_eq!(map.sum(), 0);
    }

    #[test]
    fn each_map_is_walked_over() {
        walks_over_all(OfHeap::open());
        walks_over_all(open_table());
        walks_over_all(OfDash::open());
    }

    // Then a place is a slot, and no page is blank once the map is full.
    #[test]
    fn the_heap_and_the_table_open_with_so_many_places() {
        let heap = Heap::open_for(Layout::Deep, room(PLACES as u64)).expect("there is memory");
        assert_eq!((heap.capacity(1), open_table().capacity()), (PLACES as u64, PLACES));
    }

    #[test]
    fn each_row_takes_time() {
        assert!(ROWS.into_iter().all(|row| nanoseconds(Side::Dash, row, 1) > 0.0));
        assert!([Row::Blank, Row::Removing(10)].into_iter().all(|row| nanoseconds(Side::Heap, row, 1) > 0.0));
        assert_eq!([report(&["3", "0"]), report(&["0", "6"]), report(&["0"])], [None, None, None]);
    }

    #[test]
    fn a_line_has_a_place_below_each_name() {
        let line = row_line(Row::Live(10), [3.0, 9.0, 6.0].map(|least| Times { least, median: 2.0 * least }));
        assert_eq!(line, "| walk, 10 % live | 1 | 3.00 / 6.00 (3) | 9.00 / 18.00 | 6.00 / 12.00 | 0.50 / 0.50 |");
        assert_eq!(line.matches(" |").count(), HEAD.len());
    }
}
