//! How the memory of a heap that grows levels off, while the lengths of its values change.
use super::maps::{caller, growing, stored, MOST_CHUNKS};
use crate::dice::Dice;
use crate::scenes::resident;
use gearlongan::{Caller, Key};

/// The lengths of values, in the order in which they come. A page has slots for this many words of each.
const LENGTHS: [usize; 8] = [1, 16, 2, 8, 4, 12, 3, 6];
const PAGE_WORDS: usize = 48;
const WORDS: [u64; 16] = [7; 16];
/// In a round values of one length are inserted, which fill this many pages, or values of `LIVE` lengths by chance.
const PAGES: usize = 2400;
const LIVE: usize = 4;
/// The most values that are live if they are removed by chance.
const VALUES: usize = 200_000;
/// After the first rounds, in which each length comes.
const ROUNDS: usize = 40;
// A step of the mixed order, prime to the number of values of each length.
const STRIDE: usize = 7919;

/// Which values a round removes: those of the length that came first, or an eighth of all by chance.
#[derive(Clone, Copy, Debug, PartialEq, Eq)]
pub enum Order {
    ByLength,
    ByChance,
}

pub const ORDERS: [Order; 2] = [Order::ByLength, Order::ByChance];

impl Order {
    pub fn name(self) -> &'static str {
        match self {
            Order::ByLength => "by length",
            Order::ByChance => "by chance",
        }
    }

    /// The order of this name.
    pub fn of_name(name: &str) -> Option<Order> {
        ORDERS.into_iter().find(|order| order.name() == name)
    }
}

/// The bytes after the first rounds, and the most after a later one.
#[derive(Clone, Copy, Debug, PartialEq, Eq)]
pub struct Level {
    pub first: usize,
    pub most: usize,
}

impl Level {
    fn of(first: usize) -> Level {
        Level { first, most: first }
    }

    fn rise(&mut self, bytes: usize) {
        self.most = self.most.max(bytes);
    }
}

/// What was done, and the levels of the chunks' words and of the process beyond its start.
#[derive(Clone, Copy, Debug, PartialEq, Eq)]
pub struct Soak {
    pub inserts: usize,
    /// The most values that were live.
    pub live: usize,
    pub chunks: Level,
    pub resident: Level,
}

/// Values that are live, by their keys.
trait Values {
    /// Removes some and inserts others: how many.
    fn change(&mut self, caller: &Caller, number: usize) -> usize;

    fn live(&self) -> usize;
}

// A list that has its memory in use from the start.
fn with_room(keys: usize) -> Vec<u64> {
    let mut list = vec![1; keys];
    list.clear();
    list
}

fn remove(caller: &Caller, key: u64) {
    caller.remove(Key::from(key)).expect("the key is there");
}

/// Values of `LIVE` lengths, each in as many pages.
struct ByLength {
    keys: [Vec<u64>; LIVE],
    pages: usize,
}

impl ByLength {
    fn new(pages: usize) -> Self {
        ByLength { keys: std::array::from_fn(|_| with_room(pages * PAGE_WORDS)), pages }
    }
}

impl Values for ByLength {
    fn change(&mut self, caller: &Caller, number: usize) -> usize {
        let (oldest, length) = (&mut self.keys[number % LIVE], LENGTHS[number % LENGTHS.len()]);
        (0..oldest.len()).for_each(|n| remove(caller, oldest[n * STRIDE % oldest.len()]));
        oldest.clear();
        oldest.extend((0..self.pages * PAGE_WORDS / length).map(|_| stored(caller, &WORDS[..length])));
        oldest.len()
    }

    fn live(&self) -> usize {
        self.keys.iter().map(Vec::len).sum()
    }
}

/// Values whose lengths are drawn among `LIVE` of them, which are others in each round. There are no removals until
/// there are the most values.
struct ByChance {
    keys: Vec<u64>,
    most: usize,
    dice: Dice,
}

impl ByChance {
    fn new(most: usize) -> Self {
        ByChance { keys: with_room(most), most, dice: Dice::new(0) }
    }
}

impl Values for ByChance {
    fn change(&mut self, caller: &Caller, number: usize) -> usize {
        let count = self.most / LENGTHS.len();
        for _ in 0..count {
            if self.keys.len() == self.most {
                remove(caller, self.keys.swap_remove(self.dice.below(self.most)));
            }
            let length = LENGTHS[(number + self.dice.below(LIVE)) % LENGTHS.len()];
            self.keys.push(stored(caller, &WORDS[..length]));
        }
        count
    }

    fn live(&self) -> usize {
        self.keys.len()
    }
}

// Each round has a caller of its own, so that it removes what others have inserted.
fn soaked(mut values: impl Values, rounds: usize) -> Soak {
    let (before, heap) = (resident(), growing(1, MOST_CHUNKS));
    let mut round = |number: usize| (values.change(&caller(&heap), number), values.live());
    let (inserts, live) =
        (0..LENGTHS.len()).map(&mut round).fold((0, 0), |(sum, _), (count, live)| (sum + count, live));
    let process = || resident().saturating_sub(before);
    let (chunks, resident) = (Level::of(heap.bytes() as usize), Level::of(process()));
    let mut soak = Soak { inserts, live, chunks, resident };
    for number in LENGTHS.len()..LENGTHS.len() + rounds {
        let (inserts, live) = round(number);
        soak.inserts += inserts;
        soak.live = soak.live.max(live);
        soak.chunks.rise(heap.bytes() as usize);
        soak.resident.rise(process());
    }
    soak
}

/// The levels of a process that has done nothing before.
pub fn soak(order: Order) -> Soak {
    match order {
        Order::ByLength => soaked(ByLength::new(PAGES), ROUNDS),
        Order::ByChance => soaked(ByChance::new(VALUES), ROUNDS),
    }
}

#[cfg(test)]
mod tests {
    use super::*;

    #[test]
    fn four_lengths_have_at_most_200_000_values() {
        let values = |first: usize| (first..first + LIVE).map(|n| PAGES * PAGE_WORDS / LENGTHS[n % 8]).sum::<usize>();
        assert_eq!((0..8).map(values).max(), Some(199_200));
        assert!(LENGTHS.into_iter().all(|length| PAGE_WORDS % length == 0));
    }

    // A page of each length has 48 / 1 + 48 / 16 + .. = 121 values, and of 6, 1, 16 and 2 words 83.
    #[test]
    fn values_of_lengths_are_counted() {
        let soak = soaked(ByLength::new(8), 8);
        assert_eq!((soak.inserts, soak.live), (2 * 8 * 121, 8 * 83));
        // Four times 8 pages of 195 words.
        assert!(soak.chunks.first >= 4 * 8 * 195 * 8 && soak.chunks.most >= soak.chunks.first);
    }

    #[test]
    fn values_by_chance_are_counted() {
        let soak = soaked(ByChance::new(800), 8);
        assert_eq!((soak.inserts, soak.live), (1600, 800));
        assert!(soak.chunks.first > 0 && soak.chunks.most >= soak.chunks.first);
    }

    #[test]
    fn names_are_those_of_orders() {
        assert!(ORDERS.into_iter().all(|order| Order::of_name(order.name()) == Some(order)));
        assert_eq!(Order::of_name("nothing"), None);
    }
}
