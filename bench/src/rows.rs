//! Which rows the tables have.
use crate::row::Row;
use crate::samples::Lengths;
use crate::workload::Workload;

const THREADS: [usize; 3] = [1, 2, 4];

// The rows with 1, 2 and 4 threads.
fn by_threads(row: impl Fn(usize) -> Row) -> Vec<Row> {
    THREADS.into_iter().map(row).collect()
}

// An aim holds for the row with this many threads.
fn aimed(mut rows: Vec<Row>, threads: usize, sharded: f64, model: f64) -> Vec<Row> {
    rows.iter_mut().filter(|row| row.running() == threads).for_each(|row| *row = row.aims(sharded, model));
    rows
}

fn gets(workload: Workload, live: usize) -> Vec<Row> {
    by_threads(|threads| Row::new(workload, threads, 1_000_000 / threads).live(live))
}

fn getting() -> Vec<Row> {
    let one = aimed(aimed(gets(Workload::Get, 1), 1, 0.9, 1.1), 2, 0.55, 1.1);
    let many = aimed(aimed(gets(Workload::Get, 10_000), 1, 0.9, 1.1), 2, 0.8, 1.1);
    let guards = [gets(Workload::GetGuard, 1), gets(Workload::GetGuard, 10_000)].concat();
    [one, many, guards].concat()
}

fn reads(workload: Workload, words: usize) -> Vec<Row> {
    let row = |threads| Row::new(workload, threads, 400_000 / threads).live(1000);
    by_threads(|threads| row(threads).lengths(Lengths::Each(words)))
}

fn reading() -> Vec<Row> {
    let short = aimed(reads(Workload::Read, 1), 1, 1.0, 1.2);
    let long = aimed(reads(Workload::Read, 16), 1, 1.7, 1.2);
    let others = [Workload::ReadInto, Workload::ReadGuard].map(|way| [reads(way, 1), reads(way, 16)].concat());
    [short, long, others.concat()].concat()
}

fn insert(threads: usize) -> Row {
    Row::new(Workload::Insert, threads, 200_000)
}

fn inserting() -> Vec<Row> {
    let row = |length| by_threads(|threads| insert(threads).lengths(length));
    let short = aimed(row(Lengths::Each(1)), 1, 1.3, 1.2);
    let beside = [100, 1000, 10_000, 90_000].map(|live| insert(1).live(live)).to_vec();
    let mixed = aimed(row(Lengths::Mixed), 1, 2.0, 1.2);
    [short, beside, row(Lengths::Each(16)), mixed].concat()
}

fn removing() -> Vec<Row> {
    let own = by_threads(|threads| Row::new(Workload::Remove, threads, 400_000));
    let others = [1, 2].map(|pairs| Row::new(Workload::Hand, pairs, 200_000)).to_vec();
    [aimed(own, 1, 1.4, 1.1), aimed(others, 2, 0.6, 1.1)].concat()
}

fn churn(threads: usize, live: usize) -> Row {
    Row::new(Workload::Churn, threads, 200_000).live(live / threads)
}

fn churning() -> Vec<Row> {
    let fewer = [1, 100, 1000].map(|live| churn(1, live)).to_vec();
    let usual = aimed(by_threads(|threads| churn(threads, 10_000)), 1, 1.2, 1.2);
    let mixed = by_threads(|threads| churn(threads, 10_000).lengths(Lengths::Mixed));
    [fewer, usual, vec![churn(1, 90_000)], aimed(mixed, 1, 1.5, 1.2)].concat()
}

fn changing(pages: usize, freed: usize) -> Vec<Row> {
    let row = |workload| Row::new(workload, 1, 20_000 / pages.max(10)).live(48 * pages - freed).freed(freed);
    [Workload::Adopt, Workload::Leave].map(|workload| row(workload).aim_at_model(1.2)).to_vec()
}

/// The calls that values are used by, on all sides.
pub fn calls() -> Vec<Row> {
    [getting(), reading(), inserting(), removing(), churning()].concat()
}

/// Calls beside values of such number that only layout `deep` has room for them in one shard.
pub fn large() -> Vec<Row> {
    let beside = |live: usize| {
        let row = |workload, operations| Row::new(workload, 1, operations).live(live).deep();
        [
            row(Workload::Get, 1_000_000).aims(1.2, 1.2),
            row(Workload::GetGuard, 1_000_000),
            row(Workload::Read, 1_000_000).aims(1.2, 1.2),
            row(Workload::ReadInto, 1_000_000),
            row(Workload::ReadGuard, 1_000_000),
            row(Workload::Insert, 200_000).aims(1.5, 1.2),
        ]
    };
    [[100_000, 1_000_000, 10_000_000].map(beside).concat(), filling()].concat()
}

/// Reads without a hold, inside and by the library's calls, and reads of the rivals.
pub fn looks() -> Vec<Row> {
    let ways = [Workload::Look, Workload::LoadFromC, Workload::LoadFromRust];
    let beside = |live, words| {
        let row = |way, threads| Row::new(way, threads, 1_000_000 / threads).live(live).lengths(Lengths::Each(words));
        ways.map(|way| by_threads(|threads| row(way, threads))).concat()
    };
    let large: Vec<Row> = beside(1_000_000, 1).into_iter().map(Row::deep).collect();
    [beside(1, 1), beside(10_000, 1), large, beside(10_000, 16)].concat()
}

// Shards that are filled: one of 1,024 pages and one of 65,536, and as large a heap of shards of 1,024 pages, with
// pages of one class and of all eight.
fn filling() -> Vec<Row> {
    let row = |values, lengths| Row::new(Workload::Fill, 1, values).lengths(lengths);
    let short = [1024, 65_536].map(|pages| row(pages * 48, Lengths::Each(1)).deep().aims(1.5, 1.2));
    let mixed = [1024, 65_536].map(|pages| row(pages * 128 / 25, Lengths::Mixed).deep());
    let many = [row(3_000_000, Lengths::Each(1)), row(320_000, Lengths::Mixed)];
    [&short[..], &many[..1], &mixed, &many[1..]].concat()
}

/// What the library alone has: gets beside more and more passes that are open, and receipts.
pub fn passes() -> Vec<Row> {
    let beside = [2, 4, 16, 64].map(|passes| Row::new(Workload::Get, 1, 1_000_000).passes(passes));
    [&beside[..], &[Row::new(Workload::Heed, 1, 1_000_000)]].concat()
}

/// Shards of more and more pages that change hands, which of the rivals the model alone has.
pub fn changes() -> Vec<Row> {
    let kept = [1, 16, 64, 128, 1000].map(|pages| changing(pages, 0)).concat();
    [kept, changing(64, 480)].concat()
}

#[cfg(test)]
mod tests {
    use super::*;
    use std::collections::HashSet;

    #[test]
    fn no_row_stands_twice() {
        let all = [calls(), looks(), large(), passes(), changes()].concat();
        let names: HashSet<_> = all.iter().map(|row| (row.title(), row.running())).collect();
        assert_eq!(names.len(), all.len());
    }

    #[test]
    fn inserts_and_churns_have_rows_beside_few_and_many_values() {
        for workload in [Workload::Insert, Workload::Churn] {
            let of_one_word = |row: &&Row| row.workload == workload && row.lengths == Lengths::Each(1);
            let single = |row: &&Row| row.threads == 1;
            let live: Vec<usize> = calls().iter().filter(of_one_word).filter(single).map(|row| row.live).collect();
            assert_eq!(live, [1, 100, 1000, 10_000, 90_000]);
        }
    }

    #[test]
    fn large_heaps_have_up_to_ten_million_values() {
        let beside = |row: &&Row| row.workload != Workload::Fill;
        let live: HashSet<usize> = large().iter().filter(beside).map(|row| row.live).collect();
        assert_eq!(live, HashSet::from([100_000, 1_000_000, 10_000_000]));
        assert!(large().iter().filter(beside).all(|row| row.is_deep));
    }

    #[test]
    fn looks_are_beside_one_and_many_values_with_one_to_four_threads() {
        for workload in [Workload::Look, Workload::LoadFromC, Workload::LoadFromRust] {
            let of_one_word = |row: &&Row| row.workload == workload && row.lengths == Lengths::Each(1);
            let beside: Vec<_> = looks().iter().filter(of_one_word).map(|row| (row.live, row.threads)).collect();
            assert_eq!(beside, [1, 10_000, 1_000_000].map(|live| THREADS.map(|threads| (live, threads))).concat());
        }
    }

    // Sixteen values of 1 to 16 words fill 1/48 + 1/24 + 1/16 + 1/12 + 2/8 + 2/6 + 4/4 + 4/3 pages, which is 25/8.
    #[test]
    fn filled_pages_are_as_many_as_said() {
        let filled = |row: &Row| match row.lengths {
            Lengths::Each(_) => row.operations as f64 / 48.0,
            Lengths::Mixed => row.operations as f64 / 16.0 * 25.0 / 8.0,
        };
        let pages: Vec<f64> = filling().iter().map(|row| filled(row).ceil()).collect();
        assert_eq!(pages, [1024.0, 65_536.0, 62_500.0, 1024.0, 65_536.0, 62_500.0]);
    }

    #[test]
    fn pages_that_change_hands_are_as_many_as_said() {
        let pages: Vec<usize> = changes().iter().map(Row::pages).collect();
        assert_eq!(pages, [1, 1, 16, 16, 64, 64, 128, 128, 1000, 1000, 64, 64]);
    }
}
