//! What a row is, in words.
use crate::row::Row;
use crate::samples::Lengths;
use crate::workload::Workload;

/// A number with a comma before each three digits.
pub fn grouped(number: usize) -> String {
    match number {
        0..=999 => number.to_string(),
        _ => format!("{},{:03}", grouped(number / 1000), number % 1000),
    }
}

// So many of what has this name.
fn count(number: usize, name: &str) -> String {
    let end = if number == 1 { "" } else { "s" };
    format!("{} {name}{end}", grouped(number))
}

fn words(lengths: Lengths) -> String {
    match lengths {
        Lengths::Each(len) => count(len, "word"),
        Lengths::Mixed => "1 to 16 words".to_string(),
    }
}

fn keys(row: &Row) -> String {
    match (row.live, row.passes) {
        (1, 1) => "one key".to_string(),
        (1, passes) => format!("one key, {passes} passes"),
        (live, _) => count(live, "key"),
    }
}

// What is read; all reads but those of large heaps are beside as many values.
fn read(row: &Row) -> String {
    match row.is_deep {
        true => format!("{}, {}", words(row.lengths), keys(row)),
        false => words(row.lengths),
    }
}

fn put_back(row: &Row) -> String {
    format!("{}, {} put", count(row.pages(), "page"), count(row.freed, "slot"))
}

// Which shards are filled, one after the other.
fn shards(row: &Row) -> &'static str {
    match row.is_deep {
        true => "one shard",
        false => "shards of 1,024 pages",
    }
}

impl Row {
    /// What the row is, in words.
    pub fn title(&self) -> String {
        let words = words(self.lengths);
        let standing = self.live * self.threads;
        match self.workload {
            Workload::Get => format!("get + release, {}", keys(self)),
            Workload::GetGuard => format!("get by a guard, {}", keys(self)),
            Workload::Read => format!("get + read + release, {}", read(self)),
            Workload::ReadInto => format!("get + read into + release, {}", read(self)),
            Workload::ReadGuard => format!("read by a guard, {}", read(self)),
            Workload::Look => format!("look, {words}, {}", keys(self)),
            Workload::LoadFromC => format!("load from C, {words}, {}", keys(self)),
            Workload::LoadFromRust => format!("load from Rust, {words}, {}", keys(self)),
            Workload::Insert => format!("insert, {words}, beside {}", count(self.live, "value")),
            Workload::Fill => format!("fill with {}, {words}, {}", count(self.operations, "value"), shards(self)),
            Workload::Remove => format!("remove by the owner, {words}"),
            Workload::Churn if standing == 1 => format!("remove + insert, one value, {words}"),
            Workload::Churn => format!("churn, {} live, {words}", grouped(standing)),
            Workload::Hand => format!("producer and consumer, {words}"),
            Workload::Adopt => format!("adopt, {}", put_back(self)),
            Workload::Leave => format!("leave, {}", put_back(self)),
            Workload::Heed => "give a receipt and heed it".to_string(),
        }
    }
}

#[cfg(test)]
mod tests {
    use super::*;

    #[test]
    fn numbers_have_a_comma_before_each_three_digits() {
        let table = [
            (0, "0"),
            (999, "999"),
            (1000, "1,000"),
            (90_000, "90,000"),
            (1_002_003, "1,002,003"),
            (100_000, "100,000"),
        ];
        for (number, text) in table {
            assert_eq!(grouped(number), text);
        }
    }

    #[test]
    fn titles_say_what_is_special() {
        let table = [
            (Row::new(Workload::Get, 2, 9), "get + release, one key"),
            (Row::new(Workload::Get, 1, 9).passes(64), "get + release, one key, 64 passes"),
            (Row::new(Workload::GetGuard, 1, 9).live(10_000), "get by a guard, 10,000 keys"),
            (Row::new(Workload::ReadInto, 1, 9).lengths(Lengths::Each(16)), "get + read into + release, 16 words"),
            (Row::new(Workload::ReadGuard, 1, 9).live(2000).deep(), "read by a guard, 1 word, 2,000 keys"),
            (Row::new(Workload::Look, 4, 9), "look, 1 word, one key"),
            (Row::new(Workload::LoadFromRust, 1, 9).live(10_000), "load from Rust, 1 word, 10,000 keys"),
            (Row::new(Workload::Insert, 1, 9), "insert, 1 word, beside 1 value"),
            (Row::new(Workload::Insert, 4, 9).live(100), "insert, 1 word, beside 100 values"),
            (Row::new(Workload::Fill, 1, 49_152).deep(), "fill with 49,152 values, 1 word, one shard"),
            (Row::new(Workload::Fill, 1, 100_000), "fill with 100,000 values, 1 word, shards of 1,024 pages"),
            (Row::new(Workload::Churn, 1, 9), "remove + insert, one value, 1 word"),
            (Row::new(Workload::Churn, 4, 9).live(2500), "churn, 10,000 live, 1 word"),
            (Row::new(Workload::Leave, 1, 9).live(47).freed(1), "leave, 1 page, 1 slot put"),
            (Row::new(Workload::Heed, 1, 9), "give a receipt and heed it"),
        ];
        for (row, title) in table {
            assert_eq!(row.title(), title);
        }
    }
}
