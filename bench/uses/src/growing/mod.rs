//! Heaps that grow: calls, fills, words and openings, beside a plain heap and `sharded_slab`, in one thread. And callers
//! that come and go, and soaks.
mod callers;
mod calls;
mod filling;
mod maps;
mod opening;
mod place;
mod soak;
mod tables;

pub use maps::room;
pub use tables::{of_callers, tables, NAME};

use callers::Begun;
use calls::CALLS;
use filling::Words;
use opening::{Opening, What};
use soak::{Level, Order, Soak};

fn of_calls(side: &str) -> Option<String> {
    let times = calls::nanoseconds(calls::Side::of_name(side)?);
    Some(CALLS.iter().zip(times).map(|(call, time)| format!("{} {time}\n", call.name())).collect())
}

fn of_words(Words { chunks, classed, most }: Words) -> String {
    format!("chunks {chunks}\nclassed {classed}\nmost {most}\n")
}

fn of_opening(Opening { nanoseconds, bytes }: Opening) -> String {
    format!("nanoseconds {nanoseconds}\nbytes {bytes}\n")
}

fn of_begun(Begun { insert, take }: Begun) -> String {
    format!("insert {insert}\ntake {take}\n")
}

fn of_soak(Soak { inserts, live, chunks, resident }: Soak) -> String {
    let level = |name: &str, level: Level| format!("{name} {} {}\n", level.first, level.most);
    format!("inserts {inserts}\nlive {live}\n{}{}", level("chunks", chunks), level("resident", resident))
}

/// What one turn prints. Its first word is what is measured, and the others are the side, or the number of values.
pub fn report(words: &[&str]) -> Option<String> {
    match words {
        ["calls", side] => of_calls(side),
        ["fill", side, values] => {
            let time = filling::nanoseconds(filling::Side::of_name(side)?, values.parse().ok()?);
            Some(format!("nanoseconds {time}\n"))
        }
        ["words", values] => Some(of_words(filling::words_of(values.parse().ok()?))),
        ["open", what] => Some(of_opening(Opening::of_what(What::of_name(what)?))),
        ["callers", side, values] => {
            Some(of_begun(callers::beside(callers::Side::of_name(side)?, values.parse().ok()?)))
        }
        ["requests", side] => Some(format!("nanoseconds {}\n", callers::requests(callers::Side::of_name(side)?))),
        ["soak", order] => Some(of_soak(soak::soak(Order::of_name(order)?))),
        _ => None,
    }
}

#[cfg(test)]
mod tests {
    use super::*;

    #[test]
    fn a_turn_tells_what_it_is_asked_for() {
        let words = report(&["words", "385"]).expect("it is a turn");
        assert!(words.starts_with("chunks 3124\nclassed 1755\nmost 0.89"), "{words}");
        assert!(report(&["open", "growing"]).expect("it is a turn").contains("\nbytes "));
        assert!(report(&["fill", "growing heap", "500"]).expect("it is a turn").starts_with("nanoseconds "));
        assert_eq!([report(&["fill", "nothing", "5"]), report(&["calls"])], [None, None]);
    }
}
