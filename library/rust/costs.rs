//! The calls of a table beside those of a caller of a growing heap, each in a loop: for `costs.py`, which counts their
//! instructions. The words are the name of a loop and its number of rounds.
#![forbid(unsafe_code)]
use gearlongan::table::Key;
use gearlongan::{Caller, Error, Heap, Room, Table};
use std::env;
use std::hint::black_box;

/// How many values there are.
const LIVE: u64 = 100;

fn loads(caller: &Caller, rounds: u64) -> Result<u64, Error> {
    let keys = (0..LIVE).map(|n| caller.insert_record(&n)).collect::<Result<Vec<_>, _>>()?;
    let mut sum = 0;
    for key in keys.iter().cycle().take(rounds as usize) {
        sum += caller.load_record::<u64>(*key)?;
    }
    Ok(sum)
}

fn gets(table: &Table<u64>, rounds: u64) -> Result<u64, Error> {
    let keys = (0..LIVE).map(|n| table.insert(&n)).collect::<Result<Vec<_>, _>>()?;
    let mut sum = 0;
    for key in keys.iter().cycle().take(rounds as usize) {
        sum += table.get(*key).ok_or(Error::Gone)?;
    }
    Ok(sum)
}

fn main() -> Result<(), Error> {
    let words: Vec<String> = env::args().collect();
    let name = words.get(1).map_or("", String::as_str);
    let rounds: u64 = words.get(2).and_then(|word| word.parse().ok()).expect("a number of rounds");
    let caller = Heap::growing(Room { owners: 2, values: 10_000, words: 1, passes: 64 }, 64)?.take()?;
    let table: Table<u64> = Table::builder().room(10_000).open()?;
    match name {
        "get_caller" => println!("{}", loads(&caller, rounds)?),
        "get_table" => println!("{}", gets(&table, rounds)?),
        "insert_caller" => {
            for n in 0..rounds {
                black_box(caller.insert_record(&black_box(n))?);
            }
        }
        "insert_table" => {
            for n in 0..rounds {
                black_box(table.insert(&black_box(n))?);
            }
        }
        "remove_caller" => {
            let keys = (0..2000).map(|n| caller.insert_record(&n)).collect::<Result<Vec<_>, _>>()?;
            let removed = keys.iter().take(rounds as usize).filter(|key| caller.remove(**key).is_ok()).count();
            assert_eq!(removed as u64, rounds);
        }
        "remove_table" => {
            let keys = (0..2000).map(|n| table.insert(&n)).collect::<Result<Vec<Key<u64>>, _>>()?;
            let removed = keys.iter().take(rounds as usize).filter(|key| table.remove(**key)).count();
            assert_eq!(removed as u64, rounds);
        }
        "take_caller" => {
            let keys = (0..2000).map(|n| caller.insert_record(&n)).collect::<Result<Vec<_>, _>>()?;
            let taken = keys.iter().take(rounds as usize).filter(|key| caller.take(**key).is_ok()).count();
            assert_eq!(taken as u64, rounds);
        }
        "take_table" => {
            let keys = (0..2000).map(|n| table.insert(&n)).collect::<Result<Vec<Key<u64>>, _>>()?;
            let taken = keys.iter().take(rounds as usize).filter(|key| table.take(**key).is_some()).count();
            assert_eq!(taken as u64, rounds);
        }
        _ => panic!("no loop {name}"),
    }
    Ok(())
}
