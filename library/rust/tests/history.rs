//! Recorded histories, with the feature `record`.
#![cfg(feature = "record")]
use gearlongan::history::{History, Recording};
use gearlongan::{Error, Heap, Layout, Shape, Value};
use std::sync::Barrier;
use std::thread;

fn recorded(layout: Layout, passes: u32) -> (Heap, Recording) {
    let mut heap = Heap::open(layout, Shape { shards: 2, segments: 1, passes }).expect("memory is granted");
    let recording = heap.record().expect("no pass was taken");
    (heap, recording)
}

fn lines(recording: &Recording) -> Vec<String> {
    let text = recording.history().expect("all passes are at home").to_string();
    text.lines().map(str::to_string).collect()
}

#[test]
fn a_load_is_recorded_as_a_look_and_a_take_in_parts() -> Result<(), Error> {
    let (heap, recording) = recorded(Layout::Wide, 1);
    let shard = heap.take()?.adopt(0)?;
    let key = shard.insert(&[7, 8])?;
    assert_eq!(shard.load(key)?, [7, 8]);
    assert_eq!(shard.take(key)?, [7, 8]);
    let mut value = Value::new(&[9])?;
    assert_eq!(shard.take_into(key, &mut value), Err(Error::Gone));
    assert_eq!(shard.load_into(key, &mut value), Err(Error::Gone));
    assert_eq!(value, [9]);
    drop(shard);
    let wanted = [
        "history 1 1048576".to_string(),
        format!("0 Insert {key} 2 7 8"),
        format!("0 Seen {key} 2 7 8"),
        format!("0 Got {key} 2 7 8"),
        format!("0 Removed {key}"),
        format!("0 Released {key}"),
        format!("0 Gone {key}"),
        format!("0 Gone {key}"),
    ];
    assert_eq!(lines(&recording), wanted);
    Ok(())
}

#[test]
fn a_walk_is_recorded_as_looks_or_gets() -> Result<(), Error> {
    let (heap, recording) = recorded(Layout::Tiny, 2);
    let (shard, mut pass) = (heap.take()?.adopt(0)?, heap.take()?);
    let (one, other) = (shard.insert(&[7, 8])?, shard.insert(&[])?);
    let guards = [shard.get(one)?, shard.get(one)?, shard.get(one)?, shard.get(one)?];
    let walked: Vec<Result<usize, Error>> = pass.walk_held().map(|guard| guard.map(|guard| guard.len())).collect();
    assert_eq!(walked, [Err(Error::Crowded), Ok(0)]);
    assert_eq!(pass.remove_if(|key, _| key == other), 1);
    drop(guards);
    drop((shard, pass));
    let of_pass = lines(&recording).into_iter().filter_map(|line| line.strip_prefix("1 ").map(str::to_string));
    let wanted = [
        format!("Crowded {one}"),
        format!("Got {other} 0"),
        format!("Released {other}"),
        format!("Seen {one} 2 7 8"),
        format!("Seen {other} 0"),
        format!("Removed {other}"),
    ];
    assert_eq!(of_pass.collect::<Vec<_>>(), wanted);
    Ok(())
}

#[test]
fn a_value_is_recorded_if_it_was_read() -> Result<(), Error> {
    let (heap, recording) = recorded(Layout::Wide, 1);
    let shard = heap.take()?.adopt(1)?;
    let key = shard.insert(&[])?;
    drop(shard.get(key)?);
    assert!(shard.get(key)?.is_empty());
    let guard = shard.get(key)?;
    shard.remove(key)?;
    assert_eq!(shard.read(key)?, []);
    drop(guard);
    drop(shard);
    let wanted = ["Insert", "Got", "Released", "Got 0", "Released", "Got 0", "Removed", "Released"];
    let entries: Vec<String> = lines(&recording)[1..].iter().map(|line| line.replace(&format!(" {key}"), "")).collect();
    assert_eq!(entries[0], "0 Insert 0");
    assert!(entries[1..].iter().zip(&wanted[1..]).all(|(line, wanted)| *line == format!("0 {wanted}")), "{entries:?}");
    Ok(())
}

#[test]
fn refusals_that_are_not_about_the_map_are_left_out() -> Result<(), Error> {
    let (heap, recording) = recorded(Layout::Tiny, 2);
    let (shard, pass) = (heap.take()?.adopt(0)?, heap.take()?);
    let key = shard.insert(&[7])?;
    let bad = u64::MAX.into();
    assert_eq!(shard.insert(&[0; 17]), Err(Error::TooLong));
    assert_eq!((pass.get(bad).err(), pass.remove(bad)), (Some(Error::BadKey), Err(Error::BadKey)));
    assert_eq!(pass.read(key), Err(Error::NotHeld));
    let guards = [pass.get(key)?, pass.get(key)?, pass.get(key)?, pass.get(key)?];
    assert_eq!(pass.get(key).err(), Some(Error::Crowded));
    drop(guards);
    drop((shard, pass));
    let lines = lines(&recording);
    assert_eq!(lines.len(), 1 + 1 + 4 + 1 + 4);
    assert_eq!((&*lines[0], &*lines[6]), ("history 2 4", &*format!("1 Crowded {key}")));
    Ok(())
}

#[test]
fn passes_have_numbers_below_those_of_the_heap() -> Result<(), Error> {
    let (heap, recording) = recorded(Layout::Wide, 2);
    let first = heap.take()?.adopt(0)?;
    for _ in 0..3 {
        let key = first.insert(&[7])?;
        heap.with_pass(|pass| pass.remove(key))??;
        assert_eq!(recording.history().err(), Some(Error::Away));
    }
    drop(first);
    let passes: Vec<String> = lines(&recording)[1..].iter().map(|line| line[..1].to_string()).collect();
    assert_eq!(passes, ["0", "1", "0", "1", "0", "1"]);
    Ok(())
}

#[test]
fn a_recording_begins_before_the_first_pass() -> Result<(), Error> {
    let mut heap = Heap::open(Layout::Wide, Shape { shards: 1, segments: 1, passes: 1 })?;
    let one = heap.record()?;
    heap.take()?.adopt(0)?.insert(&[7])?;
    let same = heap.record()?;
    assert_eq!((one.history()?.len(), same.history()?.len()), (1, 1));

    let mut late = Heap::open(Layout::Wide, Shape { shards: 1, segments: 1, passes: 1 })?;
    drop(late.take()?);
    assert_eq!(late.record().err(), Some(Error::Away));
    Ok(())
}

#[test]
fn a_forgotten_guard_leaves_its_hold() -> Result<(), Error> {
    let (heap, recording) = recorded(Layout::Wide, 2);
    let shard = heap.take()?.adopt(0)?;
    std::mem::forget(shard.get(shard.insert(&[7])?)?);
    drop(shard);
    assert_eq!(recording.history()?.len(), 2);
    // The pass is closed, and its number is free.
    let _other = heap.take()?;
    assert_eq!(heap.take().err(), Some(Error::NoPass));
    Ok(())
}

// The times of a line, its pass and what is behind it.
fn timed(line: &str) -> (u64, u64, u64, Vec<&str>) {
    let words: Vec<&str> = line.split(' ').collect();
    let number = |place: usize| words[place].parse().expect("a number");
    (number(0), number(1), number(2), words[3..].to_vec())
}

fn of_two_threads() -> Result<History, Error> {
    let (heap, recording) = recorded(Layout::Wide, 2);
    let both = Barrier::new(2);
    thread::scope(|scope| {
        for number in 0..2 {
            let (heap, both) = (&heap, &both);
            scope.spawn(move || {
                let shard = heap.take().expect("a pass is at home").adopt(number).expect("it has no owner");
                both.wait();
                for value in 0..2000 {
                    let key = shard.insert(&[value, number.into()]).expect("there is room");
                    assert_eq!(shard.load(key).expect("it is there"), [value, number.into()]);
                    shard.remove(key).expect("it is there");
                }
            });
        }
    });
    recording.history()
}

#[test]
fn threads_have_times_that_do_not_overlap_in_a_pass() -> Result<(), Error> {
    // (Two threads may happen to run one after the other.)
    let Some(history) = (0..50).find_map(|_| of_two_threads().ok().filter(|history| !history.is_ordered())) else {
        return Ok(());
    };
    assert_eq!(history.len(), 2 * 2000 * 3);
    let text = history.to_string();
    let mut ends = [None, None];
    for (begin, end, pass, words) in text.lines().skip(1).map(timed) {
        assert!(begin <= end && ends[pass as usize] < Some(begin), "{begin} {end} {pass} {words:?}");
        assert!(["Insert", "Seen", "Removed"].contains(&words[0]));
        ends[pass as usize] = Some(end);
    }
    Ok(())
}
