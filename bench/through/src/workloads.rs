//! The workloads over a side: the same loops as in `tool_bench`. Its owner has one thread.
use crate::gate::Gate;
use crate::options::{Options, Workload};
use crate::side::{Place, Samples, Side, User};
use std::hint::black_box;
use std::thread;
use std::time::{Duration, Instant};

// So many values are inserted, and then removed.
const BATCH: usize = 1000;

// A round through few keys goes through them again and again, until it is as long as this.
const SHORTEST_WALK: usize = 1000;

// A mixed order of this many places.
fn mixed_order(places: usize) -> impl Iterator<Item = usize> {
    const STRIDE: usize = 7919;
    (0..places).scan(0, move |place, _| Some(std::mem::replace(place, (*place + STRIDE) % places)))
}

// The keys in the order in which they are gone through.
fn walk_of(keys: &[u64]) -> Vec<u64> {
    let once: Vec<u64> = mixed_order(keys.len()).map(|place| keys[place]).collect();
    once.iter().copied().cycle().take(once.len().max(SHORTEST_WALK)).collect()
}

fn use_each<U: User>(user: &mut U, keys: &[u64], workload: Workload) -> u64 {
    match workload {
        Workload::Read => user.read_each(keys),
        Workload::ReadInto => user.read_each_into(keys),
        Workload::Load | Workload::LoadOwn => user.load_each(keys),
        Workload::LoadInto => user.load_each_into(keys),
        Workload::LoadEach => user.load_in_eights(keys),
        _ => user.get_each(keys),
    }
}

// The time of the operations on these keys, of which there are some, and the sum of what they answered.
fn rounds(keys: &[u64], options: &Options, mut one: impl FnMut(&[u64]) -> u64) -> (Duration, u64) {
    let start = Instant::now();
    let mut sum = 0u64;
    for _round in 0..options.operations / keys.len() {
        sum = sum.wrapping_add(one(black_box(keys)));
    }
    sum = sum.wrapping_add(one(&keys[..options.operations % keys.len()]));
    (start.elapsed(), sum)
}

// The time of the slowest of the users, each in a thread of its own, and the sum of what all were answered. A user alone
// is in this thread.
fn together<U: User>(users: &mut [U], walk: &[u64], options: &Options) -> (Duration, u64) {
    let gate = &Gate::new(users.len());
    let job = |user: &mut U| {
        use_each(user, walk, options.workload);
        gate.pass();
        rounds(walk, options, |keys| use_each(user, keys, options.workload))
    };
    if let [user] = users {
        return job(user);
    }
    thread::scope(|scope| {
        let threads: Vec<_> = users.iter_mut().map(|user| scope.spawn(move || job(user))).collect();
        let done = threads.into_iter().map(|thread| thread.join().expect("the thread ends well"));
        done.fold((Duration::ZERO, 0), |(most, sum), (time, more)| (most.max(time), more.wrapping_add(sum)))
    })
}

fn using<S: Side>(side: &mut S, keys: &[u64], options: &Options) -> (Duration, u64) {
    let walk = walk_of(keys);
    match options.workload {
        Workload::GetOwn | Workload::LoadOwn => together(std::slice::from_mut(side.owner()), &walk, options),
        Workload::OwnKeys => rounds(&walk, options, |keys| side.own_keys(keys.len())),
        _ => together(side.users(), &walk, options),
    }
}

// The keys of the values that do not stay, evenly among all.
fn gone(keys: &[u64], percent: usize) -> Vec<u64> {
    let stays = |n: usize| n * percent / 100 != (n + 1) * percent / 100;
    keys.iter().enumerate().filter(|(n, _)| !stays(*n)).map(|(_, key)| *key).collect()
}

// Walks of as many places as there may be values, after a removal of those that do not stay.
fn walking<S: Side>(side: &mut S, keys: &[u64], options: &Options) -> (Duration, u64) {
    side.remove_each(&gone(keys, options.percent));
    let start = Instant::now();
    let walks = options.operations / options.live;
    let sum = side.users().iter_mut().fold(0u64, |sum, user| sum.wrapping_add(user.walk_over(walks)));
    (start.elapsed(), sum)
}

// Inserts a batch and removes it; one of the two is measured.
fn one_batch<S: Side>(side: &mut S, samples: &Samples, keys: &mut [u64], workload: Workload) -> (Duration, u64) {
    let start = Instant::now();
    let sum = side.insert_each(samples, keys);
    let middle = Instant::now();
    side.remove_each(keys);
    let end = Instant::now();
    match workload {
        Workload::Remove => (end - middle, sum),
        _ => (middle - start, sum),
    }
}

fn inserting<S: Side>(side: &mut S, samples: &Samples, options: &Options) -> (Duration, u64) {
    let mut keys = [0; BATCH];
    one_batch(side, samples, &mut keys, options.workload);
    let (mut time, mut sum) = (Duration::ZERO, 0u64);
    for batch in 0..=options.operations / BATCH {
        let length = BATCH.min(options.operations - batch * BATCH);
        let (more, keys) = one_batch(side, samples, &mut keys[..length], options.workload);
        time += more;
        sum = sum.wrapping_add(keys);
    }
    (time, sum)
}

/// The time of the operations of the slowest thread, and a sum of what all were answered.
pub fn measure<S: Side>(options: &Options) -> (Duration, u64) {
    let Options { words, chunks, threads, .. } = *options;
    let more = if options.workload.is_a_walk() { 0 } else { BATCH };
    let values = (options.live + more) as u64;
    let mut side = S::open(Place { values, words: words as u32, chunks, users: threads as u32 });
    let samples = Samples::new(options.words);
    let mut keys = vec![0; if options.workload == Workload::WalkBlank { 0 } else { options.live }];
    side.insert_each(&samples, &mut keys);
    match options.workload {
        Workload::Insert | Workload::Remove => inserting(&mut side, &samples, options),
        Workload::Walk | Workload::WalkBlank => walking(&mut side, &keys, options),
        _ => using(&mut side, &keys, options),
    }
}

#[cfg(test)]
mod tests {
    use super::*;
    use crate::{c::C, rust::Rust};

    const READING: [Workload; 6] =
        [Workload::Read, Workload::ReadInto, Workload::Load, Workload::LoadOwn, Workload::LoadInto, Workload::LoadEach];

    fn sums_of(options: Options) -> u64 {
        let (rust, c) = (measure::<Rust>(&options).1, measure::<C>(&options).1);
        assert_eq!(rust, c, "{options:?}");
        rust
    }

    fn sums(workload: Workload, live: usize, words: usize) -> u64 {
        sums_of(Options { operations: 2000, live, words, ..Options::usual(workload) })
    }

    #[test]
    fn both_sides_read_the_words_that_were_stored() {
        for way in READING {
            assert_eq!(sums(way, 1, 16), 2000 * 120, "the words 0 to 15");
            assert_eq!(sums(way, 8, 1), 250 * 16 * 28, "each of the words 0, 16, .., 112 so often");
        }
    }

    #[test]
    fn both_sides_read_them_in_a_heap_that_grows() {
        for way in READING {
            let options = Options { operations: 2000, live: 8, chunks: 2, ..Options::usual(way) };
            assert_eq!(sums_of(options), 250 * 16 * 28);
        }
        for workload in [Workload::Get, Workload::GetOwn, Workload::Insert, Workload::Remove] {
            assert_ne!(sums_of(Options { live: 3, words: 2, chunks: 2, ..Options::usual(workload) }), 0);
        }
    }

    #[test]
    fn each_thread_does_all_operations() {
        for way in [Workload::Read, Workload::Load, Workload::LoadInto, Workload::LoadEach] {
            let options = Options { threads: 4, operations: 2000, live: 8, ..Options::usual(way) };
            assert_eq!(sums_of(options), 4 * 250 * 16 * 28);
        }
    }

    #[test]
    fn both_sides_have_the_same_keys() {
        for workload in [Workload::Get, Workload::Insert, Workload::Remove] {
            assert_ne!(sums(workload, 3, 2), 0);
        }
    }

    #[test]
    fn the_owner_gets_the_same_keys_and_walks_through_them() {
        let of_a_pass = sums(Workload::Get, 8, 1);
        assert_eq!([Workload::GetOwn, Workload::OwnKeys].map(|way| sums(way, 8, 1)), [of_a_pass; 2]);
    }

    #[test]
    fn both_sides_walk_over_the_values_that_stay() {
        let walk = Options { operations: 3 * 160, live: 160, ..Options::usual(Workload::Walk) };
        for chunks in [0, 2] {
            let of_percent = |percent: usize| sums_of(Options { percent, chunks, ..walk });
            // The words 0, 16, .., 240, ten times each in each walk; of each ten values the tenth stays.
            let tenth = (9..160).step_by(10).map(|n| n % 16 * 16).sum::<u64>();
            assert_eq!([100, 10, 0].map(of_percent), [3 * 10 * 16 * 120, 3 * tenth, 0]);
            assert_eq!(sums_of(Options { chunks, ..Options::usual(Workload::WalkBlank) }), 0);
        }
    }

    #[test]
    fn a_walk_comes_to_each_key() {
        assert_eq!(walk_of(&[5]), [5; 1000]);
        let mut walk = walk_of(&(0..3000).collect::<Vec<_>>());
        walk.sort_unstable();
        assert_eq!(walk, (0..3000).collect::<Vec<_>>());
    }
}
