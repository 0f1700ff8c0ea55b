//! Several keys that one call loads.
use gearlongan::{Error, Heap, Key, Layout, Pass, Shape, Shard, Value};

const LAYOUTS: [Layout; 4] = [Layout::Wide, Layout::Tagged, Layout::Deep, Layout::Tiny];
const SMALL: Shape = Shape { shards: 1, segments: 2, passes: 2 };

fn two(layout: Layout) -> (Shard, Pass) {
    let heap = Heap::open(layout, SMALL).expect("it opens");
    let shard = heap.take().expect("a pass is at home").adopt(0).expect("it has no owner");
    (shard, heap.take().expect("another is at home"))
}

// What is in the results before a batch.
fn before(count: usize) -> Vec<Result<Value, Error>> {
    vec![Err(Error::Away); count]
}

#[test]
fn a_batch_returns_what_its_loads_return() {
    for layout in LAYOUTS {
        let (shard, pass) = two(layout);
        let insert = |n: u64| shard.insert(&[n; 16][..n as usize % 17]).expect("there is room");
        let mut keys: Vec<Key> = (0..21).map(insert).collect();
        for key in keys.iter().step_by(3) {
            shard.remove(*key).expect("it is there");
        }
        keys.push(Key::from(u64::MAX));
        for count in 0..=keys.len() {
            let mut results = before(count);
            pass.load_each(&keys[..count], &mut results);
            let one_by_one: Vec<_> = keys[..count].iter().map(|key| pass.load(*key)).collect();
            assert_eq!(results, one_by_one);
        }
        let mut results = before(2);
        shard.load_each(&[keys[0], keys[1]], &mut results);
        assert_eq!(results, [Err(Error::Gone), Ok(Value::new(&[1]).expect("it is short"))]);
    }
}

#[test]
fn a_batch_leaves_the_holds_as_they_were() {
    for layout in LAYOUTS {
        let (shard, pass) = two(layout);
        let keys = [(); 4].map(|()| shard.insert(&[7, 8]).expect("there is room"));
        let guards = keys.map(|key| [(); 4].map(|()| pass.get(key).expect("it may be held")));
        assert_eq!(pass.get(keys[0]).err(), Some(Error::HoldsFull));
        // The key of the next slot, which nothing was put in yet: a load of it goes on to a get.
        let mut batch = [keys[0]; 9];
        batch[4] = Key::from(u64::from(keys[3]) + 1);
        let mut wanted = vec![Value::new(&[7, 8]); 9];
        wanted[4] = Err(Error::HoldsFull);
        let mut results = before(9);
        pass.load_each(&batch, &mut results);
        assert_eq!(results, wanted);
        drop(guards);
        assert_eq!(pass.read(keys[0]), Err(Error::NotHeld));
        wanted[4] = Err(Error::Gone);
        pass.load_each(&batch, &mut results);
        assert_eq!(results, wanted);
    }
}

#[test]
fn the_rest_of_a_longer_slice_is_left_alone() {
    let (shard, pass) = two(Layout::Wide);
    let keys: Vec<Key> = (0..10).map(|n| shard.insert(&[n]).expect("there is room")).collect();
    let mut results = before(12);
    pass.load_each(&keys, &mut results);
    assert!(results[..10].iter().all(Result::is_ok));
    assert_eq!(results[10..], before(2));
    let mut results = before(9);
    pass.load_each(&keys, &mut results);
    assert_eq!(results[8], Value::new(&[8]));
}
