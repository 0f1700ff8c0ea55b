//! The heap of this repository, by its crate for Rust, which records with its feature `record`. Each caller owns a
//! shard.
use crate::caller::Caller;
use crate::recorded::Kept;
use crate::scene::Scene;
use gearlongan::{Error, Heap, Key, Layout, Room, Shard};

/// Each shard has room for this number of values of one word. Values that were removed and are held count too.
const VALUES: u64 = 10_000;

impl Caller for Shard {
    fn insert(&mut self, value: u64) -> u64 {
        Shard::insert(self, &[value]).expect("the shard has room").into()
    }

    fn hold(&mut self, key: u64, act: &mut dyn FnMut(u64)) -> Option<u64> {
        match (**self).get(Key::from(key)) {
            Ok(guard) => {
                act(guard[0]);
                Some(guard[0])
            }
            Err(Error::Gone) => None,
            Err(error) => panic!("a key that was issued was refused: {error}"),
        }
    }

    fn load(&mut self, key: u64) -> Option<u64> {
        match (**self).load(Key::from(key)) {
            Ok(value) => Some(value[0]),
            Err(Error::Gone) => None,
            Err(error) => panic!("a key that was issued was refused: {error}"),
        }
    }

    fn remove(&mut self, key: u64) -> bool {
        match (**self).remove(Key::from(key)) {
            Ok(()) => true,
            Err(Error::Gone) => false,
            Err(error) => panic!("a key that was issued was refused: {error}"),
        }
    }
}

pub(super) fn history(scene: &Scene) -> Result<String, String> {
    if scene.kept() == Kept::OfFirstKey {
        return Err("the heap records all answers: at most 100,000 inserts".to_string());
    }
    played(scene).map_err(|error| error.to_string())
}

fn played(scene: &Scene) -> Result<String, Error> {
    let callers = scene.callers() as u32;
    let room = Room { owners: callers, values: VALUES, words: 1, passes: callers };
    let mut heap = Heap::open_for(Layout::Wide, room)?;
    let recording = heap.record()?;
    let shards = (0..callers).map(|number| Ok(heap.take()?.adopt(number)?)).collect::<Result<Vec<Shard>, Error>>()?;
    let counts = scene.play(shards);
    Ok(recording.history()?.to_string() + &counts)
}
