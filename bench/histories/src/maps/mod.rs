//! The maps that are recorded.
mod dash;
#[cfg(feature = "heap")]
mod heap;
mod mutex_slab;
mod mutex_slot_map;
mod sharded;

use crate::recorded::{Book, Recorded};
use crate::scene::Scene;

/// A map of another crate, which threads share.
pub trait Peer: Sync {
    /// Inserts a value, and returns its key.
    fn insert(&self, value: u64) -> u64;

    /// Calls `act` with the value under the key, if there is one, while it is held.
    fn hold(&self, key: u64, act: &mut dyn FnMut(u64));

    /// Whether the map says that this call removed the key.
    fn remove(&self, key: u64) -> bool;
}

fn of_peer(peer: &impl Peer, scene: &Scene) -> String {
    let (book, passes) = (Book::default(), scene.callers());
    let callers = (0..passes).map(|pass| Recorded::new(peer, pass, scene.kept(), &book)).collect();
    let counts = scene.play(callers);
    book.text(passes) + &counts
}

#[cfg(not(feature = "heap"))]
mod heap {
    use crate::scene::Scene;

    pub(super) fn history(_scene: &Scene) -> Result<String, String> {
        Err("the heap is left out: the program was built without its feature `heap`".to_string())
    }
}

/// The history of a scene with the map of this name.
pub fn history(map: &str, scene: &Scene) -> Result<String, String> {
    match map {
        "sharded_slab" => Ok(of_peer(&sharded::Sharded::by_default(), scene)),
        "sharded_slab_20" => Ok(of_peer(&sharded::Sharded::of_20_bits(), scene)),
        "slotmap" => Ok(of_peer(&mutex_slot_map::MutexSlotMap::default(), scene)),
        "slab" => Ok(of_peer(&mutex_slab::MutexSlab::default(), scene)),
        "dashmap" => Ok(of_peer(&dash::Dash::default(), scene)),
        "heap" => heap::history(scene),
        _ => Err(format!("there is no map {map}")),
    }
}
