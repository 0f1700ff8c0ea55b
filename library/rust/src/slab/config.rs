//! The configuration of a slab or a pool.
use super::number::{KEY_BITS, MOST_HEAPS};
use std::fmt;

/// Parameters of a slab or a pool, as constants.
///
/// They have the names and the defaults of `sharded-slab`, and mean here what they can mean over heaps that grow:
///
/// | Constant | Meaning |
/// |---|---|
/// | `INITIAL_PAGE_SIZE` | how many values of a thread have room before the slab grows: from 384 to 12,288 |
/// | `MAX_PAGES`, `MAX_THREADS` | a limit of growth, below |
/// | `RESERVED_BITS` | how many high bits of each key are the user's: 0 to 11 |
///
/// A slab grows by heaps. Up to room for 50,000 values each is about as large as all before, later about two fifths of
/// that. The slab opens no further heap once it has room for
/// `INITIAL_PAGE_SIZE * (2^MAX_PAGES - 1) * MAX_THREADS` values, which by default is more than any machine has room
/// for. A slab has at most 256 heaps, and half as many for each reserved bit after the fourth. With 256 heaps it has
/// room for over 190 million values.
///
/// ```
/// use gearlongan::slab::{Config, Slab};
///
/// struct Packed;
///
/// impl Config for Packed {
///     const RESERVED_BITS: usize = 4;
/// }
///
/// let slab = Slab::new_with_config::<Packed>();
/// let key = slab.insert("hello").expect("there is room");
/// assert_eq!(Slab::<&str, Packed>::USED_BITS, 60);
/// // The four bits above may be used, and a call ignores them.
/// assert_eq!(slab.get(key | 7 << 60).expect("it is there"), "hello");
/// ```
pub trait Config: Sized {
    /// A limit of growth: how many threads insert at the same time.
    const MAX_THREADS: usize = DefaultConfig::MAX_THREADS;
    /// A limit of growth: how often the room of a thread doubles.
    const MAX_PAGES: usize = DefaultConfig::MAX_PAGES;
    /// How many values of each thread have room before the slab grows: rounded up to a power of two times 384.
    const INITIAL_PAGE_SIZE: usize = DefaultConfig::INITIAL_PAGE_SIZE;
    /// How many high bits of a key are left to the user, who may change them: a call ignores them.
    const RESERVED_BITS: usize = 0;
}

/// The configuration of a slab or a pool that names none.
#[derive(Clone, Copy)]
pub struct DefaultConfig {
    _private: (),
}

impl Config for DefaultConfig {
    const MAX_THREADS: usize = 4096;
    const MAX_PAGES: usize = 32;
    const INITIAL_PAGE_SIZE: usize = 32;
}

impl fmt::Debug for DefaultConfig {
    fn fmt(&self, f: &mut fmt::Formatter<'_>) -> fmt::Result {
        f.debug_struct("DefaultConfig")
            .field("initial_page_size", &Self::INITIAL_PAGE_SIZE)
            .field("max_threads", &Self::MAX_THREADS)
            .field("max_pages", &Self::MAX_PAGES)
            .field("reserved_bits", &Self::RESERVED_BITS)
            .finish()
    }
}

/// What the slab takes from a configuration.
#[derive(Clone, Copy, Debug, PartialEq, Eq)]
pub(super) struct Limits {
    /// How many values of one thread have room in the first heap.
    pub(super) first: u64,
    /// With room for this many values the slab opens no further heap.
    pub(super) values: u64,
    /// How many heaps it opens at most.
    pub(super) heaps: usize,
}

/// The bits of a key that the slab looks at.
pub(super) const fn mask<C: Config>() -> u64 {
    u64::MAX >> C::RESERVED_BITS
}

impl Limits {
    /// # Panics
    ///
    /// If more than 11 bits are reserved.
    pub(super) fn of<C: Config>() -> Limits {
        let reserved = C::RESERVED_BITS as u32;
        assert!(C::RESERVED_BITS <= 11, "invalid Config: {reserved} reserved bits are more than 11");
        let of_heaps = u64::BITS - KEY_BITS - reserved;
        let doubled = 1u64.checked_shl(C::MAX_PAGES as u32).map_or(u64::MAX, |power| power - 1);
        let first = C::INITIAL_PAGE_SIZE as u64;
        Limits {
            first,
            values: first.saturating_mul(doubled).saturating_mul(C::MAX_THREADS as u64),
            heaps: MOST_HEAPS.min(1 << of_heaps),
        }
    }
}

#[cfg(test)]
mod tests {
    use super::*;

    struct Reserved<const BITS: usize>;

    impl<const BITS: usize> Config for Reserved<BITS> {
        const RESERVED_BITS: usize = BITS;
        const MAX_PAGES: usize = 2;
        const MAX_THREADS: usize = 3;
        const INITIAL_PAGE_SIZE: usize = 5;
    }

    #[test]
    fn limits() {
        let heaps = |limits: Limits| limits.heaps;
        assert_eq!(Limits::of::<Reserved<0>>(), Limits { first: 5, values: 45, heaps: 256 });
        assert_eq!(heaps(Limits::of::<Reserved<4>>()), 256);
        assert_eq!(heaps(Limits::of::<Reserved<5>>()), 128);
        assert_eq!(heaps(Limits::of::<Reserved<11>>()), 2);
        assert_eq!(Limits::of::<DefaultConfig>().values, 32 * ((1 << 32) - 1) * 4096);
        assert_eq!(mask::<Reserved<4>>(), (1 << 60) - 1);
    }

    #[test]
    #[should_panic(expected = "invalid Config")]
    fn too_many_reserved_bits() {
        Limits::of::<Reserved<12>>();
    }
}
