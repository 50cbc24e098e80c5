//! A table of small numbers by hash, for telling distinct things from repeated ones in one pass.

/// Open addressing over `SIZE` slots, a power of 2; a slot holds an entry's number plus one, 0 where free.
/// At most half of the slots may be taken, so that a free one ends every search.
pub struct Slots<const SIZE: usize>([u16; SIZE]);

impl<const SIZE: usize> Slots<SIZE> {
    pub const fn new() -> Self {
        Slots([0; SIZE])
    }

    /// The entry with this hash that `same` accepts, or the free slot where it would stand.
    #[inline]
    pub fn seek(&self, hash: u64, same: impl Fn(usize) -> bool) -> Result<usize, usize> {
        let mut slot = (hash >> (64 - SIZE.trailing_zeros())) as usize % SIZE;
        loop {
            match self.0[slot] {
                0 => return Err(slot),
                taken if same(usize::from(taken) - 1) => return Ok(usize::from(taken) - 1),
                _ => slot = (slot + 1) % SIZE,
            }
        }
    }

    /// Enters an entry's number, unless `same` accepts one that is already there.
    #[inline]
    pub fn insert(&mut self, hash: u64, entry: usize, same: impl Fn(usize) -> bool) -> bool {
        let Err(free) = self.seek(hash, same) else {
            return false;
        };
        self.0[free] = entry as u16 + 1;
        true
    }
}
