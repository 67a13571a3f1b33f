//! Stand-in for memmap2. `Mmap` has no values: a mapped buffer cannot be made.

pub enum Mmap {}

impl std::ops::Deref for Mmap {
    type Target = [u8];

    fn deref(&self) -> &[u8] {
        match *self {}
    }
}
