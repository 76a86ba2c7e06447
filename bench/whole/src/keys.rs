//! Sets of services as the bits of a word.

/// The services of a set, rising.
pub struct Keys(pub u64);

impl Iterator for Keys {
    type Item = usize;

    #[inline]
    fn next(&mut self) -> Option<usize> {
        if self.0 == 0 {
            return None;
        }
        let key = self.0.trailing_zeros() as usize;
        self.0 &= self.0 - 1;
        Some(key)
    }
}
