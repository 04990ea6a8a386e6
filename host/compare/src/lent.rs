//! A buffer as it is lent: with margins around it, so that a store outside of the lent slice is seen.

/// Bytes before and behind; a slice may be lent this much longer than it should be.
pub const MARGIN: usize = 320;

#[derive(Clone, PartialEq, Eq)]
pub struct Lent {
    all: Vec<u8>,
    len: usize,
}

impl Lent {
    pub fn new(bytes: &[u8]) -> Lent {
        let mut all = vec![0xa5; bytes.len() + 2 * MARGIN];
        all[MARGIN..MARGIN + bytes.len()].copy_from_slice(bytes);
        Lent { all, len: bytes.len() }
    }

    /// The right length.
    pub fn len(&self) -> usize {
        self.len
    }

    /// What lies inside the margins.
    pub fn bytes(&self) -> &[u8] {
        &self.all[MARGIN..MARGIN + self.len]
    }

    pub fn bytes_mut(&mut self) -> &mut [u8] {
        &mut self.all[MARGIN..MARGIN + self.len]
    }

    /// The slice that a call gets: `len` bytes from where the buffer begins.
    pub fn lend(&mut self, len: usize) -> &mut [u8] {
        &mut self.all[MARGIN..MARGIN + len]
    }

    /// The first place where the two differ, margins too, counted from where the buffer begins.
    pub fn difference(&self, other: &Lent) -> Option<(isize, u8, u8)> {
        if self.all == other.all {
            return None;
        }
        let at = (0..self.all.len()).find(|&i| self.all[i] != other.all[i])?;
        Some((at as isize - MARGIN as isize, self.all[at], other.all[at]))
    }
}
