//! Bytes to lend to the library: a slice with guard bytes on both sides, so that an answer that depends on bytes outside the
//! slice, and a write to the slice or near it, is seen.

use std::ops::Range;

const GUARD: usize = 16;

pub struct Lent {
    memory: Vec<u8>,
    before: Vec<u8>,
    len: usize,
}

impl Lent {
    /// Room for slices of up to `most` bytes.
    pub fn new(most: usize) -> Lent {
        let memory = vec![0; GUARD + most + GUARD];
        Lent { before: memory.clone(), memory, len: 0 }
    }

    /// Makes the slice a copy of `bytes`, with `guard` in every byte around it.
    pub fn set(&mut self, bytes: &[u8], guard: u8) {
        self.len = bytes.len();
        let used = self.used();
        let (left, rest) = self.before[..used].split_at_mut(GUARD);
        let (slice, right) = rest.split_at_mut(bytes.len());
        left.fill(guard);
        slice.copy_from_slice(bytes);
        right.fill(guard);
        self.memory[..used].copy_from_slice(&self.before[..used]);
    }

    /// The length of the slice.
    pub fn len(&self) -> usize {
        self.len
    }

    pub fn slice(&mut self) -> &mut [u8] {
        &mut self.memory[GUARD..][..self.len]
    }

    /// Changes a byte of the slice: the caller's doing, as `set` is.
    pub fn put(&mut self, at: usize, byte: u8) {
        self.slice()[at] = byte;
        self.expect(at, &[byte]);
    }

    /// What the slice is to hold from a place on, once the library has written there.
    pub fn expect(&mut self, at: usize, bytes: &[u8]) {
        self.before[GUARD..][..self.len][at..][..bytes.len()].copy_from_slice(bytes);
    }

    /// Whether the slice and its guard bytes hold what they were set to, and where it is to be written what is expected there.
    pub fn unchanged(&self) -> bool {
        self.unchanged_near(0..self.len)
    }

    /// The same of a part of the slice, and of as many bytes around it as there are guard bytes.
    pub fn unchanged_near(&self, part: Range<usize>) -> bool {
        let near = part.start..GUARD + part.end + GUARD;
        self.memory[near.clone()] == self.before[near]
    }

    fn used(&self) -> usize {
        GUARD + self.len + GUARD
    }
}
