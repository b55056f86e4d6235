//! Slices as inputs, in room of a fixed size: a list of them needs no memory of its own.

use crate::rng::Rng;
use crate::tally::hex;
use std::fmt;
use std::ops::{Deref, DerefMut};

#[derive(Clone, Copy)]
pub struct Slice<const MOST: usize> {
    bytes: [u8; MOST],
    len: usize,
}

impl<const MOST: usize> Slice<MOST> {
    pub fn new(bytes: &[u8]) -> Self {
        Slice { bytes: [0; MOST], len: bytes.len() }.with(|slice| slice.copy_from_slice(bytes))
    }

    pub fn filled(byte: u8, len: usize) -> Self {
        Slice { bytes: [byte; MOST], len }
    }

    /// Bytes that are all different, up to 256 of them.
    pub fn patterned(len: usize) -> Self {
        Slice { bytes: std::array::from_fn(|at| (at as u8).wrapping_mul(0x35) ^ 0x9d), len }
    }

    pub fn random(rng: &mut Rng, len: usize) -> Self {
        Slice { bytes: [0; MOST], len }.with(|slice| rng.fill(slice))
    }

    /// The slice with a change made to it.
    pub fn with(mut self, change: impl FnOnce(&mut [u8])) -> Self {
        change(&mut self);
        self
    }

    /// The slice with another length: cut, or longer by bytes of the room, which `filled` and `patterned` fill too.
    pub fn resized(self, len: usize) -> Self {
        Slice { len, ..self }
    }
}

impl<const MOST: usize> Deref for Slice<MOST> {
    type Target = [u8];

    fn deref(&self) -> &[u8] {
        &self.bytes[..self.len]
    }
}

impl<const MOST: usize> DerefMut for Slice<MOST> {
    fn deref_mut(&mut self) -> &mut [u8] {
        &mut self.bytes[..self.len]
    }
}

impl<const MOST: usize> fmt::Debug for Slice<MOST> {
    fn fmt(&self, f: &mut fmt::Formatter<'_>) -> fmt::Result {
        write!(f, "[{}]", hex(self))
    }
}
