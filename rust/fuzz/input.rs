//! The bytes of an input.

/// Taken from the front. Where none are left, zeros are.
pub struct Input<'a>(pub &'a [u8]);

impl<'a> Input<'a> {
    /// The next byte.
    pub fn byte(&mut self) -> u8 {
        let [byte] = self.bytes();
        byte
    }

    /// The next bytes as numbers, with the most significant byte first.
    pub fn short(&mut self) -> u16 {
        u16::from_be_bytes(self.bytes())
    }

    pub fn word(&mut self) -> u32 {
        u32::from_be_bytes(self.bytes())
    }

    pub fn long(&mut self) -> u64 {
        u64::from_be_bytes(self.bytes())
    }

    /// Those that are left, but no more than so many.
    pub fn rest(&self, most: usize) -> &'a [u8] {
        &self.0[..self.0.len().min(most)]
    }

    fn bytes<const N: usize>(&mut self) -> [u8; N] {
        let mut bytes = [0; N];
        let (taken, rest) = self.0.split_at(self.0.len().min(N));
        bytes[..taken.len()].copy_from_slice(taken);
        self.0 = rest;
        bytes
    }
}
