//! Stand-in for the crate fixedbitset: what demultiplex.rs calls.

#[derive(Debug, Clone)]
pub struct FixedBitSet {
    bits: Vec<bool>,
}

impl FixedBitSet {
    pub fn with_capacity(n: usize) -> Self {
        FixedBitSet { bits: vec![false; n] }
    }

    pub fn insert(&mut self, i: usize) {
        self.bits[i] = true;
    }

    pub fn contains(&self, i: usize) -> bool {
        self.bits.get(i).copied().unwrap_or(false)
    }

    pub fn difference<'a>(&'a self, other: &'a FixedBitSet) -> impl Iterator<Item = usize> + 'a {
        (0..self.bits.len()).filter(move |&i| self.bits[i] && !other.contains(i))
    }
}
