//! A sum over the answers to many questions about one input: both sides make it in the same way.

/// What a field gives: the number of its answer, and its values.
pub type Given<const N: usize> = (u32, [u64; N]);

pub struct Sum(u64);

impl Sum {
    #[inline(always)]
    pub fn new() -> Sum {
        Sum(0)
    }

    #[inline(always)]
    pub fn add(&mut self, value: u64) {
        self.0 = self.0.rotate_left(5) ^ value;
    }

    /// The values count where the number is 0.
    #[inline(always)]
    pub fn take<const N: usize>(&mut self, (number, values): Given<N>) {
        match number {
            0 => values.into_iter().for_each(|value| self.add(value)),
            number => self.add(number.into()),
        }
    }

    #[inline(always)]
    pub fn total(self) -> u64 {
        self.0
    }
}

/// What a field gives, out of a row of numbers: its word is at a place, and its values are behind it.
#[inline(always)]
pub fn row<const N: usize>(numbers: &[u64], at: usize) -> Given<N> {
    (numbers[at] as u32, std::array::from_fn(|nth| numbers[at + 1 + nth]))
}

/// Calls an entry of the library with N out numbers.
#[inline(always)]
pub fn ask<const N: usize>(entry: impl FnOnce(&mut [u64; N]) -> u32) -> Given<N> {
    let mut values = [0; N];
    (entry(&mut values), values)
}
