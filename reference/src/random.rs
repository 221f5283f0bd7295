//! The splitmix64 generator: the same numbers for the same seed, everywhere.

use crate::text::read_hex;

pub struct Random {
    state: u64,
}

impl Random {
    pub fn new(seed: u64) -> Random {
        Random { state: seed }
    }

    pub fn draw(&mut self) -> u64 {
        self.state = self.state.wrapping_add(0x9e37_79b9_7f4a_7c15);
        let mut z = self.state;
        z = (z ^ (z >> 30)).wrapping_mul(0xbf58_476d_1ce4_e5b9);
        z = (z ^ (z >> 27)).wrapping_mul(0x94d0_49bb_1331_11eb);
        z ^ (z >> 31)
    }

    /// A number below the limit. The slight unevenness does no harm here.
    pub fn below(&mut self, limit: usize) -> usize {
        (self.draw() % limit as u64) as usize
    }

    pub fn one_of<T: Copy>(&mut self, choices: &[T]) -> T {
        choices[self.below(choices.len())]
    }

    /// Random lower-case hex digits.
    pub fn digits(&mut self, count: usize) -> Vec<u8> {
        (0..count)
            .map(|_| self.one_of(b"0123456789abcdef"))
            .collect()
    }

    /// A field of hex digits; now and then all zeros or all ones, which random
    /// digits would never be.
    pub fn field(&mut self, count: usize) -> Vec<u8> {
        match self.below(16) {
            0 => vec![b'0'; count],
            1 => vec![b'f'; count],
            _ => self.digits(count),
        }
    }
    /// The bytes of such a field.
    pub fn bytes<const N: usize>(&mut self) -> [u8; N] {
        read_hex(&self.field(2 * N)).expect("two digits for each byte")
    }
}
