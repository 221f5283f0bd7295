//! Blocks of 16 bytes, first byte most significant.

pub type Block = [u8; 16];

/// The bitwise sum of two byte strings of one length.
pub fn xor<const N: usize>(a: &[u8; N], b: &[u8; N]) -> [u8; N] {
    std::array::from_fn(|i| a[i] ^ b[i])
}

/// The block turned left by a number of bits. Every amount that the functions
/// name is a whole number of bytes, so no bit crosses within a byte.
pub fn turned_left(block: &Block, bits: usize) -> Block {
    assert!(bits.is_multiple_of(8), "only whole bytes are turned");
    std::array::from_fn(|i| block[(i + bits / 8) % 16])
}

/// N bytes of the block from the given place on.
pub fn part<const N: usize>(block: &Block, from: usize) -> [u8; N] {
    std::array::from_fn(|i| block[from + i])
}
