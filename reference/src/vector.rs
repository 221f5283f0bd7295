//! An authentication vector and its 72 bytes: RAND, XRES, CK, IK, AUTN.

use crate::block::Block;

pub const LENGTH: usize = 72;

/// The bytes of a vector.
pub type Bytes = [u8; LENGTH];

/// The most vectors of a batch.
pub const MOST: usize = 5;

#[derive(Clone, Debug, PartialEq, Eq)]
pub struct Vector {
    pub rand: Block,
    pub xres: [u8; 8],
    pub ck: Block,
    pub ik: Block,
    pub autn: Block,
}

impl Vector {
    pub fn bytes(&self) -> Bytes {
        let parts: [&[u8]; 5] = [&self.rand, &self.xres, &self.ck, &self.ik, &self.autn];
        let bytes = parts.concat();
        bytes.try_into().expect("the parts have 72 bytes together")
    }

    pub fn of(bytes: &Bytes) -> Vector {
        Vector {
            rand: part(bytes, 0),
            xres: part(bytes, 16),
            ck: part(bytes, 24),
            ik: part(bytes, 40),
            autn: part(bytes, 56),
        }
    }
}

fn part<const N: usize>(bytes: &Bytes, from: usize) -> [u8; N] {
    std::array::from_fn(|i| bytes[from + i])
}

/// The vector at a place of a batch as a part of the batch's own bytes. It is
/// empty where the bytes are no batch of 1 to 5 vectors or the place is past it.
pub fn handed_back(batch: &[u8], place: u64) -> &[u8] {
    let whole = batch.len().is_multiple_of(LENGTH) && batch.len() <= MOST * LENGTH;
    if !whole || place >= (batch.len() / LENGTH) as u64 {
        return &[];
    }
    let from = LENGTH * place as usize;
    &batch[from..from + LENGTH]
}
