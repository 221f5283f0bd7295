//! Set 0, for the bench only, in the manner of TS 34.108. OPc has no part in it.

use crate::block::{part, turned_left, xor, Block};

/// Everything is cut from X = K xor RAND.
pub struct TestSet {
    x: Block,
}

impl TestSet {
    pub fn new(k: &Block, rand: &Block) -> TestSet {
        TestSet { x: xor(k, rand) }
    }

    /// X's first 8 bytes xor (SQN then AMF).
    pub fn f1(&self, sqn: &[u8; 6], amf: &[u8; 2]) -> [u8; 8] {
        let mut sqn_amf = [0; 8];
        sqn_amf[..6].copy_from_slice(sqn);
        sqn_amf[6..].copy_from_slice(amf);
        xor(&part(&self.x, 0), &sqn_amf)
    }

    /// The same rule as f1; only the caller's SQN and AMF differ.
    pub fn f1_star(&self, sqn: &[u8; 6], amf: &[u8; 2]) -> [u8; 8] {
        self.f1(sqn, amf)
    }

    pub fn f2(&self) -> [u8; 8] {
        part(&self.x, 0)
    }

    pub fn f3(&self) -> Block {
        turned_left(&self.x, 8)
    }

    pub fn f4(&self) -> Block {
        turned_left(&self.x, 16)
    }

    /// X's bytes 3 to 8 counted from 0.
    pub fn f5(&self) -> [u8; 6] {
        part(&self.x, 3)
    }

    pub fn f5_star(&self) -> [u8; 6] {
        self.f5()
    }
}
