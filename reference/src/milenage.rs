//! MILENAGE, TS 35.206, for one subscriber and one challenge.

use crate::aes::{self, Aes128};
use crate::block::{part, turned_left, xor, Block};

/// The rotations r1 to r5 in bits.
const R1: usize = 64;
const R2: usize = 0;
const R3: usize = 32;
const R4: usize = 64;
const R5: usize = 96;

/// The constants c2 to c5, of which only the last byte is not zero; c1 is zero
/// altogether and has no part in OUT1.
const C2: u8 = 1;
const C3: u8 = 2;
const C4: u8 = 4;
const C5: u8 = 8;

/// OPc from the operator's OP: OP xor E(OP) under K.
pub fn opc(k: &Block, op: &Block) -> Block {
    xor(op, &aes::encrypt(k, op))
}

/// E under K, OPc, and the T that all outputs of one RAND share.
pub struct Milenage {
    e: Aes128,
    opc: Block,
    t: Block,
}

impl Milenage {
    pub fn new(k: &Block, opc: &Block, rand: &Block) -> Milenage {
        let e = Aes128::new(k);
        let t = e.encrypt(&xor(rand, opc));
        Milenage { e, opc: *opc, t }
    }

    pub fn out1(&self, sqn: &[u8; 6], amf: &[u8; 2]) -> Block {
        let turned = turned_left(&xor(&input(sqn, amf), &self.opc), R1);
        xor(&self.e.encrypt(&xor(&self.t, &turned)), &self.opc)
    }

    /// OUT2 to OUT5 differ only in their r and c.
    fn out(&self, r: usize, c: u8) -> Block {
        let mut turned = turned_left(&xor(&self.t, &self.opc), r);
        turned[15] ^= c;
        xor(&self.e.encrypt(&turned), &self.opc)
    }

    pub fn out2(&self) -> Block {
        self.out(R2, C2)
    }

    pub fn out3(&self) -> Block {
        self.out(R3, C3)
    }

    pub fn out4(&self) -> Block {
        self.out(R4, C4)
    }

    pub fn out5(&self) -> Block {
        self.out(R5, C5)
    }

    pub fn f1(&self, sqn: &[u8; 6], amf: &[u8; 2]) -> [u8; 8] {
        part(&self.out1(sqn, amf), 0)
    }

    pub fn f1_star(&self, sqn: &[u8; 6], amf: &[u8; 2]) -> [u8; 8] {
        part(&self.out1(sqn, amf), 8)
    }

    pub fn f2(&self) -> [u8; 8] {
        part(&self.out2(), 8)
    }

    pub fn f3(&self) -> Block {
        self.out3()
    }

    pub fn f4(&self) -> Block {
        self.out4()
    }

    pub fn f5(&self) -> [u8; 6] {
        part(&self.out2(), 0)
    }

    pub fn f5_star(&self) -> [u8; 6] {
        part(&self.out5(), 0)
    }
}

/// The input I of OUT1: SQN, AMF, SQN, AMF.
fn input(sqn: &[u8; 6], amf: &[u8; 2]) -> Block {
    let mut i = [0; 16];
    i[0..6].copy_from_slice(sqn);
    i[6..8].copy_from_slice(amf);
    i[8..14].copy_from_slice(sqn);
    i[14..16].copy_from_slice(amf);
    i
}
