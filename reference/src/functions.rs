//! The seven outputs of one subscriber, by the function set.

use crate::block::{xor, Block};
use crate::milenage::Milenage;
use crate::test_set::TestSet;

#[derive(Clone, Debug, PartialEq, Eq)]
pub struct Subscriber {
    pub set: u8,
    pub k: Block,
    pub opc: Block,
}

#[derive(Clone, Debug, PartialEq, Eq)]
pub struct Outputs {
    pub mac: [u8; 8],
    pub mac_s: [u8; 8],
    pub res: [u8; 8],
    pub ck: Block,
    pub ik: Block,
    pub ak: [u8; 6],
    pub ak_s: [u8; 6],
}

impl Subscriber {
    /// None when the set is neither 0 nor 1. Both codes are of the SQN and AMF
    /// given here.
    pub fn outputs(&self, rand: &Block, sqn: &[u8; 6], amf: &[u8; 2]) -> Option<Outputs> {
        match self.set {
            0 => Some(test_set(&TestSet::new(&self.k, rand), sqn, amf)),
            1 => Some(milenage(&Milenage::new(&self.k, &self.opc, rand), sqn, amf)),
            _ => None,
        }
    }

    /// SQN xor AK, AMF, MAC.
    pub fn autn(&self, rand: &Block, sqn: &[u8; 6], amf: &[u8; 2]) -> Option<Block> {
        let outputs = self.outputs(rand, sqn, amf)?;
        let mut autn = [0; 16];
        autn[0..6].copy_from_slice(&xor(sqn, &outputs.ak));
        autn[6..8].copy_from_slice(amf);
        autn[8..16].copy_from_slice(&outputs.mac);
        Some(autn)
    }
}

fn test_set(f: &TestSet, sqn: &[u8; 6], amf: &[u8; 2]) -> Outputs {
    Outputs {
        mac: f.f1(sqn, amf),
        mac_s: f.f1_star(sqn, amf),
        res: f.f2(),
        ck: f.f3(),
        ik: f.f4(),
        ak: f.f5(),
        ak_s: f.f5_star(),
    }
}

fn milenage(f: &Milenage, sqn: &[u8; 6], amf: &[u8; 2]) -> Outputs {
    Outputs {
        mac: f.f1(sqn, amf),
        mac_s: f.f1_star(sqn, amf),
        res: f.f2(),
        ck: f.f3(),
        ik: f.f4(),
        ak: f.f5(),
        ak_s: f.f5_star(),
    }
}
