//! A GSM triplet and its 28 bytes: RAND, SRES, Kc. The centre makes it from a
//! vector by the conversions c1, c2 and c3 of TS 33.102, clause 6.8.1.2.

use crate::block::{part, xor, Block};
use crate::usim::{Refusal, BAD_LENGTH};
use crate::vector::{self, Vector, MOST};

pub const LENGTH: usize = 28;

/// The bytes of a triplet.
pub type Bytes = [u8; LENGTH];

#[derive(Clone, Debug, PartialEq, Eq)]
pub struct Triplet {
    pub rand: Block,
    pub sres: [u8; 4],
    pub kc: [u8; 8],
}

impl Triplet {
    pub fn of_vector(vector: &Vector) -> Triplet {
        Triplet {
            rand: vector.rand,
            sres: c2(&vector.xres),
            kc: c3(&vector.ck, &vector.ik),
        }
    }

    pub fn bytes(&self) -> Bytes {
        let parts: [&[u8]; 3] = [&self.rand, &self.sres, &self.kc];
        let bytes = parts.concat();
        bytes.try_into().expect("the parts have 28 bytes together")
    }

    pub fn of(bytes: &Bytes) -> Triplet {
        Triplet {
            rand: std::array::from_fn(|i| bytes[i]),
            sres: std::array::from_fn(|i| bytes[16 + i]),
            kc: std::array::from_fn(|i| bytes[20 + i]),
        }
    }
}

/// SRES: the xor of the four quarters of XRES, padded with zeros to 16 bytes.
fn c2(xres: &[u8]) -> [u8; 4] {
    let mut padded: Block = [0; 16];
    padded[..xres.len()].copy_from_slice(xres);
    let [first, second, third, fourth] = [0, 4, 8, 12].map(|from| part(&padded, from));
    xor(&xor(&first, &second), &xor(&third, &fourth))
}

/// Kc: the xor of the two halves of CK and the two halves of IK.
fn c3(ck: &Block, ik: &Block) -> [u8; 8] {
    let halves = |key| xor(&part(key, 0), &part(key, 8));
    xor(&halves(ck), &halves(ik))
}

/// Fills the lent bytes with the triplets of a batch of 1 to 5 vectors. A
/// refusal writes nothing.
pub fn convert(batch: &[u8], triplets: &mut [u8]) -> Result<(), Refusal> {
    let n = batch.len() / vector::LENGTH;
    let whole = batch.len() == vector::LENGTH * n && (1..=MOST).contains(&n);
    if !whole || triplets.len() != LENGTH * n {
        return Err(BAD_LENGTH);
    }
    let vectors = batch.chunks(vector::LENGTH);
    for (vector, triplet) in vectors.zip(triplets.chunks_mut(LENGTH)) {
        let vector = Vector::of(vector.try_into().expect("72 bytes"));
        triplet.copy_from_slice(&Triplet::of_vector(&vector).bytes());
    }
    Ok(())
}
