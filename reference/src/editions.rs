//! The editions of a card and of a centre record: one row for each, and all
//! that follows from it. Nothing else in this program asks for an edition.

use crate::usim::PLACES;

/// The bits of an SQN: SEQ, then IND.
const SQN: usize = 48;

/// The bytes with which both images begin: edition and set, K, OPc.
const HEAD: usize = 1 + 16 + 16;

const AMF: usize = 2;

#[derive(Clone, Copy, Debug, PartialEq, Eq)]
pub struct Edition {
    /// As a record carries it, and an image in its first four bits.
    pub number: u8,
    /// The bits of an index.
    pub width: usize,
    /// The index goes up by 1 for every vector, or else for every batch.
    pub index_per_vector: bool,
}

pub const EDITION_1: Edition = Edition {
    number: 1,
    width: 5,
    index_per_vector: false,
};

pub const EDITION_2: Edition = Edition {
    number: 2,
    width: 6,
    index_per_vector: true,
};

pub static KNOWN: [Edition; 2] = [EDITION_1, EDITION_2];

/// None where the edition is unknown.
pub fn of(number: u8) -> Option<&'static Edition> {
    KNOWN.iter().find(|edition| edition.number == number)
}

impl Edition {
    pub const fn indices(&self) -> usize {
        1 << self.width
    }

    pub const fn seq_bits(&self) -> usize {
        SQN - self.width
    }

    /// The largest SEQ.
    pub const fn seq_limit(&self) -> u64 {
        (1 << self.seq_bits()) - 1
    }

    /// The bytes of a card's image.
    pub const fn card_image(&self) -> usize {
        HEAD + self.indices() * self.seq_bits() / 8
    }

    /// The bytes of a centre's image.
    pub const fn auc_image(&self) -> usize {
        HEAD + AMF + SQN / 8
    }

    pub fn sqn(&self, seq: u64, ind: usize) -> u64 {
        self.indices() as u64 * seq + ind as u64
    }

    pub fn seq(&self, sqn: u64) -> u64 {
        sqn / self.indices() as u64
    }

    pub fn ind(&self, sqn: u64) -> usize {
        (sqn % self.indices() as u64) as usize
    }

    /// The index of the vector at place k of a batch.
    pub fn index(&self, next: u8, k: usize) -> usize {
        let steps = if self.index_per_vector { k } else { 0 };
        (usize::from(next) + steps) % self.indices()
    }

    /// The next index after a batch of n vectors.
    pub fn next_index(&self, next: u8, n: usize) -> u8 {
        let steps = if self.index_per_vector { n } else { 1 };
        ((usize::from(next) + steps) % self.indices()) as u8
    }

    /// A place for each index, and zeros behind.
    pub fn places(&self, mut place: impl FnMut(usize) -> u64) -> [u64; PLACES] {
        let mut places = [0; PLACES];
        for (ind, seq) in places.iter_mut().enumerate().take(self.indices()) {
            *seq = place(ind);
        }
        places
    }
}
