//! The centre: its record, its batches and its resynchronisation.

use crate::block::{xor, Block};
use crate::editions::{self, Edition};
use crate::functions::{Outputs, Subscriber};
use crate::usim::{sqn_bytes, sqn_of_bytes, Refusal, AMF_OF_AUTS, BAD_LENGTH, BAD_RECORD, D};
use crate::vector::{Vector, LENGTH, MOST};

pub const BAD_COUNT: Refusal = Refusal(2);
pub const BAD_MAC_S: Refusal = Refusal(5);
pub const PAST_THE_LIMIT: Refusal = Refusal(6);

/// The count that a count of 0 stands for.
const DEFAULT: usize = 5;

#[derive(Clone, Debug, PartialEq, Eq)]
pub struct Auc {
    pub edition: u8,
    pub subscriber: Subscriber,
    pub amf: [u8; 2],
    pub seq_he: u64,
    /// The index with which the next batch begins.
    pub next: u8,
}

/// Why a batch is refused; only refusal 4 has more to say than its number.
#[derive(Clone, Copy, Debug, PartialEq, Eq)]
pub enum Refused {
    By(Refusal),
    /// The earliest pair of equal RANDs, by their places.
    EqualRands(usize, usize),
}

impl Refused {
    pub fn number(self) -> u8 {
        match self {
            Refused::By(Refusal(number)) => number,
            Refused::EqualRands(..) => 4,
        }
    }
}

impl From<Refusal> for Refused {
    fn from(refusal: Refusal) -> Refused {
        Refused::By(refusal)
    }
}

/// What became of SEQ_HE at a resynchronisation.
#[derive(Clone, Copy, Debug, PartialEq, Eq)]
pub enum Start {
    Kept,
    Reset,
}

impl Auc {
    /// SEQ_HE and the next index of a new record are 0.
    pub fn new(edition: u8, subscriber: Subscriber, amf: [u8; 2]) -> Auc {
        Auc {
            edition,
            subscriber,
            amf,
            seq_he: 0,
            next: 0,
        }
    }

    pub fn is_valid(&self) -> bool {
        let Some(edition) = editions::of(self.edition) else {
            return false;
        };
        self.subscriber.set <= 1
            && self.seq_he <= edition.seq_limit()
            && usize::from(self.next) < edition.indices()
    }

    /// The row of a valid record.
    pub fn row(&self) -> &'static Edition {
        editions::of(self.edition).expect("a valid record has a known edition")
    }

    /// Fills the lent batch and gives the next record. A refusal changes
    /// nothing.
    pub fn order(&self, count: u64, rands: &[u8], batch: &mut [u8]) -> Result<Auc, Refused> {
        let n = self.count(count)?;
        let rands = distinct(lent(n, rands, batch)?)?;
        self.give(self.seq_he, &rands, batch)
    }

    /// The same for a card that answered a RAND with an AUTS.
    pub fn resync(
        &self,
        count: u64,
        [rand, auts]: [&[u8]; 2],
        rands: &[u8],
        batch: &mut [u8],
    ) -> Result<(Start, Auc), Refused> {
        let n = self.count(count)?;
        let (Ok(rand), Ok(auts)) = (rand.try_into(), auts.try_into()) else {
            return Err(BAD_LENGTH.into());
        };
        let rands = distinct(lent(n, rands, batch)?)?;
        let (start, seq_he) = self.start(&rand, &auts, n)?;
        Ok((start, self.give(seq_he, &rands, batch)?))
    }

    /// The count that results, for a valid record.
    fn count(&self, count: u64) -> Result<usize, Refusal> {
        if !self.is_valid() {
            return Err(BAD_RECORD);
        }
        match usize::try_from(count) {
            Ok(0) => Ok(DEFAULT),
            Ok(n @ 1..=MOST) => Ok(n),
            _ => Err(BAD_COUNT),
        }
    }

    /// The SEQ_HE from which a resynchronised batch counts. MAC-S is looked at
    /// only where SEQ_HE is out of range.
    fn start(&self, rand: &Block, auts: &[u8; 14], n: usize) -> Result<(Start, u64), Refusal> {
        let (concealed, mac_s) = auts.split_at(6);
        // AK* depends on RAND alone, so that any SQN and AMF serve here.
        let ak_s = self.outputs(rand, 0, &AMF_OF_AUTS).ak_s;
        let concealed: [u8; 6] = concealed.try_into().expect("six bytes");
        let sqn_ms = sqn_of_bytes(&xor(&concealed, &ak_s));
        let seq_ms = self.row().seq(sqn_ms);
        if self.is_in_range(seq_ms, n) {
            Ok((Start::Kept, self.seq_he))
        } else if self.outputs(rand, sqn_ms, &AMF_OF_AUTS).mac_s == mac_s {
            Ok((Start::Reset, seq_ms))
        } else {
            Err(BAD_MAC_S)
        }
    }

    /// Every number of the batch is asked about, not only the first.
    fn is_in_range(&self, seq_ms: u64, n: usize) -> bool {
        self.seq_he >= seq_ms && self.seq_he + n as u64 <= seq_ms + D
    }

    fn give(&self, start: u64, rands: &[Block], batch: &mut [u8]) -> Result<Auc, Refused> {
        let (edition, n) = (self.row(), rands.len());
        let seq_he = start + n as u64;
        if seq_he > edition.seq_limit() {
            return Err(PAST_THE_LIMIT.into());
        }
        for (k, (place, rand)) in batch.chunks_mut(LENGTH).zip(rands).enumerate() {
            let sqn = edition.sqn(start + 1 + k as u64, edition.index(self.next, k));
            place.copy_from_slice(&self.vector(rand, sqn).bytes());
        }
        Ok(Auc {
            seq_he,
            next: edition.next_index(self.next, n),
            ..self.clone()
        })
    }

    fn vector(&self, rand: &Block, sqn: u64) -> Vector {
        let outputs = self.outputs(rand, sqn, &self.amf);
        let autn = self.subscriber.autn(rand, &sqn_bytes(sqn), &self.amf);
        Vector {
            rand: *rand,
            xres: outputs.res,
            ck: outputs.ck,
            ik: outputs.ik,
            autn: autn.expect("a valid record has a known set"),
        }
    }

    fn outputs(&self, rand: &Block, sqn: u64, amf: &[u8; 2]) -> Outputs {
        let outputs = self.subscriber.outputs(rand, &sqn_bytes(sqn), amf);
        outputs.expect("a valid record has a known set")
    }
}

/// The RANDs of n vectors, if RANDs and batch have the length for so many.
fn lent(n: usize, rands: &[u8], batch: &[u8]) -> Result<Vec<Block>, Refusal> {
    if rands.len() != 16 * n || batch.len() != LENGTH * n {
        return Err(BAD_LENGTH);
    }
    let blocks = rands.chunks(16);
    Ok(blocks
        .map(|rand| rand.try_into().expect("16 bytes"))
        .collect())
}

fn distinct(rands: Vec<Block>) -> Result<Vec<Block>, Refused> {
    for first in 0..rands.len() {
        for second in first + 1..rands.len() {
            if rands[first] == rands[second] {
                return Err(Refused::EqualRands(first, second));
            }
        }
    }
    Ok(rands)
}
