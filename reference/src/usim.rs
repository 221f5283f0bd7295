//! The card: its record and its answer to a challenge.

use crate::block::{part, xor, Block};
use crate::editions::{self, Edition};
use crate::functions::{Outputs, Subscriber};

/// The places of every record. What an edition has no index for is zero.
pub const PLACES: usize = 64;

/// D, the largest jump.
pub const D: u64 = 268_435_456;

/// The AMF of every MAC-S, whatever the AMF of the challenge was.
pub const AMF_OF_AUTS: [u8; 2] = [0, 0];

/// The number of a refusal.
#[derive(Clone, Copy, Debug, PartialEq, Eq)]
pub struct Refusal(pub u8);

pub const BAD_RECORD: Refusal = Refusal(1);
pub const BAD_LENGTH: Refusal = Refusal(3);

#[derive(Clone, Debug, PartialEq, Eq)]
pub struct Card {
    pub edition: u8,
    pub subscriber: Subscriber,
    /// One SEQ for each IND.
    pub places: [u64; PLACES],
}

#[derive(Clone, Copy, Debug, PartialEq, Eq)]
pub enum Verdict {
    Accepted { sqn: u64 },
    Sync,
    Mac,
    Refused(Refusal),
}

/// What the verdict does not give is zero, and `card` is the next record.
#[derive(Clone, Debug, PartialEq, Eq)]
pub struct Answer {
    pub verdict: Verdict,
    pub card: Card,
    pub res: [u8; 8],
    pub ck: Block,
    pub ik: Block,
    pub auts: [u8; 14],
}

/// An SQN in its 48 bits.
pub fn sqn_bytes(sqn: u64) -> [u8; 6] {
    let [0, 0, bytes @ ..] = sqn.to_be_bytes() else {
        panic!("an SQN has 48 bits");
    };
    bytes
}

pub fn sqn_of_bytes(bytes: &[u8; 6]) -> u64 {
    bytes
        .iter()
        .fold(0, |sqn, &byte| 256 * sqn + u64::from(byte))
}

impl Card {
    /// All places of a new card are 0.
    pub fn new(edition: u8, subscriber: Subscriber) -> Card {
        Card {
            edition,
            subscriber,
            places: [0; PLACES],
        }
    }

    pub fn is_valid(&self) -> bool {
        let Some(edition) = editions::of(self.edition) else {
            return false;
        };
        let (places, behind) = self.places.split_at(edition.indices());
        self.subscriber.set <= 1
            && places.iter().all(|&seq| seq <= edition.seq_limit())
            && behind.iter().all(|&seq| seq == 0)
    }

    /// The row of a valid card.
    pub fn row(&self) -> &'static Edition {
        editions::of(self.edition).expect("a valid card has a known edition")
    }

    /// The highest place.
    pub fn seq_ms(&self) -> u64 {
        self.places.iter().copied().fold(0, u64::max)
    }

    /// SEQ_MS with the lowest index that holds it.
    pub fn sqn_ms(&self) -> u64 {
        let highest = self.seq_ms();
        let index = self.places.iter().position(|&seq| seq == highest);
        self.row()
            .sqn(highest, index.expect("the highest place is a place"))
    }

    /// The answer to a RAND and an AUTN of any bytes.
    pub fn challenge(&self, rand: &[u8], autn: &[u8]) -> Answer {
        if !self.is_valid() {
            return self.unchanged(Verdict::Refused(BAD_RECORD));
        }
        match (rand.try_into(), autn.try_into()) {
            (Ok(rand), Ok(autn)) => self.answer(&rand, &autn),
            _ => self.unchanged(Verdict::Refused(BAD_LENGTH)),
        }
    }

    /// MAC comes before freshness: a challenge of wrong MAC tells nothing
    /// about the places.
    fn answer(&self, rand: &Block, autn: &Block) -> Answer {
        // AK depends on RAND alone, so that any SQN and AMF serve here.
        let ak = self.outputs(rand, 0, &[0, 0]).ak;
        let sqn = sqn_of_bytes(&xor(&part(autn, 0), &ak));
        let outputs = self.outputs(rand, sqn, &part(autn, 6));
        if outputs.mac != part(autn, 8) {
            self.unchanged(Verdict::Mac)
        } else if !self.is_fresh(sqn) {
            self.sync_failure(rand)
        } else {
            self.acceptance(sqn, outputs)
        }
    }

    /// A SEQ below SEQ_MS is no jump.
    fn is_fresh(&self, sqn: u64) -> bool {
        let (seq, ind) = (self.row().seq(sqn), self.row().ind(sqn));
        let seq_ms = self.seq_ms();
        let jumps_too_far = seq > seq_ms && seq - seq_ms > D;
        seq > self.places[ind] && !jumps_too_far
    }

    /// AUTS is SQN_MS xor AK*, then MAC-S.
    fn sync_failure(&self, rand: &Block) -> Answer {
        let sqn_ms = self.sqn_ms();
        let outputs = self.outputs(rand, sqn_ms, &AMF_OF_AUTS);
        let mut answer = self.unchanged(Verdict::Sync);
        answer.auts[..6].copy_from_slice(&xor(&sqn_bytes(sqn_ms), &outputs.ak_s));
        answer.auts[6..].copy_from_slice(&outputs.mac_s);
        answer
    }

    fn acceptance(&self, sqn: u64, outputs: Outputs) -> Answer {
        let mut answer = self.unchanged(Verdict::Accepted { sqn });
        answer.card.places[self.row().ind(sqn)] = self.row().seq(sqn);
        answer.res = outputs.res;
        answer.ck = outputs.ck;
        answer.ik = outputs.ik;
        answer
    }

    fn unchanged(&self, verdict: Verdict) -> Answer {
        Answer {
            verdict,
            card: self.clone(),
            res: [0; 8],
            ck: [0; 16],
            ik: [0; 16],
            auts: [0; 14],
        }
    }

    fn outputs(&self, rand: &Block, sqn: u64, amf: &[u8; 2]) -> Outputs {
        let outputs = self.subscriber.outputs(rand, &sqn_bytes(sqn), amf);
        outputs.expect("a valid card has a known set")
    }
}
