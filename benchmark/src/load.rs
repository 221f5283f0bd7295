//! What all contenders are given: one subscriber of set 1, a card and a centre of
//! one edition, and the same RANDs.

use reference::auc::Auc;
use reference::block::Block;
use reference::editions::Edition;
use reference::functions::Subscriber;
use reference::milenage;
use reference::random::Random;
use reference::usim::{sqn_bytes, Card};

/// The RANDs; all are different.
pub const RANDS: usize = 10_000;

#[derive(Clone)]
pub struct Load {
    pub op: Block,
    pub auc: Auc,
    pub card: Card,
    pub rands: Vec<Block>,
}

/// A challenge that failed, and the AUTS of a card that is ahead of the centre.
pub struct Failure {
    pub rand: Block,
    pub auts: [u8; 14],
}

impl Load {
    pub fn new(edition: &Edition) -> Load {
        let mut random = Random::new(35_206);
        let (k, op) = (random.bytes(), random.bytes());
        let opc = milenage::opc(&k, &op);
        let subscriber = Subscriber { set: 1, k, opc };
        let mut rands: Vec<Block> = (0..RANDS).map(|_| random.bytes()).collect();
        for (number, rand) in rands.iter_mut().enumerate() {
            rand[..8].copy_from_slice(&(number as u64).to_be_bytes());
        }
        Load {
            op,
            auc: Auc::new(edition.number, subscriber.clone(), random.bytes()),
            card: Card::new(edition.number, subscriber),
            rands,
        }
    }

    /// The RANDs of batches, one behind the other.
    pub fn batches(&self, size: usize) -> Vec<Vec<u8>> {
        self.rands
            .chunks(size)
            .map(|rands| rands.concat())
            .collect()
    }

    /// Out of range for the centre, so that MAC-S is looked at. SEQ 0 is fresh
    /// to no card.
    pub fn failure(&self) -> Failure {
        let mut card = self.card.clone();
        card.places[3] = 1_000;
        let rand = self.rands[0];
        let autn = card.subscriber.autn(&rand, &sqn_bytes(0), &self.auc.amf);
        let answer = card.challenge(&rand, &autn.expect("a known set"));
        Failure {
            rand,
            auts: answer.auts,
        }
    }
}
