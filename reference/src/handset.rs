//! The handset's store of the last answer, and its answer to a challenge, which
//! may be a repeated one. Voice and data have a store each; a call works on the
//! one that is lent.

use crate::usim::{self, Card, Refusal, Verdict, BAD_LENGTH};

pub const RAND: usize = 16;
pub const AUTN: usize = 16;

/// RES 8, CK 16, IK 16.
pub const ANSWER: usize = 40;

/// RAND and the answer to it.
pub const STORED: usize = RAND + ANSWER;

/// The bytes are lent and may have any length: it is judged by the call.
#[derive(Clone, Debug, PartialEq, Eq)]
pub struct Store {
    pub held: bool,
    pub bytes: Vec<u8>,
}

#[derive(Clone, Copy, Debug, PartialEq, Eq)]
pub enum Outcome {
    Repeat,
    Fresh,
    Sync,
    Mac,
    Refused(Refusal),
}

/// The card, the store and the bytes lent for a fresh answer are those after
/// the call. AUTS is zero unless the card gives one.
#[derive(Clone, Debug, PartialEq, Eq)]
pub struct Answer {
    pub outcome: Outcome,
    pub auts: [u8; 14],
    pub card: Card,
    pub store: Store,
    pub fresh: Vec<u8>,
}

impl Answer {
    /// RES, CK and IK: a part of the stored or of the fresh bytes themselves,
    /// empty after a failure or a refusal.
    pub fn part(&self) -> &[u8] {
        match self.outcome {
            Outcome::Repeat => &self.store.bytes[RAND..],
            Outcome::Fresh => &self.fresh,
            Outcome::Sync | Outcome::Mac | Outcome::Refused(_) => &[],
        }
    }
}

impl Store {
    pub fn cleared() -> Store {
        Store {
            held: false,
            bytes: vec![0; STORED],
        }
    }

    /// Every length comes before all else, on a repeat too, and before what the
    /// card itself would refuse.
    pub fn challenge(&self, card: &Card, rand: &[u8], autn: &[u8], fresh: &[u8]) -> Answer {
        let lengths = [rand.len(), autn.len(), self.bytes.len(), fresh.len()];
        if lengths != [RAND, AUTN, STORED, ANSWER] {
            return self.unchanged(Outcome::Refused(BAD_LENGTH), card, fresh);
        }
        // A repeat asks nothing of the card, so that AUTN is not looked into.
        if self.held && self.bytes[..RAND] == *rand {
            return self.unchanged(Outcome::Repeat, card, fresh);
        }
        let asked = card.challenge(rand, autn);
        let outcome = match asked.verdict {
            Verdict::Accepted { .. } => return accepted(rand, asked),
            Verdict::Sync => Outcome::Sync,
            Verdict::Mac => Outcome::Mac,
            Verdict::Refused(refusal) => Outcome::Refused(refusal),
        };
        Answer {
            auts: asked.auts,
            ..self.unchanged(outcome, card, fresh)
        }
    }

    /// For the security mode command and for a lost connection.
    pub fn clear(&self) -> Result<Store, Refusal> {
        match self.bytes.len() {
            STORED => Ok(Store::cleared()),
            _ => Err(BAD_LENGTH),
        }
    }

    fn unchanged(&self, outcome: Outcome, card: &Card, fresh: &[u8]) -> Answer {
        Answer {
            outcome,
            auts: [0; 14],
            card: card.clone(),
            store: self.clone(),
            fresh: fresh.to_vec(),
        }
    }
}

/// RAND and the whole answer take the place of all that was stored.
fn accepted(rand: &[u8], asked: usim::Answer) -> Answer {
    let fresh = [&asked.res[..], &asked.ck, &asked.ik].concat();
    Answer {
        outcome: Outcome::Fresh,
        auts: asked.auts,
        card: asked.card,
        store: Store {
            held: true,
            bytes: [rand, &fresh].concat(),
        },
        fresh,
    }
}
