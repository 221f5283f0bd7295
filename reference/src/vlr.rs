//! The node: its record and its operations. Each gives the answer with the next
//! record; a refusal leaves the record as it was.

use crate::auc::BAD_COUNT;
use crate::block::Block;
use crate::place::{Item, Kind, Place, NONE};
use crate::usim::{Refusal, BAD_LENGTH, BAD_RECORD};
use crate::vector::MOST;

pub const WRONG_STATE: Refusal = Refusal(7);
pub const NOTHING_HELD: Refusal = Refusal(8);
pub const NO_ROOM: Refusal = Refusal(9);

/// The most vectors and triplets that are held together.
pub const ROOM: usize = 16;

#[derive(Clone, Copy, Debug, PartialEq, Eq)]
pub enum State {
    Idle,
    Asked,
    Resyncing,
}

#[derive(Clone, Debug, PartialEq, Eq)]
pub struct Node {
    pub state: State,
    pub held: u8,
    /// What was asked, zero when there is none.
    pub outstanding: Place,
    /// What is held, of both kinds in one queue, oldest first; unused places
    /// are zero.
    pub places: [Place; ROOM],
}

#[derive(Clone, Copy, Debug, PartialEq, Eq)]
pub enum Outcome {
    Done,
    Passed,
    Cause(u8),
}

/// What the operation does not give is zero, and `node` is the next record.
#[derive(Clone, Debug, PartialEq, Eq)]
pub struct Answer {
    pub outcome: Outcome,
    pub rand: Block,
    pub autn: Block,
    pub auts: [u8; 14],
    pub ck: Block,
    pub ik: Block,
    pub kc: [u8; 8],
    pub node: Node,
}

impl Answer {
    pub fn only(outcome: Outcome, node: Node) -> Answer {
        Answer {
            outcome,
            rand: [0; 16],
            autn: [0; 16],
            auts: [0; 14],
            ck: [0; 16],
            ik: [0; 16],
            kc: [0; 8],
            node,
        }
    }
}

impl Node {
    pub fn new() -> Node {
        Node {
            state: State::Idle,
            held: 0,
            outstanding: NONE,
            places: [NONE; ROOM],
        }
    }

    pub fn is_valid(&self) -> bool {
        let held = usize::from(self.held);
        let holds_an_item = |place: &Place| Item::of(place).is_some();
        held <= ROOM
            && self.places[..held].iter().all(holds_an_item)
            && self.places[held..].iter().all(|place| *place == NONE)
            && match self.state {
                State::Asked => holds_an_item(&self.outstanding),
                State::Idle | State::Resyncing => self.outstanding == NONE,
            }
    }

    pub fn store(&self, kind: Kind, count: u64, batch: &[u8]) -> Result<Answer, Refusal> {
        let places = self.batch(kind, count, batch)?;
        if self.state == State::Resyncing {
            return Err(WRONG_STATE);
        }
        let mut held = self.queue();
        held.extend(places);
        if held.len() > ROOM {
            return Err(NO_ROOM);
        }
        Ok(Answer::only(Outcome::Done, self.holding(&held)))
    }

    pub fn ask(&self) -> Result<Answer, Refusal> {
        self.valid()?.in_state(State::Idle)?;
        let held = self.queue();
        let Some((oldest, others)) = held.split_first() else {
            return Err(NOTHING_HELD);
        };
        let mut node = self.holding(others);
        node.state = State::Asked;
        node.outstanding = *oldest;
        node.again()
    }

    pub fn again(&self) -> Result<Answer, Refusal> {
        let item = self.valid()?.out().ok_or(WRONG_STATE)?;
        let nothing = Answer::only(Outcome::Done, self.clone());
        Ok(match item {
            Item::Vector(vector) => Answer {
                rand: vector.rand,
                autn: vector.autn,
                ..nothing
            },
            Item::Triplet(triplet) => Answer {
                rand: triplet.rand,
                ..nothing
            },
        })
    }

    pub fn answer(&self, res: &[u8]) -> Result<Answer, Refusal> {
        let out = self.valid()?.out();
        if res.len() != response_length(out.as_ref()) {
            return Err(BAD_LENGTH);
        }
        let next = self.leaving(State::Idle);
        Ok(match out.ok_or(WRONG_STATE)? {
            Item::Vector(vector) if *res == vector.xres => Answer {
                ck: vector.ck,
                ik: vector.ik,
                ..Answer::only(Outcome::Passed, next)
            },
            Item::Triplet(triplet) if *res == triplet.sres => Answer {
                kc: triplet.kc,
                ..Answer::only(Outcome::Passed, next)
            },
            _ => Answer::only(Outcome::Cause(2), next),
        })
    }

    pub fn reject(&self) -> Result<Answer, Refusal> {
        self.valid()?.in_state(State::Asked)?;
        Ok(Answer::only(Outcome::Cause(1), self.leaving(State::Idle)))
    }

    /// With a triplet out there is no AUTN, and so no synchronisation failure.
    pub fn sync(&self, auts: &[u8]) -> Result<Answer, Refusal> {
        let node = self.valid()?;
        let auts = auts.try_into().map_err(|_| BAD_LENGTH)?;
        let Some(Item::Vector(vector)) = node.out() else {
            return Err(WRONG_STATE);
        };
        Ok(Answer {
            rand: vector.rand,
            auts,
            ..Answer::only(Outcome::Done, self.leaving(State::Resyncing))
        })
    }

    pub fn renew(&self, kind: Kind, count: u64, batch: &[u8]) -> Result<Answer, Refusal> {
        let places = self.batch(kind, count, batch)?;
        self.in_state(State::Resyncing)?;
        let node = self.holding(&places).leaving(State::Idle);
        Ok(Answer::only(Outcome::Done, node))
    }

    pub fn timeout(&self) -> Result<Answer, Refusal> {
        self.valid()?.in_state(State::Resyncing)?;
        Ok(Answer::only(Outcome::Done, self.leaving(State::Idle)))
    }

    pub fn abandon(&self) -> Result<Answer, Refusal> {
        self.valid()?.in_state(State::Asked)?;
        Ok(Answer::only(Outcome::Done, self.leaving(State::Idle)))
    }

    fn valid(&self) -> Result<&Node, Refusal> {
        match self.is_valid() {
            true => Ok(self),
            false => Err(BAD_RECORD),
        }
    }

    fn in_state(&self, state: State) -> Result<(), Refusal> {
        match self.state == state {
            true => Ok(()),
            false => Err(WRONG_STATE),
        }
    }

    /// What was asked and is not answered. Nothing is out but in Asked.
    fn out(&self) -> Option<Item> {
        match self.state {
            State::Asked => Item::of(&self.outstanding),
            State::Idle | State::Resyncing => None,
        }
    }

    /// A place for each of the 1 to 5 items of a batch, for a valid record.
    fn batch(&self, kind: Kind, count: u64, batch: &[u8]) -> Result<Vec<Place>, Refusal> {
        self.valid()?;
        if count == 0 || count > MOST as u64 {
            return Err(BAD_COUNT);
        }
        if batch.len() as u64 != kind.length() as u64 * count {
            return Err(BAD_LENGTH);
        }
        let items = batch.chunks(kind.length());
        Ok(items.map(|item| kind.place(item)).collect())
    }

    /// The places in use.
    fn queue(&self) -> Vec<Place> {
        self.places[..usize::from(self.held)].to_vec()
    }

    /// The same node with these places in use.
    fn holding(&self, places: &[Place]) -> Node {
        let mut node = self.clone();
        node.places = [NONE; ROOM];
        node.places[..places.len()].copy_from_slice(places);
        node.held = places.len() as u8;
        node
    }

    /// In another state than Asked nothing is outstanding.
    fn leaving(&self, state: State) -> Node {
        Node {
            state,
            outstanding: NONE,
            ..self.clone()
        }
    }
}

/// The length of the response to what is out; with nothing out, a vector's.
fn response_length(out: Option<&Item>) -> usize {
    match out {
        Some(Item::Triplet(_)) => 4,
        Some(Item::Vector(_)) | None => 8,
    }
}

impl Default for Node {
    fn default() -> Node {
        Node::new()
    }
}
