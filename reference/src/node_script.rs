//! A script for the node that `calls` keeps: how its lines are written, and the
//! records that they meet.

use crate::auc_call_lines::{batch_of, new_auc, rands};
use crate::calls;
use crate::editions::EDITION_1;
use crate::place::{Item, Kind, Place, KINDS, NONE};
use crate::random::Random;
use crate::text::{write_bytes, write_hex, write_number};
use crate::triplet::{self, Triplet};
use crate::vector::{self, Vector};
use crate::vlr::{Node, State, ROOM};

pub const STATES: [State; 3] = [State::Idle, State::Asked, State::Resyncing];

/// The states, and Asked by what is out.
#[derive(Clone, Copy, Debug, PartialEq, Eq)]
pub enum Situation {
    Idle,
    Out(Kind),
    /// A vector of zeros is out.
    ZerosOut,
    Resyncing,
}

pub const SITUATIONS: [Situation; 5] = [
    Situation::Idle,
    Situation::Out(Kind::Vector),
    Situation::Out(Kind::Triplet),
    Situation::ZerosOut,
    Situation::Resyncing,
];

impl Situation {
    pub fn state(self) -> State {
        match self {
            Situation::Idle => State::Idle,
            Situation::Out(_) | Situation::ZerosOut => State::Asked,
            Situation::Resyncing => State::Resyncing,
        }
    }
}

/// Lines and the node after them.
pub struct Script {
    pub node: Node,
    pub random: Random,
    pub lines: Vec<Vec<u8>>,
}

impl Script {
    pub fn new() -> Script {
        Script {
            node: Node::new(),
            random: Random::new(6_303),
            lines: Vec::new(),
        }
    }

    pub fn push(&mut self, line: &[u8]) {
        calls::answer_with(&mut self.node, line);
        self.lines.push(line.to_vec());
    }

    pub fn words(&mut self, words: &[&str]) {
        for word in words {
            self.push(word.as_bytes());
        }
    }

    /// Puts this record in place of the node, unless it is there already.
    pub fn set(&mut self, node: &Node) {
        if self.node != *node {
            self.push(&record_line(node));
        }
    }

    /// Each line meets this same record.
    pub fn each(&mut self, node: &Node, lines: &[Vec<u8>]) {
        for line in lines {
            self.set(node);
            self.push(line);
        }
    }

    /// One item of random bytes.
    pub fn item(&mut self, kind: Kind) -> Vec<u8> {
        match kind {
            Kind::Vector => self.vector().bytes().to_vec(),
            Kind::Triplet => self.triplet().bytes().to_vec(),
        }
    }

    pub fn vector(&mut self) -> Vector {
        Vector {
            rand: self.random.bytes(),
            xres: self.random.bytes(),
            ck: self.random.bytes(),
            ik: self.random.bytes(),
            autn: self.random.bytes(),
        }
    }

    pub fn triplet(&mut self) -> Triplet {
        Triplet {
            rand: self.random.bytes(),
            sres: self.random.bytes(),
            kc: self.random.bytes(),
        }
    }

    pub fn place(&mut self, kind: Kind) -> Place {
        kind.place(&self.item(kind))
    }

    /// A batch of random bytes.
    pub fn batch(&mut self, kind: Kind, n: usize) -> Vec<u8> {
        let items: Vec<Vec<u8>> = (0..n).map(|_| self.item(kind)).collect();
        items.concat()
    }

    /// A batch that a centre made by MILENAGE; for triplets it is converted.
    pub fn given(&mut self, kind: Kind, n: usize) -> Vec<u8> {
        let auc = new_auc(&EDITION_1, 1, &mut self.random);
        let batch = batch_of(&auc, &rands(n, &mut self.random));
        match kind {
            Kind::Vector => batch,
            Kind::Triplet => converted(&batch),
        }
    }

    /// A valid node that holds random items of these kinds.
    pub fn node(&mut self, situation: Situation, held: &[Kind]) -> Node {
        let mut node = Node::new();
        node.state = situation.state();
        node.held = held.len() as u8;
        for (place, kind) in node.places.iter_mut().zip(held) {
            *place = self.place(*kind);
        }
        if let Situation::Out(kind) = situation {
            node.outstanding = self.place(kind);
        }
        node
    }

    /// A node that holds so many, two random ones of both kinds and behind them
    /// vectors of zeros: its line is short.
    pub fn thin_node(&mut self, situation: Situation, held: usize) -> Node {
        let mut node = self.node(situation, &[Kind::Triplet, Kind::Vector]);
        node.held = held as u8;
        node.places[held.min(2)..].fill(NONE);
        node
    }

    /// A node whose places are all random, the two kinds in turn.
    pub fn full_node(&mut self, situation: Situation) -> Node {
        let held: Vec<Kind> = (0..ROOM).map(|place| KINDS[place % 2]).collect();
        self.node(situation, &held)
    }

    /// Every operation as it should be, the answer right, wrong and of the
    /// other kind's length.
    pub fn operations(&mut self, node: &Node) -> Vec<Vec<u8>> {
        let response = response(node);
        let mut wrong = response.clone();
        wrong[self.random.below(response.len())] ^= 1 << self.random.below(8);
        let auts: [u8; 14] = self.random.bytes();
        let mut lines = words(&["ask", "again", "reject", "timeout", "abandon"]);
        lines.extend([
            answer(&response),
            answer(&wrong),
            answer(&after_rand(node)[..12 - response.len()]),
            sync(&auts),
        ]);
        for kind in KINDS {
            let n = 1 + self.random.below(2);
            let batch = self.batch(kind, n);
            lines.push(store(kind, n as u64, &batch));
            lines.push(renew(kind, n as u64, &batch));
        }
        lines
    }

    /// Operations with counts and lengths that are refused, some by two rules.
    pub fn refused_parts(&mut self) -> Vec<Vec<u8>> {
        let batch = self.batch(Kind::Vector, 2);
        let mut lines = Vec::new();
        for (kind, count, length) in [
            (Kind::Vector, 0, 0),
            (Kind::Vector, 0, 72),
            (Kind::Vector, 1, 71),
            (Kind::Vector, 1, 28),
            (Kind::Vector, 2, 72),
            (Kind::Vector, 6, 1),
            (Kind::Triplet, 0, 28),
            (Kind::Triplet, 1, 27),
            (Kind::Triplet, 1, 72),
            (Kind::Triplet, 2, 28),
            (Kind::Triplet, 6, 1),
        ] {
            lines.push(store(kind, count, &batch[..length]));
            lines.push(renew(kind, count, &batch[..length]));
        }
        lines.push(answer(&batch[..7]));
        lines.push(answer(&batch[..5]));
        lines.push(sync(&batch[..15]));
        lines
    }
}

impl Default for Script {
    fn default() -> Script {
        Script::new()
    }
}

/// The triplets of a batch.
fn converted(batch: &[u8]) -> Vec<u8> {
    let n = batch.len() / vector::LENGTH;
    let mut triplets = vec![0; triplet::LENGTH * n];
    triplet::convert(batch, &mut triplets).expect("a whole batch");
    triplets
}

/// What is out behind its RAND: it begins with the response.
pub fn after_rand(node: &Node) -> &[u8] {
    &node.outstanding[17..]
}

/// The response that passes, eight zeros where nothing is out.
pub fn response(node: &Node) -> Vec<u8> {
    match Item::of(&node.outstanding) {
        Some(Item::Triplet(triplet)) => triplet.sres.to_vec(),
        _ => after_rand(node)[..8].to_vec(),
    }
}

pub fn words(words: &[&str]) -> Vec<Vec<u8>> {
    words.iter().map(|word| word.as_bytes().to_vec()).collect()
}

fn with_batch(word: &[u8], kind: Kind, count: u64, batch: &[u8]) -> Vec<u8> {
    let fields = [
        word.to_vec(),
        write_number(kind.byte().into()),
        write_number(count),
        write_bytes(batch),
    ];
    fields.join(&b' ')
}

pub fn store(kind: Kind, count: u64, batch: &[u8]) -> Vec<u8> {
    with_batch(b"store", kind, count, batch)
}

pub fn renew(kind: Kind, count: u64, batch: &[u8]) -> Vec<u8> {
    with_batch(b"renew", kind, count, batch)
}

pub fn answer(res: &[u8]) -> Vec<u8> {
    [b"answer ", &write_bytes(res)[..]].concat()
}

pub fn sync(auts: &[u8]) -> Vec<u8> {
    [b"sync ", &write_bytes(auts)[..]].concat()
}

/// The zero bytes at the end of the places are left out, which keeps it short.
pub fn record_line(node: &Node) -> Vec<u8> {
    let places = node.places.concat();
    let used = places.iter().rposition(|byte| *byte != 0);
    let state = STATES.iter().position(|state| *state == node.state);
    let fields = [
        b"vlr-record".to_vec(),
        write_number(state.expect("one of the three") as u64),
        write_number(node.held.into()),
        write_hex(&node.outstanding),
        write_bytes(&places[..used.map_or(0, |place| place + 1)]),
    ];
    fields.join(&b' ')
}
