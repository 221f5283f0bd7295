//! The bench: one card, one centre record and one node, a line at a time. All
//! its records are of edition 1.

use crate::auc::{Auc, Refused, Start};
use crate::block::Block;
use crate::editions::EDITION_1;
use crate::functions::Subscriber;
use crate::place::Kind;
use crate::text::{self, read_hex, read_number, write_hex, BAD_LINE};
use crate::usim::{sqn_bytes, Card, Refusal, Verdict, BAD_RECORD};
use crate::vector::LENGTH;
use crate::vlr::Node;

/// The most bytes that a line may have.
pub const LONGEST: usize = 512;

pub fn answers(input: &[u8]) -> Vec<u8> {
    let mut bench = Bench::default();
    text::answers(input, |line| bench.answer(line))
}

/// Before the first key taken there is no card, no centre and no node.
#[derive(Clone, Debug, Default, PartialEq, Eq)]
pub struct Bench {
    desk: Option<Desk>,
}

#[derive(Clone, Debug, PartialEq, Eq)]
struct Desk {
    card: Card,
    auc: Auc,
    node: Node,
    /// The last AUTS with its RAND, since the key was taken.
    failure: Option<(Block, [u8; 14])>,
}

/// Why a line changes nothing.
enum Trouble {
    BadLine,
    Refused(u8),
}

impl From<Refusal> for Trouble {
    fn from(Refusal(number): Refusal) -> Trouble {
        Trouble::Refused(number)
    }
}

impl From<Refused> for Trouble {
    fn from(refused: Refused) -> Trouble {
        Trouble::Refused(refused.number())
    }
}

impl Bench {
    /// The answer to one line, without its newline.
    pub fn answer(&mut self, line: &[u8]) -> Vec<u8> {
        // Nothing is kept of a line that is bad or refused.
        let mut next = self.clone();
        match next.step(line) {
            Ok(printed) => {
                *self = next;
                printed.into_bytes()
            }
            Err(Trouble::BadLine) => BAD_LINE.to_vec(),
            Err(Trouble::Refused(number)) => format!("refused {number}").into_bytes(),
        }
    }

    fn step(&mut self, line: &[u8]) -> Result<String, Trouble> {
        match (read(line).ok_or(Trouble::BadLine)?, &mut self.desk) {
            (Line::Key(subscriber, amf), _) => {
                self.desk = Some(Desk::new(subscriber, amf)?);
                Ok("key ok".to_string())
            }
            (_, None) => Err(Trouble::BadLine),
            (Line::Order(rands), Some(desk)) => desk.order(&rands),
            (Line::Ask, Some(desk)) => desk.ask(),
            (Line::Put(seq_he, next), Some(desk)) => desk.put(seq_he, next),
            (Line::Resync(rands), Some(desk)) => desk.resync(&rands),
            (Line::Show, Some(desk)) => Ok(desk.show()),
        }
    }
}

impl Desk {
    /// Everything is new.
    fn new(subscriber: Subscriber, amf: [u8; 2]) -> Result<Desk, Trouble> {
        let auc = Auc::new(EDITION_1.number, subscriber.clone(), amf);
        if !auc.is_valid() {
            return Err(BAD_RECORD.into());
        }
        Ok(Desk {
            card: Card::new(EDITION_1.number, subscriber),
            auc,
            node: Node::new(),
            failure: None,
        })
    }

    fn order(&mut self, rands: &[Block]) -> Result<String, Trouble> {
        let n = rands.len();
        let mut batch = vec![0; LENGTH * n];
        self.auc = self.auc.order(n as u64, &rands.concat(), &mut batch)?;
        self.node = self.node.store(Kind::Vector, n as u64, &batch)?.node;
        Ok(format!("stored {n} held {}", self.node.held))
    }

    fn ask(&mut self) -> Result<String, Trouble> {
        let asked = self.node.ask()?;
        let answer = self.card.challenge(&asked.rand, &asked.autn);
        match answer.verdict {
            Verdict::Accepted { sqn } => {
                self.node = asked.node.answer(&answer.res)?.node;
                self.card = answer.card;
                let sqn = String::from_utf8_lossy(&write_hex(&sqn_bytes(sqn))).into_owned();
                Ok(format!("pass {sqn} left {}", self.node.held))
            }
            Verdict::Sync => {
                self.node = asked.node.sync(&answer.auts)?.node;
                self.failure = Some((asked.rand, answer.auts));
                Ok("sync".to_string())
            }
            Verdict::Mac => {
                self.node = asked.node.reject()?.node;
                Ok("mac".to_string())
            }
            Verdict::Refused(refusal) => Err(refusal.into()),
        }
    }

    fn put(&mut self, seq_he: u64, next: u8) -> Result<String, Trouble> {
        self.auc.seq_he = seq_he;
        self.auc.next = next;
        match self.auc.is_valid() {
            true => Ok("put ok".to_string()),
            false => Err(BAD_RECORD.into()),
        }
    }

    fn resync(&mut self, rands: &[Block]) -> Result<String, Trouble> {
        let (rand, auts) = self.failure.ok_or(Trouble::BadLine)?;
        let n = rands.len();
        let mut batch = vec![0; LENGTH * n];
        let lent = rands.concat();
        let (start, auc) = self
            .auc
            .resync(n as u64, [&rand, &auts], &lent, &mut batch)?;
        self.auc = auc;
        self.node = self.node.renew(Kind::Vector, n as u64, &batch)?.node;
        let word = match start {
            Start::Kept => "kept",
            Start::Reset => "reset",
        };
        Ok(format!("{word} {n} held {}", self.node.held))
    }

    fn show(&self) -> String {
        let Auc { seq_he, next, .. } = self.auc;
        let sqn_ms = self.card.sqn_ms();
        let row = self.card.row();
        let (seq_ms, index) = (row.seq(sqn_ms), row.ind(sqn_ms));
        format!("auc {seq_he} {next} card {seq_ms} {index}")
    }
}

/// A line of the right form.
enum Line {
    Key(Subscriber, [u8; 2]),
    Order(Vec<Block>),
    Ask,
    Put(u64, u8),
    Resync(Vec<Block>),
    Show,
}

fn read(line: &[u8]) -> Option<Line> {
    if line.len() > LONGEST {
        return None;
    }
    let fields: Vec<&[u8]> = line.split(|&b| b == b' ').collect();
    match fields[..] {
        [b"key", set, k, opc, amf] => {
            let subscriber = Subscriber {
                set: read_digits(set, 1)? as u8,
                k: read_hex(k)?,
                opc: read_hex(opc)?,
            };
            Some(Line::Key(subscriber, read_hex(amf)?))
        }
        [b"order", count, ref rands @ ..] => Some(Line::Order(read_rands(count, rands)?)),
        [b"ask"] => Some(Line::Ask),
        [b"put", seq_he, next] => Some(Line::Put(
            read_digits(seq_he, 13)?,
            read_digits(next, 2)? as u8,
        )),
        [b"resync", count, ref rands @ ..] => Some(Line::Resync(read_rands(count, rands)?)),
        [b"show"] => Some(Line::Show),
        _ => None,
    }
}

/// A decimal number of 1 to so many digits.
fn read_digits(field: &[u8], most: usize) -> Option<u64> {
    match field.len() <= most {
        true => read_number(field),
        false => None,
    }
}

/// A count of 1 to 5 and that many RANDs.
fn read_rands(count: &[u8], rands: &[&[u8]]) -> Option<Vec<Block>> {
    let count = read_digits(count, 1)?;
    if !(1..=5).contains(&count) || count != rands.len() as u64 {
        return None;
    }
    rands.iter().map(|rand| read_hex(rand)).collect()
}
