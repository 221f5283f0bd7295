//! Lines for the centre's words of `calls`: how each is written, and what the
//! centre is lent.

use crate::auc::Auc;
use crate::auc_image;
use crate::block::Block;
use crate::call_lines::{autn, new_card};
use crate::editions::Edition;
use crate::functions::Subscriber;
use crate::random::Random;
use crate::text::{write_bytes, write_hex, write_number};
use crate::usim::Card;
use crate::vector;

/// The places of the fields in an `auc-write`, the word being the first.
pub const EDITION: usize = 1;
pub const SET: usize = 2;
pub const BUFFER: usize = 6;
pub const SEQ_HE: usize = 7;
pub const NEXT: usize = 8;

/// What a line lends for a batch. Edges exchange some of it.
#[derive(Clone)]
pub struct Lent {
    pub image: Vec<u8>,
    pub count: u64,
    pub rands: Vec<u8>,
    pub length: usize,
}

impl Lent {
    /// RANDs and buffer as named for a count of 0 to 5.
    pub fn new(auc: &Auc, count: usize, random: &mut Random) -> Lent {
        let n = if count == 0 { 5 } else { count };
        Lent {
            image: image_of(auc),
            count: count as u64,
            rands: rands(n, random),
            length: vector::LENGTH * n,
        }
    }

    pub fn order(&self) -> Vec<u8> {
        let fields = [
            b"order".to_vec(),
            write_bytes(&self.image),
            write_number(self.count),
            write_bytes(&self.rands),
            write_number(self.length as u64),
        ];
        fields.join(&b' ')
    }

    pub fn resync(&self, rand: &[u8], auts: &[u8]) -> Vec<u8> {
        let fields = [
            b"resync".to_vec(),
            write_bytes(&self.image),
            write_number(self.count),
            write_bytes(rand),
            write_bytes(auts),
            write_bytes(&self.rands),
            write_number(self.length as u64),
        ];
        fields.join(&b' ')
    }
}

/// The given number of RANDs, no two of them equal.
pub fn rands(n: usize, random: &mut Random) -> Vec<u8> {
    let mut rands = Vec::new();
    for place in 0..n {
        let mut rand: Block = random.bytes();
        rand[7] = place as u8;
        rands.extend(rand);
    }
    rands
}

pub fn image_of(auc: &Auc) -> Vec<u8> {
    auc_image::image(auc).expect("a valid record")
}

pub fn new_auc(edition: &Edition, set: u8, random: &mut Random) -> Auc {
    let subscriber = new_card(edition, set, random).subscriber;
    Auc::new(edition.number, subscriber, random.bytes())
}

pub fn auc_with(edition: &Edition, set: u8, seq_he: u64, next: u8, random: &mut Random) -> Auc {
    Auc {
        seq_he,
        next,
        ..new_auc(edition, set, random)
    }
}

/// The batch that this record gives for these RANDs.
pub fn batch_of(auc: &Auc, rands: &[u8]) -> Vec<u8> {
    let n = rands.len() / 16;
    let mut batch = vec![0; vector::LENGTH * n];
    let given = auc.order(n as u64, rands, &mut batch);
    given.expect("all that is lent is as named");
    batch
}

/// The AUTS with which a card of this edition and SQN_MS answers a stale
/// challenge.
pub fn auts(
    edition: &Edition,
    subscriber: &Subscriber,
    rand: &Block,
    seq_ms: u64,
    ind: usize,
) -> [u8; 14] {
    let mut card = Card::new(edition.number, subscriber.clone());
    card.places[ind] = seq_ms;
    // SQN 0 is SEQ 0, whatever the edition is.
    let stale = autn(&card, rand, 0, &[0, 0]);
    card.challenge(rand, &stale).auts
}

pub fn auc_read(image: &[u8]) -> Vec<u8> {
    [b"auc-read ", &write_bytes(image)[..]].concat()
}

/// The fields of an `auc-write`; edges exchange some of them.
pub fn write_fields(auc: &Auc, length: usize) -> Vec<Vec<u8>> {
    vec![
        b"auc-write".to_vec(),
        write_number(auc.edition.into()),
        write_number(auc.subscriber.set.into()),
        write_hex(&auc.subscriber.k),
        write_hex(&auc.subscriber.opc),
        write_hex(&auc.amf),
        write_number(length as u64),
        write_number(auc.seq_he),
        write_number(auc.next.into()),
    ]
}

pub fn auc_write(auc: &Auc, length: usize) -> Vec<u8> {
    write_fields(auc, length).join(&b' ')
}

pub fn auc_new(auc: &Auc) -> Vec<u8> {
    let fields = [
        b"auc-new".to_vec(),
        write_number(auc.edition.into()),
        write_number(auc.subscriber.set.into()),
        write_hex(&auc.subscriber.k),
        write_hex(&auc.subscriber.opc),
        write_hex(&auc.amf),
    ];
    fields.join(&b' ')
}

pub fn card_new(card: &Card) -> Vec<u8> {
    let fields = [
        b"card-new".to_vec(),
        write_number(card.edition.into()),
        write_number(card.subscriber.set.into()),
        write_hex(&card.subscriber.k),
        write_hex(&card.subscriber.opc),
    ];
    fields.join(&b' ')
}

pub fn vector_line(batch: &[u8], place: &str) -> Vec<u8> {
    [b"vector ", &write_bytes(batch)[..], b" ", place.as_bytes()].concat()
}

pub fn triplets_line(batch: &[u8], length: &str) -> Vec<u8> {
    let batch = write_bytes(batch);
    [b"triplets ", &batch[..], b" ", length.as_bytes()].concat()
}
