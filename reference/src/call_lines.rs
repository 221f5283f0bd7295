//! Lines for `calls`: how each word's line is written, and random ones, which
//! are of edition 1.

use crate::block::Block;
use crate::editions::{Edition, EDITION_1};
use crate::functions::Subscriber;
use crate::image;
use crate::random::Random;
use crate::text::{write_bytes, write_hex};
use crate::usim::{sqn_bytes, Card, D};

/// The length of an edition 1 challenge whose parts have the right lengths.
pub const CHALLENGE_LENGTH: usize = 486;

/// The places of the fields in a `card-write`, the word being the first.
pub const EDITION: usize = 1;
pub const SET: usize = 2;
pub const K: usize = 3;
pub const OPC: usize = 4;
pub const BUFFER: usize = 5;
pub const FIRST_PLACE: usize = 6;

pub fn challenge(image: &[u8], rand: &[u8], autn: &[u8]) -> Vec<u8> {
    let fields = [image, rand, autn].map(write_bytes);
    [b"challenge ", &fields.join(&b' ')[..]].concat()
}

pub fn card_read(image: &[u8]) -> Vec<u8> {
    [b"card-read ", &write_bytes(image)[..]].concat()
}

/// The fields of a `card-write`; edges exchange some of them.
pub fn write_fields(card: &Card, length: usize) -> Vec<Vec<u8>> {
    let mut fields = vec![
        b"card-write".to_vec(),
        card.edition.to_string().into_bytes(),
        card.subscriber.set.to_string().into_bytes(),
        write_hex(&card.subscriber.k),
        write_hex(&card.subscriber.opc),
        length.to_string().into_bytes(),
    ];
    fields.extend(card.places.map(|seq| seq.to_string().into_bytes()));
    fields
}

pub fn card_write(card: &Card, length: usize) -> Vec<u8> {
    write_fields(card, length).join(&b' ')
}

pub fn image_of(card: &Card) -> Vec<u8> {
    image::image(card).expect("a valid card")
}

pub fn autn(card: &Card, rand: &Block, sqn: u64, amf: &[u8; 2]) -> Block {
    let autn = card.subscriber.autn(rand, &sqn_bytes(sqn), amf);
    autn.expect("a known set")
}

pub fn new_card(edition: &Edition, set: u8, random: &mut Random) -> Card {
    let subscriber = Subscriber {
        set,
        k: random.bytes(),
        opc: random.bytes(),
    };
    Card::new(edition.number, subscriber)
}

/// A new card, one in use whose places are near each other, or one with any
/// places at all. No place is at its limit.
pub fn random_card(edition: &Edition, set: u8, random: &mut Random) -> Card {
    let mut card = new_card(edition, set, random);
    let (base, spread) = match random.below(4) {
        0 => (0, 1),
        1 => (0, edition.seq_limit()),
        _ => (random.draw() % (edition.seq_limit() - 2 * D), 64),
    };
    card.places = edition.places(|_| base + random.draw() % spread);
    card
}

/// SEQs about the place at IND, about SEQ_MS and about the largest jump.
pub fn random_sqn(card: &Card, random: &mut Random) -> u64 {
    let edition = card.row();
    let ind = random.below(edition.indices());
    let seq_ms = card.seq_ms();
    let seq = match random.below(8) {
        0 => card.places[ind],
        1 => card.places[ind].saturating_sub(1),
        2 => seq_ms + D + 1,
        3 => seq_ms + D,
        4 => card.places[ind] + 1,
        5 => random.draw() % (edition.seq_limit() + 1),
        _ => seq_ms + 1,
    };
    edition.sqn(seq.min(edition.seq_limit()), ind)
}

/// A challenge that is accepted.
pub fn good(random: &mut Random) -> Vec<u8> {
    let set = random.one_of(&[0, 1]);
    let card = random_card(&EDITION_1, set, random);
    let sqn = EDITION_1.sqn(card.seq_ms() + 1, random.below(EDITION_1.indices()));
    let rand = random.bytes();
    let autn = autn(&card, &rand, sqn, &random.bytes());
    challenge(&image_of(&card), &rand, &autn)
}

/// Any challenge; one in eight has a damaged AUTN.
fn any_challenge(card: &Card, random: &mut Random) -> Vec<u8> {
    let rand = random.bytes();
    let sqn = random_sqn(card, random);
    let mut autn = autn(card, &rand, sqn, &random.bytes());
    if random.below(8) == 0 {
        turn_a_bit(&mut autn, random);
    }
    challenge(&image_of(card), &rand, &autn)
}

/// A call of any word, which may be refused.
pub fn well_formed(random: &mut Random) -> Vec<u8> {
    let set = random.one_of(&[0, 1]);
    let card = random_card(&EDITION_1, set, random);
    match random.below(8) {
        0..=4 => any_challenge(&card, random),
        5 => card_read(&image_of(&card)),
        6 => {
            let mut image = image_of(&card);
            turn_a_bit(&mut image, random);
            card_read(&image)
        }
        _ => {
            let length = EDITION_1.card_image() - random.one_of(&[0, 0, 0, 1]);
            card_write(&card, length)
        }
    }
}

pub fn turn_a_bit(bytes: &mut [u8], random: &mut Random) {
    let place = random.below(bytes.len());
    bytes[place] ^= 1 << random.below(8);
}
