//! Challenges to cards of each edition: one SQN split in two ways, D from every
//! index, and vectors of a centre of another edition.

use crate::auc::Auc;
use crate::auc_call_lines::{auc_with, batch_of, image_of, rands, Lent};
use crate::block::Block;
use crate::call_lines::{self, autn, challenge, new_card};
use crate::challenge_lines::SETS;
use crate::editions::{Edition, EDITION_1, EDITION_2, KNOWN};
use crate::random::Random;
use crate::usim::{Card, D};
use crate::vector::{Vector, LENGTH};

pub fn lines(random: &mut Random) -> Vec<Vec<u8>> {
    let mut lines = Vec::new();
    lines.extend(one_number(random));
    for edition in &KNOWN {
        lines.extend(jumps(edition, random));
        lines.extend(neighbours(edition, random));
    }
    lines.extend(unlike(&EDITION_1, &EDITION_2, random));
    lines.extend(unlike(&EDITION_2, &EDITION_1, random));
    lines
}

fn ask(card: &Card, sqn: u64, random: &mut Random) -> Vec<u8> {
    let rand: Block = random.bytes();
    let autn = autn(card, &rand, sqn, &random.bytes());
    challenge(&call_lines::image_of(card), &rand, &autn)
}

/// The same SQN to new cards of each edition, and to cards in use.
fn one_number(random: &mut Random) -> Vec<Vec<u8>> {
    let mut lines = Vec::new();
    let (near, far) = (EDITION_1.sqn(D, 31), EDITION_2.sqn(D, 63));
    for sqn in [
        0,
        1,
        31,
        32,
        33,
        63,
        64,
        65,
        96,
        127,
        128,
        near,
        near + 1,
        far,
        far + 1,
        1 << 47,
        (1 << 48) - 1,
    ] {
        for edition in &KNOWN {
            let mut card = new_card(edition, random.one_of(&SETS), random);
            lines.push(ask(&card, sqn, random));
            card.places = edition.places(|ind| 1 + ind as u64 % 3);
            lines.push(ask(&card, sqn, random));
        }
    }
    lines
}

/// The highest place at several indices: D above it is accepted at each other
/// index, D + 1 is not.
fn jumps(edition: &Edition, random: &mut Random) -> Vec<Vec<u8>> {
    let mut lines = Vec::new();
    let last = edition.indices() - 1;
    for at in [0, 1, 30, 31, last / 2 + 1, last] {
        let mut card = new_card(edition, at as u8 % 2, random);
        card.places[at] = 1 + random.draw() % 1_000_000;
        for seq in [card.seq_ms() + D, card.seq_ms() + D + 1] {
            for ind in [at, (at + 1) % edition.indices(), last - at] {
                lines.push(ask(&card, edition.sqn(seq, ind), random));
            }
        }
    }
    lines
}

/// A SEQ below SEQ_MS is measured with its own place: one above it, at it and
/// below it, where the places of the neighbours are others.
fn neighbours(edition: &Edition, random: &mut Random) -> Vec<Vec<u8>> {
    let mut lines = Vec::new();
    let last = edition.indices() - 1;
    let mut card = new_card(edition, 1, random);
    card.places = edition.places(|ind| 1_000 + 7 * (ind as u64 * 11 % 64));
    for ind in [0, 1, 15, 31, last / 2 + 1, last - 1, last] {
        let place = card.places[ind];
        for seq in [place - 1, place, place + 1] {
            lines.push(ask(&card, edition.sqn(seq, ind), random));
        }
    }
    lines
}

/// The vectors of a centre of one edition, lent to a card of another one: the
/// card splits their numbers by its own width.
fn unlike(centre: &Edition, card: &Edition, random: &mut Random) -> Vec<Vec<u8>> {
    let mut lines = Vec::new();
    for set in SETS {
        for (seq_he, next) in [(0, 0), (40, 30), (100, centre.indices() as u8 - 2)] {
            let auc = auc_with(centre, set, seq_he, next, random);
            let mut card = Card::new(card.number, auc.subscriber.clone());
            lines.extend(order_and_ask(&auc, &mut card, random));
        }
    }
    lines
}

fn order_and_ask(auc: &Auc, card: &mut Card, random: &mut Random) -> Vec<Vec<u8>> {
    let lent = Lent {
        image: image_of(auc),
        count: 5,
        rands: rands(5, random),
        length: 5 * LENGTH,
    };
    let mut lines = vec![lent.order()];
    for bytes in batch_of(auc, &lent.rands).chunks(LENGTH) {
        let Vector { rand, autn, .. } = Vector::of(bytes.try_into().expect("72 bytes"));
        lines.push(challenge(&call_lines::image_of(card), &rand, &autn));
        *card = card.challenge(&rand, &autn).card;
    }
    lines
}
