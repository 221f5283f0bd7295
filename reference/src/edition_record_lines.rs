//! New records and written images in each edition: the ranges and the lengths
//! that the edition names, and what comes first where several are wrong.

use crate::auc::Auc;
use crate::auc_call_lines::{auc_new, auc_read, auc_with, auc_write, card_new, image_of, new_auc};
use crate::call_lines::{self, card_read, card_write, new_card};
use crate::editions::{Edition, EDITION_1, EDITION_2, KNOWN};
use crate::random::Random;
use crate::usim::{Card, PLACES};

/// Editions, known and unknown, also such as have the low bits of a known one.
const EDITIONS: [u8; 14] = [0, 1, 2, 3, 4, 5, 6, 15, 16, 17, 18, 129, 130, 255];

/// About the lengths of every image.
const LENGTHS: [usize; 15] = [
    0, 1, 40, 41, 42, 82, 204, 205, 206, 368, 369, 370, 410, 511, 512,
];

/// About the limits of SEQ in both editions, and of an SQN.
const SEQS: [u64; 13] = [
    0,
    1,
    4_398_046_511_102,
    4_398_046_511_103,
    4_398_046_511_104,
    8_796_093_022_206,
    8_796_093_022_207,
    8_796_093_022_208,
    17_592_186_044_415,
    (1 << 48) - 1,
    1 << 48,
    1 << 63,
    u64::MAX,
];

pub fn lines(random: &mut Random) -> Vec<Vec<u8>> {
    let mut lines = Vec::new();
    for section in [
        new_records,
        lengths,
        tails,
        long_tails,
        tails_and_other_faults,
        places,
        counters,
        same_bits,
        bits_of_cards,
    ] {
        lines.extend(section(random));
    }
    lines
}

fn new_records(random: &mut Random) -> Vec<Vec<u8>> {
    let mut lines = Vec::new();
    for edition in (0..=20).chain([33, 63, 64, 127, 128, 129, 130, 254, 255]) {
        for set in [0, 1, 2, 16, 255] {
            let mut card = new_card(&EDITION_1, set, random);
            let mut auc = new_auc(&EDITION_1, set, random);
            (card.edition, auc.edition) = (edition, edition);
            lines.extend([card_new(&card), auc_new(&auc)]);
        }
    }
    lines
}

/// A valid record, were its edition known, into a buffer of each length.
fn lengths(random: &mut Random) -> Vec<Vec<u8>> {
    let mut lines = Vec::new();
    for edition in EDITIONS {
        let mut card = new_card(&EDITION_1, edition % 2, random);
        let mut auc = auc_with(&EDITION_1, edition % 2, 77, 5, random);
        (card.edition, auc.edition) = (edition, edition);
        card.places[usize::from(edition % 32)] = 1 + random.draw() % 1_000;
        for length in LENGTHS {
            lines.extend([card_write(&card, length), auc_write(&auc, length)]);
        }
    }
    lines
}

/// A card of this edition with one place that is not zero.
fn card_at(edition: &Edition, ind: usize, seq: u64, random: &mut Random) -> Card {
    let mut card = new_card(edition, random.one_of(&[0, 1]), random);
    card.places[ind] = seq;
    card
}

/// Each place behind the thirty-second alone: one that edition 1 has no index
/// for must be zero.
fn tails(random: &mut Random) -> Vec<Vec<u8>> {
    let mut lines = Vec::new();
    for ind in EDITION_1.indices()..PLACES {
        let seq = random.one_of(&[1, 2, 1 << 41, 4_398_046_511_103]);
        for edition in &KNOWN {
            let card = card_at(edition, ind, seq, random);
            lines.push(card_write(&card, edition.card_image()));
        }
    }
    lines
}

/// Several such places, with and without places in front of them.
fn long_tails(random: &mut Random) -> Vec<Vec<u8>> {
    let mut lines = Vec::new();
    let sorts: [&[usize]; 8] = [
        &[31, 32],
        &[32, 63],
        &[0, 32],
        &[0, 63],
        &[31, 63],
        &[33, 47, 62],
        &[1, 2, 40, 41],
        &[32, 33, 34, 35],
    ];
    for inds in sorts {
        for edition in &KNOWN {
            let mut card = card_at(edition, inds[0], 9, random);
            for ind in inds {
                card.places[*ind] = 1 + random.draw() % 1_000;
            }
            lines.push(card_write(&card, edition.card_image()));
        }
    }
    for edition in &KNOWN {
        for (front, behind) in [(0, 1), (1, 0), (5, 5), (0, u64::MAX)] {
            let mut card = card_at(edition, 0, 0, random);
            card.places[..32].fill(front);
            card.places[32..].fill(behind);
            lines.push(card_write(&card, edition.card_image()));
        }
    }
    lines
}

/// A place that is not zero comes before the length, as all of refusal 1 does.
fn tails_and_other_faults(random: &mut Random) -> Vec<Vec<u8>> {
    let mut lines = Vec::new();
    for length in LENGTHS {
        for seq in [1, 8_796_093_022_207, 8_796_093_022_208] {
            let card = card_at(&EDITION_1, 32 + random.below(32), seq, random);
            lines.push(card_write(&card, length));
        }
        let mut bad_set = card_at(&EDITION_1, 63, 1, random);
        bad_set.subscriber.set = 2;
        let mut unknown = card_at(&EDITION_1, 40, 1, random);
        unknown.edition = 3;
        lines.extend([card_write(&bad_set, length), card_write(&unknown, length)]);
    }
    lines
}

/// Each place at the limit of its edition and past it, and at the other
/// edition's.
fn places(random: &mut Random) -> Vec<Vec<u8>> {
    let mut lines = Vec::new();
    for edition in &KNOWN {
        let limit = edition.seq_limit();
        for ind in 0..edition.indices() {
            for seq in [limit, limit + 1] {
                let card = card_at(edition, ind, seq, random);
                lines.push(card_write(&card, edition.card_image()));
            }
        }
        for seq in SEQS {
            for ind in [0, 17, 31] {
                let card = card_at(edition, ind, seq, random);
                lines.push(card_write(&card, edition.card_image()));
            }
        }
    }
    lines
}

/// SEQ_HE and the next index about the limits of both editions.
fn counters(random: &mut Random) -> Vec<Vec<u8>> {
    let mut lines = Vec::new();
    for edition in &KNOWN {
        for seq_he in SEQS {
            for next in [0, 1, 30, 31, 32, 33, 62, 63, 64, 65, 127, 128, 255] {
                let auc = auc_with(edition, random.one_of(&[0, 1]), seq_he, next, random);
                lines.push(auc_write(&auc, edition.auc_image()));
            }
        }
    }
    lines
}

/// The same 48 bits in a centre of each edition: another SEQ_HE and index.
fn same_bits(random: &mut Random) -> Vec<Vec<u8>> {
    let mut lines = Vec::new();
    let mut all: Vec<u64> = (0..48).map(|bit| 1 << bit).collect();
    all.extend([0, (1 << 48) - 1, 0x5555_5555_5555, 0xaaaa_aaaa_aaaa]);
    all.extend((0..8).map(|_| random.draw() % (1 << 48)));
    for bits in all {
        let new = new_auc(&EDITION_1, random.one_of(&[0, 1]), random);
        for edition in &KNOWN {
            let auc = Auc {
                edition: edition.number,
                seq_he: edition.seq(bits),
                next: edition.ind(bits) as u8,
                ..new.clone()
            };
            lines.push(auc_read(&image_of(&auc)));
        }
    }
    lines
}

/// One bit of every second place of an edition 2 card, and the same bits read as places
/// of an edition 1 card as far as they go.
fn bits_of_cards(random: &mut Random) -> Vec<Vec<u8>> {
    let mut lines = Vec::new();
    let bits = EDITION_2.seq_bits();
    for ind in (0..EDITION_2.indices()).step_by(2) {
        let card = card_at(&EDITION_2, ind, 1 << (5 * ind % bits), random);
        let mut image = call_lines::image_of(&card);
        lines.push(card_read(&image));
        if ind % 4 == 0 {
            image.truncate(EDITION_1.card_image());
            image[0] -= 0x10;
            lines.push(card_read(&image));
        }
    }
    lines
}
