//! The lines that try each edge of the form of the centre's words, with records
//! of edition 1.

use crate::auc_call_lines::{
    auc_new, auc_read, auc_with, auc_write, auts, card_new, image_of, new_auc, vector_line, Lent,
};
use crate::calls::LONGEST;
use crate::damage;
use crate::editions::EDITION_1;
use crate::form_lines::NO_NUMBERS;
use crate::random::Random;
use crate::usim::Card;
use crate::vector;

/// Short lines. Most are bad lines; the others are refused for their lengths.
const SHORT: [&[u8]; 44] = [
    b"card-new",
    b"card-new ",
    b"card-new 0",
    b"card-new 0 - -",
    b"card-new 2 00 00",
    b"card-News 0 - -",
    b"auc-new",
    b"auc-new 0 - - -",
    b"auc-read",
    b"auc-read ",
    b"auc-read  ",
    b"auc-read -",
    b"auc-read - ",
    b"auc-read - -",
    b"auc-read  -",
    b"auc-read --",
    b"auc-read 0",
    b"auc-read 00",
    b"auc-read fF",
    b"auc-read ff\r",
    b"auc_read -",
    b"Auc-read -",
    b"auc read -",
    b"auc -",
    b"auc-write",
    b"auc-write - - - - - - -",
    b"order",
    b"order ",
    b"order - 1 - 0",
    b"order - 1 - 0 ",
    b"order - 1 - 0 0",
    b"order - - - 0",
    b"order - 1 - -",
    b"order 1 00000000000000000000000000000000",
    b"Order - 1 - 0",
    b"resync",
    b"resync - 1 - - - 0",
    b"resync - 1 - - - 0 -",
    b"resync - 1 - - -",
    b"resync - 1 - - 0",
    b"vector",
    b"vector -",
    b"vector - 0",
    b"vector - 0 0",
];

pub fn edges(random: &mut Random) -> Vec<Vec<u8>> {
    let mut lines: Vec<Vec<u8>> = SHORT.map(<[u8]>::to_vec).to_vec();
    for line in one_of_each(random) {
        lines.extend(other_fields(&line));
        lines.extend(no_numbers(&line));
    }
    lines.extend(each_damage(random));
    lines.extend(beginnings(random));
    lines.extend(long_lines(random));
    lines
}

/// A good line of each word.
fn one_of_each(random: &mut Random) -> Vec<Vec<u8>> {
    let auc = auc_with(&EDITION_1, random.one_of(&[0, 1]), 500, 3, random);
    let rand = random.bytes();
    let auts = auts(&EDITION_1, &auc.subscriber, &rand, 490, 2);
    vec![
        card_new(&Card::new(auc.edition, auc.subscriber.clone())),
        auc_new(&auc),
        auc_read(&image_of(&auc)),
        auc_write(&auc, EDITION_1.auc_image()),
        Lent::new(&auc, 1, random).order(),
        Lent::new(&auc, 2, random).resync(&rand, &auts),
        vector_line(&[0xa5; vector::LENGTH], "0"),
    ]
}

/// Each field left out, empty, `-`, doubled, a digit short and a digit long.
pub fn other_fields(line: &[u8]) -> Vec<Vec<u8>> {
    let fields: Vec<&[u8]> = line.split(|&b| b == b' ').collect();
    let mut lines = Vec::new();
    for place in 0..fields.len() {
        let longer = [fields[place], b"0"].concat();
        let shorter = &fields[place][1..];
        for other in [
            &[] as &[&[u8]],
            &[b""],
            &[b"-"],
            &[fields[place], fields[place]],
            &[shorter],
            &[&longer],
        ] {
            let parts = [&fields[..place], other, &fields[place + 1..]];
            lines.push(parts.concat().join(&b' '));
        }
    }
    lines
}

/// What no number is in each field.
pub fn no_numbers(line: &[u8]) -> Vec<Vec<u8>> {
    let fields: Vec<&[u8]> = line.split(|&b| b == b' ').collect();
    let mut lines = Vec::new();
    // Fields of hex are tried by the other damages.
    for place in (1..fields.len()).filter(|&place| fields[place].len() < 4) {
        for text in NO_NUMBERS {
            let mut fields = fields.clone();
            fields[place] = text.as_bytes();
            lines.push(fields.join(&b' '));
        }
    }
    lines
}

/// Each way of damage to a line of each word.
fn each_damage(random: &mut Random) -> Vec<Vec<u8>> {
    let mut lines = Vec::new();
    for damage in damage::ALL {
        for mut line in one_of_each(random) {
            damage(&mut line, random);
            lines.push(line);
        }
    }
    lines
}

/// Every part of an `order` from its start.
fn beginnings(random: &mut Random) -> Vec<Vec<u8>> {
    let line = Lent::new(&new_auc(&EDITION_1, 1, random), 1, random).order();
    (1..line.len())
        .map(|length| line[..length].to_vec())
        .collect()
}

/// Lines about the greatest length, of a right form otherwise.
fn long_lines(random: &mut Random) -> Vec<Vec<u8>> {
    let mut lines = Vec::new();
    let mut lent = Lent::new(&new_auc(&EDITION_1, 0, random), 1, random);
    let order = lent.order().len() - 2 * lent.rands.len();
    let vector = vector_line(&[0], "00").len() - 2;
    for length in [LONGEST - 2, LONGEST, LONGEST + 2] {
        lent.rands = vec![0x5a; (length - order) / 2];
        lines.push(lent.order());
        lines.push(vector_line(&vec![0x5a; (length - vector) / 2], "00"));
    }
    lines
}
