//! The lines for `calls` that try each edge of a line's form, with cards of
//! edition 1.

use crate::call_lines::{
    card_read, card_write, challenge, good, image_of, new_card, random_card, write_fields, BUFFER,
    EDITION, FIRST_PLACE, K, OPC, SET,
};
use crate::calls::LONGEST;
use crate::damage::{self, STRANGE};
use crate::editions::EDITION_1;
use crate::random::Random;
use crate::usim::PLACES;

const IMAGE: usize = EDITION_1.card_image();

/// Short lines. Most are bad lines; the others are refused for their lengths.
const SHORT: [&[u8]; 64] = [
    b"",
    b" ",
    b"  ",
    b"-",
    b"\r",
    b"\0",
    b"\t",
    b"challenge",
    b"challenge ",
    b"challenge -",
    b"challenge - ",
    b"challenge - -",
    b"challenge - - ",
    b"challenge - - -",
    b"challenge - - - ",
    b"challenge - - - -",
    b"challenge  - -",
    b"challenge  - - -",
    b"challenge -  - -",
    b"challenge - -  -",
    b"challenge - - -\r",
    b"challenge - - -\0",
    b" challenge - - -",
    b"\tchallenge - - -",
    b"challenge\t-\t-\t-",
    b"Challenge - - -",
    b"CHALLENGE - - -",
    b"challenge- - -",
    b"challenges - - -",
    b"challeng - - -",
    b"challenge -- - -",
    b"challenge 0 - -",
    b"challenge 00 0 -",
    b"challenge 00 00 00",
    b"challenge 00 00 0",
    b"challenge - 0A -",
    b"challenge - 0a -",
    b"card-read",
    b"card-read ",
    b"card-read  ",
    b"card-read -",
    b"card-read - ",
    b"card-read - -",
    b"card-read  -",
    b"card-read --",
    b"card-read -0",
    b"card-read 0-",
    b"card-read 00-",
    b"card-read 0",
    b"card-read 00",
    b"card-read 000",
    b"card-read fF",
    b"card-read ff",
    b"card-read 0x",
    b"card-read ff\r",
    b"card_read -",
    b"card-Read -",
    b"cardread -",
    b"card read -",
    b"card -",
    b"read -",
    b"card-write",
    b"card-write - - - -",
    b"show",
];

/// What no number is.
pub const NO_NUMBERS: [&str; 16] = [
    "", "-", "--", "-1", "+1", "1.0", "1,0", "0x1", "1e3", "a", "1a", "A", "1_0", "/", ":", "1\r",
];

pub fn edges(random: &mut Random) -> Vec<Vec<u8>> {
    let mut lines: Vec<Vec<u8>> = SHORT.map(<[u8]>::to_vec).to_vec();
    lines.extend(every_byte());
    lines.extend(strange_numbers(random));
    lines.extend(no_numbers(random));
    lines.extend(keys(random));
    lines.extend(field_counts(random));
    lines.extend(beginnings(random));
    lines.extend(each_damage(random));
    lines.extend(empty_fields(random));
    lines.extend(long_lines(random));
    lines
}

/// Every byte value that a line can hold, as a digit of a short image.
fn every_byte() -> Vec<Vec<u8>> {
    (0..=255)
        .filter(|&byte| byte != b'\n')
        .map(|byte| [b"card-read 0", &[byte][..]].concat())
        .collect()
}

/// Every strange byte as a digit of an edition, a set, a buffer's length or a
/// place.
fn strange_numbers(random: &mut Random) -> Vec<Vec<u8>> {
    let mut lines = Vec::new();
    let fields = write_fields(&new_card(&EDITION_1, 0, random), IMAGE);
    for (turn, &byte) in STRANGE.iter().enumerate() {
        let mut fields = fields.clone();
        let places = [SET, BUFFER, FIRST_PLACE + turn % PLACES, EDITION];
        fields[places[turn % 4]] = vec![b'1', byte];
        lines.push(fields.join(&b' '));
    }
    lines
}

fn no_numbers(random: &mut Random) -> Vec<Vec<u8>> {
    let mut lines = Vec::new();
    let fields = write_fields(&new_card(&EDITION_1, 1, random), IMAGE);
    for (turn, text) in NO_NUMBERS.iter().enumerate() {
        for place in [EDITION, SET, BUFFER, FIRST_PLACE + 4 * turn] {
            let mut fields = fields.clone();
            fields[place] = text.as_bytes().to_vec();
            lines.push(fields.join(&b' '));
        }
    }
    lines
}

/// K and OPc of other lengths are a bad line; in the last pair the digits of
/// both together are as many as they should be.
fn keys(random: &mut Random) -> Vec<Vec<u8>> {
    let mut lines = Vec::new();
    for place in [K, OPC] {
        for digits in [0, 1, 2, 30, 31, 33, 34, 64] {
            let mut fields = write_fields(&new_card(&EDITION_1, 0, random), IMAGE);
            fields[place] = match digits {
                0 => b"-".to_vec(),
                _ => random.digits(digits),
            };
            lines.push(fields.join(&b' '));
        }
        let mut fields = write_fields(&new_card(&EDITION_1, 0, random), IMAGE);
        fields[place] = random.digits(34);
        fields[K + OPC - place] = random.digits(30);
        lines.push(fields.join(&b' '));
    }
    lines
}

/// A `card-write` with other counts of places.
fn field_counts(random: &mut Random) -> Vec<Vec<u8>> {
    let fields = write_fields(&new_card(&EDITION_1, 1, random), IMAGE);
    let longer = [&fields[..], &fields[FIRST_PLACE..]].concat();
    [0, 1, 16, 31, 32, 33, 63, 64, 65, 128]
        .map(|places| longer[..FIRST_PLACE + places].join(&b' '))
        .to_vec()
}

/// Every part of a `card-write` from its start.
fn beginnings(random: &mut Random) -> Vec<Vec<u8>> {
    let mut line = card_write(&new_card(&EDITION_1, 0, random), IMAGE);
    line.extend(b"12");
    (1..=line.len())
        .map(|length| line[..length].to_vec())
        .collect()
}

/// Each way of damage to a line of each word.
fn each_damage(random: &mut Random) -> Vec<Vec<u8>> {
    let mut lines = Vec::new();
    for damage in damage::ALL {
        let card = random_card(&EDITION_1, 1, random);
        for mut line in [
            good(random),
            card_read(&image_of(&card)),
            card_write(&new_card(&EDITION_1, 0, random), IMAGE),
        ] {
            damage(&mut line, random);
            lines.push(line);
        }
    }
    lines
}

/// An empty field is no way to write no bytes.
fn empty_fields(random: &mut Random) -> Vec<Vec<u8>> {
    let line = String::from_utf8(good(random)).expect("digits and spaces");
    let fields: Vec<&str> = line.split(' ').collect();
    let mut lines = Vec::new();
    for place in 0..fields.len() {
        let mut fields = fields.clone();
        fields[place] = "";
        lines.push(fields.join(" ").into_bytes());
    }
    lines
}

/// Lines about the greatest length, of a right form otherwise, and longer ones
/// whose rest after a number of bytes looks good.
fn long_lines(random: &mut Random) -> Vec<Vec<u8>> {
    let mut lines = Vec::new();
    let image = image_of(&random_card(&EDITION_1, 0, random));
    for length in [LONGEST - 1, LONGEST, LONGEST + 1] {
        // A RAND of no bytes makes the line's length odd.
        let rand: &[u8] = if length % 2 == 1 { &[] } else { &[0; 16] };
        let short = challenge(&image, rand, &[0]).len();
        let autn = vec![0xa5; (length - short) / 2 + 1];
        lines.push(challenge(&image, rand, &autn));
    }
    for before in [512, LONGEST, LONGEST + 1] {
        let mut line = good(random);
        line.resize(before, b'0');
        line.extend(good(random));
        lines.push(line);
    }
    lines
}
