//! The forms of the lines that name an edition, and lines of the later editions
//! in wrong forms and about the greatest length.

use crate::auc_call_lines::{
    auc_new, auc_read, auc_with, auc_write, auts, card_new, image_of, Lent,
};
use crate::auc_form_lines::{no_numbers, other_fields};
use crate::call_lines::{
    self, autn, card_read, card_write, challenge, random_card, write_fields, BUFFER, EDITION,
    FIRST_PLACE,
};
use crate::calls::LONGEST;
use crate::damage;
use crate::editions::{Edition, EDITION_1, EDITION_2, KNOWN};
use crate::handset_lines::{self, Story};
use crate::random::Random;
use crate::usim::{Card, PLACES};

/// Editions as a line may write them or not; some end in the bits of a known one.
const EDITIONS: [&str; 18] = [
    "0",
    "00",
    "01",
    "02",
    "3",
    "00000000000000000001",
    "00000000000000000002",
    "000000000000000000002",
    "255",
    "256",
    "257",
    "258",
    "65538",
    "4294967297",
    "4294967298",
    "18446744073709551615",
    "18446744073709551616",
    "18446744073709551618",
];

pub fn lines(random: &mut Random) -> Vec<Vec<u8>> {
    let mut lines = Vec::new();
    for section in [
        old_forms,
        editions,
        fields,
        places,
        padded,
        each_damage,
        long_images,
        long_lines,
    ] {
        lines.extend(section(random));
    }
    lines
}

/// A good line of each word that names an edition.
fn naming(edition: &Edition, random: &mut Random) -> [Vec<u8>; 4] {
    let auc = auc_with(edition, random.one_of(&[0, 1]), 500, 3, random);
    let mut card = Card::new(auc.edition, auc.subscriber.clone());
    card.places[random.below(edition.indices())] = 1 + random.draw() % 1_000;
    [
        card_new(&card),
        auc_new(&auc),
        auc_write(&auc, edition.auc_image()),
        card_write(&card, edition.card_image()),
    ]
}

/// And one of each word that reads an image.
fn reading(edition: &Edition, random: &mut Random) -> Vec<Vec<u8>> {
    let auc = auc_with(edition, random.one_of(&[0, 1]), 500, 3, random);
    let card = random_card(edition, random.one_of(&[0, 1]), random);
    let rand = random.bytes();
    let auts = auts(edition, &auc.subscriber, &rand, 490, 2);
    let sqn = edition.sqn(card.seq_ms() + 1, 9);
    let image = call_lines::image_of(&card);
    let (mut story, held) = Story::holding(edition, 1, random);
    let phone = story.lent(&held).line();
    vec![
        card_read(&image),
        challenge(&image, &rand, &autn(&card, &rand, sqn, &[0, 1])),
        auc_read(&image_of(&auc)),
        Lent::new(&auc, 1, random).order(),
        Lent::new(&auc, 2, random).resync(&rand, &auts),
        phone,
    ]
}

fn split(line: &[u8]) -> Vec<&[u8]> {
    line.split(|&b| b == b' ').collect()
}

/// Lines that name no edition, as they were before there was a second one; a
/// `card-write` had 32 places then.
fn old_forms(random: &mut Random) -> Vec<Vec<u8>> {
    let mut lines = Vec::new();
    for edition in &KNOWN {
        for line in naming(edition, random) {
            let mut fields = split(&line);
            fields.remove(EDITION);
            lines.push(fields.join(&b' '));
            if fields.len() > PLACES {
                fields.truncate(FIRST_PLACE - 1 + 32);
                lines.push(fields.join(&b' '));
                fields[BUFFER - 1] = b"205";
                lines.push(fields.join(&b' '));
            }
        }
    }
    lines
}

fn editions(random: &mut Random) -> Vec<Vec<u8>> {
    let mut lines = Vec::new();
    for line in naming(&EDITION_2, random) {
        for edition in EDITIONS {
            let mut fields = split(&line);
            fields[EDITION] = edition.as_bytes();
            lines.push(fields.join(&b' '));
        }
    }
    lines
}

fn fields(random: &mut Random) -> Vec<Vec<u8>> {
    let mut lines = Vec::new();
    let [card_new, auc_new, auc_write, card_write] = naming(&EDITION_2, random);
    for line in [card_new, auc_new, auc_write] {
        lines.extend(other_fields(&line));
        lines.extend(no_numbers(&line));
    }
    // The places have lines of their own.
    let head = split(&card_write)[..FIRST_PLACE].join(&b' ');
    let places = &card_write[head.len()..];
    for other in other_fields(&head) {
        lines.push([&other, places].concat());
    }
    lines
}

/// Each place left out, empty or no number; and other counts of places.
fn places(random: &mut Random) -> Vec<Vec<u8>> {
    let mut lines = Vec::new();
    for ind in 0..PLACES {
        let edition = &KNOWN[ind % 2];
        let card = Card {
            places: [0; PLACES],
            ..random_card(edition, 0, random)
        };
        let mut fields = write_fields(&card, edition.card_image());
        match ind % 3 {
            0 => fields[FIRST_PLACE + ind] = Vec::new(),
            1 => fields[FIRST_PLACE + ind] = b"-".to_vec(),
            _ => drop(fields.remove(FIRST_PLACE + ind)),
        }
        lines.push(fields.join(&b' '));
    }
    for edition in &KNOWN {
        let card = random_card(edition, 1, random);
        let fields = write_fields(&card, edition.card_image());
        let longer = [&fields[..], &fields[FIRST_PLACE..]].concat();
        for places in [0, 1, 31, 32, 33, 63, 64, 65, 96, 128] {
            lines.push(longer[..FIRST_PLACE + places].join(&b' '));
        }
    }
    lines
}

/// Every place in twenty digits, which are taken, and one of them in 21.
fn padded(random: &mut Random) -> Vec<Vec<u8>> {
    let mut lines = Vec::new();
    for edition in &KNOWN {
        let card = random_card(edition, 1, random);
        let mut fields = write_fields(&card, edition.card_image());
        for field in &mut fields[FIRST_PLACE..] {
            field.splice(..0, vec![b'0'; 20 - field.len()]);
        }
        lines.push(fields.join(&b' '));
        fields[FIRST_PLACE + random.below(PLACES)].insert(0, b'0');
        lines.push(fields.join(&b' '));
    }
    lines
}

fn each_damage(random: &mut Random) -> Vec<Vec<u8>> {
    let mut lines = Vec::new();
    for damage in damage::ALL {
        let mut all = naming(&EDITION_2, random).to_vec();
        all.extend(reading(&EDITION_2, random));
        for mut line in all {
            damage(&mut line, random);
            lines.push(line);
        }
    }
    lines
}

/// Images that fill the longest line, and such as are longer.
fn long_images(random: &mut Random) -> Vec<Vec<u8>> {
    let mut lines = Vec::new();
    let longest = (LONGEST - "card-read ".len()) / 2;
    for length in [longest, longest + 1] {
        for first in [0x00, 0x10, 0x21, 0x22, 0x30, 0xf0] {
            let mut image = vec![random.draw() as u8; length];
            image[0] = first;
            lines.push(card_read(&image));
        }
    }
    lines
}

/// Challenges and phones with right images about the greatest length.
fn long_lines(random: &mut Random) -> Vec<Vec<u8>> {
    let mut lines = Vec::new();
    for edition in [EDITION_1, EDITION_2] {
        let image = call_lines::image_of(&random_card(&edition, 0, random));
        let short = challenge(&image, &[0; 16], &[0]).len();
        let (mut story, held) = Story::holding(&edition, 1, random);
        let lent = story.lent(&held);
        for length in [LONGEST, LONGEST + 2] {
            let autn = vec![0xa5; (length - short) / 2 + 1];
            lines.push(challenge(&image, &[0; 16], &autn));
            let autn = vec![0x5a; (length - lent.line().len()) / 2 + lent.autn.len()];
            let lent = handset_lines::Lent {
                autn,
                ..lent.clone()
            };
            lines.push(lent.line());
        }
    }
    lines
}
