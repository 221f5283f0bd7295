//! The lines that try each edge of an image, read and written.

use crate::call_lines::{
    autn, card_read, card_write, challenge, image_of, new_card, random_card, turn_a_bit,
    write_fields, BUFFER, FIRST_PLACE, SET,
};
use crate::editions::Edition;
use crate::random::Random;
use crate::usim::Card;

/// Numbers at the limits of a SEQ and of a field.
pub const NUMBERS: [&str; 18] = [
    "0",
    "4398046511103",
    "4398046511104",
    "00000004398046511104",
    "8796093022207",
    "8796093022208",
    "00000000000000000000",
    "00000008796093022207",
    "00000008796093022208",
    "000000000000000000000",
    "008796093022207000000",
    "17592186044415",
    "9223372036854775808",
    "18446744073709551615",
    "18446744073709551616",
    "18446744073709551626",
    "99999999999999999999",
    "100000000000000000000",
];

/// Sets, also past what a line may name, where the low bits are a known set.
const SETS: [&str; 12] = [
    "0",
    "1",
    "2",
    "15",
    "16",
    "255",
    "256",
    "257",
    "00000000000000000001",
    "000000000000000000001",
    "4294967296",
    "18446744073709551615",
];

/// Lengths of a buffer, likewise; 461 and 65741 end in the bits of 205.
const BUFFERS: [&str; 19] = [
    "0",
    "1",
    "41",
    "204",
    "205",
    "206",
    "368",
    "369",
    "370",
    "00000000000000000369",
    "410",
    "511",
    "512",
    "513",
    "00000000000000000205",
    "000000000000000000205",
    "461",
    "65741",
    "18446744073709551615",
];

pub fn edges(edition: &Edition, random: &mut Random) -> Vec<Vec<u8>> {
    let mut lines = Vec::new();
    lines.extend(round_trips(edition, random));
    lines.extend(each_place(edition, random));
    lines.extend(number_edges(edition, random));
    lines.extend(two_faults(edition, random));
    lines.extend(first_bytes(edition, random));
    lines.extend(whole_images(edition, random));
    lines.extend(image_lengths(edition, random));
    lines.extend(damaged_images(edition, random));
    lines
}

/// A card written, and what was written read.
fn round_trips(edition: &Edition, random: &mut Random) -> Vec<Vec<u8>> {
    let mut cards: Vec<Card> = (0..8)
        .map(|turn| random_card(edition, turn % 2, random))
        .collect();
    let mut steps = new_card(edition, 0, random);
    steps.places = edition.places(|ind| ind as u64);
    let mut powers = new_card(edition, 1, random);
    powers.places = edition.places(|ind| 1 << ((ind + 11) % edition.seq_bits()));
    let mut full = new_card(edition, 1, random);
    full.places = edition.places(|_| edition.seq_limit());
    cards.extend([steps, powers, full]);
    cards
        .iter()
        .flat_map(|card| {
            let image = image_of(card);
            [card_write(card, image.len()), card_read(&image)]
        })
        .collect()
}

/// One place at its limit, each in turn; eight places fill whole bytes, so that
/// the first eight show every way in which a place can lie across bytes.
fn each_place(edition: &Edition, random: &mut Random) -> Vec<Vec<u8>> {
    let mut lines = Vec::new();
    let new = new_card(edition, 0, random);
    let last = edition.indices() - 1;
    for ind in 0..=last {
        let mut card = new.clone();
        card.places[ind] = edition.seq_limit();
        lines.push(card_write(&card, edition.card_image()));
        if ind < 8 || ind == last {
            lines.push(card_read(&image_of(&card)));
        }
    }
    lines
}

fn number_edges(edition: &Edition, random: &mut Random) -> Vec<Vec<u8>> {
    let mut lines = Vec::new();
    let fields = write_fields(&new_card(edition, 1, random), edition.card_image());
    let with = |place: usize, number: &str| {
        let mut fields = fields.clone();
        fields[place] = number.as_bytes().to_vec();
        fields.join(&b' ')
    };
    for number in NUMBERS {
        for ind in [0, edition.indices() / 2, edition.indices() - 1] {
            lines.push(with(FIRST_PLACE + ind, number));
        }
    }
    lines.extend(SETS.map(|number| with(SET, number)));
    lines.extend(BUFFERS.map(|number| with(BUFFER, number)));
    lines
}

/// The lower refusal is given where two apply.
fn two_faults(edition: &Edition, random: &mut Random) -> Vec<Vec<u8>> {
    let right = edition.card_image();
    let mut bad_set = new_card(edition, 2, random);
    let mut bad_place = new_card(edition, 0, random);
    bad_place.places[edition.indices() - 1] = edition.seq_limit() + 1;
    let mut lines = Vec::new();
    for length in [0, right - 1, right + 1, 512] {
        lines.push(card_write(&bad_set, length));
        lines.push(card_write(&bad_place, length));
    }
    bad_set.places = bad_place.places;
    lines.push(card_write(&bad_set, right));
    lines.push(card_write(&bad_set, 0));
    lines
}

/// Every edition with a known set and every set with this edition are read;
/// some of them are challenged too, with good and with short parts.
fn first_bytes(edition: &Edition, random: &mut Random) -> Vec<Vec<u8>> {
    let mut lines = Vec::new();
    let card = new_card(edition, 1, random);
    let first = 16 * edition.number;
    let rand = random.bytes();
    let autn = autn(&card, &rand, edition.sqn(1, 1), &[0, 1]);
    let mut image = image_of(&card);
    for edition in 0..16 {
        image[0] = 16 * edition + edition % 2;
        lines.push(card_read(&image));
    }
    for set in 0..16 {
        image[0] = first + set;
        lines.push(card_read(&image));
    }
    for first in [0x01, 0x30, first + 2, first + 15] {
        image[0] = first;
        lines.push(challenge(&image, &rand, &autn));
        lines.push(challenge(&image, &rand[..15], &autn));
        lines.push(challenge(&image, &rand, &[]));
    }
    lines
}

fn whole_images(edition: &Edition, random: &mut Random) -> Vec<Vec<u8>> {
    let mut lines = Vec::new();
    let first = 16 * edition.number;
    for (first, others) in [
        (0x00, 0x00),
        (0xff, 0xff),
        (first, 0x00),
        (first + 1, 0x00),
        (first, 0xff),
        (first + 1, 0xff),
        (first + 1, 0xaa),
    ] {
        let mut image = vec![others; edition.card_image()];
        image[0] = first;
        lines.push(card_read(&image));
        lines.push(challenge(&image, &random.bytes::<16>(), &[0; 16]));
    }
    lines
}

/// Images of other lengths: good ones cut or with bytes behind, and such with
/// an unknown edition, which is refused before the length.
fn image_lengths(edition: &Edition, random: &mut Random) -> Vec<Vec<u8>> {
    let mut lines = Vec::new();
    let card = random_card(edition, 0, random);
    let right = edition.card_image();
    let rand = random.bytes();
    let sqn = edition.sqn(card.seq_ms() + 1, 0);
    let autn = autn(&card, &rand, sqn, &random.bytes());
    let good = [image_of(&card), image_of(&card)].concat();
    let mut bad = good.clone();
    bad[0] = 0;
    for length in [0, 1, right - 1, right + 1, 2 * right] {
        for image in [&good[..length], &bad[..length]] {
            lines.push(card_read(image));
            lines.push(challenge(image, &rand, &autn));
        }
        lines.push(challenge(&good[..length], &rand[..15], &autn));
    }
    // The lengths of a centre's image and of a vector, and about half.
    for length in [41, 72, 102, 103] {
        lines.push(card_read(&good[..length]));
    }
    lines
}

/// One bit of a good image turned over, anywhere and in the places alone.
fn damaged_images(edition: &Edition, random: &mut Random) -> Vec<Vec<u8>> {
    let mut lines = Vec::new();
    for turn in 0..12 {
        let card = random_card(edition, turn % 2, random);
        let rand = random.bytes();
        let sqn = edition.sqn(card.seq_ms() + 1, usize::from(turn));
        let autn = autn(&card, &rand, sqn, &random.bytes());
        let mut image = image_of(&card);
        turn_a_bit(&mut image, random);
        lines.push(card_read(&image));
        let mut image = image_of(&card);
        turn_a_bit(&mut image[33..], random);
        lines.push(challenge(&image, &rand, &autn));
    }
    lines
}
