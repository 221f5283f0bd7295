//! The lines that try each edge of new records, of the centre's image, read and
//! written, and of a vector handed back.

use crate::auc::Auc;
use crate::auc_call_lines::{
    auc_new, auc_read, auc_with, auc_write, card_new, image_of, new_auc, vector_line, write_fields,
    BUFFER, NEXT, SEQ_HE, SET,
};
use crate::call_lines::{new_card, turn_a_bit};
use crate::editions::Edition;
use crate::image_lines::NUMBERS;
use crate::random::Random;

/// Sets and indices, also past what a line may name, where the low bits are in
/// range.
const SMALL: [&str; 19] = [
    "0",
    "1",
    "2",
    "15",
    "16",
    "30",
    "31",
    "32",
    "33",
    "63",
    "64",
    "65",
    "255",
    "256",
    "257",
    "00000000000000000001",
    "000000000000000000001",
    "4294967296",
    "18446744073709551615",
];

/// Lengths of a buffer, likewise; 297 and 65577 end in the bits of 41.
const BUFFERS: [&str; 14] = [
    "0",
    "1",
    "40",
    "41",
    "42",
    "82",
    "205",
    "511",
    "512",
    "513",
    "00000000000000000041",
    "000000000000000000041",
    "297",
    "65577",
];

/// Places in a batch; those past 4 end in the bits of one within.
const BATCH_PLACES: [&str; 14] = [
    "0",
    "1",
    "2",
    "3",
    "4",
    "5",
    "6",
    "00000000000000000000",
    "255",
    "256",
    "4294967296",
    "256204778801521551",
    "18446744073709551615",
    "18446744073709551616",
];

pub fn edges(edition: &Edition, random: &mut Random) -> Vec<Vec<u8>> {
    let mut lines = Vec::new();
    lines.extend(new_records(edition, random));
    lines.extend(round_trips(edition, random));
    lines.extend(number_edges(edition, random));
    lines.extend(two_faults(edition, random));
    lines.extend(first_bytes(edition, random));
    lines.extend(whole_images(edition));
    lines.extend(image_lengths(edition, random));
    lines.extend(damaged_images(edition, random));
    lines
}

/// Every set of four bits and some above; the known ones more than once.
fn new_records(edition: &Edition, random: &mut Random) -> Vec<Vec<u8>> {
    let mut lines = Vec::new();
    for set in (0..=17).chain([0, 1, 0, 1, 0, 1, 127, 128, 254, 255]) {
        lines.push(card_new(&new_card(edition, set, random)));
        lines.push(auc_new(&new_auc(edition, set, random)));
    }
    lines
}

/// A record written, and what was written read.
fn round_trips(edition: &Edition, random: &mut Random) -> Vec<Vec<u8>> {
    let mut records: Vec<Auc> = Vec::new();
    for bit in 0..edition.seq_bits() {
        records.push(auc_with(edition, bit as u8 % 2, 1 << bit, 0, random));
    }
    for next in 0..edition.indices() as u8 {
        let seq_he = random.one_of(&[0, edition.seq_limit()]);
        records.push(auc_with(edition, next % 2, seq_he, next, random));
    }
    for turn in 0..12 {
        let seq_he = random.draw() % (edition.seq_limit() + 1);
        records.push(auc_with(edition, turn % 2, seq_he, turn, random));
    }
    records
        .iter()
        .flat_map(|auc| {
            let image = image_of(auc);
            [auc_write(auc, image.len()), auc_read(&image)]
        })
        .collect()
}

fn number_edges(edition: &Edition, random: &mut Random) -> Vec<Vec<u8>> {
    let auc = auc_with(edition, 1, 77, 5, random);
    let fields = write_fields(&auc, edition.auc_image());
    let with = |place: usize, number: &str| {
        let mut fields = fields.clone();
        fields[place] = number.as_bytes().to_vec();
        fields.join(&b' ')
    };
    let mut lines = Vec::new();
    lines.extend(NUMBERS.map(|number| with(SEQ_HE, number)));
    lines.extend(SMALL.map(|number| with(SET, number)));
    lines.extend(SMALL.map(|number| with(NEXT, number)));
    lines.extend(BUFFERS.map(|number| with(BUFFER, number)));
    lines
}

/// The lower refusal is given where two apply.
fn two_faults(edition: &Edition, random: &mut Random) -> Vec<Vec<u8>> {
    let mut lines = Vec::new();
    let right = edition.auc_image();
    let (limit, indices) = (edition.seq_limit(), edition.indices() as u8);
    for length in [0, right - 1, right, right + 1, 205, 512] {
        for (set, seq_he, next) in [
            (2, 0, 0),
            (0, limit + 1, 0),
            (1, 0, indices),
            (3, u64::MAX, 255),
        ] {
            let auc = auc_with(edition, set, seq_he, next, random);
            lines.push(auc_write(&auc, length));
        }
    }
    lines
}

/// Every first byte: an edition and a set.
fn first_bytes(edition: &Edition, random: &mut Random) -> Vec<Vec<u8>> {
    let mut image = image_of(&auc_with(edition, 1, 12_345, 6, random));
    (0..=255)
        .map(|first| {
            image[0] = first;
            auc_read(&image)
        })
        .collect()
}

fn whole_images(edition: &Edition) -> Vec<Vec<u8>> {
    let first = 16 * edition.number;
    let bytes = [
        (0x00, 0x00),
        (0xff, 0xff),
        (first, 0x00),
        (first + 1, 0x00),
        (first, 0xff),
        (first + 1, 0xff),
        (first, 0xaa),
        (first + 1, 0x55),
    ];
    let image = |(first, others)| {
        let mut image = vec![others; edition.auc_image()];
        image[0] = first;
        auc_read(&image)
    };
    bytes.map(image).to_vec()
}

/// Images of other lengths: good ones cut or with bytes behind, and such with
/// an unknown edition, which is refused before the length.
fn image_lengths(edition: &Edition, random: &mut Random) -> Vec<Vec<u8>> {
    let mut lines = Vec::new();
    let good = image_of(&auc_with(edition, 0, 12_345, 6, random)).repeat(6);
    let mut bad = good.clone();
    bad[0] = 0;
    for length in [0, 1, 2, 20, 33, 35, 40, 42, 72, 82, 204, 205, 206] {
        lines.push(auc_read(&good[..length]));
        lines.push(auc_read(&bad[..length]));
    }
    lines
}

/// One bit of a good image turned over.
fn damaged_images(edition: &Edition, random: &mut Random) -> Vec<Vec<u8>> {
    let mut lines = Vec::new();
    for turn in 0..20 {
        let seq_he = random.draw() % edition.seq_limit();
        let auc = auc_with(edition, turn % 2, seq_he, turn, random);
        let mut image = image_of(&auc);
        turn_a_bit(&mut image, random);
        lines.push(auc_read(&image));
    }
    lines
}

/// Batches of every count and about it, each with every place.
pub fn vectors(random: &mut Random) -> Vec<Vec<u8>> {
    let mut lines = Vec::new();
    let bytes: Vec<u8> = (0..720).map(|_| random.draw() as u8).collect();
    for n in 0..=7 {
        for place in BATCH_PLACES {
            lines.push(vector_line(&bytes[..72 * n], place));
        }
    }
    for length in [
        1, 36, 71, 73, 143, 145, 215, 217, 287, 289, 359, 361, 431, 720,
    ] {
        for place in ["0", "1", "4", "5"] {
            lines.push(vector_line(&bytes[..length], place));
        }
    }
    lines
}
