//! Images of every edition and of many lengths, for each word that reads one:
//! what the reading refuses comes before all else that the line lends.

use crate::auc_call_lines::{self, auc_read};
use crate::call_lines::{card_read, challenge};
use crate::editions::KNOWN;
use crate::handset::{Store, ANSWER, AUTN, RAND, STORED};
use crate::handset_lines;
use crate::random::Random;
use crate::text::read_hex;
use crate::vector;

/// The shortest images, and those that are right for a record of some edition.
const RIGHT: [usize; 5] = [0, 1, 41, 205, 369];

/// About those that are right.
const NEAR: [usize; 6] = [40, 42, 204, 206, 368, 370];

/// Other lengths: such as hold no more than the keys, twice an image, or the
/// low bits of a right length.
const OTHERS: [usize; 7] = [2, 33, 58, 82, 297, 386, 461];

/// The known editions and some that are not.
const FEW_EDITIONS: [u8; 5] = [0, 1, 2, 3, 15];

const FEW_SETS: [u8; 5] = [0, 1, 2, 8, 15];

/// Writes a line with this image; the rest that it lends goes by the turn.
type Line = fn(&[u8], usize, &mut Random) -> Vec<u8>;

/// The words that do nothing but read.
const READING: [Line; 2] = [
    |image, _, _| card_read(image),
    |image, _, _| auc_read(image),
];

/// Those that go on with what they have read.
const GOING_ON: [Line; 4] = [a_challenge, an_order, a_resync, a_phone];

pub fn lines(random: &mut Random) -> Vec<Vec<u8>> {
    let all: Vec<u8> = (0..16).collect();
    let mut lines = Vec::new();
    for line in READING {
        lines.extend(editions(line, &RIGHT, &all, random));
        lines.extend(editions(line, &NEAR, &all, random));
        lines.extend(editions(line, &OTHERS, &FEW_EDITIONS, random));
        lines.extend(sets(line, &all, random));
    }
    for line in GOING_ON {
        lines.extend(editions(line, &RIGHT, &all, random));
        lines.extend(editions(line, &NEAR, &FEW_EDITIONS, random));
        lines.extend(editions(line, &OTHERS[..4], &FEW_EDITIONS[..3], random));
        lines.extend(sets(line, &FEW_SETS, random));
    }
    lines.extend(each_first_byte());
    lines
}

/// An image of random bytes that begins with this one.
fn image(first: u8, length: usize, random: &mut Random) -> Vec<u8> {
    let mut image: Vec<u8> = (0..length).map(|_| random.draw() as u8).collect();
    if let Some(byte) = image.first_mut() {
        *byte = first;
    }
    image
}

/// Each of these editions in each of these lengths, with a known set.
fn editions(line: Line, lengths: &[usize], editions: &[u8], random: &mut Random) -> Vec<Vec<u8>> {
    let mut lines = Vec::new();
    for (turn, length) in lengths.iter().enumerate() {
        for edition in editions {
            let set = random.one_of(&[0, 1]);
            let image = image(16 * edition + set, *length, random);
            lines.push(line(&image, turn + usize::from(*edition), random));
        }
    }
    lines
}

/// Each of these sets in both lengths of a known edition's images. Only in the
/// right one the set is looked at.
fn sets(line: Line, sets: &[u8], random: &mut Random) -> Vec<Vec<u8>> {
    let mut lines = Vec::new();
    for edition in &KNOWN {
        for set in sets {
            for length in [edition.auc_image(), edition.card_image()] {
                let image = image(16 * edition.number + set, length, random);
                lines.push(line(&image, usize::from(*set), random));
            }
        }
    }
    lines
}

/// Every first byte alone, and with one byte behind it.
fn each_first_byte() -> Vec<Vec<u8>> {
    (0..=255)
        .map(|first| match first % 2 {
            0 => auc_read(&[first, first]),
            _ => auc_read(&[first]),
        })
        .collect()
}

fn a_challenge(image: &[u8], turn: usize, random: &mut Random) -> Vec<u8> {
    let (rand, autn): ([u8; 17], [u8; 17]) = (random.bytes(), random.bytes());
    let (r, a) = [(16, 16), (15, 16), (16, 0), (17, 17)][turn % 4];
    challenge(image, &rand[..r], &autn[..a])
}

/// Counts, RANDs and buffers that are as named, and such as are refused 2, 3
/// and 4.
fn lent(image: &[u8], turn: usize, random: &mut Random) -> auc_call_lines::Lent {
    let (count, n, length) = [
        (1, 1, 1),
        (6, 1, 1),
        (2, 2, 2),
        (1, 0, 1),
        (u64::MAX, 0, 0),
        (1, 1, 0),
    ][turn % 6];
    let mut rands = auc_call_lines::rands(n, random);
    if turn % 12 == 2 {
        rands = rands[..16].repeat(n);
    }
    auc_call_lines::Lent {
        image: image.to_vec(),
        count,
        rands,
        length: vector::LENGTH * length,
    }
}

fn an_order(image: &[u8], turn: usize, random: &mut Random) -> Vec<u8> {
    lent(image, turn, random).order()
}

fn a_resync(image: &[u8], turn: usize, random: &mut Random) -> Vec<u8> {
    let (rand, auts): ([u8; 16], [u8; 14]) = (random.bytes(), random.bytes());
    let auts = if turn % 5 == 3 { &auts[1..] } else { &auts[..] };
    lent(image, turn, random).resync(&rand, auts)
}

/// What would be a repeat, what the card would be asked, and wrong lengths.
fn a_phone(image: &[u8], turn: usize, random: &mut Random) -> Vec<u8> {
    let rand: [u8; RAND] = read_hex(&random.digits(2 * RAND)).expect("two digits for each byte");
    let mut bytes = random.bytes::<STORED>().to_vec();
    if turn.is_multiple_of(2) {
        bytes[..RAND].copy_from_slice(&rand);
    }
    let autn: [u8; AUTN] = random.bytes();
    let lent = handset_lines::Lent {
        store: Store {
            held: turn % 4 < 2,
            bytes,
        },
        image: image.to_vec(),
        rand: rand.to_vec(),
        autn: autn[..AUTN - usize::from(turn % 3 == 2)].to_vec(),
        fresh: random.bytes::<ANSWER>()[..if turn % 5 == 4 { 0 } else { ANSWER }].to_vec(),
    };
    lent.line()
}
