//! The lines for the centre's `triplets`: batches and buffers of every length,
//! and the edges of the form.

use crate::auc_call_lines::{auc_with, batch_of, new_auc, triplets_line, Lent};
use crate::auc_form_lines::{no_numbers, other_fields};
use crate::calls::LONGEST;
use crate::editions::EDITION_1;
use crate::functions::Subscriber;
use crate::published::{self, MilenageVector};
use crate::random::Random;
use crate::text::read_hex;
use crate::triplet;
use crate::vector::{Vector, LENGTH, MOST};
use crate::{auc::Auc, damage};

/// Short lines. Most are bad lines; the others are refused for their lengths.
const SHORT: [&str; 36] = [
    "triplets",
    "triplets ",
    "triplets  ",
    "triplets -",
    "triplets - ",
    "triplets - -",
    "triplets - 0",
    "triplets - 28",
    "triplets - 0 ",
    "triplets - 0 0",
    "triplets - - 0",
    "triplets  0",
    "triplets  - 0",
    "triplets -  0",
    "triplets 0",
    "triplets 0 0",
    "triplets 00 0",
    "triplets 00 28",
    "triplets 0A 0",
    "triplets 0a 0",
    "triplets 0g 0",
    "triplets -- 0",
    "triplets - 0\r",
    "triplets - 0\0",
    "triplets\t- 0",
    " triplets - 0",
    "Triplets - 0",
    "TRIPLETS - 0",
    "triplet - 0",
    "tripletss - 0",
    "triplets- 0",
    "triplets 1 - 0",
    "triplets 0 - 0",
    "triplets 1 - 28",
    "triplets - 513",
    "triplets - 18446744073709551616",
];

pub fn lines() -> Vec<Vec<u8>> {
    let mut random = Random::new(6_801);
    let mut lines = published();
    lines.extend(orders(&mut random));
    lines.extend(each_byte(&mut random));
    lines.extend(counts(&mut random));
    lines.extend(batch_lengths(&mut random));
    lines.extend(buffer_lengths(&mut random));
    lines.extend(mixed(&mut random));
    lines.extend(forms(&mut random));
    lines.extend(long_lines());
    lines
}

/// The line of a batch with the buffer that fits it.
fn fitting(batch: &[u8]) -> Vec<u8> {
    line(batch, triplet::LENGTH * (batch.len() / LENGTH))
}

fn line(batch: &[u8], length: usize) -> Vec<u8> {
    triplets_line(batch, &length.to_string())
}

fn bytes(n: usize, random: &mut Random) -> Vec<u8> {
    (0..n).map(|_| random.draw() as u8).collect()
}

/// The sample vector, and the vectors of TS 35.208.
fn published() -> Vec<Vec<u8>> {
    let sample = Subscriber {
        set: 0,
        k: std::array::from_fn(|i| i as u8),
        opc: [0; 16],
    };
    let mut lines = vec![fitting(&batch_of(
        &Auc::new(EDITION_1.number, sample, [0, 1]),
        &[0; 16],
    ))];
    let sets: Vec<_> = published::milenage().iter().map(vector_of).collect();
    lines.extend(sets.chunks(MOST).map(|sets| fitting(&sets.concat())));
    lines
}

/// A triplet has nothing of AUTN, so any will do.
fn vector_of(set: &MilenageVector) -> [u8; LENGTH] {
    let block = |text: &str| read_hex(text.as_bytes()).expect("16 bytes");
    let vector = Vector {
        rand: block(set.rand),
        xres: read_hex(set.f2.as_bytes()).expect("8 bytes"),
        ck: block(set.f3),
        ik: block(set.f4),
        autn: [0xa5; 16],
    };
    vector.bytes()
}

/// Orders of each count, and the triplets of what they give.
fn orders(random: &mut Random) -> Vec<Vec<u8>> {
    let mut lines = Vec::new();
    for n in 1..=MOST {
        for set in [0, 1] {
            let auc = auc_with(&EDITION_1, set, 700, 30, random);
            let lent = Lent::new(&auc, n, random);
            lines.push(lent.order());
            lines.push(fitting(&batch_of(&auc, &lent.rands)));
        }
    }
    lines
}

/// Vectors that have one byte which is not zero: what each byte is for.
fn each_byte(random: &mut Random) -> Vec<Vec<u8>> {
    let mut vectors = Vec::new();
    for place in 0..LENGTH {
        let mut vector = [0; LENGTH];
        vector[place] = 1 + random.below(255) as u8;
        vectors.push(vector);
    }
    // All ones, and ones in every part but one.
    vectors.push([0xff; LENGTH]);
    for part in [0..16, 16..20, 20..24, 24..32, 32..40, 40..48, 48..56] {
        let mut vector = [0xff; LENGTH];
        vector[part].fill(0);
        vectors.push(vector);
    }
    let lines = vectors.chunks(MOST);
    lines.map(|vectors| fitting(&vectors.concat())).collect()
}

/// Batches of 0 to 6 vectors with buffers for 0 to 6 triplets.
fn counts(random: &mut Random) -> Vec<Vec<u8>> {
    let mut lines = Vec::new();
    for vectors in 0..=6 {
        let batch = bytes(LENGTH * vectors, random);
        for triplets in 0..=6 {
            lines.push(line(&batch, triplet::LENGTH * triplets));
        }
    }
    lines
}

/// Batches about whole numbers of vectors, of other items, or whose low bits
/// look right, with the buffers for as many triplets as begin and as end there.
fn batch_lengths(random: &mut Random) -> Vec<Vec<u8>> {
    let mut lines = Vec::new();
    for length in [
        1, 16, 27, 28, 29, 56, 71, 73, 81, 140, 143, 145, 146, 215, 217, 287, 289, 328, 359, 361,
        365, 431, 433, 504, 616,
    ] {
        let batch = bytes(length, random);
        let whole = length / LENGTH;
        lines.push(line(&batch, triplet::LENGTH * whole));
        lines.push(line(&batch, triplet::LENGTH * (whole + 1)));
    }
    lines
}

/// Buffers of other lengths for batches of each count.
fn buffer_lengths(random: &mut Random) -> Vec<Vec<u8>> {
    let mut lines = Vec::new();
    for n in 1..=MOST {
        let batch = bytes(LENGTH * n, random);
        let right = triplet::LENGTH * n;
        for length in [0, 1, right - 1, right, right + 1, LENGTH * n, right + 256] {
            lines.push(line(&batch, length));
        }
    }
    let batch = batch_of(&new_auc(&EDITION_1, 1, random), &bytes(16, random));
    for length in [
        "2",
        "16",
        "20",
        "24",
        "32",
        "255",
        "256",
        "511",
        "512",
        "513",
        "540",
        "65564",
        "4294967324",
        "18446744073709551615",
        "18446744073709551616",
        "18446744073709551644",
        "028",
        "00000000000000000028",
        "000000000000000000028",
    ] {
        lines.push(triplets_line(&batch, length));
    }
    let batch = bytes(LENGTH * MOST, random);
    for length in ["168", "512", "513", "0140"] {
        lines.push(triplets_line(&batch, length));
    }
    lines
}

/// Any batches: those of a centre, random ones, and ones of fields that are now
/// and then all zeros or all ones.
fn mixed(random: &mut Random) -> Vec<Vec<u8>> {
    let mut lines = Vec::new();
    for turn in 0..30 {
        let n = 1 + turn % MOST;
        let batch = match turn % 3 {
            0 => {
                let auc = new_auc(&EDITION_1, 1, random);
                batch_of(&auc, &Lent::new(&auc, n, random).rands)
            }
            1 => bytes(LENGTH * n, random),
            _ => (0..n)
                .flat_map(|_| {
                    let vector = Vector {
                        rand: random.bytes(),
                        xres: random.bytes(),
                        ck: random.bytes(),
                        ik: random.bytes(),
                        autn: random.bytes(),
                    };
                    vector.bytes()
                })
                .collect(),
        };
        lines.push(fitting(&batch));
    }
    lines
}

fn forms(random: &mut Random) -> Vec<Vec<u8>> {
    let mut lines = SHORT.map(|line| line.as_bytes().to_vec()).to_vec();
    let good = fitting(&bytes(LENGTH, random));
    lines.extend(other_fields(&good));
    lines.extend(no_numbers(&good));
    for damage in damage::ALL {
        let mut line = fitting(&bytes(LENGTH, random));
        damage(&mut line, random);
        lines.push(line);
    }
    lines
}

/// Lines about the greatest length, of a right form otherwise.
fn long_lines() -> Vec<Vec<u8>> {
    let short = triplets_line(&[0], "28").len() - 2;
    [LONGEST, LONGEST + 2]
        .map(|length| triplets_line(&vec![0x5a; (length - short) / 2], "28"))
        .to_vec()
}
