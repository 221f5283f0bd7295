//! The lines that try each edge of an order and of a resynchronisation.

use crate::auc::Auc;
use crate::auc_call_lines::{auc_with, auts, image_of, new_auc, rands, Lent};
use crate::block::Block;
use crate::call_lines::{self, autn, challenge, turn_a_bit};
use crate::editions::Edition;
use crate::functions::Subscriber;
use crate::random::Random;
use crate::usim::{Card, D};
use crate::vector::{Vector, LENGTH};

const SETS: [u8; 2] = [0, 1];

/// A centre, a card of the same subscriber that stands at SEQ_MS, and its
/// answer to a challenge that it did not take.
struct Failure {
    auc: Auc,
    rand: Block,
    auts: [u8; 14],
}

impl Failure {
    fn new(edition: &Edition, set: u8, seq_he: u64, seq_ms: u64, random: &mut Random) -> Failure {
        let next = random.below(edition.indices()) as u8;
        let auc = auc_with(edition, set, seq_he, next, random);
        let rand = random.bytes();
        let ind = random.below(edition.indices());
        Failure {
            auts: auts(edition, &auc.subscriber, &rand, seq_ms, ind),
            auc,
            rand,
        }
    }

    fn resync(&self, count: usize, random: &mut Random) -> Vec<u8> {
        let lent = Lent::new(&self.auc, count, random);
        lent.resync(&self.rand, &self.auts)
    }

    /// The same with one bit of MAC-S turned over.
    fn with_wrong_code(mut self, random: &mut Random) -> Failure {
        turn_a_bit(&mut self.auts[6..], random);
        self
    }
}

/// The sample run's order, and document 01's limits and kept or reset cases for
/// each set.
pub fn published(edition: &Edition, random: &mut Random) -> Vec<Vec<u8>> {
    let sample = Subscriber {
        set: 0,
        k: std::array::from_fn(|i| i as u8),
        opc: [0; 16],
    };
    let mut lent = Lent::new(&Auc::new(edition.number, sample, [0, 1]), 1, random);
    lent.rands = vec![0; 16];
    let mut lines = vec![lent.order()];
    for set in SETS {
        for below in [5, 4] {
            let seq_he = edition.seq_limit() - below;
            let auc = auc_with(edition, set, seq_he, 0, random);
            lines.push(Lent::new(&auc, 5, random).order());
        }
        for seq_he in [100, 99, 268_435_551, 268_435_552] {
            let failure = Failure::new(edition, set, seq_he, 100, random);
            lines.push(failure.resync(5, random));
        }
    }
    lines
}

type Section = fn(&Edition, &mut Random) -> Vec<Vec<u8>>;

/// What is tried with centres of edition 1.
const ALL: [Section; 14] = [
    counts,
    indices,
    equal_rands,
    alike_rands,
    limits,
    ranges,
    damaged_auts,
    full_centres,
    high_cards,
    lengths,
    two_faults,
    first_bytes,
    stories,
    mixed,
];

/// What is tried with centres of the later editions: all that depends on the
/// edition, and each refusal.
const SOME: [Section; 11] = [
    counts,
    indices,
    limits,
    ranges,
    damaged_auts,
    full_centres,
    high_cards,
    two_faults,
    first_bytes,
    stories,
    mixed,
];

pub fn edges(edition: &Edition, random: &mut Random) -> Vec<Vec<u8>> {
    ALL.iter()
        .flat_map(|section| section(edition, random))
        .collect()
}

pub fn later(edition: &Edition, random: &mut Random) -> Vec<Vec<u8>> {
    SOME.iter()
        .flat_map(|section| section(edition, random))
        .collect()
}

/// Counts 0 to 6 with what is lent for each of 0 to 6 vectors, and huge ones.
fn counts(edition: &Edition, random: &mut Random) -> Vec<Vec<u8>> {
    let mut lines = Vec::new();
    for count in 0..=6 {
        for n in 0..=6 {
            let failure = Failure::new(edition, (n % 2) as u8, 500, 490, random);
            let mut lent = Lent::new(&failure.auc, n, random);
            lent.rands = rands(n, random);
            lent.length = LENGTH * n;
            lent.count = count;
            lines.push(lent.order());
            if n as u64 % 5 == count % 5 {
                lines.push(lent.resync(&failure.rand, &failure.auts));
            }
        }
    }
    for count in [
        7,
        10,
        255,
        256,
        257,
        261,
        65_537,
        1 << 32,
        1 << 63,
        u64::MAX,
    ] {
        let failure = Failure::new(edition, 1, 500, 490, random);
        for n in [1, 5] {
            let mut lent = Lent::new(&failure.auc, n, random);
            lent.count = count;
            lines.push(lent.order());
            lines.push(lent.resync(&failure.rand, &failure.auts));
        }
    }
    lines
}

/// Every next index, after the last comes 0; a reset goes on with the index too.
fn indices(edition: &Edition, random: &mut Random) -> Vec<Vec<u8>> {
    let mut lines = Vec::new();
    for next in 0..edition.indices() as u8 {
        let auc = auc_with(
            edition,
            next % 2,
            random.draw() % edition.seq_limit(),
            next,
            random,
        );
        lines.push(Lent::new(&auc, 1, random).order());
    }
    for set in SETS {
        for seq_he in [7, 9] {
            let mut failure = Failure::new(edition, set, seq_he, 8, random);
            failure.auc.next = edition.indices() as u8 - 1;
            lines.push(failure.resync(2, random));
            lines.push(Lent::new(&failure.auc, 5, random).order());
        }
    }
    lines
}

/// Pairs of places below n: the first, then the second that is made equal.
fn pairs(n: usize) -> Vec<(usize, usize)> {
    let seconds = |first| (first + 1..n).map(move |second| (first, second));
    (0..n).flat_map(seconds).collect()
}

fn make_equal(rands: &mut [u8], (first, second): (usize, usize)) {
    rands.copy_within(16 * first..16 * first + 16, 16 * second);
}

/// Every pair of every batch, and any two pairs of a batch of five at once.
fn equal_rands(edition: &Edition, random: &mut Random) -> Vec<Vec<u8>> {
    let mut lines = Vec::new();
    for count in [2, 3, 4, 5, 0] {
        for pair in pairs(if count == 0 { 5 } else { count }) {
            let failure = Failure::new(edition, (count % 2) as u8, 500, 490, random);
            let mut lent = Lent::new(&failure.auc, count, random);
            make_equal(&mut lent.rands, pair);
            lines.push(lent.order());
            lines.push(lent.resync(&failure.rand, &failure.auts));
        }
    }
    let lent = Lent::new(&new_auc(edition, 1, random), 5, random);
    for one in pairs(5) {
        for other in pairs(5).into_iter().filter(|other| *other > one) {
            let mut lent = lent.clone();
            make_equal(&mut lent.rands, one);
            make_equal(&mut lent.rands, other);
            lines.push(lent.order());
        }
    }
    let mut all = lent;
    all.rands = all.rands[..16].repeat(5);
    lines.push(all.order());
    lines
}

/// RANDs that differ in one bit only, or that equal the failed challenge's, are
/// not equal to each other.
fn alike_rands(edition: &Edition, random: &mut Random) -> Vec<Vec<u8>> {
    let mut lines = Vec::new();
    for byte in 0..16 {
        let mut lent = Lent::new(&new_auc(edition, byte as u8 % 2, random), 2, random);
        make_equal(&mut lent.rands, (0, 1));
        lent.rands[16 + byte] ^= 1 << random.below(8);
        lines.push(lent.order());
    }
    for seq_he in [489, 490] {
        let failure = Failure::new(edition, 1, seq_he, 490, random);
        let mut lent = Lent::new(&failure.auc, 3, random);
        lent.rands[16..32].copy_from_slice(&failure.rand);
        lines.push(lent.resync(&failure.rand, &failure.auts));
    }
    lines
}

/// SEQ_HE so high that the last SEQ is about the limit.
fn limits(edition: &Edition, random: &mut Random) -> Vec<Vec<u8>> {
    let mut lines = Vec::new();
    for count in 0..=5 {
        for below in 0..=6 {
            let set = ((count + below) % 2) as u8;
            let seq_he = edition.seq_limit() - below as u64;
            let next = random.below(edition.indices()) as u8;
            let auc = auc_with(edition, set, seq_he, next, random);
            lines.push(Lent::new(&auc, count, random).order());
        }
    }
    lines
}

/// SEQ_HE about SEQ_MS and about SEQ_MS + D, for each count.
fn ranges(edition: &Edition, random: &mut Random) -> Vec<Vec<u8>> {
    let mut lines = Vec::new();
    let limit = edition.seq_limit();
    let half = limit / 2 + 1;
    for (turn, seq_ms) in [0, 1, 100, half, limit - D].into_iter().enumerate() {
        for n in 1..=5 {
            let far = seq_ms + D - n as u64;
            let near = [seq_ms.saturating_sub(1), seq_ms, seq_ms + 1];
            for seq_he in near.into_iter().chain([far - 1, far, far + 1]) {
                let set = ((turn + n) % 2) as u8;
                lines.push(Failure::new(edition, set, seq_he, seq_ms, random).resync(n, random));
            }
        }
    }
    for (seq_he, seq_ms) in [(0, limit - 5), (limit, 0), (0, D), (0, D + 1)] {
        lines.push(Failure::new(edition, 1, seq_he, seq_ms, random).resync(0, random));
    }
    lines
}

/// Each byte of an AUTS damaged, in range and out of range on both sides. In
/// range only the damage to SEQ_MS is seen.
fn damaged_auts(edition: &Edition, random: &mut Random) -> Vec<Vec<u8>> {
    let mut lines = Vec::new();
    for (turn, seq_he) in [1 << 20, (1 << 20) - 1, 1 << 30].into_iter().enumerate() {
        for set in SETS {
            let failure = Failure::new(edition, set, seq_he, 1 << 20, random);
            for byte in 0..14 {
                let mut auts = failure.auts;
                auts[byte] ^= 1 << random.below(8);
                let lent = Lent::new(&failure.auc, 1 + (turn + byte) % 5, random);
                lines.push(lent.resync(&failure.rand, &auts));
            }
            // A right AUTS for another RAND.
            let lent = Lent::new(&failure.auc, 1, random);
            lines.push(lent.resync(&random.bytes::<16>(), &failure.auts));
        }
    }
    lines
}

/// SEQ_HE at its limit: in range refused 6 without a look at MAC-S, out of
/// range no obstacle to a reset.
fn full_centres(edition: &Edition, random: &mut Random) -> Vec<Vec<u8>> {
    let mut lines = Vec::new();
    let limit = edition.seq_limit();
    for set in SETS {
        for seq_ms in [0, 100, limit - D, limit - D + 1, limit - D + 5, limit] {
            for count in [1, 5] {
                let failure = Failure::new(edition, set, limit, seq_ms, random);
                lines.push(failure.resync(count, random));
                let failure = failure.with_wrong_code(random);
                lines.push(failure.resync(count, random));
            }
        }
    }
    lines
}

/// SEQ_MS so high that a reset has no room: 5 comes before 6.
fn high_cards(edition: &Edition, random: &mut Random) -> Vec<Vec<u8>> {
    let mut lines = Vec::new();
    for count in 1..=5 {
        for below in [count - 1, count] {
            let seq_ms = edition.seq_limit() - below as u64;
            let failure = Failure::new(edition, (count % 2) as u8, 3, seq_ms, random);
            lines.push(failure.resync(count, random));
            let failure = failure.with_wrong_code(random);
            lines.push(failure.resync(count, random));
        }
    }
    lines
}

/// Each lent part in other lengths.
fn lengths(edition: &Edition, random: &mut Random) -> Vec<Vec<u8>> {
    let mut lines = Vec::new();
    for count in [1, 3, 5, 0] {
        let failure = Failure::new(edition, (count % 2) as u8, 500, 490, random);
        let lent = Lent::new(&failure.auc, count, random);
        let (rand, auts) = (failure.rand.repeat(2), failure.auts.repeat(2));
        let rands = lent.rands.len();
        for length in [0, 1, 15, rands - 16, rands - 1, rands + 1, rands + 16] {
            let mut other = lent.clone();
            other.rands = lent.rands.repeat(2)[..length].to_vec();
            lines.push(other.order());
            lines.push(other.resync(&failure.rand, &failure.auts));
        }
        for length in [
            0,
            1,
            lent.length - 72,
            lent.length - 1,
            lent.length + 1,
            432,
            512,
        ] {
            let mut other = lent.clone();
            other.length = length;
            lines.push(other.order());
            lines.push(other.resync(&failure.rand, &failure.auts));
        }
        for length in [0, 1, 15, 16, 17, 32] {
            lines.push(lent.resync(&rand[..length], &failure.auts));
        }
        for length in [0, 1, 13, 14, 15, 28] {
            lines.push(lent.resync(&failure.rand, &auts[..length]));
        }
    }
    lines
}

/// The lower refusal is given where two apply: each fault with each other one.
fn two_faults(edition: &Edition, random: &mut Random) -> Vec<Vec<u8>> {
    type Fault = fn(&mut Lent);
    const FAULTS: [Fault; 6] = [
        |lent| lent.image[0] ^= 0x20,
        |lent| lent.image.truncate(40),
        |lent| lent.count = 6,
        |lent| lent.length -= 1,
        |lent| lent.rands.truncate(79),
        |lent| make_equal(&mut lent.rands, (0, 1)),
    ];
    let mut lines = Vec::new();
    let limit = edition.seq_limit();
    for (one, other) in pairs(FAULTS.len()) {
        // Out of range with a wrong code, and past the limit as well.
        let failure = Failure::new(edition, 1, 7, limit, random).with_wrong_code(random);
        let full = auc_with(edition, 0, limit, 9, random);
        let mut lent = Lent::new(&failure.auc, 5, random);
        let mut order = Lent::new(&full, 5, random);
        for fault in [FAULTS[one], FAULTS[other]] {
            fault(&mut lent);
            fault(&mut order);
        }
        lines.push(lent.resync(&failure.rand, &failure.auts));
        lines.push(order.order());
    }
    for fault in FAULTS {
        let failure = Failure::new(edition, 0, 7, limit, random).with_wrong_code(random);
        let mut lent = Lent::new(&failure.auc, 5, random);
        fault(&mut lent);
        lines.push(lent.resync(&failure.rand, &failure.auts));
        lines.push(lent.resync(&failure.rand[..1], &failure.auts));
    }
    lines
}

/// Images of other editions, sets and lengths, lent to both words.
fn first_bytes(edition: &Edition, random: &mut Random) -> Vec<Vec<u8>> {
    let mut lines = Vec::new();
    let failure = Failure::new(edition, 1, 7, 7, random);
    let lent = Lent::new(&failure.auc, 2, random);
    for first in [0x00, 0x01, 0x30, 0x31, 0x12, 0x1f, 0x22, 0xf0, 0xff] {
        let mut lent = lent.clone();
        lent.image[0] = first;
        lines.push(lent.order());
        lines.push(lent.resync(&failure.rand, &failure.auts));
    }
    for length in [0, 1, 40, 42, 72, 205] {
        let mut lent = lent.clone();
        lent.image.resize(length, 0);
        lines.push(lent.order());
        lines.push(lent.resync(&failure.rand, &failure.auts));
    }
    lines
}

/// A centre and a card together, out of step and in step again: each call is
/// lent the record that the one before returned.
fn stories(edition: &Edition, random: &mut Random) -> Vec<Vec<u8>> {
    let mut lines = Vec::new();
    for set in SETS {
        for (seq_he, seq_ms) in [(40, 5_000), (5_000, 40), (D + 50, 40)] {
            lines.extend(story(edition, set, [seq_he, seq_ms], random));
        }
    }
    lines
}

fn story(
    edition: &Edition,
    set: u8,
    [seq_he, seq_ms]: [u64; 2],
    random: &mut Random,
) -> Vec<Vec<u8>> {
    let last = edition.indices() as u8 - 1;
    let auc = auc_with(edition, set, seq_he, last, random);
    let mut card = Card::new(edition.number, auc.subscriber.clone());
    card.places = edition.places(|_| seq_ms);
    let mut lent = Lent::new(&auc, 3, random);
    let mut batch = vec![0; lent.length];
    let next = auc.order(3, &lent.rands, &mut batch).expect("a batch");
    let mut lines = vec![lent.order()];
    lines.extend(challenges(&mut card, &batch));
    let rand: Block = random.bytes();
    let stale = autn(&card, &rand, 0, &[0, 0]);
    lines.push(challenge(&call_lines::image_of(&card), &rand, &stale));
    let auts = card.challenge(&rand, &stale).auts;
    lent.image = image_of(&next);
    lent.rands = rands(3, random);
    lines.push(lent.resync(&rand, &auts));
    let resync = next.resync(3, [&rand, &auts], &lent.rands, &mut batch);
    resync.expect("a batch");
    lines.extend(challenges(&mut card, &batch));
    lines
}

/// Each vector of the batch lent to the card.
fn challenges(card: &mut Card, batch: &[u8]) -> Vec<Vec<u8>> {
    let mut lines = Vec::new();
    for bytes in batch.chunks(LENGTH) {
        let Vector { rand, autn, .. } = Vector::of(bytes.try_into().expect("72 bytes"));
        lines.push(challenge(&call_lines::image_of(card), &rand, &autn));
        *card = card.challenge(&rand, &autn).card;
    }
    lines
}

/// Any numbers at all.
fn mixed(edition: &Edition, random: &mut Random) -> Vec<Vec<u8>> {
    let mut lines = Vec::new();
    let limit = edition.seq_limit();
    for turn in 0..120 {
        let seq_ms = random.draw() % (limit + 1);
        let seq_he = match random.below(3) {
            0 => random.draw() % (limit + 1),
            _ => (seq_ms + random.draw() % (D + D / 4)).min(limit),
        };
        let mut failure = Failure::new(edition, turn % 2, seq_he, seq_ms, random);
        if random.below(6) == 0 {
            turn_a_bit(&mut failure.auts, random);
        }
        lines.push(failure.resync(random.below(6), random));
        if turn % 4 == 0 {
            lines.push(Lent::new(&failure.auc, random.below(6), random).order());
        }
    }
    lines
}
