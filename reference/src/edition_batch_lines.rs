//! Batches in each edition: the index cycle, the range about D, and a card and
//! a centre of unlike editions.

use crate::auc::Auc;
use crate::auc_call_lines::{auc_with, auts, Lent};
use crate::block::Block;
use crate::call_lines::turn_a_bit;
use crate::editions::{Edition, EDITION_1, EDITION_2, KNOWN};
use crate::random::Random;
use crate::usim::D;

pub fn lines(random: &mut Random) -> Vec<Vec<u8>> {
    let mut lines = Vec::new();
    for edition in &KNOWN {
        lines.extend(cycle(edition, random));
        lines.extend(limits(edition, random));
        lines.extend(ranges(edition, random));
        lines.extend(equal_rands(edition, random));
    }
    lines.extend(unlike(&EDITION_1, &EDITION_2, random));
    lines.extend(unlike(&EDITION_2, &EDITION_1, random));
    lines
}

/// A resynchronisation with the AUTS of a card that stands at this SQN_MS.
fn resync(auc: &Auc, card: &Edition, sqn_ms: u64, n: usize, random: &mut Random) -> Vec<u8> {
    let rand: Block = random.bytes();
    let (seq_ms, ind) = (card.seq(sqn_ms), card.ind(sqn_ms));
    let auts = auts(card, &auc.subscriber, &rand, seq_ms, ind);
    Lent::new(auc, n, random).resync(&rand, &auts)
}

/// Every count from the indices about the wrap and about the other edition's:
/// in an order, in a resynchronisation that keeps and in one that resets.
fn cycle(edition: &Edition, random: &mut Random) -> Vec<Vec<u8>> {
    let mut lines = Vec::new();
    let indices = edition.indices() as u8;
    let about = [0, 1, 29, 30, 31, 32, 58, 59, 60, 61, 62, 63];
    for next in about.into_iter().filter(|next| *next < indices) {
        for n in 0..=5 {
            let auc = auc_with(edition, (next + n as u8) % 2, 1_000, next, random);
            lines.push(Lent::new(&auc, n, random).order());
            for seq_ms in [1_000, 1_001] {
                let sqn_ms = edition.sqn(seq_ms, usize::from(next));
                lines.push(resync(&auc, edition, sqn_ms, n, random));
            }
        }
    }
    lines
}

/// The last number at the limit and past it, from the indices about the wrap.
fn limits(edition: &Edition, random: &mut Random) -> Vec<Vec<u8>> {
    let mut lines = Vec::new();
    let (limit, last) = (edition.seq_limit(), edition.indices() as u8 - 1);
    for n in 1..=5 {
        for seq_he in [limit - n as u64, limit - n as u64 + 1, limit] {
            for next in [0, last - 1, last] {
                let auc = auc_with(edition, next % 2, seq_he, next, random);
                lines.push(Lent::new(&auc, n, random).order());
                let sqn_ms = edition.sqn(limit - D, usize::from(next));
                lines.push(resync(&auc, edition, sqn_ms, n, random));
            }
        }
    }
    lines
}

/// SEQ_HE about SEQ_MS and about SEQ_MS + D, whatever the index of SQN_MS is;
/// where it is out of range a wrong MAC-S is refused.
fn ranges(edition: &Edition, random: &mut Random) -> Vec<Vec<u8>> {
    let mut lines = Vec::new();
    let last = edition.indices() - 1;
    for (turn, ind) in [0, 1, 15, 16, 31, last - 1, last].into_iter().enumerate() {
        for n in [1, 2, 5] {
            let (seq_ms, n_before) = (7_000 + 32 * turn as u64, D - n as u64);
            for seq_he in [seq_ms - 1, seq_ms, seq_ms + n_before, seq_ms + n_before + 1] {
                let auc = auc_with(edition, turn as u8 % 2, seq_he, ind as u8, random);
                let rand: Block = random.bytes();
                let mut auts = auts(edition, &auc.subscriber, &rand, seq_ms, ind);
                let lent = Lent::new(&auc, n, random);
                lines.push(lent.resync(&rand, &auts));
                turn_a_bit(&mut auts[6..], random);
                lines.push(lent.resync(&rand, &auts));
            }
        }
    }
    lines
}

/// Every pair of a batch of five, where the last SEQ would pass the limit as
/// well: 4 comes before 6.
fn equal_rands(edition: &Edition, random: &mut Random) -> Vec<Vec<u8>> {
    let mut lines = Vec::new();
    for first in 0..5 {
        for second in first + 1..5 {
            let auc = auc_with(edition, first as u8 % 2, edition.seq_limit(), 3, random);
            let mut lent = Lent::new(&auc, 5, random);
            lent.rands
                .copy_within(16 * first..16 * first + 16, 16 * second);
            lines.push(lent.order());
            let rand: Block = random.bytes();
            let auts = auts(edition, &auc.subscriber, &rand, 9, second);
            lines.push(lent.resync(&rand, &auts));
        }
    }
    lines
}

/// The centre splits the card's SQN_MS by its own width: about the SEQ that it
/// sees, and about the one that the card means.
fn unlike(centre: &Edition, card: &Edition, random: &mut Random) -> Vec<Vec<u8>> {
    let mut lines = Vec::new();
    for sqn_ms in [
        0,
        31,
        32,
        63,
        64,
        6_399,
        6_400,
        6_432,
        1 << 40,
        (1 << 46) + 37,
    ] {
        let (seen, meant) = (centre.seq(sqn_ms), card.seq(sqn_ms));
        let n = 1 + random.below(5);
        let far = seen + D - n as u64;
        let below = [seen, meant].map(|seq| seq.saturating_sub(1));
        for seq_he in [below[0], seen, seen + 1, far, far + 1, below[1], meant] {
            let next = random.below(centre.indices()) as u8;
            let auc = auc_with(centre, next % 2, seq_he, next, random);
            lines.push(resync(&auc, card, sqn_ms, n, random));
        }
    }
    // A card at the limit of its own edition, and a reset that has no room.
    for ind in [0, card.indices() - 1] {
        let sqn_ms = card.sqn(card.seq_limit(), ind);
        for seq_he in [0, centre.seq_limit() - 1, centre.seq_limit()] {
            let auc = auc_with(centre, ind as u8 % 2, seq_he, 0, random);
            lines.push(resync(&auc, card, sqn_ms, 1, random));
        }
    }
    lines
}
