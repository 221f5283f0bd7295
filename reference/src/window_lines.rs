//! A centre that gives many batches, and a card to which its vectors come late,
//! out of order, twice or not at all. Each call is lent the record that the one
//! before returned.

use crate::auc::Auc;
use crate::auc_call_lines::{auc_with, Lent};
use crate::block::Block;
use crate::call_lines::{autn, challenge, image_of, turn_a_bit};
use crate::challenge_lines::SETS;
use crate::editions::{Edition, EDITION_1, EDITION_2};
use crate::random::Random;
use crate::usim::{Card, D};
use crate::vector::{Vector, LENGTH};

/// A centre and a new card of the same subscriber and edition.
struct Pair<'a> {
    auc: Auc,
    card: Card,
    /// All vectors in the order in which they were given.
    given: Vec<Vector>,
    random: &'a mut Random,
    lines: Vec<Vec<u8>>,
}

impl Pair<'_> {
    fn new<'a>(edition: &Edition, set: u8, start: (u64, u8), random: &'a mut Random) -> Pair<'a> {
        let auc = auc_with(edition, set, start.0, start.1, random);
        Pair {
            card: Card::new(edition.number, auc.subscriber.clone()),
            auc,
            given: Vec::new(),
            random,
            lines: Vec::new(),
        }
    }

    fn order(&mut self, n: usize) {
        let lent = Lent::new(&self.auc, n, self.random);
        self.lines.push(lent.order());
        let mut batch = vec![0; lent.length];
        let next = self.auc.order(lent.count, &lent.rands, &mut batch);
        self.auc = next.expect("a batch");
        self.take(&batch);
    }

    fn take(&mut self, batch: &[u8]) {
        for bytes in batch.chunks(LENGTH) {
            let bytes = bytes.try_into().expect("72 bytes");
            self.given.push(Vector::of(bytes));
        }
    }

    /// Batches of any counts until so many vectors were given.
    fn give(&mut self, total: usize) {
        while self.given.len() < total {
            let left = total - self.given.len();
            let n = 1 + self.random.below(5);
            self.order(n.min(left));
        }
    }

    /// The card fails, and the centre is told.
    fn resync(&mut self, n: usize) {
        let rand: Block = self.random.bytes();
        let stale = autn(&self.card, &rand, 0, &[0, 0]);
        self.ask(&rand, &stale);
        let auts = self.card.challenge(&rand, &stale).auts;
        let lent = Lent::new(&self.auc, n, self.random);
        self.lines.push(lent.resync(&rand, &auts));
        let mut batch = vec![0; lent.length];
        let (_, next) = self
            .auc
            .resync(lent.count, [&rand, &auts], &lent.rands, &mut batch)
            .expect("a batch");
        self.auc = next;
        self.take(&batch);
    }

    fn ask(&mut self, rand: &Block, autn: &Block) {
        self.lines
            .push(challenge(&image_of(&self.card), rand, autn));
        self.card = self.card.challenge(rand, autn).card;
    }

    /// The vector that was given at this place, counted from 0.
    fn present(&mut self, place: usize) {
        let Vector { rand, autn, .. } = self.given[place];
        self.ask(&rand, &autn);
    }

    fn present_all(&mut self, places: impl IntoIterator<Item = usize>) {
        for place in places {
            self.present(place);
        }
    }

    /// The same with a wrong MAC.
    fn spoil(&mut self, place: usize) {
        let Vector { rand, mut autn, .. } = self.given[place];
        turn_a_bit(&mut autn[8..], self.random);
        self.ask(&rand, &autn);
    }

    /// A number that this centre never gave.
    fn foreign(&mut self, seq: u64, ind: usize) {
        let rand: Block = self.random.bytes();
        let sqn = self.card.row().sqn(seq, ind);
        let autn = autn(&self.card, &rand, sqn, &[0, 0]);
        self.ask(&rand, &autn);
    }
}

pub fn lines(random: &mut Random) -> Vec<Vec<u8>> {
    let mut lines = Vec::new();
    for section in [
        backwards,
        delays,
        shuffled,
        foreign_numbers,
        kept_between,
        resets_between,
        about_the_jump,
        one_index_for_a_batch,
    ] {
        lines.extend(section(random));
    }
    lines
}

/// The last number first: each of the numbers before it is accepted all the
/// same, once.
fn backwards(random: &mut Random) -> Vec<Vec<u8>> {
    let mut lines = Vec::new();
    for (set, start, total) in [(0, (0, 0), 64), (1, (12_345, 62), 50)] {
        let mut pair = Pair::new(&EDITION_2, set, start, random);
        pair.give(total);
        pair.present_all((0..total).rev());
        pair.present_all([0, total / 2, total - 1]);
        lines.extend(pair.lines);
    }
    lines
}

/// The last three numbers first, then the oldest two: with 62 and 63 numbers
/// between they are accepted, with 64 their index is met again.
fn delays(random: &mut Random) -> Vec<Vec<u8>> {
    let mut lines = Vec::new();
    for (turn, delay) in [2, 31, 32, 33, 50, 62, 63, 64, 65, 66]
        .into_iter()
        .enumerate()
    {
        let start = (1_000, 5 * turn as u8);
        let mut pair = Pair::new(&EDITION_2, turn as u8 % 2, start, random);
        pair.give(delay + 1);
        pair.present_all((delay - 2..=delay).rev());
        pair.present_all([0, 1]);
        lines.extend(pair.lines);
    }
    lines
}

/// Any of the last 64, also again and with a wrong MAC, while the centre goes on.
fn shuffled(random: &mut Random) -> Vec<Vec<u8>> {
    let mut lines = Vec::new();
    for set in SETS {
        let mut pair = Pair::new(&EDITION_2, set, (77, 40), random);
        pair.give(30);
        for _ in 0..50 {
            let given = pair.given.len();
            let place = given - 1 - pair.random.below(given.min(70));
            match pair.random.below(8) {
                0 | 1 => pair.give(given + 5),
                2 => pair.spoil(place),
                _ => pair.present(place),
            }
        }
        lines.extend(pair.lines);
    }
    lines
}

/// A number of another centre blocks its place until the SEQs have passed it;
/// no other place.
fn foreign_numbers(random: &mut Random) -> Vec<Vec<u8>> {
    let mut lines = Vec::new();
    for set in SETS {
        let mut pair = Pair::new(&EDITION_2, set, (0, 0), random);
        pair.give(10);
        pair.present_all([6]);
        pair.foreign(80, 7);
        pair.present_all([7, 8, 5, 7]);
        pair.give(80);
        // Index 7 again, at SEQ 72: still below the foreign number.
        pair.present_all([71, 70, 72, 79]);
        pair.give(140);
        // At SEQ 136 the place is free.
        pair.present_all([135, 71, 134]);
        lines.extend(pair.lines);
    }
    lines
}

/// A resynchronisation that keeps SEQ_HE goes on with the index, so that what was
/// given before is accepted after it.
fn kept_between(random: &mut Random) -> Vec<Vec<u8>> {
    let mut lines = Vec::new();
    for set in SETS {
        let mut pair = Pair::new(&EDITION_2, set, (500, 58), random);
        pair.give(8);
        pair.present(4);
        pair.resync(3);
        pair.give(20);
        pair.resync(5);
        pair.present_all([24, 19, 10, 9, 8, 7, 3, 0, 4]);
        lines.extend(pair.lines);
    }
    lines
}

/// A card that is ahead: after the reset the new numbers are accepted, and the
/// old ones where their place is not yet past them.
fn resets_between(random: &mut Random) -> Vec<Vec<u8>> {
    let mut lines = Vec::new();
    for set in SETS {
        let mut pair = Pair::new(&EDITION_2, set, (10, 60), random);
        pair.give(6);
        pair.present_all([5, 2]);
        pair.foreign(5_000, 63);
        pair.present_all([3, 4]);
        pair.resync(5);
        pair.present_all([10, 6, 0, 1, 8]);
        pair.give(70);
        pair.present_all([69, 20, 6, 7, 5]);
        // The counter falls back, and its numbers with it.
        pair.auc.seq_he = 3;
        pair.order(2);
        pair.present_all([70, 71]);
        pair.resync(2);
        pair.present_all([73, 72]);
        lines.extend(pair.lines);
    }
    lines
}

/// Numbers past D wait until the card has come nearer.
fn about_the_jump(random: &mut Random) -> Vec<Vec<u8>> {
    let mut lines = Vec::new();
    for edition in [EDITION_1, EDITION_2] {
        for set in SETS {
            let last = edition.indices() as u8 - 1;
            let mut pair = Pair::new(&edition, set, (D - 2, last), random);
            pair.give(5);
            pair.present_all([4, 3, 2, 1, 4, 2, 3, 0]);
            lines.extend(pair.lines);
        }
    }
    lines
}

/// In edition 1 a later vector of a batch makes the earlier ones stale; batches
/// have an index each, up to 32 of them.
fn one_index_for_a_batch(random: &mut Random) -> Vec<Vec<u8>> {
    let mut lines = Vec::new();
    for set in SETS {
        let mut pair = Pair::new(&EDITION_1, set, (0, 30), random);
        for _ in 0..3 {
            pair.order(3);
        }
        pair.present_all([8, 6, 5, 3, 1, 0, 2]);
        for _ in 0..30 {
            pair.order(1);
        }
        // Places 9 to 38: the batch of the first three has its index again.
        pair.present_all([38, 37, 9, 10]);
        lines.extend(pair.lines);
    }
    lines
}
