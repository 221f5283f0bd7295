//! The challenges that try each edge of the card's rules.

use crate::block::{part, Block};
use crate::call_lines::{autn, challenge, image_of, new_card, random_card};
use crate::editions::Edition;
use crate::functions::Subscriber;
use crate::published;
use crate::random::Random;
use crate::text::read_hex;
use crate::usim::{sqn_bytes, Card, D};

pub const SETS: [u8; 2] = [0, 1];

/// Challenges to one card, each lent the record that the one before returned.
struct Story<'a> {
    card: Card,
    rand: Block,
    autn: Block,
    random: &'a mut Random,
    lines: Vec<Vec<u8>>,
}

impl Story<'_> {
    fn of(card: Card, random: &mut Random) -> Story<'_> {
        Story {
            card,
            rand: [0; 16],
            autn: [0; 16],
            random,
            lines: Vec::new(),
        }
    }

    /// A challenge of right MAC, with a RAND of its own.
    fn ask(&mut self, seq: u64, ind: usize) {
        let amf = self.random.bytes();
        self.ask_with(&amf, seq, ind);
    }

    fn ask_with(&mut self, amf: &[u8; 2], seq: u64, ind: usize) {
        self.rand = self.random.bytes();
        let sqn = self.card.row().sqn(seq, ind);
        self.autn = autn(&self.card, &self.rand, sqn, amf);
        self.again();
    }

    /// The last challenge once more.
    fn again(&mut self) {
        let image = image_of(&self.card);
        self.lines.push(challenge(&image, &self.rand, &self.autn));
        self.card = self.card.challenge(&self.rand, &self.autn).card;
    }
}

/// One challenge of right MAC.
fn one(card: Card, (seq, ind): (u64, usize), random: &mut Random) -> Vec<u8> {
    let mut story = Story::of(card, random);
    story.ask(seq, ind);
    story.lines.remove(0)
}

/// A card with these places, the rest 0.
fn card_with(edition: &Edition, set: u8, places: &[(usize, u64)], random: &mut Random) -> Card {
    let mut card = new_card(edition, set, random);
    for &(ind, seq) in places {
        card.places[ind] = seq;
    }
    card
}

/// The sample run's challenge and the same again, then the eight rows of the
/// worked table for a subscriber of each set.
pub fn published(edition: &Edition) -> Vec<Vec<u8>> {
    let (sample, zeros) = (sample_subscriber(), [0; 16]);
    let mut card = Card::new(edition.number, sample.clone());
    let autn = autn(&card, &zeros, edition.sqn(1, 0), &[0, 1]);
    let mut lines = Vec::new();
    for _ in 0..2 {
        lines.push(challenge(&image_of(&card), &zeros, &autn));
        card = card.challenge(&zeros, &autn).card;
    }
    lines.extend(table(edition, &sample, &zeros, &[0, 1]));
    let v = &published::milenage()[0];
    let milenage = Subscriber {
        set: 1,
        k: hex(v.k),
        opc: hex(v.opc),
    };
    lines.extend(table(edition, &milenage, &hex(v.rand), &hex(v.amf)));
    lines
}

fn hex<const N: usize>(digits: &str) -> [u8; N] {
    read_hex(digits.as_bytes()).expect("hex of this length")
}

pub fn sample_subscriber() -> Subscriber {
    Subscriber {
        set: 0,
        k: hex("000102030405060708090a0b0c0d0e0f"),
        opc: [0; 16],
    }
}

/// After the row that keeps the index of SQN_MS its challenge comes again: the
/// AUTS shows that index.
fn table(edition: &Edition, subscriber: &Subscriber, rand: &Block, amf: &[u8; 2]) -> Vec<Vec<u8>> {
    let new = Card::new(edition.number, subscriber.clone());
    let mut used = new.clone();
    used.places[3] = 10;
    let mut tied = used.clone();
    tied.places[4] = 10;
    let line = |card: &Card, seq, ind| {
        let autn = autn(card, rand, edition.sqn(seq, ind), amf);
        challenge(&image_of(card), rand, &autn)
    };
    let mut wrong = autn(&used, rand, edition.sqn(10, 3), amf);
    wrong[15] ^= 1;
    vec![
        line(&new, 0, 0),
        line(&new, D, 9),
        line(&new, D + 1, 9),
        line(&used, 10, 3),
        line(&used, 11, 3),
        line(&used, 7, 4),
        line(&used, 10, 4),
        line(&tied, 10, 4),
        challenge(&image_of(&used), rand, &wrong),
    ]
}

pub fn edges(edition: &Edition, random: &mut Random) -> Vec<Vec<u8>> {
    let mut lines = numbers(edition, random);
    for section in [damaged_autns, other_codes, damaged_rands, amfs, lengths] {
        lines.extend(section(edition, random));
    }
    lines
}

/// What depends on the edition: all about SEQ and IND.
pub fn numbers(edition: &Edition, random: &mut Random) -> Vec<Vec<u8>> {
    let mut lines = Vec::new();
    for section in [
        jumps,
        limits,
        ties,
        new_ties,
        lower_numbers,
        replays,
        batches,
    ] {
        lines.extend(section(edition, random));
    }
    lines
}

/// The SEQ with its highest bit alone.
fn half(edition: &Edition) -> u64 {
    1 << (edition.seq_bits() - 1)
}

/// SEQs about SEQ_MS + D, at the index of SEQ_MS and at another one.
fn jumps(edition: &Edition, random: &mut Random) -> Vec<Vec<u8>> {
    let mut lines = Vec::new();
    let (indices, limit) = (edition.indices(), edition.seq_limit());
    let bases = [0, 1, 10, D, half(edition), limit - D - 1, limit - D];
    for (turn, base) in bases.into_iter().enumerate() {
        let at = random.below(indices);
        let other = (at + 1 + random.below(indices - 1)) % indices;
        for seq in [base + D - 1, base + D, base + D + 1] {
            for ind in [at, other] {
                if seq <= limit {
                    let set = (turn as u8 + ind as u8) % 2;
                    let card = card_with(edition, set, &[(at, base)], random);
                    lines.push(one(card, (seq, ind), random));
                }
            }
        }
    }
    lines
}

/// SEQ at its limit, and beside places at their limit.
fn limits(edition: &Edition, random: &mut Random) -> Vec<Vec<u8>> {
    let mut lines = Vec::new();
    let (last, limit) = (edition.indices() - 1, edition.seq_limit());
    for set in SETS {
        let mut ask = |places: &[(usize, u64)], seq, ind| {
            let card = card_with(edition, set, places, random);
            lines.push(one(card, (seq, ind), random));
        };
        ask(&[], limit, last);
        for ind in [5, 6] {
            ask(&[(5, limit - 1)], limit, ind);
        }
        for (seq, ind) in [(limit, 5), (limit, last), (1, 6), (0, 6), (limit - 1, 0)] {
            ask(&[(5, limit)], seq, ind);
        }
        let mut full = Story::of(new_card(edition, set, random), random);
        full.card.places = edition.places(|_| limit);
        full.ask(limit, last);
        full.ask(0, 0);
        lines.extend(full.lines);
    }
    lines
}

/// Cards whose highest place stands at several indices: the AUTS of a stale
/// challenge shows the lowest of them.
fn ties(edition: &Edition, random: &mut Random) -> Vec<Vec<u8>> {
    let last = edition.indices() - 1;
    let all: Vec<usize> = (0..=last).collect();
    let tied: [&[usize]; 8] = [
        &[3, 7],
        &[0, last],
        &[last],
        &[last - 1, last],
        &[5, 6, 7],
        &[1],
        &[15, 16],
        &all,
    ];
    let mut lines = Vec::new();
    for (turn, indices) in tied.into_iter().enumerate() {
        let mut card = new_card(edition, turn as u8 % 2, random);
        card.places = edition.places(|_| random.draw() % 100);
        for &ind in indices {
            card.places[ind] = 100;
        }
        let mut story = Story::of(card, random);
        story.ask(100, indices[indices.len() - 1]);
        story.ask(0, 12);
        lines.extend(story.lines);
    }
    lines
}

/// An acceptance that makes a tie: below the index that held SEQ_MS the new
/// index takes its place, above it does not.
fn new_ties(edition: &Edition, random: &mut Random) -> Vec<Vec<u8>> {
    let mut lines = Vec::new();
    let last = edition.indices() - 1;
    for (set, held, new) in [(0, 9, 2), (1, 9, 2), (0, 9, 20), (1, 9, 20), (1, last, 0)] {
        let mut story = Story::of(card_with(edition, set, &[(held, 77)], random), random);
        story.ask(77, new);
        story.again();
        lines.extend(story.lines);
    }
    lines
}

/// SEQs below SEQ_MS at other indices, also by more than D.
fn lower_numbers(edition: &Edition, random: &mut Random) -> Vec<Vec<u8>> {
    let mut lines = Vec::new();
    let half = half(edition);
    for set in SETS {
        let places = [(3, half), (4, 500), (5, half - 1)];
        let mut story = Story::of(card_with(edition, set, &places, random), random);
        for (seq, ind) in [
            (1, 6),
            (0, 7),
            (500, 4),
            (501, 4),
            (499, 4),
            (half - 1, 5),
            (half, 5),
            (half - D - 1, 8),
            (half - D, 9),
        ] {
            story.ask(seq, ind);
        }
        lines.extend(story.lines);
    }
    lines
}

/// Each accepted challenge again, at once and later.
fn replays(edition: &Edition, random: &mut Random) -> Vec<Vec<u8>> {
    let mut lines = Vec::new();
    for set in SETS {
        let mut story = Story::of(random_card(edition, set, random), random);
        let next = story.card.seq_ms() + 1;
        story.ask(next, 17);
        story.again();
        let (rand, autn) = (story.rand, story.autn);
        story.ask(next + 1, 18);
        story.again();
        (story.rand, story.autn) = (rand, autn);
        story.again();
        lines.extend(story.lines);
    }
    lines
}

/// A batch of one index: its third vector makes the first two stale, the last
/// two are taken all the same.
fn batches(edition: &Edition, random: &mut Random) -> Vec<Vec<u8>> {
    let mut lines = Vec::new();
    for set in SETS {
        let mut story = Story::of(card_with(edition, set, &[(6, 100)], random), random);
        for seq in [103, 101, 102, 104, 105, 105] {
            story.ask(seq, 7);
        }
        lines.extend(story.lines);
    }
    lines
}

/// Each byte of an AUTN damaged in turn, before a fresh and a stale card: no
/// answer tells one from the other.
fn damaged_autns(edition: &Edition, random: &mut Random) -> Vec<Vec<u8>> {
    let mut lines = Vec::new();
    for set in SETS {
        let fresh = card_with(edition, set, &[(8, 20)], random);
        let stale = Card {
            places: edition.places(|_| edition.seq_limit()),
            ..fresh.clone()
        };
        let rand = random.bytes();
        let right = autn(&fresh, &rand, edition.sqn(21, 8), &random.bytes());
        for place in 0..right.len() {
            let mut wrong = right;
            wrong[place] ^= 1 << random.below(8);
            lines.push(challenge(&image_of(&fresh), &rand, &wrong));
            // The last eight bytes are the MAC itself.
            if place >= 8 {
                lines.push(challenge(&image_of(&stale), &rand, &wrong));
            }
        }
    }
    lines
}

/// MACs that are right for something else: f1*, another AMF, the next SQN,
/// another K, another OPc.
fn other_codes(edition: &Edition, random: &mut Random) -> Vec<Vec<u8>> {
    let mut lines = Vec::new();
    for set in SETS {
        let card = card_with(edition, set, &[(8, 20)], random);
        let (rand, amf) = (random.bytes(), [0x80, 0]);
        let right = autn(&card, &rand, edition.sqn(21, 8), &amf);
        let f1_star = card
            .subscriber
            .outputs(&rand, &sqn_bytes(edition.sqn(21, 8)), &amf)
            .expect("a known set")
            .mac_s;
        let (mut other_k, mut other_opc) = (card.clone(), card.clone());
        other_k.subscriber.k[0] ^= 1;
        other_opc.subscriber.opc[0] ^= 1;
        for mac in [
            f1_star,
            part(&autn(&card, &rand, edition.sqn(21, 8), &[0, 0]), 8),
            part(&autn(&card, &rand, edition.sqn(22, 8), &amf), 8),
            part(&autn(&other_k, &rand, edition.sqn(21, 8), &amf), 8),
            part(&autn(&other_opc, &rand, edition.sqn(21, 8), &amf), 8),
        ] {
            let mut other = right;
            other[8..].copy_from_slice(&mac);
            lines.push(challenge(&image_of(&card), &rand, &other));
        }
    }
    lines
}

/// Set 0 takes only the first nine bytes of RAND into MAC and AK, so that the
/// others change nothing but the keys.
fn damaged_rands(edition: &Edition, random: &mut Random) -> Vec<Vec<u8>> {
    let mut lines = Vec::new();
    for (set, step) in [(0, 1), (1, 5)] {
        let card = card_with(edition, set, &[(8, 20)], random);
        let rand: Block = random.bytes();
        let autn = autn(&card, &rand, edition.sqn(21, 8), &random.bytes());
        for place in (0..rand.len()).step_by(step) {
            let mut wrong = rand;
            wrong[place] ^= 1 << random.below(8);
            lines.push(challenge(&image_of(&card), &wrong, &autn));
        }
    }
    lines
}

/// Any AMF is accepted, and none shows in an AUTS.
fn amfs(edition: &Edition, random: &mut Random) -> Vec<Vec<u8>> {
    let mut lines = Vec::new();
    for set in SETS {
        for amf in [[0, 0], [0, 1], [0x80, 0], [0, 0xff], [0xff, 0xff]] {
            let mut story = Story::of(card_with(edition, set, &[(2, 5)], random), random);
            story.ask_with(&amf, 6, 3);
            story.again();
            lines.extend(story.lines);
        }
    }
    lines
}

/// RANDs and AUTNs of other lengths: parts of right ones, or right ones with
/// bytes behind.
fn lengths(edition: &Edition, random: &mut Random) -> Vec<Vec<u8>> {
    let card = card_with(edition, random.one_of(&SETS), &[(2, 5)], random);
    let rand: Block = random.bytes();
    let autn = autn(&card, &rand, edition.sqn(6, 2), &random.bytes());
    let (rand, autn) = ([rand, rand].concat(), [autn, autn].concat());
    let others = [0, 1, 15, 17, 32];
    let mut pairs = vec![(16, 16), (15, 17), (17, 15), (0, 32), (32, 0)];
    pairs.extend(others.map(|n| (n, 16)));
    pairs.extend(others.map(|n| (16, n)));
    pairs.extend(others.map(|n| (n, n)));
    pairs
        .into_iter()
        .map(|(r, a)| challenge(&image_of(&card), &rand[..r], &autn[..a]))
        .collect()
}
