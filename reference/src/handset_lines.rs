//! The lines for the handset.

use crate::block::Block;
use crate::call_lines::{autn, image_of, new_card, random_card, random_sqn, turn_a_bit};
use crate::challenge_lines::{sample_subscriber, SETS};
use crate::editions::{Edition, EDITION_1};
use crate::handset::{Answer, Store, ANSWER, AUTN, RAND, STORED};
use crate::handset_calls::write_store;
use crate::handset_form_lines;
use crate::random::Random;
use crate::text::{read_hex, write_bytes};
use crate::usim::Card;

const VOICE: usize = 0;
const DATA: usize = 1;

/// The right lengths of RAND, AUTN, the store and the fresh answer.
const RIGHT: [usize; 4] = [RAND, AUTN, STORED, ANSWER];

/// What one line lends. Edges exchange some of it.
#[derive(Clone)]
pub struct Lent {
    pub store: Store,
    pub image: Vec<u8>,
    pub rand: Vec<u8>,
    pub autn: Vec<u8>,
    pub fresh: Vec<u8>,
}

impl Lent {
    pub fn line(&self) -> Vec<u8> {
        let fields = [
            b"phone".to_vec(),
            write_store(&self.store),
            write_bytes(&self.image),
            write_bytes(&self.rand),
            write_bytes(&self.autn),
            write_bytes(&self.fresh),
        ];
        fields.join(&b' ')
    }

    /// What the phone of this card answers.
    fn answer(&self, card: &Card) -> Answer {
        self.store
            .challenge(card, &self.rand, &self.autn, &self.fresh)
    }

    /// The same in other lengths. Behind a stored RAND comes what is stored
    /// behind it, so that the store begins with the longer RAND too.
    fn resized(&self, [rand, autn, stored, fresh]: [usize; 4]) -> Lent {
        let longest_rand = match self.store.bytes.starts_with(&self.rand) {
            true => &self.store.bytes,
            false => &self.rand,
        };
        Lent {
            store: Store {
                held: self.store.held,
                bytes: resized(&self.store.bytes, stored),
            },
            image: self.image.clone(),
            rand: resized(longest_rand, rand),
            autn: resized(&self.autn, autn),
            fresh: resized(&self.fresh, fresh),
        }
    }
}

/// The bytes cut, or begun again behind the last.
fn resized(bytes: &[u8], length: usize) -> Vec<u8> {
    bytes.iter().copied().cycle().take(length).collect()
}

pub fn clear_line(store: &Store) -> Vec<u8> {
    [b"phone-clear ", &write_store(store)[..]].concat()
}

#[derive(Clone, Copy)]
pub struct Challenge {
    rand: Block,
    autn: Block,
}

/// Challenges to the phone of one card. Each is lent what the one before left;
/// only the bytes for a fresh answer are others each time.
pub struct Story<'a> {
    card: Card,
    random: &'a mut Random,
    lines: Vec<Vec<u8>>,
    /// Those of voice and of data.
    stores: [Store; 2],
    domain: usize,
}

impl Story<'_> {
    fn of(card: Card, random: &mut Random) -> Story<'_> {
        Story {
            card,
            random,
            lines: Vec::new(),
            stores: [Store::cleared(), Store::cleared()],
            domain: VOICE,
        }
    }

    /// With a challenge that was accepted for voice and is held there.
    pub fn holding<'a>(
        edition: &Edition,
        set: u8,
        random: &'a mut Random,
    ) -> (Story<'a>, Challenge) {
        let mut story = Story::of(random_card(edition, set, random), random);
        let held = story.fresh();
        story.give(&held);
        (story, held)
    }

    pub fn lent(&mut self, challenge: &Challenge) -> Lent {
        Lent {
            store: self.stores[self.domain].clone(),
            image: image_of(&self.card),
            rand: challenge.rand.to_vec(),
            autn: challenge.autn.to_vec(),
            fresh: self.random.bytes::<ANSWER>().to_vec(),
        }
    }

    /// Lent once, without what it would leave.
    fn show(&mut self, challenge: &Challenge) {
        let lent = self.lent(challenge);
        self.lines.push(lent.line());
    }

    fn give(&mut self, challenge: &Challenge) {
        let lent = self.lent(challenge);
        self.lines.push(lent.line());
        let answer = lent.answer(&self.card);
        self.card = answer.card;
        self.stores[self.domain] = answer.store;
    }

    fn give_on(&mut self, domain: usize, challenge: &Challenge) {
        self.domain = domain;
        self.give(challenge);
    }

    fn clear(&mut self) {
        self.lines.push(clear_line(&self.stores[self.domain]));
        self.stores[self.domain] = Store::cleared();
    }

    /// A RAND that is no other one, as all zeros might be.
    fn rand(&mut self) -> Block {
        read_hex(&self.random.digits(2 * RAND)).expect("two digits for each byte")
    }

    /// A challenge of right MAC.
    fn right(&mut self, rand: Block, sqn: u64) -> Challenge {
        let amf = self.random.bytes();
        Challenge {
            rand,
            autn: autn(&self.card, &rand, sqn, &amf),
        }
    }

    /// One that the card accepts when it is asked.
    fn fresh_for(&mut self, rand: Block) -> Challenge {
        let edition = self.card.row();
        let ind = self.random.below(edition.indices());
        self.right(rand, edition.sqn(self.card.seq_ms() + 1, ind))
    }

    fn fresh(&mut self) -> Challenge {
        let rand = self.rand();
        self.fresh_for(rand)
    }

    /// One that the card accepts or not; its RAND may be zeros.
    fn any(&mut self) -> Challenge {
        let sqn = random_sqn(&self.card, self.random);
        let rand = self.random.bytes();
        self.right(rand, sqn)
    }

    /// One for which the card says sync.
    fn stale(&mut self) -> Challenge {
        let rand = self.rand();
        self.right(rand, 0)
    }

    /// One for which the card says mac.
    fn wrong(&mut self) -> Challenge {
        let fresh = self.fresh();
        self.spoilt(fresh)
    }

    /// The same with a wrong MAC.
    fn spoilt(&mut self, mut challenge: Challenge) -> Challenge {
        turn_a_bit(&mut challenge.autn[8..], self.random);
        challenge
    }
}

type Section = fn(&Edition, &mut Random) -> Vec<Vec<u8>>;

/// What is tried with cards of edition 1.
const ALL: [Section; 15] = [
    each_length,
    several_lengths,
    bad_images,
    zero_rands,
    unheld,
    other_autns,
    other_cards,
    near_rands,
    failures_between,
    second_acceptances,
    voice_and_data,
    fresh_bytes,
    clears,
    cleared_stores,
    walks,
];

/// What is tried with cards of the later editions, whose images are long.
const SOME: [Section; 5] = [
    bad_images,
    other_cards,
    failures_between,
    second_acceptances,
    cleared_stores,
];

pub fn lines() -> Vec<Vec<u8>> {
    let mut random = Random::new(33_104);
    let mut lines = sections(&EDITION_1, &ALL, &mut random);
    lines.extend(handset_form_lines::edges(&mut random));
    lines
}

/// The lines with cards of a later edition.
pub fn later(edition: &Edition, random: &mut Random) -> Vec<Vec<u8>> {
    sections(edition, &SOME, random)
}

fn sections(edition: &Edition, sections: &[Section], random: &mut Random) -> Vec<Vec<u8>> {
    let mut lines = sample(edition);
    for section in sections {
        lines.extend(section(edition, random));
    }
    lines
}

/// The challenge of the sample run: accepted, then repeated, then asked of the
/// card again because the mark is not set.
fn sample(edition: &Edition) -> Vec<Vec<u8>> {
    let card = Card::new(edition.number, sample_subscriber());
    let mut lent = Lent {
        store: Store::cleared(),
        image: image_of(&card),
        rand: vec![0; RAND],
        autn: autn(&card, &[0; RAND], edition.sqn(1, 0), &[0, 1]).to_vec(),
        fresh: vec![0; ANSWER],
    };
    let mut lines = vec![lent.line()];
    let answer = lent.answer(&card);
    lent.image = image_of(&answer.card);
    lent.fresh = answer.fresh;
    lent.store = answer.store;
    lines.push(lent.line());
    lent.store.held = false;
    lines.push(lent.line());
    lines
}

/// What would be a repeat; what the card would accept though the same RAND is
/// stored, since it is not held; and what it would accept beside a held one.
fn three_calls(edition: &Edition, random: &mut Random) -> [Lent; 3] {
    let (mut story, held) = Story::holding(edition, 1, random);
    let repeat = story.lent(&held);
    let (mut story, held) = Story::holding(edition, 0, random);
    let renewed = story.fresh_for(held.rand);
    let mut unheld = story.lent(&renewed);
    unheld.store.held = false;
    let other = story.fresh();
    [repeat, unheld, story.lent(&other)]
}

/// Each part in other lengths, the last one with the low bits of the right one.
fn each_length(edition: &Edition, random: &mut Random) -> Vec<Vec<u8>> {
    let mut lines = Vec::new();
    for lent in three_calls(edition, random) {
        lines.push(lent.line());
        for part in 0..RIGHT.len() {
            let right = RIGHT[part];
            for length in [0, 1, right - 1, right + 1, 2 * right, right + 256] {
                let mut lengths = RIGHT;
                lengths[part] = length;
                lines.push(lent.resized(lengths).line());
            }
        }
    }
    lines
}

/// Several parts of other lengths, also such as are right for another part or
/// together as long as they should be.
fn several_lengths(edition: &Edition, random: &mut Random) -> Vec<Vec<u8>> {
    let mut lines = Vec::new();
    for lent in three_calls(edition, random) {
        for lengths in [
            [15, 17, 56, 40],
            [17, 15, 56, 40],
            [16, 16, 55, 41],
            [16, 16, 57, 39],
            [15, 16, 57, 40],
            [17, 16, 56, 39],
            [16, 15, 57, 40],
            [16, 17, 56, 39],
            [15, 15, 55, 39],
            [17, 17, 57, 41],
            [0, 0, 0, 0],
            [0, 16, 40, 40],
            [16, 16, 16, 40],
            [16, 16, 40, 56],
            [16, 16, 65, 49],
            [16, 16, 65, 40],
            [16, 16, 56, 49],
            [16, 16, 56, 56],
            [56, 16, 56, 40],
            [16, 14, 56, 40],
        ] {
            lines.push(lent.resized(lengths).line());
        }
    }
    lines
}

/// Images that are not read, with what would be a repeat and what the card
/// would be asked, in right lengths and in others.
fn bad_images(edition: &Edition, random: &mut Random) -> Vec<Vec<u8>> {
    let mut lines = Vec::new();
    for lent in three_calls(edition, random) {
        let image = &lent.image;
        let set = 16 * edition.number;
        let begun_with = |first| [&[first], &image[1..]].concat();
        let mut images = [0x01, 0x30, 0xf1, set + 2, set + 15]
            .map(begun_with)
            .to_vec();
        images.extend([0, 41, image.len() - 1].map(|length| image[..length].to_vec()));
        images.push([&image[..], &[0]].concat());
        for (turn, image) in images.into_iter().enumerate() {
            let mut lengths = RIGHT;
            lengths[turn % 4] += 1;
            for lengths in [RIGHT, lengths] {
                let mut other = lent.resized(lengths);
                other.image = image.clone();
                lines.push(other.line());
            }
        }
    }
    lines
}

/// A RAND of zeros is one like any other: a cleared store does not match it,
/// a held one does, even where the answer is zeros too.
fn zero_rands(edition: &Edition, random: &mut Random) -> Vec<Vec<u8>> {
    let mut lines = Vec::new();
    for set in SETS {
        let (mut story, _) = Story::holding(edition, set, random);
        let fresh = story.fresh_for([0; RAND]);
        let stale = story.right([0; RAND], 0);
        let wrong = story.spoilt(fresh);
        let other = story.stores[VOICE].clone();
        let mut zeros = Store::cleared();
        for held in [false, true] {
            zeros.held = held;
            story.stores[VOICE] = zeros.clone();
            for challenge in [fresh, stale, wrong] {
                story.show(&challenge);
            }
        }
        story.stores[VOICE] = other;
        for challenge in [stale, wrong, fresh, fresh, stale] {
            story.give(&challenge);
        }
        story.clear();
        story.give(&fresh);
        lines.extend(story.lines);
    }
    lines
}

/// Bytes that are not held match no RAND, whatever they are, and an acceptance
/// takes their place. The same bytes held are repeated.
fn unheld(edition: &Edition, random: &mut Random) -> Vec<Vec<u8>> {
    let mut lines = Vec::new();
    for set in SETS {
        let (mut story, held) = Story::holding(edition, set, random);
        let fresh = story.fresh_for(held.rand);
        let wrong = story.spoilt(fresh);
        let right = story.stores[VOICE].bytes.clone();
        let zeros_behind = [&held.rand[..], &[0; ANSWER]].concat();
        let ones_behind = [&held.rand[..], &[0xff; ANSWER]].concat();
        let turned = [&right[RAND..], &held.rand].concat();
        for bytes in [right, zeros_behind, ones_behind, vec![0xff; STORED], turned] {
            for held in [false, true] {
                story.stores[VOICE] = Store {
                    held,
                    bytes: bytes.clone(),
                };
                story.show(&fresh);
            }
        }
        story.stores[VOICE].bytes[..RAND].copy_from_slice(&held.rand);
        story.stores[VOICE].held = false;
        for challenge in [held, wrong, fresh, wrong] {
            story.give(&challenge);
        }
        lines.extend(story.lines);
    }
    lines
}

/// A repeat with any AUTN: each byte damaged, right for another RAND or for a
/// later number, and none that was ever made.
fn other_autns(edition: &Edition, random: &mut Random) -> Vec<Vec<u8>> {
    let mut lines = Vec::new();
    for set in SETS {
        let (mut story, held) = Story::holding(edition, set, random);
        let later = story.fresh_for(held.rand).autn;
        let mut autns = vec![later, story.fresh().autn, story.stale().autn];
        autns.extend([[0; AUTN], [0xff; AUTN], held.rand, story.rand()]);
        for place in 0..AUTN {
            let mut damaged = held.autn;
            damaged[place] ^= 1 << story.random.below(8);
            autns.push(damaged);
        }
        for autn in autns {
            story.give(&Challenge { autn, ..held });
        }
        lines.extend(story.lines);
    }
    lines
}

/// A repeat with another card, or with another record of the same one: also the
/// record that would accept the challenge again.
fn other_cards(edition: &Edition, random: &mut Random) -> Vec<Vec<u8>> {
    let mut lines = Vec::new();
    for set in SETS {
        let (mut story, held) = Story::holding(edition, set, random);
        let card = story.card.clone();
        let last = card.seq_ms();
        let mut cards: Vec<Card> = [0, last - 1, last, edition.seq_limit()]
            .map(|seq| Card {
                places: edition.places(|_| seq),
                ..card.clone()
            })
            .to_vec();
        let mut other_set = card;
        other_set.subscriber.set = 1 - set;
        cards.push(other_set);
        cards.extend(SETS.map(|set| new_card(edition, set, story.random)));
        cards.extend(SETS.map(|set| random_card(edition, set, story.random)));
        for card in cards {
            story.card = card;
            story.give(&held);
        }
        lines.extend(story.lines);
    }
    lines
}

/// RANDs that differ from the stored one in one byte or one bit, or that have
/// the same bytes in another order: the card is asked.
fn near_rands(edition: &Edition, random: &mut Random) -> Vec<Vec<u8>> {
    let mut lines = Vec::new();
    for set in SETS {
        let (mut story, held) = Story::holding(edition, set, random);
        let mut rands = other_orders(&held.rand);
        for place in 0..RAND {
            let mut near = held.rand;
            near[place] ^= 1 << story.random.below(8);
            // With the AUTN of the stored challenge it fails.
            story.show(&Challenge { rand: near, ..held });
            near[place] = !held.rand[place];
            rands.push(near);
        }
        let bits = [(0, 0), (0, 7), (7, 0), (8, 7), (15, 7), (15, 0)];
        for (place, bit) in bits {
            let mut near = held.rand;
            near[place] ^= 1 << bit;
            rands.push(near);
        }
        for rand in rands {
            let fresh = story.fresh_for(rand);
            story.show(&fresh);
        }
        lines.extend(story.lines);
    }
    lines
}

/// The same bytes turned, backwards and with halves exchanged; and two bytes
/// changed so that their sum, or their bitwise sum, is the same.
fn other_orders(rand: &Block) -> Vec<Block> {
    let (mut turned, mut backwards, mut halves) = (*rand, *rand, *rand);
    turned.rotate_left(1);
    backwards.reverse();
    halves.rotate_left(RAND / 2);
    let (mut sum, mut bits) = (*rand, *rand);
    sum[3] = sum[3].wrapping_add(1);
    sum[11] = sum[11].wrapping_sub(1);
    bits[0] ^= 0x10;
    bits[15] ^= 0x10;
    vec![turned, backwards, halves, sum, bits]
}

/// Failures and refusals leave the store: what was accepted before is repeated.
fn failures_between(edition: &Edition, random: &mut Random) -> Vec<Vec<u8>> {
    let mut lines = Vec::new();
    for set in SETS {
        let (mut story, held) = Story::holding(edition, set, random);
        for failure in [Story::wrong, Story::stale] {
            let failed = failure(&mut story);
            story.give(&failed);
            story.give(&held);
            let refused = story
                .lent(&failed)
                .resized([RAND, AUTN - 1, STORED, ANSWER]);
            story.lines.push(refused.line());
            story.give(&held);
            story.give(&failed);
            story.give(&failed);
            story.give(&held);
        }
        lines.extend(story.lines);
    }
    lines
}

/// A second acceptance takes the place of the first, whose RAND then is asked of
/// the card again; a later number for that RAND is accepted and held.
fn second_acceptances(edition: &Edition, random: &mut Random) -> Vec<Vec<u8>> {
    let mut lines = Vec::new();
    for set in SETS {
        let (mut story, first) = Story::holding(edition, set, random);
        let second = story.fresh();
        for challenge in [first, second, second, first, second] {
            story.give(&challenge);
        }
        let renewed = story.fresh_for(first.rand);
        for challenge in [renewed, first, second, renewed] {
            story.give(&challenge);
        }
        lines.extend(story.lines);
    }
    lines
}

/// Each domain has its own store, and the other one's RAND asks the card.
fn voice_and_data(edition: &Edition, random: &mut Random) -> Vec<Vec<u8>> {
    let mut lines = Vec::new();
    for set in SETS {
        let (mut story, voice) = Story::holding(edition, set, random);
        story.give_on(DATA, &voice);
        let data = story.fresh();
        for (domain, challenge) in [(DATA, data), (VOICE, data), (VOICE, voice), (DATA, data)] {
            story.give_on(domain, &challenge);
        }
        // Both may hold one RAND, accepted for each with a number of its own.
        let both = story.fresh_for(voice.rand);
        for domain in [DATA, VOICE, DATA] {
            story.give_on(domain, &both);
        }
        for cleared in [VOICE, DATA] {
            story.domain = cleared;
            story.clear();
            story.give_on(VOICE, &both);
            story.give_on(DATA, &both);
        }
        lines.extend(story.lines);
    }
    lines
}

/// What stands in the bytes for a fresh answer is written over by an acceptance
/// alone, and never shown.
fn fresh_bytes(edition: &Edition, random: &mut Random) -> Vec<Vec<u8>> {
    let mut lines = Vec::new();
    for set in SETS {
        let (mut story, held) = Story::holding(edition, set, random);
        let stored = story.stores[VOICE].bytes[RAND..].to_vec();
        for challenge in [held, story.fresh(), story.stale(), story.wrong()] {
            let mut lent = story.lent(&challenge);
            for fresh in [vec![0; ANSWER], vec![0xff; ANSWER], stored.clone()] {
                lent.fresh = fresh;
                story.lines.push(lent.line());
            }
            let refused = lent.resized([RAND + 1, AUTN, STORED, ANSWER]);
            story.lines.push(refused.line());
        }
        lines.extend(story.lines);
    }
    lines
}

/// Stores of every sort cleared, held and not. A store has no edition.
fn clears(_: &Edition, random: &mut Random) -> Vec<Vec<u8>> {
    let mut lines = Vec::new();
    for held in [false, true] {
        let mut sorts = vec![vec![0; STORED], vec![0xff; STORED]];
        for length in [
            0, 1, 15, 16, 17, 39, 40, 41, 54, 55, 56, 57, 58, 64, 65, 66, 72, 112, 312,
        ] {
            sorts.push((0..length).map(|_| random.draw() as u8).collect());
        }
        sorts.extend([vec![0; STORED - 1], vec![0; STORED + 1]]);
        for bytes in sorts {
            lines.push(clear_line(&Store { held, bytes }));
        }
    }
    lines
}

/// After a clear the same RAND is asked of the card again.
fn cleared_stores(edition: &Edition, random: &mut Random) -> Vec<Vec<u8>> {
    let mut lines = Vec::new();
    for set in SETS {
        let (mut story, first) = Story::holding(edition, set, random);
        story.clear();
        story.give(&first);
        story.clear();
        let (second, wrong) = (story.fresh(), story.wrong());
        for challenge in [wrong, second, wrong, second] {
            story.give(&challenge);
        }
        story.clear();
        let renewed = story.fresh_for(second.rand);
        for challenge in [second, renewed, second] {
            story.give(&challenge);
        }
        lines.extend(story.lines);
    }
    lines
}

/// Challenges, repeats, failures, refusals and clears at random.
fn walks(edition: &Edition, random: &mut Random) -> Vec<Vec<u8>> {
    let mut lines = Vec::new();
    for turn in 0..16 {
        let mut story = Story::of(random_card(edition, turn % 2, random), random);
        let mut known = vec![story.fresh()];
        for _ in 0..12 {
            step(&mut story, &mut known);
        }
        lines.extend(story.lines);
    }
    lines
}

fn step(story: &mut Story, known: &mut Vec<Challenge>) {
    if story.random.below(5) == 0 {
        story.domain = VOICE + DATA - story.domain;
    }
    let last = known[known.len() - 1];
    let any = story.random.one_of(known);
    match story.random.below(14) {
        0..=3 => {
            let new = story.any();
            known.push(new);
            story.give(&new);
        }
        4..=7 => story.give(&last),
        8 => story.give(&any),
        9 => {
            let autn = story.random.bytes();
            story.give(&Challenge { autn, ..any });
        }
        10 => {
            let wrong = story.wrong();
            story.give(&wrong);
        }
        11 => {
            let mut lengths = RIGHT;
            lengths[story.random.below(4)] -= 1;
            let refused = story.lent(&any).resized(lengths);
            story.lines.push(refused.line());
        }
        12 => story.clear(),
        _ => {
            let fresh = story.fresh_for(any.rand);
            story.give(&fresh);
        }
    }
}
