//! Random calls of each edition: most of them with one damage or none, some with
//! several.

use reference::auc::Auc;
use reference::block::Block;
use reference::editions::{Edition, KNOWN};
use reference::functions::Subscriber;
use reference::random::Random;
use reference::usim::{sqn_bytes, Card, D};
use reference::vector::{LENGTH, MOST};
use reference::{auc_image, image, triplet};
use vetrhoss::{AUTS_SIZE, CK_SIZE, IK_SIZE, OPC_SIZE, RAND_SIZE, RES_SIZE, VECTOR_SIZE};

use crate::call::{Call, Function, Numbers, ALL};
use crate::compare::Comparison;

/// The buffers for RES, CK, IK and AUTS.
pub const ANSWER_SIZES: [usize; 4] = [RES_SIZE, CK_SIZE, IK_SIZE, AUTS_SIZE];

/// The calls of each function.
const CALLS: usize = 20_000;

/// Counts and places that no small register holds, or that wrap when multiplied.
const HUGE: [u64; 8] = [
    256,
    257,
    1 << 32,
    (1 << 32) + 1,
    1 << 61,
    u64::MAX / VECTOR_SIZE as u64 + 1,
    u64::MAX - 1,
    u64::MAX,
];

pub fn compare(comparison: &mut Comparison, random: &mut Random) -> Result<(), String> {
    for _ in 0..CALLS {
        for function in ALL {
            comparison.call(&random_call(function, random))?;
        }
    }
    comparison.tally.is_full()
}

pub fn random_call(function: Function, random: &mut Random) -> Call {
    let mut call = match function {
        Function::Opc => call(
            function,
            0,
            vec![key(random), key(random), filler(OPC_SIZE, random)],
        ),
        Function::NewUsim => new_usim(random),
        Function::NewAuc => new_auc(random),
        Function::Challenge => challenge(random),
        Function::Order => order(random),
        Function::Resynchronise => resynchronise(random),
        Function::VectorAt => vector_at(random),
        Function::Triplets => triplets(random),
    };
    while random.below(5) == 0 {
        spoil_size(&mut call, random);
    }
    call
}

fn call(function: Function, number: u64, buffers: Vec<Vec<u8>>) -> Call {
    Call {
        function,
        numbers: [number, 0],
        buffers,
    }
}

fn any_edition(random: &mut Random) -> &'static Edition {
    &KNOWN[random.below(KNOWN.len())]
}

fn one_in(chances: usize, random: &mut Random) -> bool {
    random.below(chances) == 0
}

/// What stands in memory before it is written to.
pub fn filler(size: usize, random: &mut Random) -> Vec<u8> {
    (0..size).map(|_| random.draw().to_le_bytes()[0]).collect()
}

fn key(random: &mut Random) -> Vec<u8> {
    random.bytes::<16>().to_vec()
}

/// About the sizes of all images.
const IMAGES: [usize; 10] = [1, 40, 41, 42, 204, 205, 206, 368, 369, 370];

/// Zero, shorter, longer, an image's or any size.
fn spoil_size(call: &mut Call, random: &mut Random) {
    let place = random.below(call.buffers.len());
    let buffer = &mut call.buffers[place];
    let size = buffer.len();
    let (any, image) = (random.below(400), random.one_of(&IMAGES));
    let spoilt = random.one_of(&[0, size.saturating_sub(1), size + 1, 2 * size, image, any]);
    let more = filler(spoilt.saturating_sub(size), random);
    buffer.truncate(spoilt);
    buffer.extend(more);
}

fn flip_bit(bytes: &mut [u8], random: &mut Random) {
    bytes[random.below(bytes.len())] ^= 1 << random.below(8);
}

/// Mostly the edition and a known set.
fn numbers(edition: &Edition, random: &mut Random) -> Numbers {
    let any = random.draw() % 256;
    match random.below(8) {
        0 => [edition.number.into(), any],
        1 => [any, any % 3],
        2 => [any % 4, any % 2],
        drawn => [edition.number.into(), drawn as u64 % 2],
    }
}

fn new_usim(random: &mut Random) -> Call {
    let edition = any_edition(random);
    let image = filler(edition.card_image(), random);
    Call {
        function: Function::NewUsim,
        numbers: numbers(edition, random),
        buffers: vec![key(random), key(random), image],
    }
}

fn new_auc(random: &mut Random) -> Call {
    let edition = any_edition(random);
    let amf = random.bytes::<2>().to_vec();
    let image = filler(edition.auc_image(), random);
    Call {
        function: Function::NewAuc,
        numbers: numbers(edition, random),
        buffers: vec![key(random), key(random), amf, image],
    }
}

fn subscriber(random: &mut Random) -> Subscriber {
    Subscriber {
        set: random.below(2) as u8,
        k: random.bytes(),
        opc: random.bytes(),
    }
}

/// A SEQ that is likely to touch an edge of some rule.
fn any_seq(edition: &Edition, random: &mut Random) -> u64 {
    let limit = edition.seq_limit();
    let any = random.draw() % (limit + 1);
    let low = random.draw() % 1_000;
    random.one_of(&[0, 1, low, D, D + 1, any, limit - D, limit - 3, limit])
}

/// The given SEQ or a neighbour of it.
fn near(seq: u64, edition: &Edition, random: &mut Random) -> u64 {
    let moved = (seq + random.draw() % 5).saturating_sub(2);
    moved.min(edition.seq_limit())
}

/// The edition or the set, which share the first byte of both images: both, or
/// the edition alone, or the set alone.
fn spoil_image(image: &mut [u8], random: &mut Random) {
    let [any, known, ..] = random.draw().to_le_bytes();
    let (edition, set) = (image[0] & 0xf0, image[0] & 0x0f);
    image[0] = random.one_of(&[any, 16 * (known % 4) + set, edition + known % 16]);
}

fn card(random: &mut Random) -> Card {
    let edition = any_edition(random);
    let mut card = Card::new(edition.number, subscriber(random));
    let highest = any_seq(edition, random);
    card.places = edition.places(|_| {
        let below = random.draw() % (highest + 1);
        random.one_of(&[0, below, highest.saturating_sub(1), highest])
    });
    card
}

/// An SQN at an edge of the card's freshness.
fn sqn_for(card: &Card, random: &mut Random) -> u64 {
    let edition = card.row();
    let ind = random.below(edition.indices());
    let centre = random.one_of(&[card.places[ind], card.seq_ms(), card.seq_ms() + D]);
    let seq = if one_in(8, random) {
        any_seq(edition, random)
    } else {
        near(centre, edition, random)
    };
    edition.sqn(seq, ind)
}

fn challenge(random: &mut Random) -> Call {
    let card = card(random);
    let (rand, amf) = (random.bytes(), random.bytes());
    let sqn = sqn_bytes(sqn_for(&card, random));
    let autn = card.subscriber.autn(&rand, &sqn, &amf);
    let mut autn = autn.expect("a known set");
    if one_in(5, random) {
        flip_bit(&mut autn, random);
    }
    let mut image = image::image(&card).expect("a valid card");
    if one_in(8, random) {
        spoil_image(&mut image, random);
    }
    let mut buffers = vec![image, rand.to_vec(), autn.to_vec()];
    buffers.extend(ANSWER_SIZES.map(|size| filler(size, random)));
    call(Function::Challenge, 0, buffers)
}

/// A count, and the vectors that are lent for.
fn count(random: &mut Random) -> (u64, usize) {
    match random.below(16) {
        0 => (random.one_of(&HUGE), random.below(7)),
        1 => (6 + random.draw() % 2, 5 + random.below(3)),
        drawn => match drawn % 6 {
            0 => (0, MOST),
            n => (n as u64, n),
        },
    }
}

/// Some of them equal, or equal but for a bit.
pub fn rands(n: usize, random: &mut Random) -> Vec<u8> {
    let mut rands: Vec<Block> = (0..n).map(|_| random.bytes()).collect();
    while n > 1 && one_in(4, random) {
        let (from, to) = (random.below(n), random.below(n));
        rands[to] = rands[from];
        if one_in(2, random) {
            flip_bit(&mut rands[to], random);
        }
    }
    rands.concat()
}

fn centre(random: &mut Random) -> Auc {
    let edition = any_edition(random);
    let seq_he = any_seq(edition, random);
    Auc {
        seq_he: near(seq_he, edition, random),
        next: random.below(edition.indices()) as u8,
        ..Auc::new(edition.number, subscriber(random), random.bytes())
    }
}

fn centre_image(auc: &Auc, random: &mut Random) -> Vec<u8> {
    let mut image = auc_image::image(auc).expect("a valid record");
    if one_in(8, random) {
        spoil_image(&mut image, random);
    }
    image
}

fn order(random: &mut Random) -> Call {
    let image = centre_image(&centre(random), random);
    let (count, n) = count(random);
    let buffers = vec![image, rands(n, random), filler(LENGTH * n, random)];
    call(Function::Order, count, buffers)
}

/// A SEQ_MS at an edge of the range, or one whose batch would pass the limit.
fn seq_ms_for(auc: &Auc, n: usize, random: &mut Random) -> u64 {
    let edition = auc.row();
    let lowest_in_range = (auc.seq_he + n as u64).saturating_sub(D);
    let any = any_seq(edition, random);
    let edge = random.one_of(&[auc.seq_he, lowest_in_range, any, edition.seq_limit()]);
    near(edge, edition, random)
}

/// The AUTS of a card whose highest place is the given SEQ: SEQ 0 is fresh to none.
/// Now and then the card is of another edition, and has that SQN_MS.
fn auts(auc: &Auc, seq_ms: u64, rand: &Block, random: &mut Random) -> [u8; 14] {
    let sqn_ms = auc.row().sqn(seq_ms, random.below(auc.row().indices()));
    let edition = match random.below(8) {
        0 => any_edition(random),
        _ => auc.row(),
    };
    let mut card = Card::new(edition.number, auc.subscriber.clone());
    card.places[edition.ind(sqn_ms)] = edition.seq(sqn_ms);
    let autn = auc.subscriber.autn(rand, &sqn_bytes(0), &random.bytes());
    card.challenge(rand, &autn.expect("a known set")).auts
}

fn resynchronise(random: &mut Random) -> Call {
    let auc = centre(random);
    let (count, n) = count(random);
    let rand = random.bytes();
    let seq_ms = seq_ms_for(&auc, n, random);
    let mut auts = auts(&auc, seq_ms, &rand, random);
    if one_in(3, random) {
        flip_bit(&mut auts, random);
    }
    let buffers = vec![
        centre_image(&auc, random),
        rand.to_vec(),
        auts.to_vec(),
        rands(n, random),
        filler(LENGTH * n, random),
    ];
    call(Function::Resynchronise, count, buffers)
}

fn vector_at(random: &mut Random) -> Call {
    let size = LENGTH * random.below(MOST + 3);
    let place = match random.below(8) {
        0 => random.one_of(&HUGE),
        place => place as u64 - 1,
    };
    call(Function::VectorAt, place, vec![filler(size, random)])
}

/// What a new centre of either set gives. Random RANDs are unlike.
fn ordered(n: usize, random: &mut Random) -> Vec<u8> {
    let mut batch = filler(LENGTH * n, random);
    let edition = any_edition(random);
    let auc = Auc::new(edition.number, subscriber(random), random.bytes());
    auc.order(n as u64, &filler(RAND_SIZE * n, random), &mut batch)
        .expect("a batch");
    batch
}

/// An order's batch or any bytes, now and then of too many vectors or of none;
/// some buffers are right for another batch.
fn triplets(random: &mut Random) -> Call {
    let n = 1 + random.below(MOST);
    let batch = match random.below(8) {
        0 => filler(LENGTH * random.below(MOST + 3), random),
        1..=3 => filler(LENGTH * n, random),
        _ => ordered(n, random),
    };
    let lent = match random.below(8) {
        0 => random.below(MOST + 3),
        _ => batch.len() / LENGTH,
    };
    let buffers = vec![batch, filler(triplet::LENGTH * lent, random)];
    call(Function::Triplets, 0, buffers)
}
