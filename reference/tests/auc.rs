//! The centre against document 01's numbers, the sample run and its own edges,
//! in edition 1.

use reference::auc::{Auc, Refused, Start};
use reference::auc_call_lines::{self, rands};
use reference::editions::EDITION_1;
use reference::functions::Subscriber;
use reference::random::Random;
use reference::text::{read_hex, write_hex};
use reference::usim::{Card, Refusal, Verdict, D};
use reference::vector::{handed_back, Vector, LENGTH};

const RAND: [u8; 16] = [0x5a; 16];
const SEQ_LIMIT: u64 = 8_796_093_022_207;

fn sqn(seq: u64, ind: usize) -> u64 {
    EDITION_1.sqn(seq, ind)
}

fn auts(subscriber: &Subscriber, rand: &[u8; 16], seq_ms: u64, ind: usize) -> [u8; 14] {
    auc_call_lines::auts(&EDITION_1, subscriber, rand, seq_ms, ind)
}

fn hex<const N: usize>(digits: &str) -> [u8; N] {
    read_hex(digits.as_bytes()).expect("hex of this length")
}

fn auc(set: u8, seq_he: u64, next: u8) -> Auc {
    let subscriber = Subscriber {
        set,
        k: hex("000102030405060708090a0b0c0d0e0f"),
        opc: hex("101112131415161718191a1b1c1d1e1f"),
    };
    Auc {
        seq_he,
        next,
        ..Auc::new(1, subscriber, [0x80, 1])
    }
}

fn some_rands(n: usize) -> Vec<u8> {
    rands(n, &mut Random::new(n as u64))
}

/// An order with all that is lent as named.
fn order(auc: &Auc, count: u64) -> Result<(Auc, Vec<u8>), Refused> {
    let n = if count == 0 { 5 } else { count as usize };
    let mut batch = vec![0xee; LENGTH * n];
    let next = auc.order(count, &some_rands(n), &mut batch)?;
    Ok((next, batch))
}

fn resync(auc: &Auc, n: usize, auts: &[u8]) -> Result<(Start, Auc, Vec<u8>), Refused> {
    let mut batch = vec![0xee; LENGTH * n];
    let (start, next) = auc.resync(n as u64, [&RAND, auts], &some_rands(n), &mut batch)?;
    Ok((start, next, batch))
}

/// The outcome of a resynchronisation with a card of this SEQ_MS.
fn start(auc: &Auc, n: usize, seq_ms: u64) -> Result<Start, Refused> {
    let auts = auts(&auc.subscriber, &RAND, seq_ms, 3);
    resync(auc, n, &auts).map(|(start, ..)| start)
}

fn refused(number: u8) -> Refused {
    Refused::By(Refusal(number))
}

/// Lends each vector to the card and tells the SQNs that it accepts. RES, CK
/// and IK are the vector's.
fn accepted(card: &mut Card, batch: &[u8]) -> Vec<u64> {
    let mut numbers = Vec::new();
    for bytes in batch.chunks(LENGTH) {
        let vector = Vector::of(bytes.try_into().unwrap());
        let answer = card.challenge(&vector.rand, &vector.autn);
        if let Verdict::Accepted { sqn } = answer.verdict {
            assert_eq!(
                (answer.res, answer.ck, answer.ik),
                (vector.xres, vector.ck, vector.ik)
            );
            numbers.push(sqn);
        }
        *card = answer.card;
    }
    numbers
}

#[test]
fn the_vector_of_the_sample_run() {
    let mut sample = auc(0, 0, 0);
    sample.subscriber.opc = [0; 16];
    sample.amf = [0, 1];
    let mut batch = [0; LENGTH];
    let next = sample.order(1, &[0; 16], &mut batch).unwrap();
    assert_eq!((next.seq_he, next.next), (1, 1));
    let expected = Vector {
        rand: [0; 16],
        xres: hex("0001020304050607"),
        ck: hex("0102030405060708090a0b0c0d0e0f00"),
        ik: hex("02030405060708090a0b0c0d0e0f0001"),
        autn: hex("03040506072800010001020304250606"),
    };
    assert_eq!(Vector::of(&batch), expected);
    assert_eq!(expected.bytes(), batch);
    let auts = auts(&sample.subscriber, &[0; 16], 1, 0);
    assert_eq!(write_hex(&auts), b"0304050607280001020304250607");
}

#[test]
fn a_batch_counts_up_with_one_index() {
    for set in [0, 1] {
        for count in 0..=5 {
            let before = auc(set, 40, 30);
            let (next, batch) = order(&before, count).unwrap();
            let n = if count == 0 { 5 } else { count };
            let expected: Vec<u64> = (41..41 + n).map(|seq| sqn(seq, 30)).collect();
            let mut card = Card::new(1, before.subscriber.clone());
            assert_eq!(accepted(&mut card, &batch), expected);
            assert_eq!(next, auc(set, 40 + n, 31));
            assert_eq!(order(&next, 1).unwrap().0, auc(set, 41 + n, 0));
        }
    }
}

#[test]
fn the_limit_of_a_batch() {
    assert!(order(&auc(0, 8_796_093_022_202, 0), 5).is_ok());
    assert_eq!(order(&auc(0, 8_796_093_022_203, 0), 5), Err(refused(6)));
    for n in 1..=5 {
        assert!(order(&auc(1, SEQ_LIMIT - n, 31), n).is_ok());
        assert_eq!(order(&auc(1, SEQ_LIMIT - n + 1, 31), n), Err(refused(6)));
    }
}

#[test]
fn the_four_cases_kept_and_reset() {
    for set in [0, 1] {
        for (seq_he, expected, first) in [
            (100, Start::Kept, 101),
            (99, Start::Reset, 101),
            (268_435_551, Start::Kept, 268_435_552),
            (268_435_552, Start::Reset, 101),
        ] {
            let auc = auc(set, seq_he, 7);
            let auts = auts(&auc.subscriber, &RAND, 100, 3);
            let (start, next, batch) = resync(&auc, 5, &auts).unwrap();
            assert_eq!(start, expected);
            assert_eq!((next.seq_he, next.next), (first + 4, 8));
            let mut card = Card::new(1, auc.subscriber.clone());
            card.places[3] = 100;
            let numbers: Vec<u64> = (first..first + 5).map(|seq| sqn(seq, 7)).collect();
            assert_eq!(accepted(&mut card, &batch), numbers);
        }
    }
}

#[test]
fn the_range_covers_every_number_of_the_batch() {
    for n in 1..=5 {
        let far = 1_000 + D - n as u64;
        for (seq_he, expected) in [
            (999, Start::Reset),
            (1_000, Start::Kept),
            (far, Start::Kept),
            (far + 1, Start::Reset),
        ] {
            assert_eq!(start(&auc(1, seq_he, 0), n, 1_000), Ok(expected));
        }
    }
}

#[test]
fn mac_s_is_looked_at_out_of_range_only() {
    for set in [0, 1] {
        for (seq_he, in_range) in [(50, true), (49, false), (50 + D, false)] {
            let auc = auc(set, seq_he, 0);
            let right = auts(&auc.subscriber, &RAND, 50, 3);
            let expected = resync(&auc, 1, &right);
            for place in 6..14 {
                let mut wrong = right;
                wrong[place] ^= 0x10;
                let answer = resync(&auc, 1, &wrong);
                match in_range {
                    true => assert_eq!(answer, expected),
                    false => assert_eq!(answer, Err(refused(5))),
                }
            }
        }
    }
}

#[test]
fn five_comes_before_six_and_a_reset_asks_the_room_of_the_card() {
    for n in 1..=5 {
        let low = auc(0, 3, 0);
        assert_eq!(start(&low, n, SEQ_LIMIT - n as u64), Ok(Start::Reset));
        let no_room = SEQ_LIMIT - n as u64 + 1;
        assert_eq!(start(&low, n, no_room), Err(refused(6)));
        let mut wrong = auts(&low.subscriber, &RAND, no_room, 3);
        wrong[13] ^= 1;
        assert_eq!(resync(&low, n, &wrong), Err(refused(5)));
        let full = auc(1, SEQ_LIMIT, 0);
        assert_eq!(start(&full, n, 100), Ok(Start::Reset));
        // In range, so MAC-S is not looked at.
        let mut wrong = auts(&full.subscriber, &RAND, SEQ_LIMIT - 9, 3);
        wrong[13] ^= 1;
        assert_eq!(resync(&full, n, &wrong), Err(refused(6)));
    }
}

#[test]
fn the_earliest_pair_is_named() {
    let centre = auc(0, 0, 0);
    for first in 0..5 {
        for second in first + 1..5 {
            let mut rands = some_rands(5);
            rands.copy_within(16 * first..16 * first + 16, 16 * second);
            let mut batch = [0xee; 5 * LENGTH];
            let answer = centre.order(5, &rands, &mut batch);
            assert_eq!(answer, Err(Refused::EqualRands(first, second)));
            assert_eq!(batch, [0xee; 5 * LENGTH]);
        }
    }
    let rands = [[1; 16], [2; 16], [3; 16], [2; 16], [1; 16]].concat();
    let answer = centre.order(5, &rands, &mut [0; 5 * LENGTH]);
    assert_eq!(answer, Err(Refused::EqualRands(0, 4)));
    // The RAND of the failed challenge is not one of the batch's.
    let auts = auts(&centre.subscriber, &RAND, 0, 3);
    let answer = centre.resync(1, [&RAND, &auts], &RAND, &mut [0; LENGTH]);
    assert!(answer.is_ok());
}

#[test]
fn the_lowest_refusal_is_given_and_the_batch_stays() {
    let bad = [
        auc(2, 0, 0),
        auc(0, SEQ_LIMIT + 1, 0),
        auc(0, 0, 32),
        auc(0, u64::MAX, 255),
    ];
    let check = |auc: &Auc, count, lengths: [usize; 4], number| {
        let [rand, auts, rands, batch] = lengths;
        let (zeros, mut batch) = ([0; 96], vec![0xee; batch]);
        if (rand, auts) == (16, 14) {
            let order = auc.order(count, &zeros[..rands], &mut batch);
            assert_eq!(order, Err(refused(number)));
        }
        let failure = [&zeros[..rand], &zeros[..auts]];
        let resync = auc.resync(count, failure, &zeros[..rands], &mut batch);
        assert_eq!(resync, Err(refused(number)));
        assert!(batch.iter().all(|&byte| byte == 0xee));
    };
    for auc in &bad {
        check(auc, 6, [0, 0, 0, 0], 1);
        check(auc, 1, [16, 14, 16, 72], 1);
    }
    let good = auc(1, SEQ_LIMIT, 0);
    for count in [6, 7, 256, 257, 1 << 32, u64::MAX] {
        check(&good, count, [16, 14, 16, 72], 2);
        check(&good, count, [0, 0, 0, 0], 2);
    }
    for lengths in [
        [15, 14, 32, 144],
        [17, 14, 32, 144],
        [16, 13, 32, 144],
        [16, 15, 32, 144],
        [16, 14, 31, 144],
        [16, 14, 48, 144],
        [16, 14, 32, 143],
        [16, 14, 32, 72],
        [16, 14, 0, 0],
    ] {
        check(&good, 2, lengths, 3);
    }
}

#[test]
fn a_vector_is_handed_back_as_a_part_of_the_batch() {
    let bytes: Vec<u8> = (0..720).map(|i| (i % 251) as u8).collect();
    for length in 0..=720 {
        let batch = &bytes[..length];
        let n = match length {
            72 | 144 | 216 | 288 | 360 => length / 72,
            _ => 0,
        };
        for place in (0..12).chain([1 << 61, u64::MAX]) {
            let part = handed_back(batch, place);
            match place < n as u64 {
                true => assert_eq!(part, &bytes[72 * place as usize..][..72]),
                false => assert!(part.is_empty()),
            }
        }
    }
}
