//! The rules of the editions, with numbers and bytes worked out by hand.

use reference::auc::{Auc, Refused, Start};
use reference::auc_call_lines::{auts, rands};
use reference::editions::{of, Edition, EDITION_1, EDITION_2, KNOWN};
use reference::functions::Subscriber;
use reference::random::Random;
use reference::usim::{sqn_bytes, Card, Refusal, Verdict, D};
use reference::vector::{Vector, LENGTH};
use reference::{auc_image, image};

const RAND: [u8; 16] = [0x5a; 16];
const BAD: Result<(), Refusal> = Err(Refusal(1));

/// The largest SEQs.
const LIMIT_1: u64 = 8_796_093_022_207;
const LIMIT_2: u64 = 4_398_046_511_103;

fn subscriber(set: u8) -> Subscriber {
    Subscriber {
        set,
        k: std::array::from_fn(|i| i as u8),
        opc: std::array::from_fn(|i| 0xf0 + i as u8),
    }
}

fn card(edition: u8, places: &[(usize, u64)]) -> Card {
    let mut card = Card::new(edition, subscriber(1));
    for &(ind, seq) in places {
        card.places[ind] = seq;
    }
    card
}

fn auc(edition: u8, seq_he: u64, next: u8) -> Auc {
    Auc {
        seq_he,
        next,
        ..Auc::new(edition, subscriber(1), [0xab, 0xcd])
    }
}

fn is_accepted(card: &Card, sqn: u64) -> bool {
    let autn = card.subscriber.autn(&RAND, &sqn_bytes(sqn), &[0, 0]);
    let answer = card.challenge(&RAND, &autn.unwrap());
    match answer.verdict {
        Verdict::Accepted { sqn: accepted } => accepted == sqn,
        verdict => {
            assert_eq!(verdict, Verdict::Sync);
            false
        }
    }
}

fn order(auc: &Auc, n: usize) -> Result<(Auc, Vec<Vector>), Refused> {
    let mut batch = vec![0; LENGTH * n];
    let next = auc.order(n as u64, &rands(n, &mut Random::new(9)), &mut batch)?;
    Ok((next, vectors(&batch)))
}

fn vectors(batch: &[u8]) -> Vec<Vector> {
    let bytes = batch.chunks(LENGTH);
    bytes.map(|b| Vector::of(b.try_into().unwrap())).collect()
}

/// The SQN of a vector, without a look at how it was made.
fn sqn_of(vector: &Vector) -> u64 {
    let outputs = subscriber(1).outputs(&vector.rand, &[0; 6], &[0, 0]);
    let ak = outputs.unwrap().ak;
    (0..6).fold(0, |sqn, i| 256 * sqn + u64::from(vector.autn[i] ^ ak[i]))
}

#[test]
fn the_table() {
    let row = |number| {
        let edition: &Edition = of(number).unwrap();
        assert_eq!(edition.number, number);
        (
            edition.indices(),
            edition.seq_limit(),
            edition.card_image(),
            edition.auc_image(),
        )
    };
    assert_eq!(row(1), (32, LIMIT_1, 205, 41));
    assert_eq!(row(2), (64, LIMIT_2, 369, 41));
    assert!((0..=255).all(|number| of(number).is_some() == (number == 1 || number == 2)));
    assert_eq!(KNOWN, [EDITION_1, EDITION_2]);
}

#[test]
fn an_sqn_is_split_by_the_width() {
    assert_eq!((EDITION_1.seq(355), EDITION_1.ind(355)), (11, 3));
    assert_eq!((EDITION_2.seq(355), EDITION_2.ind(355)), (5, 35));
    for edition in [EDITION_1, EDITION_2] {
        let last = edition.indices() - 1;
        let most = edition.sqn(edition.seq_limit(), last);
        assert_eq!(most, (1 << 48) - 1);
        assert_eq!(edition.seq(most), edition.seq_limit());
        assert_eq!(edition.ind(most), last);
    }
}

#[test]
fn the_layout_of_an_edition_2_card() {
    let places = [
        (0, LIMIT_2),
        (1, 1),
        (2, 1 << 41),
        (4, 0x155_5555_5555),
        (63, 2),
    ];
    let card = card(2, &places);
    let mut expected = vec![0x21];
    expected.extend(0x00..=0x0f);
    expected.extend(0xf0..=0xff);
    // 42 ones; 41 zeros and a one; a one: 5 bytes and 2 bits, 10 bytes and 4 bits.
    expected.extend([0xff, 0xff, 0xff, 0xff, 0xff, 0b1100_0000]);
    expected.extend([0, 0, 0, 0, 0b0001_1000]);
    // Four places are 21 bytes, and place 4 is 01 0101 .. 0101 in 42 bits.
    expected.resize(33 + 21, 0);
    expected.extend([0x55, 0x55, 0x55, 0x55, 0x55, 0b0100_0000]);
    expected.resize(368, 0);
    expected.push(2);
    assert_eq!(image::image(&card), Ok(expected.clone()));
    assert_eq!(image::read(&expected), Ok(card));
}

#[test]
fn the_layout_of_an_edition_2_centre() {
    let mut expected = vec![0x21];
    expected.extend(0x00..=0x0f);
    expected.extend(0xf0..=0xff);
    expected.extend([0xab, 0xcd]);
    // 64 x 50 + 63 is 3263.
    expected.extend([0, 0, 0, 0, 0x0c, 0xbf]);
    assert_eq!(auc_image::image(&auc(2, 50, 63)), Ok(expected.clone()));
    assert_eq!(auc_image::read(&expected), Ok(auc(2, 50, 63)));
    // The same bits of edition 1: 32 x 101 + 31.
    expected[0] = 0x11;
    assert_eq!(auc_image::read(&expected), Ok(auc(1, 101, 31)));
}

#[test]
fn both_round_trips_of_an_edition_2_card() {
    let mut random = Random::new(369);
    for turn in 0..200 {
        let mut bytes: [u8; 369] = random.bytes();
        bytes[0] = 0x20 + turn % 2;
        let card = image::read(&bytes).unwrap();
        assert!(card.is_valid() && card.edition == 2);
        assert_eq!(image::image(&card), Ok(bytes.to_vec()));
    }
}

#[test]
fn an_image_is_refused_by_its_edition_before_its_length() {
    type Read = fn(&[u8]) -> Result<(), Refusal>;
    let card: Read = |bytes| image::read(bytes).map(|_| ());
    let auc: Read = |bytes| auc_image::read(bytes).map(|_| ());
    for (read, lengths) in [(card, [205, 369]), (auc, [41, 41])] {
        assert_eq!(read(&[]), Err(Refusal(3)));
        for first in 0..=255u8 {
            for length in [1, 2, 40, 41, 42, 204, 205, 206, 368, 369, 370, 1_000] {
                let mut bytes = vec![0; length];
                bytes[0] = first;
                let expected = match first >> 4 {
                    edition @ 1..=2 if lengths[usize::from(edition) - 1] != length => {
                        Err(Refusal(3))
                    }
                    1..=2 if first & 15 <= 1 => Ok(()),
                    _ => Err(Refusal(1)),
                };
                assert_eq!(read(&bytes), expected);
            }
        }
    }
}

#[test]
fn a_written_image_has_the_length_of_its_edition() {
    for (edition, right) in [(1, 205), (2, 369), (0, 0), (3, 0), (17, 0), (255, 0)] {
        for length in [0, 41, 204, 205, 206, 368, 369, 370, 512] {
            let mut buffer = vec![0xee; length];
            let expected = match (right, length == right) {
                (0, _) => BAD,
                (_, true) => Ok(()),
                (_, false) => Err(Refusal(3)),
            };
            assert_eq!(image::write(&card(edition, &[]), &mut buffer), expected);
            assert_eq!(buffer == vec![0xee; length], expected.is_err());
        }
    }
}

#[test]
fn places_behind_the_last_index_are_zero() {
    for ind in 0..64 {
        for seq in [1, LIMIT_2, LIMIT_2 + 1, LIMIT_1, LIMIT_1 + 1, u64::MAX] {
            let one = card(1, &[(ind, seq)]);
            assert_eq!(one.is_valid(), ind < 32 && seq <= LIMIT_1);
            assert_eq!(card(2, &[(ind, seq)]).is_valid(), seq <= LIMIT_2);
            if !one.is_valid() {
                assert_eq!(image::write(&one, &mut [0; 205]), BAD);
                assert_eq!(image::write(&one, &mut [0; 204]), BAD);
            }
        }
    }
}

#[test]
fn the_ranges_of_a_centre() {
    for seq_he in [0, LIMIT_2, LIMIT_2 + 1, LIMIT_1, LIMIT_1 + 1] {
        for next in 0..=255 {
            assert_eq!(
                auc(1, seq_he, next).is_valid(),
                seq_he <= LIMIT_1 && next < 32
            );
            assert_eq!(
                auc(2, seq_he, next).is_valid(),
                seq_he <= LIMIT_2 && next < 64
            );
            assert!(!auc(0, 0, 0).is_valid() && !auc(3, 0, 0).is_valid());
        }
    }
}

#[test]
fn from_edition_2_every_vector_has_an_index_of_its_own() {
    let (next, vectors) = order(&auc(2, 0, 62), 5).unwrap();
    let numbers: Vec<u64> = vectors.iter().map(sqn_of).collect();
    // SEQ 1 to 5 with the indices 62, 63, 0, 1, 2.
    assert_eq!(numbers, [126, 191, 192, 257, 322]);
    assert_eq!(next, auc(2, 5, 3));
    let (next, vectors) = order(&auc(1, 0, 30), 5).unwrap();
    let numbers: Vec<u64> = vectors.iter().map(sqn_of).collect();
    assert_eq!(numbers, [62, 94, 126, 158, 190]);
    assert_eq!(next, auc(1, 5, 31));
    for n in 1..=5 {
        for start in 0..64 {
            let (next, _) = order(&auc(2, 40, start), n).unwrap();
            assert_eq!(next, auc(2, 40 + n as u64, (start + n as u8) % 64));
        }
    }
}

#[test]
fn a_resynchronisation_goes_on_with_the_index_kept_or_reset() {
    for (seq_he, expected) in [(100, Start::Kept), (99, Start::Reset)] {
        let centre = auc(2, seq_he, 62);
        let auts = auts(&EDITION_2, &centre.subscriber, &RAND, 100, 40);
        let mut batch = vec![0; 3 * LENGTH];
        let lent = rands(3, &mut Random::new(3));
        let (start, next) = centre.resync(3, [&RAND, &auts], &lent, &mut batch).unwrap();
        assert_eq!(start, expected);
        assert_eq!(next, auc(2, 103, 1));
        let numbers: Vec<u64> = vectors(&batch).iter().map(sqn_of).collect();
        // SEQ 101 to 103 with the indices 62, 63, 0.
        assert_eq!(numbers, [6_526, 6_591, 6_592]);
    }
}

#[test]
fn the_limit_of_a_batch_is_the_editions() {
    for (edition, limit) in [(1, LIMIT_1), (2, LIMIT_2)] {
        for n in 1..=5 {
            assert!(order(&auc(edition, limit - n, 31), n as usize).is_ok());
            let full = order(&auc(edition, limit - n + 1, 31), n as usize);
            assert_eq!(full, Err(Refused::By(Refusal(6))));
        }
        let past = order(&auc(edition, limit + 1, 31), 1);
        assert_eq!(past, Err(Refused::By(Refusal(1))));
    }
}

#[test]
fn the_jump_is_the_same_in_each_edition() {
    for edition in [EDITION_1, EDITION_2] {
        let last = edition.indices() - 1;
        for (at, ind) in [(0, 0), (last, last), (last, 0), (7, last)] {
            let card = card(edition.number, &[(at, 1_000)]);
            assert!(is_accepted(&card, edition.sqn(1_000 + D, ind)));
            assert!(!is_accepted(&card, edition.sqn(1_000 + D + 1, ind)));
        }
    }
}

#[test]
fn unlike_editions_are_no_refusal() {
    // SQN 64 is SEQ 2, IND 0 of edition 1 and SEQ 1, IND 0 of edition 2.
    let (_, vectors) = order(&auc(2, 0, 0), 1).unwrap();
    let answer = card(1, &[]).challenge(&vectors[0].rand, &vectors[0].autn);
    assert_eq!(answer.verdict, Verdict::Accepted { sqn: 64 });
    assert_eq!(answer.card, card(1, &[(0, 2)]));
    // SQN_MS 32 x 201 + 3 is 6435: SEQ 100, IND 35 to a centre of edition 2.
    for (seq_he, expected) in [(100, Start::Kept), (99, Start::Reset), (201, Start::Kept)] {
        let centre = auc(2, seq_he, 0);
        let auts = auts(&EDITION_1, &centre.subscriber, &RAND, 201, 3);
        let resync = centre.resync(1, [&RAND, &auts], &RAND, &mut [0; LENGTH]);
        assert_eq!(resync.unwrap().0, expected);
    }
}

/// Orders of any counts, and vectors presented in any order, also again: each of
/// the last 64 that is within D and was not yet accepted is accepted.
#[test]
fn the_window_of_edition_2() {
    let mut random = Random::new(104);
    let (mut late, mut refused) = (0, 0);
    for turn in 0..60 {
        let mut centre = auc(2, 100 * turn, (7 * turn % 64) as u8);
        centre.subscriber.set = 0;
        let mut card = Card::new(2, centre.subscriber.clone());
        let (mut given, mut accepted) = (Vec::<Vector>::new(), Vec::<usize>::new());
        for _ in 0..150 {
            let mut batch = vec![0; LENGTH * (1 + random.below(5))];
            let n = batch.len() / LENGTH;
            centre = centre
                .order(n as u64, &rands(n, &mut random), &mut batch)
                .unwrap();
            given.extend(vectors(&batch));
            for _ in 0..1 + random.below(3) {
                let g = given.len() - 1 - random.below(given.len().min(80));
                let answer = card.challenge(&given[g].rand, &given[g].autn);
                let is_accepted = matches!(answer.verdict, Verdict::Accepted { .. });
                if given.len() - g <= 64 && !accepted.contains(&g) {
                    assert!(is_accepted);
                    assert_eq!(answer.res, given[g].xres);
                    late += usize::from(given.len() - g > 50);
                }
                refused += usize::from(!is_accepted && !accepted.contains(&g));
                accepted.extend(is_accepted.then_some(g));
                card = answer.card;
            }
        }
    }
    assert!(late >= 500 && refused >= 100, "{late} {refused}");
}

#[test]
fn what_lies_outside_the_window() {
    // A foreign number blocks its place and no other.
    let foreign = card(2, &[(7, 500)]);
    assert!(!is_accepted(&foreign, EDITION_2.sqn(8, 7)));
    assert!(is_accepted(&foreign, EDITION_2.sqn(9, 8)));
    // In edition 1 the last of a batch makes the others stale.
    let (_, batch) = order(&auc(1, 0, 0), 5).unwrap();
    let last = card(1, &[]).challenge(&batch[4].rand, &batch[4].autn).card;
    let first = last.challenge(&batch[0].rand, &batch[0].autn);
    assert_eq!(first.verdict, Verdict::Sync);
    let (_, batch) = order(&auc(2, 0, 0), 5).unwrap();
    let last = card(2, &[]).challenge(&batch[4].rand, &batch[4].autn).card;
    assert!(is_accepted(&last, sqn_of(&batch[0])));
}
