//! The card against the worked table, the sample run and its own edges, in
//! edition 1.

use reference::editions::EDITION_1;
use reference::functions::Subscriber;
use reference::published;
use reference::text::{read_hex, write_hex};
use reference::usim::{sqn_bytes, Answer, Card, Refusal, Verdict, D};

const RAND: [u8; 16] = [0x5a; 16];
const AMF: [u8; 2] = [0x80, 1];
const PLACES: usize = 32;
const SEQ_LIMIT: u64 = 8_796_093_022_207;

fn sqn(seq: u64, ind: usize) -> u64 {
    EDITION_1.sqn(seq, ind)
}

fn seq(sqn: u64) -> u64 {
    EDITION_1.seq(sqn)
}

fn ind(sqn: u64) -> usize {
    EDITION_1.ind(sqn)
}

fn hex<const N: usize>(digits: &str) -> [u8; N] {
    read_hex(digits.as_bytes()).expect("hex of this length")
}

fn subscriber(set: u8) -> Subscriber {
    Subscriber {
        set,
        k: hex("000102030405060708090a0b0c0d0e0f"),
        opc: hex("101112131415161718191a1b1c1d1e1f"),
    }
}

fn card(set: u8, places: &[(usize, u64)]) -> Card {
    let mut card = Card::new(1, subscriber(set));
    for &(ind, seq) in places {
        card.places[ind] = seq;
    }
    card
}

fn autn(card: &Card, seq: u64, ind: usize) -> [u8; 16] {
    let sqn = sqn_bytes(sqn(seq, ind));
    card.subscriber.autn(&RAND, &sqn, &AMF).unwrap()
}

fn ask(card: &Card, seq: u64, ind: usize) -> Answer {
    card.challenge(&RAND, &autn(card, seq, ind))
}

fn is_accepted(card: &Card, seq: u64, ind: usize) -> bool {
    match ask(card, seq, ind).verdict {
        Verdict::Accepted { sqn: accepted } => {
            assert_eq!(accepted, sqn(seq, ind));
            true
        }
        verdict => {
            assert_eq!(verdict, Verdict::Sync);
            false
        }
    }
}

/// The answer that gives nothing and leaves the record as it was.
fn nothing(card: &Card, verdict: Verdict) -> Answer {
    Answer {
        verdict,
        card: card.clone(),
        res: [0; 8],
        ck: [0; 16],
        ik: [0; 16],
        auts: [0; 14],
    }
}

/// The SQN_MS that an AUTS carries, its MAC-S being right.
fn sqn_ms(card: &Card, answer: &Answer) -> u64 {
    assert_eq!(answer.verdict, Verdict::Sync);
    let outputs = |sqn| card.subscriber.outputs(&RAND, sqn, &[0, 0]).unwrap();
    let ak_s = outputs(&[0; 6]).ak_s;
    let bytes: [u8; 6] = std::array::from_fn(|i| answer.auts[i] ^ ak_s[i]);
    assert_eq!(answer.auts[6..], outputs(&bytes).mac_s);
    bytes.iter().fold(0, |n, &b| n << 8 | u64::from(b))
}

#[test]
fn the_limits() {
    assert_eq!(SEQ_LIMIT, (1 << 43) - 1);
    assert_eq!(D, 1 << 28);
    assert_eq!(sqn(SEQ_LIMIT, 31), (1 << 48) - 1);
    assert_eq!(sqn_bytes((1 << 48) - 1), [0xff; 6]);
    assert_eq!(sqn_bytes(0x0102_0304_0506), [1, 2, 3, 4, 5, 6]);
    assert_eq!((seq(355), ind(355)), (11, 3));
}

#[test]
fn the_eight_rows_of_the_table() {
    for set in [0, 1] {
        let new = card(set, &[]);
        let used = card(set, &[(3, 10)]);
        assert!(!is_accepted(&new, 0, 0));
        assert!(is_accepted(&new, 268_435_456, 9));
        assert!(!is_accepted(&new, 268_435_457, 9));
        assert!(!is_accepted(&used, 10, 3));
        assert!(is_accepted(&used, 11, 3));
        assert!(is_accepted(&used, 7, 4));
        let tied = ask(&used, 10, 4).card;
        assert_eq!(tied, card(set, &[(3, 10), (4, 10)]));
        assert_eq!(tied.sqn_ms(), sqn(10, 3));
        let mut wrong = autn(&used, 10, 3);
        wrong[15] ^= 1;
        let answer = used.challenge(&RAND, &wrong);
        assert_eq!(answer, nothing(&used, Verdict::Mac));
    }
}

#[test]
fn the_sample_run() {
    let mut subscriber = subscriber(0);
    subscriber.opc = [0; 16];
    let autn = subscriber.autn(&[0; 16], &sqn_bytes(32), &[0, 1]).unwrap();
    assert_eq!(write_hex(&autn), b"03040506072800010001020304250606");
    let new = Card::new(1, subscriber);
    let first = new.challenge(&[0; 16], &autn);
    let mut used = new.clone();
    used.places[0] = 1;
    let accepted = Answer {
        res: hex("0001020304050607"),
        ck: hex("0102030405060708090a0b0c0d0e0f00"),
        ik: hex("02030405060708090a0b0c0d0e0f0001"),
        ..nothing(&used, Verdict::Accepted { sqn: 32 })
    };
    assert_eq!(first, accepted);
    let failure = Answer {
        auts: hex("0304050607280001020304250607"),
        ..nothing(&used, Verdict::Sync)
    };
    assert_eq!(first.card.challenge(&[0; 16], &autn), failure);
}

#[test]
fn the_published_sets_are_accepted() {
    for v in published::milenage() {
        let mut card = Card::new(
            1,
            Subscriber {
                set: 1,
                k: hex(v.k),
                opc: hex(v.opc),
            },
        );
        let sqn = u64::from_str_radix(v.sqn, 16).unwrap();
        card.places[ind(sqn)] = seq(sqn) - 1;
        let concealed: [u8; 6] = std::array::from_fn(|i| hex::<6>(v.sqn)[i] ^ hex::<6>(v.f5)[i]);
        let autn = [&concealed[..], &hex::<2>(v.amf), &hex::<8>(v.f1)].concat();
        let answer = card.challenge(&hex::<16>(v.rand), &autn);
        card.places[ind(sqn)] = seq(sqn);
        let expected = Answer {
            res: hex(v.f2),
            ck: hex(v.f3),
            ik: hex(v.f4),
            ..nothing(&card, Verdict::Accepted { sqn })
        };
        assert_eq!(answer, expected);
    }
}

#[test]
fn one_place_is_replaced_on_acceptance() {
    for set in [0, 1] {
        let mut card = card(set, &[]);
        card.places = EDITION_1.places(|ind| 100 + ind as u64);
        for ind in 0..PLACES {
            let answer = ask(&card, 200, ind);
            let mut next = card.clone();
            next.places[ind] = 200;
            assert_eq!(answer.card, next);
            assert_eq!(answer.auts, [0; 14]);
        }
    }
}

#[test]
fn the_jump_is_counted_from_the_highest_place() {
    for base in [0, 5, D, SEQ_LIMIT - D - 1] {
        let card = card(1, &[(6, base)]);
        for ind in [6, 7] {
            assert!(is_accepted(&card, base + D, ind));
            assert!(!is_accepted(&card, base + D + 1, ind));
        }
    }
}

#[test]
fn a_number_below_the_highest_place_is_no_jump() {
    let card = card(0, &[(6, SEQ_LIMIT), (8, 40)]);
    assert!(is_accepted(&card, 1, 7));
    assert!(!is_accepted(&card, 0, 7));
    assert!(is_accepted(&card, 41, 8));
    assert!(!is_accepted(&card, 40, 8));
    assert!(!is_accepted(&card, SEQ_LIMIT, 6));
    assert!(is_accepted(&card, SEQ_LIMIT, 31));
}

#[test]
fn auts_has_the_lowest_index_of_the_highest_place() {
    for (tied, lowest) in [
        (vec![], 0),
        (vec![31], 31),
        (vec![7, 3], 3),
        (vec![31, 30], 30),
        ((0..PLACES).collect(), 0),
    ] {
        let places: Vec<_> = tied.iter().map(|&ind| (ind, 9)).collect();
        let card = card(1, &places);
        let answer = ask(&card, 0, 5);
        let highest = if tied.is_empty() { 0 } else { 9 };
        assert_eq!(sqn_ms(&card, &answer), sqn(highest, lowest));
        let zeros = nothing(&card, Verdict::Sync);
        assert_eq!(
            answer,
            Answer {
                auts: answer.auts,
                ..zeros
            }
        );
    }
}

#[test]
fn a_wrong_mac_tells_nothing_about_the_places() {
    for set in [0, 1] {
        let fresh = card(set, &[(3, 10)]);
        let mut stale = fresh.clone();
        stale.places = EDITION_1.places(|_| SEQ_LIMIT);
        let right = autn(&fresh, 11, 3);
        for place in 0..16 {
            for bit in 0..8 {
                let mut wrong = right;
                wrong[place] ^= 1 << bit;
                for card in [&fresh, &stale] {
                    let answer = card.challenge(&RAND, &wrong);
                    assert_eq!(answer, nothing(card, Verdict::Mac));
                }
            }
        }
    }
}

#[test]
fn parts_of_other_lengths_are_refused() {
    let card = card(1, &[(3, 10)]);
    let autn = [autn(&card, 11, 3); 2].concat();
    let rand = [RAND; 2].concat();
    for r in 0..=32 {
        for a in 0..=32 {
            let answer = card.challenge(&rand[..r], &autn[..a]);
            let refused = nothing(&card, Verdict::Refused(Refusal(3)));
            assert_eq!(answer == refused, r != 16 || a != 16);
        }
    }
}

#[test]
fn a_bad_record_is_refused_first() {
    let mut bad_place = card(0, &[(31, SEQ_LIMIT + 1)]);
    assert!(!bad_place.is_valid());
    let refused = Verdict::Refused(Refusal(1));
    for rand in [&RAND[..], &[]] {
        for bad in [&bad_place, &card(2, &[]), &card(255, &[])] {
            let answer = bad.challenge(rand, &[0; 16]);
            assert_eq!(answer, nothing(bad, refused));
        }
    }
    bad_place.places[31] = SEQ_LIMIT;
    assert!(bad_place.is_valid());
    assert_eq!(ask(&bad_place, 0, 0).verdict, Verdict::Sync);
}
