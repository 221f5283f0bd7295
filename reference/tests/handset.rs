//! The handset's store and its answers, rule by rule.

use reference::editions::EDITION_1;
use reference::functions::Subscriber;
use reference::handset::{Answer, Outcome, Store, ANSWER, AUTN, RAND, STORED};
use reference::random::Random;
use reference::text::read_hex;
use reference::usim::{self, sqn_bytes, Card, Refusal, Verdict};

const PLACES: usize = 32;
const SEQ_LIMIT: u64 = 8_796_093_022_207;

const REFUSED_1: Outcome = Outcome::Refused(Refusal(1));
const REFUSED_3: Outcome = Outcome::Refused(Refusal(3));

/// What stands in the bytes lent for a fresh answer.
const BEFORE: [u8; ANSWER] = [0xee; ANSWER];

const A: [u8; RAND] = [0xa5; RAND];
const B: [u8; RAND] = [0x5a; RAND];

fn hex<const N: usize>(digits: &str) -> [u8; N] {
    read_hex(digits.as_bytes()).expect("hex of this length")
}

fn card(set: u8) -> Card {
    let subscriber = Subscriber {
        set,
        k: hex("000102030405060708090a0b0c0d0e0f"),
        opc: hex("101112131415161718191a1b1c1d1e1f"),
    };
    Card::new(1, subscriber)
}

fn autn(card: &Card, rand: &[u8; RAND], seq: u64) -> [u8; AUTN] {
    let sqn = sqn_bytes(EDITION_1.sqn(seq, 7));
    card.subscriber.autn(rand, &sqn, &[0x80, 1]).unwrap()
}

/// A phone with one domain.
#[derive(Clone)]
struct Phone {
    card: Card,
    store: Store,
}

impl Phone {
    fn new(set: u8) -> Phone {
        Phone {
            card: card(set),
            store: Store::cleared(),
        }
    }

    /// With A held, accepted at SEQ 1.
    fn holding(set: u8) -> Phone {
        let mut phone = Phone::new(set);
        assert_eq!(phone.ask(&A, 1).outcome, Outcome::Fresh);
        phone
    }

    fn answer(&self, rand: &[u8], autn: &[u8]) -> Answer {
        self.store.challenge(&self.card, rand, autn, &BEFORE)
    }

    /// A challenge of right MAC; the phone is what it leaves.
    fn ask(&mut self, rand: &[u8; RAND], seq: u64) -> Answer {
        self.take(rand, &autn(&self.card, rand, seq))
    }

    fn take(&mut self, rand: &[u8], autn: &[u8]) -> Answer {
        let answer = self.answer(rand, autn);
        self.card = answer.card.clone();
        self.store = answer.store.clone();
        answer
    }

    /// The answer that shows nothing, or a repeat, and leaves all as it was.
    fn unchanged(&self, outcome: Outcome) -> Answer {
        Answer {
            outcome,
            auts: [0; 14],
            card: self.card.clone(),
            store: self.store.clone(),
            fresh: BEFORE.to_vec(),
        }
    }
}

/// RES, CK and IK of a challenge that the card accepts.
fn shown(answer: &usim::Answer) -> Vec<u8> {
    assert!(matches!(answer.verdict, Verdict::Accepted { .. }));
    [&answer.res[..], &answer.ck, &answer.ik].concat()
}

#[test]
fn the_store_is_rand_then_res_ck_and_ik() {
    assert_eq!((RAND, AUTN, ANSWER, STORED), (16, 16, 40, 56));
    for set in [0, 1] {
        let mut phone = Phone::new(set);
        let asked = phone.card.challenge(&A, &autn(&phone.card, &A, 1));
        let answer = phone.ask(&A, 1);
        assert_eq!(answer.fresh, shown(&asked));
        let store = Store {
            held: true,
            bytes: [&A[..], &asked.res, &asked.ck, &asked.ik].concat(),
        };
        assert_eq!(answer.store, store);
        assert_eq!((answer.card, answer.auts), (asked.card, [0; 14]));
    }
}

#[test]
fn a_wrong_length_comes_before_a_bad_card() {
    let mut far = card(1);
    far.places[31] = SEQ_LIMIT + 1;
    for bad in [card(2), far] {
        let phone = Phone {
            card: bad,
            ..Phone::new(0)
        };
        let short = phone.answer(&A, &[0; AUTN - 1]);
        assert_eq!(short, phone.unchanged(REFUSED_3));
        let asked = phone.answer(&A, &[0; AUTN]);
        assert_eq!(asked, phone.unchanged(REFUSED_1));
        assert!(asked.part().is_empty());
    }
}

/// A phone and what it is lent, in these lengths.
fn in_lengths(phone: &Phone, [rand, autn, stored, fresh]: [usize; 4]) -> (Phone, Answer) {
    let mut phone = phone.clone();
    phone.store.bytes.resize(stored, 0xcc);
    let (mut lent_rand, fresh) = (A.to_vec(), vec![0xee; fresh]);
    lent_rand.resize(rand, 0xcc);
    let answer = phone
        .store
        .challenge(&phone.card, &lent_rand, &vec![0; autn], &fresh);
    (phone, answer)
}

#[test]
fn every_length_is_judged_first_on_a_repeat_too() {
    let right = [RAND, AUTN, STORED, ANSWER];
    for phone in [Phone::holding(0), Phone::new(1)] {
        for part in 0..4 {
            for length in (0..130).chain([256 + right[part]]) {
                let mut lengths = right;
                lengths[part] = length;
                let (before, answer) = in_lengths(&phone, lengths);
                let refused = Answer {
                    fresh: vec![0xee; lengths[3]],
                    ..before.unchanged(REFUSED_3)
                };
                assert_eq!(answer == refused, lengths != right);
                assert_eq!(answer.part().is_empty(), answer.outcome != Outcome::Repeat);
            }
        }
    }
}

#[test]
fn the_part_shown_lies_in_the_stored_or_in_the_fresh_bytes() {
    let mut phone = Phone::new(1);
    let fresh = phone.ask(&A, 1);
    assert_eq!(fresh.outcome, Outcome::Fresh);
    assert_eq!(fresh.part().as_ptr_range(), fresh.fresh.as_ptr_range());
    let repeat = phone.ask(&A, 2);
    assert_eq!(repeat.outcome, Outcome::Repeat);
    let stored = &repeat.store.bytes[RAND..];
    assert_eq!(repeat.part().as_ptr_range(), stored.as_ptr_range());
    assert_eq!(repeat.part(), fresh.part());
    assert_eq!(repeat.fresh, BEFORE);
}

#[test]
fn zeros_are_a_rand_that_a_cleared_store_does_not_match() {
    for set in [0, 1] {
        let mut phone = Phone::new(set);
        assert_eq!(phone.ask(&[0; RAND], 0).outcome, Outcome::Sync);
        let fresh = phone.ask(&[0; RAND], 1);
        assert_eq!(fresh.outcome, Outcome::Fresh);
        let repeat = phone.ask(&[0; RAND], 1);
        assert_eq!(repeat.outcome, Outcome::Repeat);
        assert_eq!(repeat.part(), fresh.part());
    }
    // Held zeros are zeros all the same.
    let mut phone = Phone::new(0);
    phone.store.held = true;
    assert_eq!(phone.answer(&[0; RAND], &A).part(), [0; ANSWER]);
}

#[test]
fn bytes_that_are_not_held_match_no_rand_and_are_written_over() {
    for set in [0, 1] {
        let mut phone = Phone::holding(set);
        phone.store.held = false;
        assert_eq!(phone.ask(&A, 1).outcome, Outcome::Sync);
        assert_eq!(phone.answer(&A, &[0; AUTN]).outcome, Outcome::Mac);
        phone.store.bytes = [&A[..], &[0xff; ANSWER]].concat();
        let fresh = phone.ask(&A, 2);
        assert_eq!(fresh.outcome, Outcome::Fresh);
        assert_eq!(fresh.store, Phone::holding(set).store);
    }
}

#[test]
fn a_repeat_looks_at_neither_autn_nor_card() {
    for set in [0, 1] {
        let phone = Phone::holding(set);
        let later = autn(&phone.card, &A, 2);
        let other = autn(&phone.card, &B, 2);
        let mut full = phone.card.clone();
        full.places = EDITION_1.places(|_| SEQ_LIMIT);
        let mut bad = full.clone();
        bad.places[0] += 1;
        for card in [&phone.card, &card(set), &card(1 - set), &full, &bad] {
            for autn in [later, other, [0; AUTN], A] {
                let phone = Phone {
                    card: card.clone(),
                    ..phone.clone()
                };
                let repeat = phone.answer(&A, &autn);
                assert_eq!(repeat, phone.unchanged(Outcome::Repeat));
                assert_eq!(repeat.part(), &phone.store.bytes[RAND..]);
            }
        }
    }
}

#[test]
fn every_bit_of_a_rand_is_compared() {
    for set in [0, 1] {
        let phone = Phone::holding(set);
        for bit in 0..8 * RAND {
            let mut near = A;
            near[bit / 8] ^= 1 << (bit % 8);
            let asked = phone.answer(&near, &autn(&phone.card, &near, 2));
            assert_eq!(asked.outcome, Outcome::Fresh);
        }
    }
}

#[test]
fn a_failure_or_a_refusal_between_leaves_the_store() {
    for set in [0, 1] {
        let mut phone = Phone::holding(set);
        let held = phone.store.clone();
        let stale = autn(&phone.card, &B, 0);
        for (autn, outcome) in [
            (&stale[..], Outcome::Sync),
            (&[0; AUTN], Outcome::Mac),
            (&stale[1..], REFUSED_3),
        ] {
            assert_eq!(phone.take(&B, autn).outcome, outcome);
            assert_eq!(phone.store, held);
            assert_eq!(phone.ask(&A, 1).outcome, Outcome::Repeat);
        }
    }
}

#[test]
fn a_new_acceptance_takes_the_place_of_all_that_was_stored() {
    for set in [0, 1] {
        let mut phone = Phone::holding(set);
        let asked = phone.card.challenge(&B, &autn(&phone.card, &B, 2));
        assert_eq!(phone.ask(&B, 2).outcome, Outcome::Fresh);
        assert_eq!(phone.store.bytes, [&B[..], &shown(&asked)].concat());
        assert_eq!(phone.ask(&A, 1).outcome, Outcome::Sync);
        assert_eq!(phone.ask(&B, 2).outcome, Outcome::Repeat);
        assert_eq!(phone.ask(&A, 3).outcome, Outcome::Fresh);
        assert_eq!(phone.ask(&B, 2).outcome, Outcome::Sync);
    }
}

#[test]
fn voice_and_data_have_a_store_each() {
    for set in [0, 1] {
        let mut voice = Phone::holding(set);
        let mut data = Phone {
            store: Store::cleared(),
            ..voice.clone()
        };
        assert_eq!(data.ask(&A, 1).outcome, Outcome::Sync);
        assert_eq!(data.ask(&B, 2).outcome, Outcome::Fresh);
        voice.card = data.card.clone();
        assert_eq!(voice.ask(&B, 2).outcome, Outcome::Sync);
        assert_eq!(voice.ask(&A, 1).outcome, Outcome::Repeat);
        voice.store = voice.store.clear().unwrap();
        assert_eq!(voice.ask(&A, 1).outcome, Outcome::Sync);
        assert_eq!(data.ask(&B, 2).outcome, Outcome::Repeat);
    }
}

#[test]
fn a_cleared_store_is_zeros_without_the_mark() {
    let mut phone = Phone::holding(1);
    let cleared = Store {
        held: false,
        bytes: vec![0; 56],
    };
    assert_eq!(phone.store.clear(), Ok(cleared.clone()));
    assert_eq!(cleared.clear(), Ok(cleared.clone()));
    assert_eq!(Store::cleared(), cleared);
    for held in [false, true] {
        for length in 0..=320 {
            let bytes = vec![0x77; length];
            let expected = match length {
                56 => Ok(cleared.clone()),
                _ => Err(Refusal(3)),
            };
            assert_eq!(Store { held, bytes }.clear(), expected);
        }
    }
    phone.store = cleared;
    assert_eq!(phone.ask(&A, 1).outcome, Outcome::Sync);
}

#[test]
fn a_failure_is_handed_on_with_its_auts_and_touches_nothing() {
    for set in [0, 1] {
        for phone in [Phone::holding(set), Phone::new(set)] {
            let stale = autn(&phone.card, &B, 0);
            let asked = phone.card.challenge(&B, &stale);
            let sync = phone.answer(&B, &stale);
            assert_ne!(asked.auts, [0; 14]);
            let expected = Answer {
                auts: asked.auts,
                ..phone.unchanged(Outcome::Sync)
            };
            assert_eq!(sync, expected);
            let mac = phone.answer(&B, &[0; AUTN]);
            assert_eq!(mac, phone.unchanged(Outcome::Mac));
            assert!(sync.part().is_empty() && mac.part().is_empty());
        }
    }
}

#[test]
fn the_sample_run() {
    let mut phone = Phone::new(0);
    phone.card.subscriber.opc = [0; 16];
    let autn: [u8; AUTN] = hex("03040506072800010001020304250606");
    let answer: [u8; ANSWER] =
        hex("00010203040506070102030405060708090a0b0c0d0e0f0002030405060708090a0b0c0d0e0f0001");
    let fresh = phone.take(&[0; RAND], &autn);
    assert_eq!((fresh.outcome, fresh.part()), (Outcome::Fresh, &answer[..]));
    let repeat = phone.take(&[0; RAND], &autn);
    assert_eq!(
        (repeat.outcome, repeat.part()),
        (Outcome::Repeat, &answer[..])
    );
    phone.store.held = false;
    let sync = phone.take(&[0; RAND], &autn);
    assert_eq!(sync.outcome, Outcome::Sync);
    assert_eq!(sync.auts, hex("0304050607280001020304250607"));
}

/// A card of any set, now and then one that is not valid.
fn any_card(random: &mut Random) -> Card {
    let subscriber = Subscriber {
        set: random.one_of(&[0, 0, 0, 1, 1, 1, 2]),
        k: random.bytes(),
        opc: random.bytes(),
    };
    let mut card = Card::new(1, subscriber);
    card.places = EDITION_1.places(|_| random.draw() % 50);
    card
}

/// A challenge of right or of wrong MAC, fresh or stale, to a card like this.
fn any_challenge(card: &Card, random: &mut Random) -> ([u8; RAND], [u8; AUTN]) {
    let rand = random.bytes();
    let sqn = EDITION_1.sqn(random.draw() % 100, random.below(PLACES));
    let right = card.subscriber.autn(&rand, &sqn_bytes(sqn), &[0, 0]);
    match random.below(3) {
        0 => (rand, random.bytes()),
        _ => (rand, right.unwrap_or([0; AUTN])),
    }
}

/// Any call, also one that is refused for a length. An acceptance is left out.
fn not_accepted(phone: &Phone, random: &mut Random) -> Option<Answer> {
    let card = match random.below(2) {
        0 => phone.card.clone(),
        _ => any_card(random),
    };
    let (rand, autn) = any_challenge(&card, random);
    let rand = &rand[..random.one_of(&[RAND, RAND, RAND, 3])];
    let fresh = random.bytes::<ANSWER>();
    let answer = phone.store.challenge(&card, rand, &autn, &fresh);
    (answer.outcome != Outcome::Fresh).then_some(answer)
}

#[test]
fn what_was_accepted_is_repeated_whatever_fails_between() {
    let mut random = Random::new(101);
    let mut failures = 0;
    for _ in 0..600 {
        let mut phone = Phone {
            card: card(random.one_of(&[0, 1])),
            store: Store {
                held: random.below(2) == 0,
                bytes: random.bytes::<STORED>().to_vec(),
            },
        };
        // The store may hold this very RAND, and then nothing is accepted.
        let rand = random.bytes();
        let accepted = phone.ask(&rand, 1 + random.draw() % 100);
        if accepted.outcome == Outcome::Repeat {
            continue;
        }
        assert_eq!(accepted.outcome, Outcome::Fresh);
        for _ in 0..random.below(12) {
            if let Some(answer) = not_accepted(&phone, &mut random) {
                failures += usize::from(answer.part().is_empty());
                phone.store = answer.store;
            }
        }
        phone.card = any_card(&mut random);
        let repeat = phone.answer(&rand, &random.bytes::<AUTN>());
        assert_eq!(repeat, phone.unchanged(Outcome::Repeat));
        assert_eq!(repeat.part(), accepted.part());
    }
    assert!(failures >= 1_000);
}
