//! The node with triplets: one queue of both kinds, a run without AUTN, and the
//! records that the kinds make invalid.

use reference::place::{Item, Kind, Place, KINDS, NONE};
use reference::random::Random;
use reference::triplet::Triplet;
use reference::usim::Refusal;
use reference::vlr::{Answer, Node, Outcome, State, ROOM};

const AUTS: [u8; 14] = [0xa5; 14];

fn item(kind: Kind, random: &mut Random) -> Vec<u8> {
    (0..kind.length()).map(|_| random.draw() as u8).collect()
}

/// A valid node; in Asked an item of this kind is out.
fn node(state: State, out: Kind, held: &[Kind]) -> Node {
    let mut random = Random::new(102);
    let mut node = Node::new();
    node.state = state;
    if state == State::Asked {
        node.outstanding = out.place(&item(out, &mut random));
    }
    node.held = held.len() as u8;
    for (place, kind) in node.places.iter_mut().zip(held) {
        *place = kind.place(&item(*kind, &mut random));
    }
    assert!(node.is_valid());
    node
}

fn triplet(place: &Place) -> Triplet {
    match Item::of(place) {
        Some(Item::Triplet(triplet)) => triplet,
        other => panic!("{other:?}"),
    }
}

/// A node with a triplet out, and the triplet.
fn asked(held: &[Kind]) -> (Node, Triplet) {
    let node = node(State::Asked, Kind::Triplet, held);
    let out = triplet(&node.outstanding);
    (node, out)
}

/// The same node when nothing is out any more.
fn idle(node: &Node) -> Node {
    Node {
        state: State::Idle,
        outstanding: NONE,
        ..node.clone()
    }
}

#[test]
fn a_triplet_has_its_kind_before_it_and_zeros_behind() {
    let mut random = Random::new(1);
    let bytes = item(Kind::Triplet, &mut random);
    let next = Node::new().store(Kind::Triplet, 1, &bytes).unwrap().node;
    assert_eq!(next.places[0][0], 1);
    assert_eq!(next.places[0][1..29], bytes[..]);
    assert_eq!(next.places[0][29..], [0; 44]);
    let vector = item(Kind::Vector, &mut random);
    let next = next.store(Kind::Vector, 1, &vector).unwrap().node;
    assert_eq!(next.places[1][0], 0);
    assert_eq!(next.places[1][1..], vector[..]);
    assert_eq!(next.held, 2);
}

#[test]
fn a_run_asks_with_rand_alone_and_gives_kc_alone() {
    let held = [Kind::Triplet, Kind::Vector];
    let before = node(State::Idle, Kind::Vector, &held);
    let out = triplet(&before.places[0]);
    let asked = before.ask().unwrap();
    let expected = Answer {
        rand: out.rand,
        ..Answer::only(Outcome::Done, asked.node.clone())
    };
    assert_eq!(asked, expected);
    assert_eq!(asked.node.outstanding, before.places[0]);
    assert_eq!(asked.node.again(), Ok(expected));
    let passed = asked.node.answer(&out.sres).unwrap();
    let expected = Answer {
        kc: out.kc,
        ..Answer::only(Outcome::Passed, idle(&asked.node))
    };
    assert_eq!(passed, expected);
}

#[test]
fn a_wrong_sres_is_cause_2() {
    let (node, out) = asked(&[Kind::Vector]);
    for bit in 0..32 {
        let mut sres = out.sres;
        sres[bit / 8] ^= 1 << (bit % 8);
        let expected = Answer::only(Outcome::Cause(2), idle(&node));
        assert_eq!(node.answer(&sres), Ok(expected));
    }
}

#[test]
fn the_length_of_a_response_goes_with_what_is_out() {
    for held in [&[][..], &[Kind::Vector], &[Kind::Triplet]] {
        for (state, out, right) in [
            (State::Idle, Kind::Vector, 8),
            (State::Asked, Kind::Vector, 8),
            (State::Asked, Kind::Triplet, 4),
            (State::Resyncing, Kind::Vector, 8),
        ] {
            let node = node(state, out, held);
            for length in 0..=40 {
                let answer = node.answer(&node.outstanding[17..17 + length]);
                match (length == right, state) {
                    (false, _) => assert_eq!(answer, Err(Refusal(3))),
                    (true, State::Asked) => assert_eq!(answer.unwrap().outcome, Outcome::Passed),
                    (true, _) => assert_eq!(answer, Err(Refusal(7))),
                }
            }
        }
    }
}

#[test]
fn a_synchronisation_failure_is_no_report_on_a_triplet() {
    let (node, out) = asked(&[Kind::Vector]);
    for length in [0, 1, 13, 15, 28] {
        assert_eq!(node.sync(&[0xa5; 28][..length]), Err(Refusal(3)));
    }
    assert_eq!(node.sync(&AUTS), Err(Refusal(7)));
    // A wrong signature, a repeat and a loss are as with a vector.
    let idle = idle(&node);
    let rejected = Answer::only(Outcome::Cause(1), idle.clone());
    assert_eq!(node.reject(), Ok(rejected));
    assert_eq!(node.abandon(), Ok(Answer::only(Outcome::Done, idle)));
    assert_eq!(node.again().unwrap().rand, out.rand);
    assert_eq!(node.timeout(), Err(Refusal(7)));
    assert_eq!(node.ask(), Err(Refusal(7)));
    assert_eq!(node.renew(Kind::Triplet, 1, &[1; 28]), Err(Refusal(7)));
}

#[test]
fn both_kinds_stand_in_one_queue_of_sixteen() {
    let mut random = Random::new(16);
    let mut node = Node::new();
    let mut stored = Vec::new();
    for turn in 0..ROOM {
        let kind = KINDS[turn % 3 % 2];
        let bytes = item(kind, &mut random);
        node = node.store(kind, 1, &bytes).unwrap().node;
        stored.push(kind.place(&bytes));
    }
    for kind in KINDS {
        let batch = item(kind, &mut random);
        assert_eq!(node.store(kind, 1, &batch), Err(Refusal(9)));
    }
    for place in stored {
        let asked = node.ask().unwrap().node;
        assert_eq!(asked.outstanding, place);
        node = asked.abandon().unwrap().node;
    }
    assert_eq!(node, Node::new());
}

#[test]
fn a_renewal_of_either_kind_takes_the_place_of_all() {
    let mut random = Random::new(5);
    for kind in KINDS {
        for n in 1..=5 {
            let items: Vec<Vec<u8>> = (0..n).map(|_| item(kind, &mut random)).collect();
            let before = node(State::Resyncing, kind, &[Kind::Triplet, Kind::Vector]);
            let renewed = before.renew(kind, n as u64, &items.concat()).unwrap();
            let mut expected = Node::new();
            expected.held = n as u8;
            for (place, item) in expected.places.iter_mut().zip(&items) {
                *place = kind.place(item);
            }
            assert_eq!(renewed, Answer::only(Outcome::Done, expected));
        }
    }
}

#[test]
fn a_batch_of_the_other_kinds_length_is_refused_3() {
    let bytes = [1; 600];
    for state in [State::Idle, State::Asked, State::Resyncing] {
        let node = node(state, Kind::Triplet, &[Kind::Vector; ROOM]);
        for kind in KINDS {
            for n in 1..=5 {
                for length in 0..=370 {
                    if length != kind.length() * n {
                        let batch = &bytes[..length];
                        assert_eq!(node.store(kind, n as u64, batch), Err(Refusal(3)));
                        assert_eq!(node.renew(kind, n as u64, batch), Err(Refusal(3)));
                    }
                }
            }
            for count in [0, 6, 7, 18, 257, (1 << 61) + 1, (1 << 62) + 1, u64::MAX] {
                for length in [0, 28, 72, 504] {
                    let batch = &bytes[..length];
                    assert_eq!(node.store(kind, count, batch), Err(Refusal(2)));
                    assert_eq!(node.renew(kind, count, batch), Err(Refusal(2)));
                }
            }
        }
    }
}

/// Every operation, all that is lent as named for some node.
fn all_refused_1(node: &Node) {
    assert!(!node.is_valid(), "{node:?}");
    for answer in [
        node.store(Kind::Triplet, 1, &[1; 28]),
        node.store(Kind::Vector, 0, &[]),
        node.ask(),
        node.again(),
        node.answer(&[0; 4]),
        node.answer(&[0; 8]),
        node.answer(&[]),
        node.reject(),
        node.sync(&AUTS),
        node.sync(&[]),
        node.renew(Kind::Triplet, 1, &[1; 28]),
        node.renew(Kind::Vector, 1, &[]),
        node.timeout(),
        node.abandon(),
    ] {
        assert_eq!(answer, Err(Refusal(1)));
    }
}

#[test]
fn an_unknown_kind_is_refused_1() {
    let held = [Kind::Triplet, Kind::Vector, Kind::Triplet];
    for kind in 2..=255 {
        for state in [State::Idle, State::Asked, State::Resyncing] {
            for place in 0..held.len() {
                let mut record = node(state, Kind::Triplet, &held);
                record.places[place][0] = kind;
                all_refused_1(&record);
            }
        }
        for out in KINDS {
            let mut record = node(State::Asked, out, &held);
            record.outstanding[0] = kind;
            all_refused_1(&record);
        }
    }
}

#[test]
fn what_stands_behind_a_triplet_is_refused_1() {
    let held = [Kind::Triplet, Kind::Vector, Kind::Triplet];
    for byte in 1..73 {
        for bit in 0..8 {
            for place in [0, 2] {
                let mut record = node(State::Idle, Kind::Vector, &held);
                record.places[place][byte] ^= 1 << bit;
                match byte >= 29 {
                    true => all_refused_1(&record),
                    false => assert!(record.is_valid()),
                }
            }
            let mut record = node(State::Asked, Kind::Triplet, &held);
            record.outstanding[byte] ^= 1 << bit;
            assert_eq!(record.is_valid(), byte < 29);
            // In a vector any byte may be.
            let mut record = node(State::Asked, Kind::Vector, &held);
            record.outstanding[byte] ^= 1 << bit;
            record.places[1][byte] ^= 1 << bit;
            assert!(record.is_valid());
        }
    }
}

#[test]
fn a_kind_where_nothing_is_held_or_out_is_refused_1() {
    for state in [State::Idle, State::Asked, State::Resyncing] {
        for place in 1..ROOM {
            let mut record = node(state, Kind::Vector, &[Kind::Triplet]);
            record.places[place][0] = 1;
            all_refused_1(&record);
        }
        if state != State::Asked {
            let mut record = node(state, Kind::Vector, &[Kind::Triplet]);
            record.outstanding[0] = 1;
            all_refused_1(&record);
        }
    }
}

#[test]
fn items_of_zeros_are_items() {
    let mut asked = node(State::Asked, Kind::Vector, &[]);
    asked.outstanding = NONE;
    assert!(asked.is_valid());
    assert_eq!(asked.answer(&[0; 4]), Err(Refusal(3)));
    assert_eq!(asked.answer(&[0; 8]).unwrap().outcome, Outcome::Passed);
    asked.outstanding[0] = 1;
    assert!(asked.is_valid());
    assert_eq!(asked.answer(&[0; 8]), Err(Refusal(3)));
    let passed = asked.answer(&[0; 4]);
    assert_eq!(passed, Ok(Answer::only(Outcome::Passed, Node::new())));
}
