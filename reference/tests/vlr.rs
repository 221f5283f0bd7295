//! The node: every operation in every state, and the order of its refusals.

use reference::place::{Kind, NONE};
use reference::random::Random;
use reference::usim::Refusal;
use reference::vector::{Bytes, Vector};
use reference::vlr::{Answer, Node, Outcome, State, ROOM};

const STATES: [State; 3] = [State::Idle, State::Asked, State::Resyncing];
const AUTS: [u8; 14] = [0xa5; 14];
const VECTOR: Kind = Kind::Vector;

fn vectors(n: usize) -> Vec<Bytes> {
    let mut random = Random::new(72);
    (0..n).map(|_| random.bytes()).collect()
}

/// A valid node with the first vectors held and another one outstanding.
fn node(state: State, held: usize) -> Node {
    let mut node = Node::new();
    node.state = state;
    node.held = held as u8;
    for (place, vector) in node.places.iter_mut().zip(vectors(held)) {
        *place = VECTOR.place(&vector);
    }
    if state == State::Asked {
        node.outstanding = VECTOR.place(&outstanding().bytes());
    }
    node
}

fn outstanding() -> Vector {
    Vector::of(&vectors(ROOM + 1)[ROOM])
}

type Operation = fn(&Node) -> Result<Answer, Refusal>;

/// Each operation with all that is lent as named, and the states it is for.
const OPERATIONS: [(Operation, &[State]); 9] = [
    (
        |node| node.store(VECTOR, 1, &[1; 72]),
        &[State::Idle, State::Asked],
    ),
    (|node| node.ask(), &[State::Idle]),
    (|node| node.again(), &[State::Asked]),
    (|node| node.answer(&[0; 8]), &[State::Asked]),
    (|node| node.reject(), &[State::Asked]),
    (|node| node.sync(&AUTS), &[State::Asked]),
    (|node| node.renew(VECTOR, 1, &[1; 72]), &[State::Resyncing]),
    (|node| node.timeout(), &[State::Resyncing]),
    (|node| node.abandon(), &[State::Asked]),
];

#[test]
fn an_operation_not_named_for_the_state_is_refused_7() {
    for state in STATES {
        for held in [1, 15] {
            let node = node(state, held);
            for (operation, states) in OPERATIONS {
                let answer = operation(&node);
                match states.contains(&state) {
                    true => assert!(answer.unwrap().node.is_valid()),
                    false => assert_eq!(answer, Err(Refusal(7))),
                }
            }
        }
    }
}

#[test]
fn an_invalid_record_is_refused_first() {
    let mut records = Vec::new();
    for state in STATES {
        for held in [17, 32, 255] {
            let mut record = node(state, 1);
            record.held = held;
            records.push(record);
        }
        for place in 1..ROOM {
            for byte in [0, 1, 72] {
                let mut record = node(state, 1);
                record.places[place][byte] = 1;
                records.push(record);
            }
        }
    }
    for (state, byte) in [(State::Idle, 0), (State::Resyncing, 72)] {
        let mut record = node(state, 1);
        record.outstanding[byte] = 1;
        records.push(record);
    }
    for record in records {
        assert!(!record.is_valid());
        for (operation, _) in OPERATIONS {
            assert_eq!(operation(&record), Err(Refusal(1)));
        }
        assert_eq!(record.store(VECTOR, 0, &[]), Err(Refusal(1)));
        assert_eq!(record.renew(VECTOR, 6, &[]), Err(Refusal(1)));
        assert_eq!(record.answer(&[]), Err(Refusal(1)));
        assert_eq!(record.sync(&[]), Err(Refusal(1)));
    }
}

#[test]
fn any_outstanding_vector_is_valid_in_asked() {
    let mut node = node(State::Asked, 0);
    node.outstanding = NONE;
    assert!(node.is_valid());
    assert_eq!(node.answer(&[0; 8]).unwrap().outcome, Outcome::Passed);
}

#[test]
fn count_then_length_then_state_then_room() {
    for state in STATES {
        let full = node(state, ROOM);
        for count in [0, 6, 7, 256, 257, 1 << 61, u64::MAX] {
            for length in [0, 72, 432] {
                let batch = &[1; 432][..length];
                assert_eq!(full.store(VECTOR, count, batch), Err(Refusal(2)));
                assert_eq!(full.renew(VECTOR, count, batch), Err(Refusal(2)));
            }
        }
        for (count, length) in [
            (1, 0),
            (1, 28),
            (1, 71),
            (1, 73),
            (1, 144),
            (5, 359),
            (5, 140),
        ] {
            let batch = &[1; 432][..length];
            assert_eq!(full.store(VECTOR, count, batch), Err(Refusal(3)));
            assert_eq!(full.renew(VECTOR, count, batch), Err(Refusal(3)));
        }
        let number = if state == State::Resyncing { 7 } else { 9 };
        assert_eq!(full.store(VECTOR, 1, &[1; 72]), Err(Refusal(number)));
        for length in [0, 4, 7, 9, 16] {
            assert_eq!(full.answer(&[0; 16][..length]), Err(Refusal(3)));
        }
        for length in [0, 13, 15, 28] {
            assert_eq!(full.sync(&[0; 28][..length]), Err(Refusal(3)));
        }
    }
}

#[test]
fn a_batch_stands_behind_what_was_held() {
    for state in [State::Idle, State::Asked] {
        for held in 0..=ROOM {
            for n in 1..=5 {
                let batch = vectors(held + n)[held..].concat();
                let answer = node(state, held).store(VECTOR, n as u64, &batch);
                match held + n <= ROOM {
                    true => {
                        let next = node(state, held + n);
                        assert_eq!(answer, Ok(Answer::only(Outcome::Done, next)));
                    }
                    false => assert_eq!(answer, Err(Refusal(9))),
                }
            }
        }
    }
}

#[test]
fn the_oldest_is_asked_first_and_its_place_is_used_again() {
    let mut node = node(State::Idle, ROOM);
    for vector in vectors(ROOM) {
        let parts = Vector::of(&vector);
        let asked = node.ask().unwrap();
        assert_eq!(asked.node.outstanding, VECTOR.place(&vector));
        let expected = Answer {
            rand: parts.rand,
            autn: parts.autn,
            ..Answer::only(Outcome::Done, asked.node.clone())
        };
        assert_eq!(asked, expected);
        assert_eq!(asked.node.again(), Ok(expected));
        let passed = asked.node.answer(&parts.xres).unwrap();
        let expected = Answer {
            ck: parts.ck,
            ik: parts.ik,
            ..Answer::only(Outcome::Passed, passed.node.clone())
        };
        assert_eq!(passed, expected);
        assert_eq!(passed.node.held + 1, node.held);
        assert!(passed.node.is_valid() && passed.node.store(VECTOR, 1, &vector).is_ok());
        node = passed.node;
    }
    assert_eq!(node, Node::new());
    assert_eq!(node.ask(), Err(Refusal(8)));
}

#[test]
fn a_wrong_response_is_cause_2_and_a_reject_cause_1() {
    let asked = node(State::Asked, 3);
    let idle = node(State::Idle, 3);
    for bit in 0..64 {
        let mut res = outstanding().xres;
        res[bit / 8] ^= 1 << (bit % 8);
        let expected = Answer::only(Outcome::Cause(2), idle.clone());
        assert_eq!(asked.answer(&res), Ok(expected));
    }
    let expected = Answer::only(Outcome::Cause(1), idle.clone());
    assert_eq!(asked.reject(), Ok(expected));
    assert_eq!(asked.abandon(), Ok(Answer::only(Outcome::Done, idle)));
}

#[test]
fn a_synchronisation_failure_and_what_ends_it() {
    let resyncing = node(State::Resyncing, 3);
    let expected = Answer {
        rand: outstanding().rand,
        auts: AUTS,
        ..Answer::only(Outcome::Done, resyncing.clone())
    };
    assert_eq!(node(State::Asked, 3).sync(&AUTS), Ok(expected));
    let kept = Answer::only(Outcome::Done, node(State::Idle, 3));
    assert_eq!(resyncing.timeout(), Ok(kept));
    for held in [0, 3, ROOM] {
        for n in 1..=5 {
            let batch = vectors(n).concat();
            let renewed = node(State::Resyncing, held).renew(VECTOR, n as u64, &batch);
            let expected = Answer::only(Outcome::Done, node(State::Idle, n));
            assert_eq!(renewed, Ok(expected));
        }
    }
}
