//! The words of `calls` for the node that it keeps.

use crate::calls::{read_small, write_refusal};
use crate::place::{Kind, Place, LENGTH};
use crate::text::{read_bytes, read_hex, read_number, write_bytes, write_hex, write_number};
use crate::usim::Refusal;
use crate::vlr::{Answer, Node, Outcome, State, ROOM};

const STATES: [State; 3] = [State::Idle, State::Asked, State::Resyncing];

/// The bytes of all places.
const ALL_PLACES: usize = ROOM * LENGTH;

/// None where the line is none of these words or of another form.
pub fn call(node: &mut Node, fields: &[&[u8]]) -> Option<Vec<u8>> {
    let answer = match *fields {
        [b"vlr-new"] => put(Node::new()),
        [b"vlr-record", state, held, out, places] => put(read_node([state, held, out, places])?),
        [b"store", kind, count, batch] => {
            node.store(read_kind(kind)?, read_number(count)?, &read_bytes(batch)?)
        }
        [b"ask"] => node.ask(),
        [b"again"] => node.again(),
        [b"answer", res] => node.answer(&read_bytes(res)?),
        [b"reject"] => node.reject(),
        [b"sync", auts] => node.sync(&read_bytes(auts)?),
        [b"renew", kind, count, batch] => {
            node.renew(read_kind(kind)?, read_number(count)?, &read_bytes(batch)?)
        }
        [b"timeout"] => node.timeout(),
        [b"abandon"] => node.abandon(),
        _ => return None,
    };
    Some(keep(node, answer))
}

/// Another record in place of the node.
fn put(node: Node) -> Result<Answer, Refusal> {
    Ok(Answer::only(Outcome::Done, node))
}

/// The node line. A refused operation leaves the node and gives only zeros.
fn keep(node: &mut Node, answer: Result<Answer, Refusal>) -> Vec<u8> {
    let (outcome, answer) = match answer {
        Ok(answer) => (write_outcome(answer.outcome), answer),
        Err(refusal) => {
            let nothing = Answer::only(Outcome::Done, node.clone());
            (write_refusal(refusal), nothing)
        }
    };
    let line = write_line(outcome, &answer);
    *node = answer.node;
    line
}

fn write_outcome(outcome: Outcome) -> Vec<u8> {
    match outcome {
        Outcome::Done => b"done".to_vec(),
        Outcome::Passed => b"passed".to_vec(),
        Outcome::Cause(cause) => format!("cause {cause}").into_bytes(),
    }
}

fn write_line(outcome: Vec<u8>, answer: &Answer) -> Vec<u8> {
    let node = &answer.node;
    let state = STATES.iter().position(|state| *state == node.state);
    let fields = [
        outcome,
        write_hex(&answer.rand),
        write_hex(&answer.autn),
        write_hex(&answer.auts),
        write_hex(&answer.ck),
        write_hex(&answer.ik),
        write_hex(&answer.kc),
        write_number(state.expect("one of the three") as u64),
        write_number(node.held.into()),
        write_hex(&node.outstanding),
        write_bytes(without_last_zeros(&node.places.concat())),
    ];
    fields.join(&b' ')
}

fn without_last_zeros(bytes: &[u8]) -> &[u8] {
    let last = bytes.iter().rposition(|&byte| byte != 0);
    &bytes[..last.map_or(0, |place| place + 1)]
}

/// The kind is one digit alone.
fn read_kind(field: &[u8]) -> Option<Kind> {
    match field {
        b"0" => Some(Kind::Vector),
        b"1" => Some(Kind::Triplet),
        _ => None,
    }
}

fn read_node([state, held, out, places]: [&[u8]; 4]) -> Option<Node> {
    Some(Node {
        state: *STATES.get(usize::from(read_small(state)?))?,
        held: read_small(held)?,
        outstanding: read_hex(out)?,
        places: read_places(places)?,
    })
}

/// What is not given of the places is zero.
fn read_places(field: &[u8]) -> Option<[Place; ROOM]> {
    let mut bytes = read_bytes(field)?;
    if bytes.len() > ALL_PLACES {
        return None;
    }
    bytes.resize(ALL_PLACES, 0);
    Some(std::array::from_fn(|place| {
        std::array::from_fn(|i| bytes[LENGTH * place + i])
    }))
}
