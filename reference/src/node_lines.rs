//! The lines for the node that `calls` keeps. Each meets the node that the lines
//! before it left.

use crate::node_script::{
    after_rand, answer, renew, response, store, sync, Script, Situation, SITUATIONS,
};
use crate::place::{Kind, KINDS};
use crate::vlr::{Node, State, ROOM};
use crate::{node_form_lines, node_record_lines, node_response_lines};

use Kind::{Triplet, Vector};

pub fn lines() -> Vec<Vec<u8>> {
    let mut script = Script::new();
    a_new_node(&mut script);
    every_operation(&mut script);
    no_room(&mut script);
    renewed(&mut script);
    order_of_use(&mut script);
    kinds_in_turn(&mut script);
    node_response_lines::lines(&mut script);
    lengths(&mut script);
    lengths_in_other_states(&mut script);
    counts(&mut script);
    zeros(&mut script);
    node_record_lines::lines(&mut script);
    node_form_lines::lines(&mut script);
    stories(&mut script);
    walks(&mut script);
    script.lines
}

/// The program starts with a new node.
fn a_new_node(script: &mut Script) {
    let node = Node::new();
    for line in script.operations(&node) {
        script.push(&line);
    }
    script.push(b"vlr-new");
}

/// In every situation, with nothing held, with a few of one kind and of both,
/// and with all places in use.
fn every_operation(script: &mut Script) {
    for situation in SITUATIONS {
        for held in [
            &[][..],
            &[Vector],
            &[Triplet],
            &[Vector, Triplet],
            &[Triplet, Vector, Triplet],
        ] {
            let node = script.node(situation, held);
            let lines = script.operations(&node);
            script.each(&node, &lines);
        }
        for held in [1, ROOM] {
            let node = script.thin_node(situation, held);
            let lines = [script.operations(&node), script.refused_parts()].concat();
            script.each(&node, &lines);
        }
    }
}

/// Batches that fill the node, that are one too many, and that find it full.
fn no_room(script: &mut Script) {
    for situation in [
        Situation::Idle,
        Situation::Out(Vector),
        Situation::Out(Triplet),
    ] {
        for kind in KINDS {
            for n in 1..=5 {
                if situation != Situation::Idle && n % 4 != 1 {
                    continue;
                }
                let batch = script.batch(kind, n);
                let node = script.thin_node(situation, ROOM + 1 - n);
                script.set(&node);
                script.push(&store(kind, n as u64, &batch));
                let node = script.thin_node(situation, ROOM - n);
                script.set(&node);
                script.push(&store(kind, n as u64, &batch));
                script.push(&store(kind, n as u64, &batch));
            }
        }
    }
}

/// While the node waits, Store is refused, and Renew of either kind takes the
/// place of all that was held, also in a full node.
fn renewed(script: &mut Script) {
    for kind in KINDS {
        for n in 1..=5 {
            let batch = script.batch(kind, n);
            let node = match n {
                3 => script.full_node(Situation::Resyncing),
                _ => script.node(Situation::Resyncing, &[Triplet, Vector, Vector]),
            };
            script.set(&node);
            script.push(&store(kind, n as u64, &batch));
            script.push(&renew(kind, n as u64, &batch));
            script.push(b"ask");
        }
    }
}

/// A full node of both kinds is used up, oldest first, and freed places are
/// used again.
fn order_of_use(script: &mut Script) {
    script.push(b"vlr-new");
    for (kind, n) in [
        (Vector, 5),
        (Triplet, 5),
        (Vector, 3),
        (Triplet, 2),
        (Vector, 1),
        (Triplet, 1),
        (Vector, 1),
    ] {
        let batch = script.given(kind, n);
        script.push(&store(kind, n as u64, &batch));
    }
    for turn in 0..ROOM + 5 {
        script.push(b"ask");
        let response = response(&script.node);
        script.push(&answer(&response));
        if turn == 10 || turn == 12 {
            let kind = KINDS[turn / 12];
            let batch = script.given(kind, 2);
            script.push(&store(kind, 2, &batch));
        }
    }
}

/// Single vectors and triplets in turn; some come while one is out.
fn kinds_in_turn(script: &mut Script) {
    for first in [0, 1] {
        script.push(b"vlr-new");
        for turn in 0..6 {
            let kind = KINDS[(first + turn) % 2];
            let batch = script.given(kind, 1);
            script.push(&store(kind, 1, &batch));
            if turn == 3 {
                script.words(&["ask", "again"]);
            }
        }
        for _ in 0..6 {
            let response = response(&script.node);
            script.push(&answer(&response));
            script.words(&["ask", "again"]);
        }
    }
}

/// Batches of the other kind's length, of whole places, and about the right
/// length, for each count. They are refused, and leave the record.
fn lengths(script: &mut Script) {
    let bytes = script.batch(Vector, 6);
    for (situation, line) in [
        (Situation::Idle, store as fn(Kind, u64, &[u8]) -> Vec<u8>),
        (Situation::Resyncing, renew),
    ] {
        let node = script.node(situation, &[Triplet]);
        let mut lines = Vec::new();
        for kind in KINDS {
            for n in 1..=5 {
                let right = kind.length() * n;
                for length in [28 * n, 72 * n, 73 * n, right - 1, right + 1] {
                    if length != right {
                        lines.push(line(kind, n as u64, &bytes[..length]));
                    }
                }
            }
            lines.push(line(kind, 1, &[]));
            lines.push(line(kind, 1, &bytes[..1]));
            lines.push(line(kind, 1, &bytes[..2 * kind.length()]));
            lines.push(line(kind, 2, &bytes[..kind.length()]));
        }
        script.each(&node, &lines);
    }
}

/// A wrong length is told before a wrong state and before too little room.
fn lengths_in_other_states(script: &mut Script) {
    let bytes = script.batch(Vector, 2);
    for situation in SITUATIONS {
        let node = script.thin_node(situation, ROOM);
        let mut lines = Vec::new();
        for (kind, length) in [(Vector, 73), (Vector, 56), (Triplet, 29), (Triplet, 56)] {
            lines.push(store(kind, 1, &bytes[..length]));
            lines.push(renew(kind, 1, &bytes[..length]));
        }
        script.each(&node, &lines);
    }
}

/// Counts past 5, whose low bits or whose product with an item's length may
/// look right: 72 times 2^61 and 28 times 2^62 are nothing in 64 bits.
fn counts(script: &mut Script) {
    let bytes = script.batch(Vector, 7);
    for situation in SITUATIONS {
        let node = script.node(situation, &[]);
        let mut lines = Vec::new();
        for kind in KINDS {
            for count in [
                0,
                6,
                256,
                257,
                65_537,
                (1 << 32) + 1,
                (1 << 61) + 1,
                (1 << 62) + 1,
                1 << 63,
                u64::MAX,
            ] {
                let low = (count % 8) as usize % 6;
                for line in [store, renew] {
                    lines.push(line(kind, count, &bytes[..kind.length() * low]));
                }
            }
        }
        // Six items, and eighteen triplets as long as seven vectors.
        if matches!(situation, Situation::Idle | Situation::Resyncing) {
            for (kind, count) in [(Vector, 6), (Triplet, 6), (Vector, 7), (Triplet, 18)] {
                let length = kind.length() * count as usize;
                lines.push(store(kind, count, &bytes[..length]));
                lines.push(renew(kind, count, &bytes[..length]));
            }
            lines.push(store(Triplet, 7, &bytes));
            lines.push(renew(Vector, 18, &bytes));
        }
        script.each(&node, &lines);
    }
}

/// Vectors and triplets of zeros, or that end in zeros, are items too.
fn zeros(script: &mut Script) {
    let mut vector = script.item(Vector);
    vector[40..].fill(0);
    let mut rand_alone = script.item(Triplet);
    rand_alone[16..].fill(0);
    let mut kc_alone = script.item(Triplet);
    kc_alone[..20].fill(0);
    for (kind, item) in [
        (Vector, vec![0; 72]),
        (Vector, vector),
        (Triplet, vec![0; 28]),
        (Triplet, rand_alone),
        (Triplet, kc_alone),
    ] {
        for situation in [Situation::Idle, Situation::Out(kind), Situation::Resyncing] {
            let mut node = script.node(situation, &[]);
            node.held = 3;
            node.places[2] = kind.place(&item);
            if node.state == State::Asked {
                node.outstanding = node.places[2];
            }
            let batch = [vec![0; kind.length()], item.clone()].concat();
            let mut lines = script.operations(&node);
            lines.extend([
                store(kind, 2, &batch),
                renew(kind, 2, &batch),
                answer(&[0; 8]),
                answer(&[0; 4]),
                sync(&[0; 14]),
            ]);
            script.each(&node, &lines);
        }
    }
}

/// A failure on a vector that triplets end, and what a triplet out does not
/// take.
fn stories(script: &mut Script) {
    for kind in KINDS {
        script.push(b"vlr-new");
        let [first, next] = [script.given(Vector, 1), script.given(kind, 2)];
        script.push(&store(Vector, 1, &first));
        script.push(&store(kind, 2, &next));
        script.push(b"ask");
        script.push(&sync(&[0xa5; 14]));
        script.push(&store(kind, 2, &next));
        let triplets = script.given(Triplet, 3);
        script.push(&renew(Triplet, 3, &triplets));
        script.push(&renew(Triplet, 3, &triplets));
        script.push(b"ask");
        // The triplet stays out, and its response passes all the same.
        script.push(&sync(&[0xa5; 14]));
        script.words(&["timeout", "again"]);
        script.push(&renew(kind, 2, &next));
        let (sres, longer) = (
            response(&script.node),
            after_rand(&script.node)[..8].to_vec(),
        );
        script.push(&answer(&longer));
        script.push(&answer(&sres));
        // Nothing is out now: a response has the length of a vector's.
        script.push(&answer(&sres));
        script.push(&answer(&longer));
        script.words(&["ask", "reject", "reject", "ask", "abandon", "again", "ask"]);
    }
}

/// Operations at random, most of them named for the state.
fn walks(script: &mut Script) {
    for _ in 0..30 {
        script.push(b"vlr-new");
        for _ in 0..30 {
            let line = step(script);
            script.push(&line);
        }
    }
}

fn step(script: &mut Script) -> Vec<u8> {
    let node = script.node.clone();
    if script.random.below(8) == 0 {
        let lines = script.operations(&node);
        return lines[script.random.below(lines.len())].clone();
    }
    let kind = script.random.one_of(&KINDS);
    let n = 1 + script.random.below(2);
    match node.state {
        State::Idle if node.held < 2 => store(kind, n as u64, &script.given(kind, n)),
        State::Idle => b"ask".to_vec(),
        State::Asked => match script.random.below(10) {
            0 => b"again".to_vec(),
            1 => b"reject".to_vec(),
            2 => b"abandon".to_vec(),
            3 => store(kind, n as u64, &script.given(kind, n)),
            4 | 5 => sync(&script.random.bytes::<14>()),
            6 => answer(&script.random.bytes::<8>()[..response(&node).len()]),
            _ => answer(&response(&node)),
        },
        State::Resyncing => match script.random.below(3) {
            0 => b"timeout".to_vec(),
            _ => renew(kind, n as u64, &script.given(kind, n)),
        },
    }
}
