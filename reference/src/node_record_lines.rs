//! The lines that put a record in place of the node: records to which refusal 1
//! applies, their neighbours to which it does not, and the edges of the form.

use crate::node_script::{
    after_rand, answer, renew, store, sync, words, Script, Situation, SITUATIONS,
};
use crate::place::Kind::{self, Triplet, Vector};
use crate::place::LENGTH;
use crate::vlr::{Node, State, ROOM};

use Situation::{Idle, Out, Resyncing, ZerosOut};

/// The first, a middle and the last byte behind a triplet in its place.
const BEHIND: [usize; 3] = [29, 50, 72];

const NO_KINDS: [u8; 6] = [2, 3, 16, 128, 129, 255];

pub fn lines(script: &mut Script) {
    for node in invalid(script) {
        let lines = [script.operations(&node), two_faults()].concat();
        script.each(&node, &lines);
    }
    for node in damaged(script) {
        let lines = named(&node);
        script.each(&node, &lines);
    }
    for node in neighbours(script) {
        let lines = named(&node);
        script.each(&node, &lines);
    }
    for line in record_edges() {
        script.push(line.as_bytes());
        script.words(&["ask", "abandon"]);
    }
}

/// Operations that would be refused by another number too.
fn two_faults() -> Vec<Vec<u8>> {
    vec![
        store(Vector, 0, &[]),
        store(Triplet, 6, &[]),
        store(Triplet, 1, &[]),
        renew(Vector, 6, &[]),
        renew(Vector, 1, &[]),
        answer(&[0; 5]),
        answer(&[]),
        sync(&[0; 13]),
    ]
}

/// The operations that only the record forbids.
fn named(node: &Node) -> Vec<Vec<u8>> {
    let batch = [0x3c; 28];
    match node.state {
        State::Idle => vec![b"ask".to_vec(), store(Triplet, 1, &batch)],
        State::Asked => {
            let mut lines = words(&["again", "reject"]);
            lines.push(answer(&after_rand(node)[..4]));
            lines.push(answer(&after_rand(node)[..8]));
            lines.push(sync(&[0xa5; 14]));
            lines
        }
        State::Resyncing => vec![b"timeout".to_vec(), renew(Triplet, 1, &batch)],
    }
}

/// Records of each sort that is not valid. All operations meet them.
fn invalid(script: &mut Script) -> Vec<Node> {
    let mut nodes = Vec::new();
    for (situation, held) in [(Idle, 17), (Out(Triplet), 18), (Resyncing, 255)] {
        let mut node = script.node(situation, &[Vector]);
        node.held = held;
        nodes.push(node);
    }
    for (situation, place) in [(Idle, 1), (Out(Vector), 2), (Resyncing, 1)] {
        let mut node = script.node(situation, &[Triplet]);
        node.places[place][script.random.below(LENGTH)] = 1 << script.random.below(8);
        nodes.push(node);
    }
    for (situation, byte) in [(Idle, 0), (Resyncing, 0), (Idle, 35), (Resyncing, 72)] {
        let mut node = script.node(situation, &[Vector]);
        node.outstanding[byte] = 1;
        nodes.push(node);
    }
    for (situation, kind) in [(Idle, 2), (Out(Triplet), 255), (Resyncing, 3)] {
        let mut node = script.node(situation, &[Triplet]);
        node.places[0][0] = kind;
        nodes.push(node);
    }
    for (situation, byte) in [(Idle, 29), (Out(Vector), 72), (Resyncing, 50)] {
        let mut node = script.node(situation, &[Triplet]);
        node.places[0][byte] = 1;
        nodes.push(node);
    }
    for (kind, byte, bits) in [(Vector, 0, 2), (Triplet, 0, 128), (Triplet, 29, 1)] {
        let mut node = script.node(Out(kind), &[Vector]);
        node.outstanding[byte] = bits;
        nodes.push(node);
    }
    nodes
}

/// One byte of a valid record spoilt, in each place that has a rule.
fn damaged(script: &mut Script) -> Vec<Node> {
    let mut nodes = unknown_kinds(script);
    nodes.extend(behind_a_triplet(script));
    nodes.extend(unused(script));
    for held in [32, 128] {
        let mut node = script.node(Idle, &[Triplet]);
        node.held = held;
        nodes.push(node);
    }
    // The last place of a full node, and the first one.
    for (place, byte, bits) in [(15, 0, 2), (15, 72, 1), (0, 0, 2)] {
        let mut node = script.thin_node(Idle, ROOM);
        node.places[place] = script.place(Triplet);
        node.places[place][byte] = bits;
        nodes.push(node);
    }
    nodes
}

fn unknown_kinds(script: &mut Script) -> Vec<Node> {
    let mut nodes = Vec::new();
    for (kind, situation) in NO_KINDS.into_iter().zip(SITUATIONS.into_iter().cycle()) {
        for place in [0, 1] {
            let mut node = script.node(situation, &[Vector, Triplet]);
            node.places[place][0] = kind;
            nodes.push(node);
        }
        let mut node = script.node(Out(Triplet), &[]);
        node.outstanding[0] = kind;
        nodes.push(node);
        // The kind alone, with nothing behind it.
        let mut node = script.node(ZerosOut, &[]);
        node.outstanding[0] = kind;
        nodes.push(node);
    }
    nodes
}

fn behind_a_triplet(script: &mut Script) -> Vec<Node> {
    let mut nodes = Vec::new();
    for (byte, situation) in BEHIND.into_iter().zip(SITUATIONS) {
        for bits in [1, 128] {
            for place in [0, 2] {
                let mut node = script.node(situation, &[Triplet, Vector, Triplet]);
                node.places[place][byte] = bits;
                nodes.push(node);
            }
            let mut node = script.node(Out(Triplet), &[]);
            node.outstanding[byte] = bits;
            nodes.push(node);
        }
    }
    // A vector that is called a triplet.
    for place in [0, 1] {
        let mut node = script.node(Resyncing, &[Vector, Vector]);
        node.places[place][0] = 1;
        nodes.push(node);
    }
    let mut node = script.node(Out(Vector), &[]);
    node.outstanding[0] = 1;
    nodes.push(node);
    nodes
}

/// A kind, a byte or a whole item where nothing is held or nothing is out.
fn unused(script: &mut Script) -> Vec<Node> {
    let mut nodes = Vec::new();
    for (situation, held, place) in [
        (Idle, &[Triplet][..], 1),
        (Out(Triplet), &[Triplet], 1),
        (Idle, &[], 15),
        (Resyncing, &[], 15),
    ] {
        for (byte, bits) in [(0, 1), (0, 2), (72, 1)] {
            let mut node = script.node(situation, held);
            node.places[place][byte] = bits;
            nodes.push(node);
        }
    }
    for kind in [Vector, Triplet] {
        for situation in [Idle, Resyncing] {
            let mut node = script.node(situation, &[]);
            node.outstanding = script.place(kind);
            nodes.push(node);
            let mut node = script.node(situation, &[]);
            node.places[0] = script.place(kind);
            nodes.push(node);
        }
    }
    nodes
}

/// Valid records beside those: bytes that belong to the item, and a triplet's
/// bytes that are called a vector.
fn neighbours(script: &mut Script) -> Vec<Node> {
    let mut nodes = Vec::new();
    for situation in [Idle, Out(Triplet), Resyncing] {
        let mut node = script.node(situation, &[Triplet]);
        node.places[0][28] = 0xff;
        if situation == Out(Triplet) {
            node.outstanding[28] = 1;
        }
        nodes.push(node);
        let mut node = script.node(situation, &[Vector, Triplet]);
        node.places[0][29] = 1;
        node.places[0][72] = 1;
        nodes.push(node);
    }
    for kind in [Vector, Triplet] {
        let mut node = script.node(Out(kind), &[Triplet]);
        node.places[0][0] = 0;
        node.outstanding[0] = 0;
        nodes.push(node);
    }
    // Only the kind is not zero: a triplet of zeros.
    for situation in [Idle, ZerosOut, Resyncing] {
        let mut node = script.node(situation, &[]);
        node.held = 2;
        node.places[1] = only_kind(Triplet);
        if situation == ZerosOut {
            node.outstanding = only_kind(Triplet);
        }
        nodes.push(node);
    }
    let mut node = script.thin_node(Idle, ROOM);
    node.places[15] = script.place(Triplet);
    nodes.push(node);
    nodes
}

fn only_kind(kind: Kind) -> [u8; LENGTH] {
    kind.place(&vec![0; kind.length()])
}

/// The fields of a `vlr-record` at their limits. An operation after each shows
/// whether the record is valid.
fn record_edges() -> Vec<String> {
    let out = "0".repeat(146);
    let vector = format!("00{}", "5a".repeat(72));
    let most = vector.repeat(16);
    vec![
        format!("vlr-record 0 0 {out} -"),
        format!("vlr-record 00 00 {out} 00"),
        format!("vlr-record 0 16 {out} {most}"),
        format!("vlr-record 0 15 {out} {most}"),
        format!("vlr-record 0 16 {out} {most}5a"),
        format!("vlr-record 0 16 {out} {}", &most[..2_334]),
        format!("vlr-record 0 1 {out} 00"),
        format!("vlr-record 0 1 {out} 01"),
        format!("vlr-record 0 1 {out} 02"),
        format!("vlr-record 0 1 {out} 005a"),
        format!("vlr-record 0 1 {out} 015a"),
        format!("vlr-record 0 1 {out} {}", "00".repeat(1_168)),
        format!("vlr-record 0 1 {out} {}", "00".repeat(1_169)),
        format!("vlr-record 0 1 {out} {}", &vector[..144]),
        format!("vlr-record 0 1 {out} {vector}"),
        format!("vlr-record 0 1 {out} {vector}00"),
        format!("vlr-record 0 1 {out} {vector}5a"),
        format!("vlr-record 0 1 {out} 01{}", "5a".repeat(28)),
        format!("vlr-record 0 1 {out} 01{}", "5a".repeat(29)),
        format!("vlr-record 0 256 {out} -"),
        format!("vlr-record 0 257 {out} -"),
        format!("vlr-record 0 00000000000000000002 {out} 005a"),
        format!("vlr-record 0 000000000000000000002 {out} 005a"),
        format!("vlr-record 3 0 {out} -"),
        format!("vlr-record 255 0 {out} -"),
        format!("vlr-record 256 0 {out} -"),
        format!("vlr-record 18446744073709551616 0 {out} -"),
        format!("vlr-record 00000000000000000000 1 {out} 005b"),
        format!("vlr-record - 0 {out} -"),
        format!("vlr-record 0 - {out} -"),
        "vlr-record 0 0 - -".to_string(),
        format!("vlr-record 0 0 {out}00 -"),
        format!("vlr-record 0 0 {} -", &out[2..]),
        format!("vlr-record 0 0 {} -", &out[1..]),
        format!("vlr-record 1 0 0 {out} -"),
        format!("vlr-record 1 0 {vector} -"),
        format!("vlr-record 1 0 01{} -", &out[2..]),
        format!("vlr-record 1 0 02{} -", &out[2..]),
        format!("vlr-record 0 0 {out} 0"),
        format!("vlr-record 0 0 {out} 0A"),
        format!("vlr-record 0 0 {out}"),
        format!("vlr-record 0 0 {out} "),
        format!("vlr-record 0 0 {out} - -"),
        format!("vlr-record  0 0 {out} -"),
        format!("Vlr-record 0 0 {out} -"),
        "vlr-record".to_string(),
    ]
}
