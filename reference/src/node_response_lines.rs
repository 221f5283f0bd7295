//! The lines for the node that try what a phone may report: responses and AUTS,
//! right and wrong, of every length.

use crate::node_script::{after_rand, answer, response, sync, Script, Situation, SITUATIONS};
use crate::place::Kind::{self, Triplet, Vector};
use crate::vlr::Node;

pub fn lines(script: &mut Script) {
    wrong_bits(script);
    two_wrong_bytes(script);
    other_parts_of_a_vector(script);
    other_parts_of_a_triplet(script);
    response_lengths(script);
    auts_lengths(script);
}

/// What is out comes from a centre, so that no two bytes of a response are equal
/// by intent.
fn asked(script: &mut Script, kind: Kind, held: &[Kind]) -> Node {
    let mut node = script.node(Situation::Out(kind), held);
    node.outstanding = kind.place(&script.given(kind, 1));
    node
}

/// Each bit of an SRES wrong; of an XRES each bit of its first and last byte,
/// and one of each byte between.
fn wrong_bits(script: &mut Script) {
    for kind in [Vector, Triplet] {
        let node = asked(script, kind, &[]);
        let right = response(&node);
        let mut lines = vec![answer(&right)];
        for bit in 0..8 * right.len() {
            if kind == Triplet || bit % 8 == 3 || !(8..56).contains(&bit) {
                let mut res = right.clone();
                res[bit / 8] ^= 1 << (bit % 8);
                lines.push(answer(&res));
            }
        }
        script.each(&node, &lines);
    }
}

/// Differences that cancel where they are added up, and the right bytes in
/// another order.
fn two_wrong_bytes(script: &mut Script) {
    for kind in [Vector, Triplet] {
        let node = asked(script, kind, &[]);
        let right = response(&node);
        let mut lines = Vec::new();
        for (one, other) in [(0, 1), (1, 3), (0, right.len() - 1)] {
            let mut res = right.clone();
            res[one] ^= 0x80;
            res[other] ^= 0x80;
            lines.push(answer(&res));
            let mut res = right.clone();
            res.swap(one, other);
            lines.push(answer(&res));
        }
        let reversed: Vec<u8> = right.iter().rev().copied().collect();
        let turned_over: Vec<u8> = right.iter().map(|byte| !byte).collect();
        lines.extend([reversed, turned_over].map(|res| answer(&res)));
        script.each(&node, &lines);
    }
}

/// What is right for another part of the vector, for its triplet, or for one
/// half of XRES; also where the other half is zero.
fn other_parts_of_a_vector(script: &mut Script) {
    for zero_half in [0..0, 17..21, 21..25] {
        let mut node = asked(script, Vector, &[Triplet]);
        node.outstanding[zero_half].fill(0);
        let (rand, behind) = node.outstanding[1..].split_at(16);
        let (first, last) = behind[..8].split_at(4);
        let sres: Vec<u8> = first.iter().zip(last).map(|(a, b)| a ^ b).collect();
        let zeros = [0; 4];
        let lines = [
            answer(first),
            answer(last),
            answer(&sres),
            answer(&[&sres[..], &zeros].concat()),
            answer(&[&zeros, &sres[..]].concat()),
            answer(&sres.repeat(2)),
            answer(&[first, &zeros].concat()),
            answer(&[&zeros, last].concat()),
            answer(&rand[..8]),
            answer(&behind[8..16]),
            answer(&behind[..8]),
        ];
        script.each(&node, &lines);
    }
}

fn other_parts_of_a_triplet(script: &mut Script) {
    let node = asked(script, Triplet, &[Vector]);
    let (rand, behind) = node.outstanding[1..].split_at(16);
    let (sres, kc) = behind[..12].split_at(4);
    let zeros = [0; 4];
    let lines = [
        answer(&rand[..4]),
        answer(&rand[12..]),
        answer(&kc[..4]),
        answer(&kc[4..]),
        answer(&zeros),
        answer(kc),
        answer(&[sres, &zeros].concat()),
        answer(&[&zeros, sres].concat()),
        answer(&sres.repeat(2)),
        answer(sres),
    ];
    script.each(&node, &lines);
}

/// Every length up to 16, and some whose low bits are 4 or 8. The bytes are
/// right as far as there are any; with nothing out they are zeros, and so is
/// the outstanding place. A triplet that is held does not count as out.
fn response_lengths(script: &mut Script) {
    let lengths: Vec<usize> = (0..=16).chain([20, 24, 28, 32, 56, 260, 264]).collect();
    for situation in SITUATIONS {
        let node = match situation {
            Situation::Out(kind) => asked(script, kind, &[Triplet]),
            _ => script.node(situation, &[Triplet]),
        };
        let mut bytes = after_rand(&node).to_vec();
        bytes.resize(264, 0);
        let lines: Vec<Vec<u8>> = lengths.iter().map(|&n| answer(&bytes[..n])).collect();
        script.each(&node, &lines);
        // Wrong bytes of a wrong length are not looked at.
        let wrong: Vec<u8> = bytes.iter().map(|byte| !byte).collect();
        let lines: Vec<Vec<u8>> = [3, 4, 5, 8, 9].map(|n| answer(&wrong[..n])).to_vec();
        script.each(&node, &lines);
    }
}

/// AUTS of every length that may look right; on a triplet the length is told
/// before the state.
fn auts_lengths(script: &mut Script) {
    let auts = script.batch(Vector, 4);
    for situation in SITUATIONS {
        for held in [&[Vector][..], &[Triplet]] {
            let node = script.node(situation, held);
            let lines: Vec<Vec<u8>> = [0, 1, 4, 6, 8, 12, 13, 14, 15, 16, 28, 270]
                .map(|length| sync(&auts[..length]))
                .to_vec();
            script.each(&node, &lines);
        }
    }
}
