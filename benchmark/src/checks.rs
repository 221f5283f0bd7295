//! Everybody gives the same bytes, or nothing is timed.

use reference::auc::Auc;
use reference::functions::Subscriber;
use reference::random::Random;
use reference::vector::{Vector, LENGTH, MOST};
use reference::{milenage, triplet};

use crate::load::Load;
use crate::ours;
use crate::peer::Peer;

pub fn check(load: &Load, peer: Option<Peer>) {
    let vectors = ours::vectors(load);
    second_vectors(load, &vectors);
    challenges(load, &vectors);
    assert_eq!(ours::new_card(load), ours::card(load));
    let k = &load.auc.subscriber.k;
    assert_eq!(ours::opc(k, &load.op), milenage::opc(k, &load.op));
    triplets(load, peer);
    if let Some(peer) = peer {
        peer_vectors(load, peer, &vectors);
        peer_resynchronisation(load, peer);
    }
}

/// The centre's record before each of the vectors.
fn records(load: &Load) -> impl Iterator<Item = Auc> + '_ {
    (0..load.rands.len()).map(|number| Auc {
        seq_he: number as u64,
        next: (number % load.auc.row().indices()) as u8,
        ..load.auc.clone()
    })
}

fn second_vectors(load: &Load, vectors: &[Vector]) {
    for ((record, rand), vector) in records(load).zip(&load.rands).zip(vectors) {
        let mut given = [0; LENGTH];
        record.order(1, rand, &mut given).expect("a batch");
        assert_eq!(given, vector.bytes());
    }
}

fn peer_vectors(load: &Load, peer: Peer, vectors: &[Vector]) {
    for ((record, rand), vector) in records(load).zip(&load.rands).zip(vectors) {
        peer.set_up(&record);
        peer.vector(rand);
        assert_eq!(peer.last(), vector.bytes());
        peer.set_up(&record);
        if peer.generate(rand) {
            assert_eq!(peer.last(), vector.bytes());
        }
    }
}

fn challenges(load: &Load, vectors: &[Vector]) {
    let mut image = ours::card(load);
    for vector in vectors {
        let keys = [&vector.xres[..], &vector.ck, &vector.ik].concat();
        assert_eq!(ours::challenge(&mut image, vector)[..], keys);
    }
}

/// The peer takes SQN_MS whole, and then its own index.
fn peer_resynchronisation(load: &Load, peer: Peer) {
    let (failure, fresh) = (load.failure(), &load.rands[1]);
    let mut given = [0; LENGTH];
    ours::resynchronise(&mut ours::centre(load), &failure, fresh, &mut given);
    peer.set_up(&load.auc);
    peer.resynchronise(&failure.rand, &failure.auts, fresh);
    assert_eq!(peer.last(), given);
}

/// SRES and Kc depend on keys and RAND alone, so each batch has keys of its own.
fn triplets(load: &Load, peer: Option<Peer>) {
    let mut random = Random::new(33_102);
    for rands in load.rands.chunks(MOST) {
        let (k, opc) = (random.bytes(), random.bytes());
        let subscriber = Subscriber { set: 1, k, opc };
        let auc = Auc::new(load.auc.edition, subscriber, random.bytes());
        let (batch, triplets) = ours::triplets(&auc, &rands.concat());
        let mut second = vec![0; triplets.len()];
        triplet::convert(&batch, &mut second).expect("triplets");
        assert_eq!(triplets, second);
        if let Some(peer) = peer {
            peer.set_up(&auc);
            for (rand, triplet) in rands.iter().zip(triplets.chunks(triplet::LENGTH)) {
                peer.vector(rand);
                assert_eq!(peer.triplet(), triplet);
            }
        }
    }
}
