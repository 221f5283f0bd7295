//! The proved library's calls, each of which has to be done.

use reference::auc::Auc;
use reference::usim::Card;
use reference::vector::{Bytes, Vector};
use reference::{auc_image, image};
use vetrhoss::{AnswerBuffers, Error, SeqHe, AUTS_SIZE, CK_SIZE, IK_SIZE, OPC_SIZE, RAND_SIZE};
use vetrhoss::{RES_SIZE, TRIPLET_SIZE, VECTOR_SIZE};

use crate::load::{Failure, Load};

/// RES, CK and IK, one behind the other.
const KEYS_SIZE: usize = RES_SIZE + CK_SIZE + IK_SIZE;

pub fn order(image: &mut [u8], rands: &[u8], batch: &mut [u8]) {
    let count = (rands.len() / RAND_SIZE) as u64;
    vetrhoss::order(image, count, rands, batch).expect("a batch");
}

pub fn resynchronise(image: &mut [u8], failure: &Failure, rands: &[u8], batch: &mut [u8]) {
    let count = (rands.len() / RAND_SIZE) as u64;
    let failed = vetrhoss::Failure {
        rand: &failure.rand,
        auts: &failure.auts,
    };
    let did = vetrhoss::resynchronise(image, count, failed, rands, batch);
    assert_eq!(did, Ok(SeqHe::Reset));
}

/// RES, CK and IK.
pub fn challenge(image: &mut [u8], vector: &Vector) -> [u8; KEYS_SIZE] {
    let (mut keys, mut auts) = ([0; KEYS_SIZE], [0; AUTS_SIZE]);
    let (res, both) = keys.split_at_mut(RES_SIZE);
    let (ck, ik) = both.split_at_mut(CK_SIZE);
    let auts = &mut auts;
    let answer = AnswerBuffers { res, ck, ik, auts };
    vetrhoss::challenge(image, &vector.rand, &vector.autn, answer).expect("an acceptance");
    keys
}

pub fn opc(k: &[u8], op: &[u8]) -> [u8; OPC_SIZE] {
    let mut opc = [0; OPC_SIZE];
    vetrhoss::opc(k, op, &mut opc).expect("OPc");
    opc
}

pub fn centre(load: &Load) -> Vec<u8> {
    auc_image::image(&load.auc).expect("a valid record")
}

pub fn card(load: &Load) -> Vec<u8> {
    image::image(&load.card).expect("a valid card")
}

/// The image of a card is read, and then the call is refused for want of a RAND.
pub fn read_card(image: &mut [u8]) {
    let (mut keys, mut auts) = ([0; KEYS_SIZE], [0; AUTS_SIZE]);
    let (res, both) = keys.split_at_mut(RES_SIZE);
    let (ck, ik) = both.split_at_mut(CK_SIZE);
    let auts = &mut auts;
    let answer = AnswerBuffers { res, ck, ik, auts };
    let refused = vetrhoss::challenge(image, &[], &[], answer);
    assert_eq!(refused, Err(Error::BadSize));
}

/// The image of a new card is written.
pub fn write_card(card: &Card, image: &mut [u8]) {
    let keys = &card.subscriber;
    vetrhoss::new_usim(card.edition, keys.set, &keys.k, &keys.opc, image).expect("a new card");
}

pub fn new_card(load: &Load) -> Vec<u8> {
    let mut image = vec![0; load.card.row().card_image()];
    write_card(&load.card, &mut image);
    image
}

/// A vector for every RAND, each of a batch of its own.
pub fn vectors(load: &Load) -> Vec<Vector> {
    let mut image = centre(load);
    let vectors = load.rands.iter().map(|rand| {
        let mut vector: Bytes = [0; VECTOR_SIZE];
        order(&mut image, rand, &mut vector);
        Vector::of(&vector)
    });
    vectors.collect()
}

/// A batch of a centre, and its triplets.
pub fn triplets(auc: &Auc, rands: &[u8]) -> (Vec<u8>, Vec<u8>) {
    let n = rands.len() / RAND_SIZE;
    let mut image = auc_image::image(auc).expect("a valid record");
    let (mut batch, mut triplets) = (vec![0; VECTOR_SIZE * n], vec![0; TRIPLET_SIZE * n]);
    order(&mut image, rands, &mut batch);
    vetrhoss::triplets(&batch, &mut triplets).expect("triplets");
    (batch, triplets)
}
