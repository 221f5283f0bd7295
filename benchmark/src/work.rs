//! The pieces of work that are timed.

use std::hint::black_box;

use reference::vector::LENGTH;
use reference::{auc_image, image, milenage};

use crate::load::{Load, RANDS};
use crate::measure::Measure;
use crate::ours;
use crate::peer::Peer;

const OURS: &str = "vetrhoss";
const RECORDS: &str = "second program, records (no image)";
const IMAGES: &str = "second program, images read and written";

/// The second load is of a later edition, whose card image is longer.
pub fn measures(load: &Load, later: &Load, peer: Option<Peer>) -> Vec<Measure> {
    vec![
        orders("order in batches of 5: one vector", 5, load, peer),
        orders("order in batches of 1: one vector", 1, load, peer),
        challenges("accepted challenge, the card carried on", load),
        challenges("the same with a card of edition 2", later),
        reading("a card's image read, edition 1", load),
        reading("a card's image read, edition 2", later),
        writing("a new card's image written, edition 1", load),
        writing("a new card's image written, edition 2", later),
        resynchronisations(
            "resynchronisation with reset and a batch of 1",
            1,
            load,
            peer,
        ),
        resynchronisations(
            "resynchronisation with reset and a batch of 5",
            5,
            load,
            None,
        ),
        opc(load),
    ]
}

fn orders(name: &'static str, size: usize, load: &Load, peer: Option<Peer>) -> Measure {
    let mut measure = Measure::new(name, RANDS);
    let (mut image, batches) = (ours::centre(load), load.batches(size));
    let mut batch = vec![0; LENGTH * size];
    measure = measure.with(OURS, move || {
        for rands in &batches {
            ours::order(&mut image, black_box(rands), &mut batch);
            black_box(&batch);
        }
    });
    let (mut auc, batches) = (load.auc.clone(), load.batches(size));
    let mut batch = vec![0; LENGTH * size];
    measure = measure.with(RECORDS, move || {
        for rands in &batches {
            auc = auc
                .order(size as u64, black_box(rands), &mut batch)
                .expect("a batch");
            black_box(&batch);
        }
    });
    measure = measure.with(IMAGES, ordered_by_image(size, load));
    match peer {
        Some(peer) => beside_peer(measure, load, peer),
        None => measure,
    }
}

fn beside_peer(measure: Measure, load: &Load, peer: Peer) -> Measure {
    let with_gsm_keys = peer_vectors(load, peer, move |rand| peer.vector(rand));
    let measure = measure.with("libosmogsm, osmo_auth_gen_vec", with_gsm_keys);
    if !peer.generate(&load.rands[0]) {
        return measure;
    }
    let without = peer_vectors(load, peer, move |rand| assert!(peer.generate(rand)));
    measure.with("libosmogsm, milenage_generate (no GSM keys)", without)
}

fn ordered_by_image(size: usize, load: &Load) -> impl FnMut() + 'static {
    let (mut image, batches) = (ours::centre(load), load.batches(size));
    let mut batch = vec![0; LENGTH * size];
    move || {
        for rands in &batches {
            let auc = auc_image::read(&image).expect("a valid image");
            let next = auc.order(size as u64, black_box(rands), &mut batch);
            auc_image::write(&next.expect("a batch"), &mut image).expect("its size");
            black_box(&batch);
        }
    }
}

fn peer_vectors(load: &Load, peer: Peer, vector: impl Fn(&[u8; 16])) -> impl FnMut() {
    let load = load.clone();
    move || {
        peer.set_up(&load.auc);
        for rand in &load.rands {
            vector(black_box(rand));
        }
        black_box(peer.last());
    }
}

/// Each round begins with a new card, which accepts every challenge.
fn challenges(name: &'static str, load: &Load) -> Measure {
    let vectors = ours::vectors(load);
    let new = ours::card(load);
    let measure = Measure::new(name, RANDS);
    let (asked, begun) = (vectors.clone(), new.clone());
    let measure = measure.with(OURS, move || {
        let mut image = begun.clone();
        for vector in &asked {
            black_box(ours::challenge(&mut image, black_box(vector)));
        }
    });
    let (asked, card) = (vectors.clone(), load.card.clone());
    let measure = measure.with(RECORDS, move || {
        let mut card = card.clone();
        for vector in &asked {
            let answer = black_box(card.challenge(&vector.rand, black_box(&vector.autn)));
            card = answer.card;
        }
    });
    measure.with(IMAGES, move || {
        let mut image = new.clone();
        for vector in &vectors {
            let card = image::read(&image).expect("a valid image");
            let answer = black_box(card.challenge(&vector.rand, black_box(&vector.autn)));
            image::write(&answer.card, &mut image).expect("its size");
        }
    })
}

/// The library has no call that does nothing but read; a challenge without a RAND
/// is refused as soon as the image is read.
fn reading(name: &'static str, load: &Load) -> Measure {
    let mut image = ours::card(load);
    let again = image.clone();
    Measure::new(name, RANDS)
        .with("vetrhoss, a challenge refused behind it", move || {
            for _ in 0..RANDS {
                ours::read_card(black_box(&mut image));
            }
        })
        .with("second program, the image alone", move || {
            for _ in 0..RANDS {
                black_box(image::read(black_box(&again)).expect("a valid image"));
            }
        })
}

fn writing(name: &'static str, load: &Load) -> Measure {
    let (card, mut image) = (load.card.clone(), ours::card(load));
    let (again, mut second) = (card.clone(), image.clone());
    Measure::new(name, RANDS)
        .with(OURS, move || {
            for _ in 0..RANDS {
                ours::write_card(black_box(&card), &mut image);
                black_box(&image);
            }
        })
        .with("second program, the image alone", move || {
            for _ in 0..RANDS {
                image::write(black_box(&again), &mut second).expect("its size");
                black_box(&second);
            }
        })
}

/// Every call begins with a new centre, to which the card is ahead.
fn resynchronisations(name: &'static str, size: usize, load: &Load, peer: Option<Peer>) -> Measure {
    let batches = load.batches(size);
    let measure = Measure::new(name, batches.len());
    let (new, failure, mut batch) = (ours::centre(load), load.failure(), vec![0; LENGTH * size]);
    let mut image = new.clone();
    let measure = measure.with(OURS, move || {
        for rands in &batches {
            image.copy_from_slice(&new);
            ours::resynchronise(&mut image, &failure, black_box(rands), &mut batch);
            black_box((&image, &batch));
        }
    });
    let measure = measure.with(RECORDS, resynchronised_records(size, load));
    match peer {
        Some(peer) => measure.with("libosmogsm, osmo_auth_gen_vec_auts", peer_auts(load, peer)),
        None => measure,
    }
}

fn resynchronised_records(size: usize, load: &Load) -> impl FnMut() + 'static {
    let (auc, batches, failure) = (load.auc.clone(), load.batches(size), load.failure());
    let mut batch = vec![0; LENGTH * size];
    move || {
        let failed: [&[u8]; 2] = [&failure.rand, &failure.auts];
        for rands in &batches {
            let next = auc.resync(size as u64, failed, black_box(rands), &mut batch);
            black_box((next.expect("a batch"), &batch));
        }
    }
}

fn peer_auts(load: &Load, peer: Peer) -> impl FnMut() + 'static {
    let (load, failure) = (load.clone(), load.failure());
    move || {
        for rand in &load.rands {
            peer.set_up(&load.auc);
            peer.resynchronise(&failure.rand, &failure.auts, black_box(rand));
        }
        black_box(peer.last());
    }
}

fn opc(load: &Load) -> Measure {
    let (k, op) = (load.auc.subscriber.k, load.op);
    Measure::new("OPc: the key expanded and one block", RANDS)
        .with(OURS, move || {
            for _ in 0..RANDS {
                black_box(ours::opc(black_box(&k), black_box(&op)));
            }
        })
        .with("second program, AES by plain bytes", move || {
            for _ in 0..RANDS {
                black_box(milenage::opc(black_box(&k), black_box(&op)));
            }
        })
}
