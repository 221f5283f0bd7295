//! Times the proved library beside the second program and, where its shim is
//! named, libosmogsm: `benchmark ROUNDS [PEER]`. Started by `run.sh`.

mod checks;
mod clock;
mod load;
mod measure;
mod ours;
mod peer;
mod work;

use load::Load;
use peer::Peer;
use reference::editions::{EDITION_1, EDITION_2};

/// The fewest rounds whose median says something.
const FEWEST: usize = 7;

fn main() {
    let arguments: Vec<String> = std::env::args().skip(1).collect();
    let rounds = arguments.first().and_then(|rounds| rounds.parse().ok());
    let rounds = rounds.unwrap_or(FEWEST).max(FEWEST);
    let peer = arguments.get(1).map(|file| Peer::load(file));
    let [load, later] = [EDITION_1, EDITION_2].map(|edition| Load::new(&edition));
    checks::check(&load, peer);
    // The peer's indices have the width of edition 1.
    checks::check(&later, None);
    println!("set 1 (MILENAGE), the same keys and RANDs for all; checked: all give the same vectors, triplets, keys and OPc");

    let mut measures = work::measures(&load, &later, peer);
    for measure in &mut measures {
        measure.warm_up();
    }
    for _ in 0..rounds {
        for measure in &mut measures {
            measure.round();
        }
    }
    println!("processor time, medians of {rounds} rounds, interleaved; a ratio is the other's time over ours, so above 1 ours is faster");
    for measure in &measures {
        measure.print();
    }
}
