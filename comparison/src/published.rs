//! The sets of TS 35.208: OPc, the vector that the centre makes of each, and its
//! triplet.

use reference::auc::Auc;
use reference::auc_image;
use reference::block::xor;
use reference::editions::{Edition, KNOWN};
use reference::functions::Subscriber;
use reference::published::{self, MilenageVector};
use reference::random::Random;
use reference::text::read_hex;
use reference::usim::sqn_of_bytes;
use reference::vector::LENGTH;
use vetrhoss::TRIPLET_SIZE;

use crate::call::{Call, Function};
use crate::compare::Comparison;

fn hex<const N: usize>(digits: &str) -> [u8; N] {
    read_hex(digits.as_bytes()).expect("hex of this length")
}

pub fn compare(comparison: &mut Comparison, _: &mut Random) -> Result<(), String> {
    for set in published::milenage() {
        opc(comparison, &set)?;
        for edition in &KNOWN {
            vector(comparison, edition, &set)?;
        }
        triplet(comparison, &set)?;
    }
    Ok(())
}

/// The outcome's last buffer is the one that was filled.
fn gives(comparison: &mut Comparison, call: &Call, published: &[u8]) -> Result<(), String> {
    let outcome = comparison.call(call)?;
    match outcome.buffers.last() {
        Some(filled) if filled == published => Ok(()),
        _ => Err(format!(
            "{:?} does not give what is published",
            call.function
        )),
    }
}

fn opc(comparison: &mut Comparison, set: &MilenageVector) -> Result<(), String> {
    let (k, op) = (hex::<16>(set.k), hex::<16>(set.op));
    let call = Call {
        function: Function::Opc,
        numbers: [0; 2],
        buffers: vec![k.to_vec(), op.to_vec(), vec![0; 16]],
    };
    gives(comparison, &call, &hex::<16>(set.opc))
}

/// A centre of this edition that stands just before the published SQN.
fn vector(
    comparison: &mut Comparison,
    edition: &Edition,
    set: &MilenageVector,
) -> Result<(), String> {
    let sqn = sqn_of_bytes(&hex(set.sqn));
    let subscriber = Subscriber {
        set: 1,
        k: hex(set.k),
        opc: hex(set.opc),
    };
    let auc = Auc {
        seq_he: edition.seq(sqn) - 1,
        next: edition.ind(sqn) as u8,
        ..Auc::new(edition.number, subscriber, hex(set.amf))
    };
    let image = auc_image::image(&auc).map_err(|refusal| format!("{refusal:?}"))?;
    let call = Call {
        function: Function::Order,
        numbers: [1, 0],
        buffers: vec![image, hex::<16>(set.rand).to_vec(), vec![0; LENGTH]],
    };
    gives(comparison, &call, &published_vector(set))
}

/// RAND, f2, f3, f4, and as AUTN: SQN xor f5, AMF, f1.
fn published_vector(set: &MilenageVector) -> Vec<u8> {
    let concealed = xor::<6>(&hex(set.sqn), &hex(set.f5));
    let mut vector = hex::<16>(set.rand).to_vec();
    vector.extend(hex::<8>(set.f2));
    vector.extend(hex::<16>(set.f3));
    vector.extend(hex::<16>(set.f4));
    vector.extend(concealed);
    vector.extend(hex::<2>(set.amf));
    vector.extend(hex::<8>(set.f1));
    vector
}

fn triplet(comparison: &mut Comparison, set: &MilenageVector) -> Result<(), String> {
    let call = Call {
        function: Function::Triplets,
        numbers: [0; 2],
        buffers: vec![published_vector(set), vec![0; TRIPLET_SIZE]],
    };
    gives(comparison, &call, &published_triplet(set))
}

/// RAND, and SRES and Kc from f2, f3 and f4 taken as numbers: the xor of their
/// halves.
fn published_triplet(set: &MilenageVector) -> Vec<u8> {
    let halves = |digits| {
        let key = u128::from_be_bytes(hex(digits));
        (key >> 64) as u64 ^ key as u64
    };
    let f2 = u64::from_be_bytes(hex(set.f2));
    let sres = (f2 >> 32) as u32 ^ f2 as u32;
    let kc = halves(set.f3) ^ halves(set.f4);
    let mut triplet = hex::<16>(set.rand).to_vec();
    triplet.extend(sres.to_be_bytes());
    triplet.extend(kc.to_be_bytes());
    triplet
}
