//! A card of edition 2 is issued, challenged, brought out of step and
//! resynchronised; a vector comes late, and the vectors are made triplets too.
//! Run, from the repository's root:
//!
//!     (cd crates/vetrhoss && rt lib)
//!     cargo run --offline --manifest-path examples/rust/Cargo.toml
//!
//! K, OP, AMF and the first RAND are those of TS 35.208, test set 1, so that OPc,
//! RES, CK and IK can be compared with the published ones. In a network K and
//! RAND come from a good source of random numbers, and images are kept in safe
//! storage.

use vetrhoss::{AnswerBuffers, Error, Failure, SeqHe, EDITION_2, MILENAGE};
use vetrhoss::{AMF_SIZE, AUC_IMAGE_SIZE_2, OPC_SIZE, USIM_IMAGE_SIZE_2, VECTOR_SIZE};
use vetrhoss::{AUTN_OFFSET, CK_OFFSET, IK_OFFSET, RAND_OFFSET, XRES_OFFSET};
use vetrhoss::{AUTN_SIZE, AUTS_SIZE, CK_SIZE, IK_SIZE, RAND_SIZE, RES_SIZE};
use vetrhoss::{KC_OFFSET, KC_SIZE, SRES_OFFSET, SRES_SIZE, TRIPLET_SIZE};

const K: u128 = 0x465b5ce8b199b49faa5f0a2ee238a6bc;
const OP: u128 = 0xcdc202d5123e20f62b6d676ac72cb318;
const AMF: [u8; AMF_SIZE] = [0xb9, 0xb9];
const FIRST_RAND: u128 = 0x23553cbe9637a89d218ae64dae47bf35;
const PUBLISHED_OPC: u128 = 0xcd63cb71954a9f4e48a5994e37a02baf;
const PUBLISHED_RES: u64 = 0xa54211d5e3ba50bf;

const VECTORS: u8 = 5;

type Card = [u8; USIM_IMAGE_SIZE_2];
type Centre = [u8; AUC_IMAGE_SIZE_2];

/// The parts of a vector.
struct Vector<'a> {
    rand: &'a [u8],
    xres: &'a [u8],
    ck: &'a [u8],
    ik: &'a [u8],
    autn: &'a [u8],
}

/// What the card gives; what a verdict does not give is zeros.
#[derive(Default)]
struct Answer {
    res: [u8; RES_SIZE],
    ck: [u8; CK_SIZE],
    ik: [u8; IK_SIZE],
    auts: [u8; AUTS_SIZE],
}

fn main() -> Result<(), Error> {
    println!("a card is issued");
    let (mut card, mut centre) = issue()?;

    println!("the centre makes 5 vectors");
    let mut batch = [0; VECTORS as usize * VECTOR_SIZE];
    vetrhoss::order(&mut centre, VECTORS.into(), &rands(VECTORS, 0), &mut batch)?;

    println!("the vectors are made triplets");
    convert(&batch)?;

    println!("the first vector is used");
    let first = vector_at(&batch, 0)?;
    expect(
        first.xres == PUBLISHED_RES.to_be_bytes(),
        "XRES is the published one",
    );
    accepted_challenge(&mut card, &first)?;

    println!("three vectors are passed over and the last is used");
    accepted_challenge(&mut card, &vector_at(&batch, 4)?)?;

    println!("the second comes late");
    accepted_challenge(&mut card, &vector_at(&batch, 1)?)?;

    println!("the first challenge comes once more");
    let (repeated, answer) = challenge(&mut card, &first);
    expect(
        repeated == Err(Error::SynchFailure),
        "a repeated challenge is not fresh",
    );
    println!("synchronisation failure");
    show("AUTS", &answer.auts);

    println!("the centre resynchronises and makes 1 vector");
    let failure = Failure {
        rand: first.rand,
        auts: &answer.auts,
    };
    let fresh = resynchronise(&mut centre, failure)?;
    accepted_challenge(&mut card, &vector_at(&fresh, 0)?)
}

/// The same batch for a GSM phone. Of the triplets the first is shown.
fn convert(batch: &[u8]) -> Result<(), Error> {
    let mut triplets = [0; VECTORS as usize * TRIPLET_SIZE];
    vetrhoss::triplets(batch, &mut triplets)?;
    expect(
        triplets[RAND_OFFSET..][..RAND_SIZE] == FIRST_RAND.to_be_bytes(),
        "RAND stays",
    );
    show("SRES", &triplets[SRES_OFFSET..][..SRES_SIZE]);
    show("Kc  ", &triplets[KC_OFFSET..][..KC_SIZE]);
    Ok(())
}

/// OPc from OP, and the two images that a new card begins with.
fn issue() -> Result<(Card, Centre), Error> {
    let (k, op, mut opc) = (K.to_be_bytes(), OP.to_be_bytes(), [0; OPC_SIZE]);
    let (mut card, mut centre) = ([0; USIM_IMAGE_SIZE_2], [0; AUC_IMAGE_SIZE_2]);
    vetrhoss::opc(&k, &op, &mut opc)?;
    expect(
        opc == PUBLISHED_OPC.to_be_bytes(),
        "OPc is the published one",
    );
    show("OPc ", &opc);
    vetrhoss::new_usim(EDITION_2, MILENAGE, &k, &opc, &mut card)?;
    vetrhoss::new_auc(EDITION_2, MILENAGE, &k, &opc, &AMF, &mut centre)?;
    Ok((card, centre))
}

/// RANDs that differ: the first one raised.
fn rands(count: u8, raised: u8) -> Vec<u8> {
    let numbers = raised..raised + count;
    let rands = numbers.map(|number| (FIRST_RAND + u128::from(number)).to_be_bytes());
    rands.collect::<Vec<_>>().concat()
}

fn vector_at(batch: &[u8], place: u64) -> Result<Vector<'_>, Error> {
    let vector = &batch[vetrhoss::vector_at(batch, place)?..][..VECTOR_SIZE];
    Ok(Vector {
        rand: &vector[RAND_OFFSET..][..RAND_SIZE],
        xres: &vector[XRES_OFFSET..][..RES_SIZE],
        ck: &vector[CK_OFFSET..][..CK_SIZE],
        ik: &vector[IK_OFFSET..][..IK_SIZE],
        autn: &vector[AUTN_OFFSET..][..AUTN_SIZE],
    })
}

/// The accepted SQN or the card's failure, and what the card gives.
fn challenge(card: &mut Card, vector: &Vector) -> (Result<u64, Error>, Answer) {
    let mut answer = Answer::default();
    let buffers = AnswerBuffers {
        res: &mut answer.res,
        ck: &mut answer.ck,
        ik: &mut answer.ik,
        auts: &mut answer.auts,
    };
    let verdict = vetrhoss::challenge(card, vector.rand, vector.autn, buffers);
    (verdict, answer)
}

/// A challenge that the card accepts: the serving node compares RES with XRES,
/// and both sides then have CK and IK.
fn accepted_challenge(card: &mut Card, vector: &Vector) -> Result<(), Error> {
    let (verdict, answer) = challenge(card, vector);
    let sqn = verdict?;
    expect(answer.res == vector.xres, "RES is XRES");
    expect(answer.ck == vector.ck, "CK is the centre's");
    expect(answer.ik == vector.ik, "IK is the centre's");
    println!("accepted: SQN {sqn:012x}");
    show("RES ", &answer.res);
    show("CK  ", &answer.ck);
    show("IK  ", &answer.ik);
    Ok(())
}

/// One fresh vector after a challenge that the card answered with AUTS.
fn resynchronise(centre: &mut Centre, failure: Failure) -> Result<[u8; VECTOR_SIZE], Error> {
    let mut fresh = [0; VECTOR_SIZE];
    let rand = rands(1, VECTORS);
    match vetrhoss::resynchronise(centre, 1, failure, &rand, &mut fresh)? {
        SeqHe::Kept => println!("SEQ_HE was kept"),
        SeqHe::Reset => println!("SEQ_HE was reset"),
    }
    Ok(fresh)
}

fn show(name: &str, octets: &[u8]) {
    let hex: String = octets.iter().map(|octet| format!("{octet:02x}")).collect();
    println!("  {name} {hex}");
}

fn expect(holds: bool, what: &str) {
    assert!(holds, "not as it should be: {what}");
}
