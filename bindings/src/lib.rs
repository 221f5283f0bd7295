//! The proved card and authentication centre for Rust: one safe function for
//! each function of `include/vetrhoss.h`, where sizes and numbers are explained.
//!
//! A slice is never null and is wholly its lender's, and no other slice of the
//! call overlaps one that is lent to be written to. That is all that the header
//! asks of a caller, so every call below is sound.

mod c;
mod error;
mod header;

pub use error::Error;
pub use header::*;

/// The value of a call that is done.
fn value(result: u64) -> Result<u64, Error> {
    let (number, value) = (result as u8, result >> 8);
    match number {
        DONE => Ok(value),
        _ => Err(Error::of(number, value)),
    }
}

/// A call that is done and has no value.
fn no_value(result: u64) -> Result<(), Error> {
    match value(result)? {
        0 => Ok(()),
        value => panic!("the header names no value here, and the library gives {value}"),
    }
}

/// OPc of a subscriber, from K and OP.
pub fn opc(k: &[u8], op: &[u8], opc: &mut [u8]) -> Result<(), Error> {
    no_value(unsafe {
        c::vetrhoss_opc(
            k.as_ptr(),
            k.len(),
            op.as_ptr(),
            op.len(),
            opc.as_mut_ptr(),
            opc.len(),
        )
    })
}

/// The image of a new card of an edition.
pub fn new_usim(edition: u8, set: u8, k: &[u8], opc: &[u8], image: &mut [u8]) -> Result<(), Error> {
    no_value(unsafe {
        c::vetrhoss_new_usim(
            edition,
            set,
            k.as_ptr(),
            k.len(),
            opc.as_ptr(),
            opc.len(),
            image.as_mut_ptr(),
            image.len(),
        )
    })
}

/// The image of a new centre record of an edition.
pub fn new_auc(
    edition: u8,
    set: u8,
    k: &[u8],
    opc: &[u8],
    amf: &[u8],
    image: &mut [u8],
) -> Result<(), Error> {
    no_value(unsafe {
        c::vetrhoss_new_auc(
            edition,
            set,
            k.as_ptr(),
            k.len(),
            opc.as_ptr(),
            opc.len(),
            amf.as_ptr(),
            amf.len(),
            image.as_mut_ptr(),
            image.len(),
        )
    })
}

/// Where the card's answer goes. What a verdict does not give is zeros; only a
/// refusal leaves the buffers as they were.
pub struct AnswerBuffers<'a> {
    pub res: &'a mut [u8],
    pub ck: &'a mut [u8],
    pub ik: &'a mut [u8],
    pub auts: &'a mut [u8],
}

/// The card's answer to a challenge: the accepted SQN.
pub fn challenge(
    image: &mut [u8],
    rand: &[u8],
    autn: &[u8],
    answer: AnswerBuffers,
) -> Result<u64, Error> {
    value(unsafe {
        c::vetrhoss_challenge(
            image.as_mut_ptr(),
            image.len(),
            rand.as_ptr(),
            rand.len(),
            autn.as_ptr(),
            autn.len(),
            answer.res.as_mut_ptr(),
            answer.res.len(),
            answer.ck.as_mut_ptr(),
            answer.ck.len(),
            answer.ik.as_mut_ptr(),
            answer.ik.len(),
            answer.auts.as_mut_ptr(),
            answer.auts.len(),
        )
    })
}

/// A batch of fresh vectors from the centre.
pub fn order(image: &mut [u8], count: u64, rands: &[u8], batch: &mut [u8]) -> Result<(), Error> {
    no_value(unsafe {
        c::vetrhoss_order(
            image.as_mut_ptr(),
            image.len(),
            count,
            rands.as_ptr(),
            rands.len(),
            batch.as_mut_ptr(),
            batch.len(),
        )
    })
}

/// A synchronisation failure: the RAND of the challenge, and the card's AUTS.
#[derive(Clone, Copy)]
pub struct Failure<'a> {
    pub rand: &'a [u8],
    pub auts: &'a [u8],
}

/// What a resynchronisation did with SEQ_HE.
#[derive(Clone, Copy, Debug, PartialEq, Eq)]
pub enum SeqHe {
    /// It was in range, and the batch goes on from it.
    Kept,
    /// It first became the card's SEQ_MS.
    Reset,
}

/// A batch of fresh vectors after a synchronisation failure.
pub fn resynchronise(
    image: &mut [u8],
    count: u64,
    failure: Failure,
    rands: &[u8],
    batch: &mut [u8],
) -> Result<SeqHe, Error> {
    let result = unsafe {
        c::vetrhoss_resynchronise(
            image.as_mut_ptr(),
            image.len(),
            count,
            failure.rand.as_ptr(),
            failure.rand.len(),
            failure.auts.as_ptr(),
            failure.auts.len(),
            rands.as_ptr(),
            rands.len(),
            batch.as_mut_ptr(),
            batch.len(),
        )
    };
    match value(result)? {
        KEPT => Ok(SeqHe::Kept),
        RESET => Ok(SeqHe::Reset),
        value => panic!("the header names no value {value} of a resynchronisation"),
    }
}

/// Where vector k, counted from 0, begins in a batch.
pub fn vector_at(batch: &[u8], k: u64) -> Result<usize, Error> {
    let offset = value(unsafe { c::vetrhoss_vector_at(batch.as_ptr(), batch.len(), k) })?;
    Ok(offset as usize)
}

/// The triplets of a batch, one for each vector and in their order.
pub fn triplets(batch: &[u8], triplets: &mut [u8]) -> Result<(), Error> {
    no_value(unsafe {
        c::vetrhoss_triplets(
            batch.as_ptr(),
            batch.len(),
            triplets.as_mut_ptr(),
            triplets.len(),
        )
    })
}
