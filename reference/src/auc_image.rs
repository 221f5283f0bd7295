//! The packed image of a centre record: edition (4 bits), set (4), K, OPc, AMF,
//! and SEQ_HE with the next index in 48 bits.

use crate::auc::Auc;
use crate::bits::{Reader, Writer};
use crate::editions::Edition;
use crate::usim::{Refusal, BAD_RECORD};

/// Fills the lent buffer. A refusal leaves it as it was.
pub fn write(auc: &Auc, buffer: &mut [u8]) -> Result<(), Refusal> {
    packed(auc)?.copy_to(buffer)
}

/// The image in a buffer of its own.
pub fn image(auc: &Auc) -> Result<Vec<u8>, Refusal> {
    Ok(packed(auc)?.bytes())
}

fn packed(auc: &Auc) -> Result<Writer, Refusal> {
    if !auc.is_valid() {
        return Err(BAD_RECORD);
    }
    let edition = auc.row();
    let mut image = Writer::new(edition, &auc.subscriber);
    image.push_bytes(&auc.amf);
    image.push(auc.seq_he, edition.seq_bits());
    image.push(auc.next.into(), edition.width);
    Ok(image)
}

pub fn read(image: &[u8]) -> Result<Auc, Refusal> {
    let (edition, mut bits) = Reader::open(image, Edition::auc_image)?;
    let auc = Auc {
        edition: edition.number,
        subscriber: bits.take_subscriber(),
        amf: [bits.take_byte(), bits.take_byte()],
        seq_he: bits.take(edition.seq_bits()),
        next: bits.take(edition.width) as u8,
    };
    match auc.is_valid() {
        true => Ok(auc),
        false => Err(BAD_RECORD),
    }
}
