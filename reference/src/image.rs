//! The packed image of a card: edition (4 bits), set (4), K, OPc, and the places
//! by index.

use crate::bits::{Reader, Writer};
use crate::editions::Edition;
use crate::usim::{Card, Refusal, BAD_RECORD};

/// Fills the lent buffer. A refusal leaves it as it was.
pub fn write(card: &Card, buffer: &mut [u8]) -> Result<(), Refusal> {
    packed(card)?.copy_to(buffer)
}

/// The image in a buffer of its own.
pub fn image(card: &Card) -> Result<Vec<u8>, Refusal> {
    Ok(packed(card)?.bytes())
}

fn packed(card: &Card) -> Result<Writer, Refusal> {
    if !card.is_valid() {
        return Err(BAD_RECORD);
    }
    let edition = card.row();
    let mut image = Writer::new(edition, &card.subscriber);
    for seq in &card.places[..edition.indices()] {
        image.push(*seq, edition.seq_bits());
    }
    Ok(image)
}

pub fn read(image: &[u8]) -> Result<Card, Refusal> {
    let (edition, mut bits) = Reader::open(image, Edition::card_image)?;
    let card = Card {
        edition: edition.number,
        subscriber: bits.take_subscriber(),
        places: edition.places(|_| bits.take(edition.seq_bits())),
    };
    match card.is_valid() {
        true => Ok(card),
        false => Err(BAD_RECORD),
    }
}
