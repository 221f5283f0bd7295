//! The words of `calls` for the card.

use crate::calls::{read_length, read_small, read_subscriber, write_image, write_refusal};
use crate::image;
use crate::text::{read_bytes, read_number, write_hex, write_number};
use crate::usim::{Answer, Card, Refusal, Verdict};

/// None where the line is none of these words or of another form.
pub fn call(fields: &[&[u8]]) -> Option<Vec<u8>> {
    let printed = match *fields {
        [b"card-new", edition, set, k, opc] => card_new(&Card::new(
            read_small(edition)?,
            read_subscriber([set, k, opc])?,
        )),
        [b"challenge", image, rand, autn] => {
            challenge(&read_bytes(image)?, &read_bytes(rand)?, &read_bytes(autn)?)
        }
        [b"card-read", image] => card_read(&read_bytes(image)?),
        [b"card-write", edition, set, k, opc, length, ref places @ ..] => card_write(
            &read_card(edition, [set, k, opc], places)?,
            read_length(length)?,
        ),
        _ => return None,
    };
    Some(printed.unwrap_or_else(write_refusal))
}

fn card_new(card: &Card) -> Result<Vec<u8>, Refusal> {
    Ok(write_image(&image::image(card)?))
}

fn challenge(image: &[u8], rand: &[u8], autn: &[u8]) -> Result<Vec<u8>, Refusal> {
    let answer = image::read(image)?.challenge(rand, autn);
    match answer.verdict {
        Verdict::Accepted { sqn } => write_accepted(sqn, &answer),
        Verdict::Sync => Ok([b"sync ", &write_hex(&answer.auts)[..]].concat()),
        Verdict::Mac => Ok(b"mac".to_vec()),
        Verdict::Refused(refusal) => Err(refusal),
    }
}

fn card_read(image: &[u8]) -> Result<Vec<u8>, Refusal> {
    let Card {
        edition,
        subscriber,
        places,
    } = image::read(image)?;
    let mut fields = vec![
        b"card".to_vec(),
        write_number(edition.into()),
        write_number(subscriber.set.into()),
        write_hex(&subscriber.k),
        write_hex(&subscriber.opc),
    ];
    fields.extend(places.map(write_number));
    Ok(fields.join(&b' '))
}

fn card_write(card: &Card, length: usize) -> Result<Vec<u8>, Refusal> {
    let mut buffer = vec![0; length];
    image::write(card, &mut buffer)?;
    Ok(write_image(&buffer))
}

fn read_card(edition: &[u8], keys: [&[u8]; 3], places: &[&[u8]]) -> Option<Card> {
    let places: Option<Vec<u64>> = places.iter().map(|place| read_number(place)).collect();
    Some(Card {
        edition: read_small(edition)?,
        subscriber: read_subscriber(keys)?,
        places: places?.try_into().ok()?,
    })
}

fn write_accepted(sqn: u64, answer: &Answer) -> Result<Vec<u8>, Refusal> {
    let fields = [
        b"accepted".to_vec(),
        write_number(sqn),
        write_hex(&answer.res),
        write_hex(&answer.ck),
        write_hex(&answer.ik),
        write_hex(&image::image(&answer.card)?),
    ];
    Ok(fields.join(&b' '))
}
