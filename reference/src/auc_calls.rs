//! The words of `calls` for the centre.

use crate::auc::{Auc, Refused, Start};
use crate::auc_image;
use crate::calls::{read_length, read_small, read_subscriber, write_image, write_refusal};
use crate::text::{read_bytes, read_hex, read_number, write_bytes, write_hex, write_number};
use crate::triplet;
use crate::vector::{handed_back, LENGTH};

/// None where the line is none of these words or of another form.
pub fn call(fields: &[&[u8]]) -> Option<Vec<u8>> {
    let printed = match *fields {
        [b"auc-new", edition, set, k, opc, amf] => auc_new(&read_new(edition, [set, k, opc], amf)?),
        [b"auc-read", image] => auc_read(&read_bytes(image)?),
        [b"auc-write", edition, set, k, opc, amf, length, seq_he, next] => auc_write(
            &read_auc(edition, [set, k, opc], amf, [seq_he, next])?,
            read_length(length)?,
        ),
        [b"order", image, count, rands, length] => {
            order(&read_bytes(image)?, &Lent::read([count, rands, length])?)
        }
        [b"resync", image, count, rand, auts, rands, length] => resync(
            &read_bytes(image)?,
            [&read_bytes(rand)?, &read_bytes(auts)?],
            &Lent::read([count, rands, length])?,
        ),
        [b"vector", batch, place] => vector(&read_bytes(batch)?, read_number(place)?),
        [b"triplets", batch, length] => triplets(&read_bytes(batch)?, read_length(length)?),
        _ => return None,
    };
    Some(printed.unwrap_or_else(write_refused))
}

/// What a line lends for a batch.
struct Lent {
    count: u64,
    rands: Vec<u8>,
    length: usize,
}

impl Lent {
    fn read([count, rands, length]: [&[u8]; 3]) -> Option<Lent> {
        Some(Lent {
            count: read_number(count)?,
            rands: read_bytes(rands)?,
            length: read_length(length)?,
        })
    }
}

fn auc_new(auc: &Auc) -> Result<Vec<u8>, Refused> {
    Ok(write_image(&auc_image::image(auc)?))
}

fn auc_read(image: &[u8]) -> Result<Vec<u8>, Refused> {
    let auc = auc_image::read(image)?;
    let fields = [
        b"auc".to_vec(),
        write_number(auc.edition.into()),
        write_number(auc.subscriber.set.into()),
        write_hex(&auc.subscriber.k),
        write_hex(&auc.subscriber.opc),
        write_hex(&auc.amf),
        write_number(auc.seq_he),
        write_number(auc.next.into()),
    ];
    Ok(fields.join(&b' '))
}

fn auc_write(auc: &Auc, length: usize) -> Result<Vec<u8>, Refused> {
    let mut buffer = vec![0; length];
    auc_image::write(auc, &mut buffer)?;
    Ok(write_image(&buffer))
}

fn order(image: &[u8], lent: &Lent) -> Result<Vec<u8>, Refused> {
    let mut batch = vec![0; lent.length];
    let next = auc_image::read(image)?.order(lent.count, &lent.rands, &mut batch)?;
    write_batch(b"given", &next, &batch)
}

fn resync(image: &[u8], failure: [&[u8]; 2], lent: &Lent) -> Result<Vec<u8>, Refused> {
    let mut batch = vec![0; lent.length];
    let auc = auc_image::read(image)?;
    let (start, next) = auc.resync(lent.count, failure, &lent.rands, &mut batch)?;
    match start {
        Start::Kept => write_batch(b"kept", &next, &batch),
        Start::Reset => write_batch(b"reset", &next, &batch),
    }
}

fn vector(batch: &[u8], place: u64) -> Result<Vec<u8>, Refused> {
    let vector = write_bytes(handed_back(batch, place));
    Ok([b"vector ", &vector[..]].concat())
}

fn triplets(batch: &[u8], length: usize) -> Result<Vec<u8>, Refused> {
    let mut triplets = vec![0; length];
    triplet::convert(batch, &mut triplets)?;
    Ok([b"triplets ", &write_hex(&triplets)[..]].concat())
}

fn read_new(edition: &[u8], keys: [&[u8]; 3], amf: &[u8]) -> Option<Auc> {
    let edition = read_small(edition)?;
    Some(Auc::new(edition, read_subscriber(keys)?, read_hex(amf)?))
}

fn read_auc(
    edition: &[u8],
    keys: [&[u8]; 3],
    amf: &[u8],
    [seq_he, next]: [&[u8]; 2],
) -> Option<Auc> {
    Some(Auc {
        seq_he: read_number(seq_he)?,
        next: read_small(next)?,
        ..read_new(edition, keys, amf)?
    })
}

fn write_batch(word: &[u8], next: &Auc, batch: &[u8]) -> Result<Vec<u8>, Refused> {
    let fields = [
        word.to_vec(),
        write_number((batch.len() / LENGTH) as u64),
        write_hex(&auc_image::image(next)?),
        write_hex(batch),
    ];
    Ok(fields.join(&b' '))
}

fn write_refused(refused: Refused) -> Vec<u8> {
    match refused {
        Refused::By(refusal) => write_refusal(refusal),
        Refused::EqualRands(first, second) => format!("refused 4 {first} {second}").into_bytes(),
    }
}
