//! The words of `calls` for the handset. What is lent comes in with the line
//! and goes out with its answer: the program keeps no store.

use crate::calls::write_refusal;
use crate::handset::{Outcome, Store};
use crate::image;
use crate::text::{read_bytes, write_bytes, write_hex};
use crate::usim::Refusal;

/// None where the line is none of these words or of another form.
pub fn call(fields: &[&[u8]]) -> Option<Vec<u8>> {
    let printed = match *fields {
        [b"phone", held, stored, image, rand, autn, fresh] => phone(
            &read_store(held, stored)?,
            &read_bytes(image)?,
            &read_bytes(rand)?,
            &read_bytes(autn)?,
            &read_bytes(fresh)?,
        ),
        [b"phone-clear", held, stored] => Ok(phone_clear(&read_store(held, stored)?)),
        _ => return None,
    };
    Some(printed.unwrap_or_else(write_refusal))
}

/// An image that is not read is refused alone; a refusal of the call itself is
/// an outcome and shows what it leaves.
fn phone(
    store: &Store,
    image: &[u8],
    rand: &[u8],
    autn: &[u8],
    fresh: &[u8],
) -> Result<Vec<u8>, Refusal> {
    let answer = store.challenge(&image::read(image)?, rand, autn, fresh);
    let fields = [
        write_outcome(answer.outcome),
        write_bytes(answer.part()),
        write_hex(&answer.auts),
        write_store(&answer.store),
        write_bytes(&answer.fresh),
        write_hex(&image::image(&answer.card)?),
    ];
    Ok(fields.join(&b' '))
}

fn phone_clear(store: &Store) -> Vec<u8> {
    let fields = match store.clear() {
        Ok(cleared) => [b"done".to_vec(), write_store(&cleared)],
        Err(refusal) => [write_refusal(refusal), write_store(store)],
    };
    fields.join(&b' ')
}

fn write_outcome(outcome: Outcome) -> Vec<u8> {
    match outcome {
        Outcome::Repeat => b"repeat".to_vec(),
        Outcome::Fresh => b"fresh".to_vec(),
        Outcome::Sync => b"sync".to_vec(),
        Outcome::Mac => b"mac".to_vec(),
        Outcome::Refused(refusal) => write_refusal(refusal),
    }
}

/// The mark is one digit alone.
fn read_store(held: &[u8], stored: &[u8]) -> Option<Store> {
    Some(Store {
        held: match held {
            b"0" => false,
            b"1" => true,
            _ => return None,
        },
        bytes: read_bytes(stored)?,
    })
}

/// The two fields of a store, as they are read.
pub fn write_store(store: &Store) -> Vec<u8> {
    let held: &[u8] = if store.held { b"1 " } else { b"0 " };
    [held, &write_bytes(&store.bytes)].concat()
}
