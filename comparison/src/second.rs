//! What the second program answers, put together from its own functions.

use reference::auc::{Auc, Refused, Start};
use reference::functions::Subscriber;
use reference::usim::{Card, Refusal, Verdict, BAD_LENGTH, BAD_RECORD};
use reference::vector::handed_back;
use reference::{auc_image, image, milenage, triplet};
use vetrhoss::{KEPT, MAC_FAILURE, RESET, SYNCH_FAILURE};

use crate::call::{named, Answer, Function, Numbers};

pub fn answer(function: Function, numbers: Numbers, lent: Vec<&mut [u8]>) -> Answer {
    let [number, _] = numbers;
    let answered = match function {
        Function::Opc => opc(named(lent)),
        Function::NewUsim => new_usim(numbers, named(lent)),
        Function::NewAuc => new_auc(numbers, named(lent)),
        Function::Challenge => challenge(named(lent)),
        Function::Order => order(number, named(lent)),
        Function::Resynchronise => resynchronise(number, named(lent)),
        Function::VectorAt => vector_at(number, named(lent)),
        Function::Triplets => triplets(named(lent)),
    };
    answered.unwrap_or_else(refused)
}

fn without_value(number: u8) -> Answer {
    Answer { number, value: 0 }
}

fn refused(refused: Refused) -> Answer {
    let value = match refused {
        Refused::By(_) => 0,
        Refused::EqualRands(first, second) => (first + 256 * second) as u64,
    };
    Answer {
        number: refused.number(),
        value,
    }
}

fn sized<const N: usize>(bytes: &[u8]) -> Result<[u8; N], Refusal> {
    bytes.try_into().map_err(|_| BAD_LENGTH)
}

fn place<const N: usize>(bytes: &mut [u8]) -> Result<&mut [u8; N], Refusal> {
    bytes.try_into().map_err(|_| BAD_LENGTH)
}

fn opc([k, op, opc]: [&mut [u8]; 3]) -> Result<Answer, Refused> {
    let (k, op) = (sized(k)?, sized(op)?);
    *place(opc)? = milenage::opc(&k, &op);
    Ok(Answer::done(0))
}

/// Edition and set are judged before any size.
fn new_card([edition, set]: Numbers, k: &[u8], opc: &[u8]) -> Result<Card, Refusal> {
    let (edition, set) = (edition as u8, set as u8);
    let keys = |k, opc| Subscriber { set, k, opc };
    if !Card::new(edition, keys([0; 16], [0; 16])).is_valid() {
        return Err(BAD_RECORD);
    }
    Ok(Card::new(edition, keys(sized(k)?, sized(opc)?)))
}

fn new_usim(numbers: Numbers, [k, opc, image]: [&mut [u8]; 3]) -> Result<Answer, Refused> {
    image::write(&new_card(numbers, k, opc)?, image)?;
    Ok(Answer::done(0))
}

/// A centre has the edition and the keys of its card.
fn new_auc(numbers: Numbers, [k, opc, amf, image]: [&mut [u8]; 4]) -> Result<Answer, Refused> {
    let card = new_card(numbers, k, opc)?;
    let auc = Auc::new(card.edition, card.subscriber, sized(amf)?);
    auc_image::write(&auc, image)?;
    Ok(Answer::done(0))
}

fn challenge(lent: [&mut [u8]; 7]) -> Result<Answer, Refused> {
    let [image, rand, autn, res, ck, ik, auts] = lent;
    let card = image::read(image)?;
    let (res, ck, ik, auts) = (place(res)?, place(ck)?, place(ik)?, place(auts)?);
    let answer = card.challenge(rand, autn);
    let verdict = match answer.verdict {
        Verdict::Accepted { sqn } => Answer::done(sqn),
        Verdict::Mac => without_value(MAC_FAILURE),
        Verdict::Sync => without_value(SYNCH_FAILURE),
        Verdict::Refused(refusal) => return Err(refusal.into()),
    };
    *res = answer.res;
    *ck = answer.ck;
    *ik = answer.ik;
    *auts = answer.auts;
    image::write(&answer.card, image)?;
    Ok(verdict)
}

/// The image is read first, whatever the count is.
fn order(count: u64, [image, rands, batch]: [&mut [u8]; 3]) -> Result<Answer, Refused> {
    let next = auc_image::read(image)?.order(count, rands, batch)?;
    auc_image::write(&next, image)?;
    Ok(Answer::done(0))
}

fn resynchronise(count: u64, lent: [&mut [u8]; 5]) -> Result<Answer, Refused> {
    let [image, rand, auts, rands, batch] = lent;
    let (start, next) = auc_image::read(image)?.resync(count, [rand, auts], rands, batch)?;
    auc_image::write(&next, image)?;
    Ok(match start {
        Start::Kept => Answer::done(KEPT),
        Start::Reset => Answer::done(RESET),
    })
}

fn vector_at(k: u64, [batch]: [&mut [u8]; 1]) -> Result<Answer, Refused> {
    let vector = handed_back(batch, k);
    if vector.is_empty() {
        return Err(BAD_LENGTH.into());
    }
    Ok(Answer::done(
        (vector.as_ptr() as usize - batch.as_ptr() as usize) as u64,
    ))
}

fn triplets([batch, triplets]: [&mut [u8]; 2]) -> Result<Answer, Refused> {
    triplet::convert(batch, triplets)?;
    Ok(Answer::done(0))
}
