//! The proved library's answer.

use vetrhoss::{AnswerBuffers, Error, Failure, SeqHe, KEPT, RESET};

use crate::call::{named, Answer, Function, Numbers};

pub fn answer(function: Function, numbers: Numbers, lent: Vec<&mut [u8]>) -> Answer {
    let [number, set] = numbers;
    let done = match function {
        Function::Opc => {
            let [k, op, opc] = named(lent);
            vetrhoss::opc(k, op, opc).map(|()| 0)
        }
        Function::NewUsim => {
            let [k, opc, image] = named(lent);
            vetrhoss::new_usim(number as u8, set as u8, k, opc, image).map(|()| 0)
        }
        Function::NewAuc => {
            let [k, opc, amf, image] = named(lent);
            vetrhoss::new_auc(number as u8, set as u8, k, opc, amf, image).map(|()| 0)
        }
        Function::Challenge => {
            let [image, rand, autn, res, ck, ik, auts] = named(lent);
            vetrhoss::challenge(image, rand, autn, AnswerBuffers { res, ck, ik, auts })
        }
        Function::Order => {
            let [image, rands, batch] = named(lent);
            vetrhoss::order(image, number, rands, batch).map(|()| 0)
        }
        Function::Resynchronise => {
            let [image, rand, auts, rands, batch] = named(lent);
            let failure = Failure { rand, auts };
            vetrhoss::resynchronise(image, number, failure, rands, batch).map(|did| match did {
                SeqHe::Kept => KEPT,
                SeqHe::Reset => RESET,
            })
        }
        Function::VectorAt => {
            let [batch] = named(lent);
            vetrhoss::vector_at(batch, number).map(|offset| offset as u64)
        }
        Function::Triplets => {
            let [batch, triplets] = named(lent);
            vetrhoss::triplets(batch, triplets).map(|()| 0)
        }
    };
    done.map_or_else(not_done, Answer::done)
}

fn not_done(error: Error) -> Answer {
    let value = match error {
        Error::EqualRands { first, second } => u64::from(first) + 256 * u64::from(second),
        _ => 0,
    };
    Answer {
        number: error.number(),
        value,
    }
}
