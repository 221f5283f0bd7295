//! A call of an exported function, as data.

use reference::editions;
use vetrhoss::DONE;

/// What a call returned: a number of the header, and the value that goes with it.
#[derive(Clone, Copy, Debug, PartialEq, Eq)]
pub struct Answer {
    pub number: u8,
    pub value: u64,
}

impl Answer {
    pub fn done(value: u64) -> Answer {
        Answer {
            number: DONE,
            value,
        }
    }
}

#[derive(Clone, Copy, Debug, PartialEq, Eq, PartialOrd, Ord)]
pub enum Function {
    Opc,
    NewUsim,
    NewAuc,
    Challenge,
    Order,
    Resynchronise,
    VectorAt,
    Triplets,
}

pub const ALL: [Function; 8] = [
    Function::Opc,
    Function::NewUsim,
    Function::NewAuc,
    Function::Challenge,
    Function::Order,
    Function::Resynchronise,
    Function::VectorAt,
    Function::Triplets,
];

/// What a function is told in numbers: the edition and the set; or the count or
/// the place, and 0; or zeros.
pub type Numbers = [u64; 2];

/// The buffers stand in the order of the header, and hold what they hold before
/// the call.
#[derive(Clone, Debug)]
pub struct Call {
    pub function: Function,
    pub numbers: Numbers,
    pub buffers: Vec<Vec<u8>>,
}

impl Call {
    /// The edition of the image that is asked for or lent; 0 where there is none
    /// or it is unknown.
    pub fn edition(&self) -> u8 {
        let named = match self.function {
            Function::NewUsim | Function::NewAuc => self.numbers[0] as u8,
            Function::Challenge | Function::Order | Function::Resynchronise => {
                self.buffers[0].first().map_or(0, |first| first >> 4)
            }
            Function::Opc | Function::VectorAt | Function::Triplets => 0,
        };
        editions::of(named).map_or(0, |edition| edition.number)
    }
}

/// Whoever answers a call: it is given the numbers and lent the buffers.
pub type Answers = dyn Fn(Function, Numbers, Vec<&mut [u8]>) -> Answer;

/// The buffers of one function by name.
pub fn named<const N: usize>(lent: Vec<&mut [u8]>) -> [&mut [u8]; N] {
    lent.try_into()
        .expect("as many buffers as the function has")
}

/// Every refusal has a number from 1 to 9.
pub fn is_refusal(answer: Answer) -> bool {
    (1..=9).contains(&answer.number)
}
