//! One call to the library and to the second program, and what differs.

use reference::random::Random;
use reference::text::write_bytes;

use crate::arena::Arena;
use crate::call::{is_refusal, Answer, Answers, Call};
use crate::second;
use crate::tally::Tally;

/// What a call answered and left in its buffers.
pub struct Outcome {
    pub answer: Answer,
    pub buffers: Vec<Vec<u8>>,
}

pub struct Comparison<'a> {
    library: &'a Answers,
    random: Random,
    pub tally: Tally,
}

impl Comparison<'_> {
    pub fn new(library: &Answers, random: Random) -> Comparison<'_> {
        Comparison {
            library,
            random,
            tally: Tally::default(),
        }
    }

    /// The outcome that both have in common.
    pub fn call(&mut self, call: &Call) -> Result<Outcome, String> {
        let expected = expected(call);
        let mut arena = Arena::new(&call.buffers, &mut self.random);
        let should = arena.holding(&expected.buffers);
        let answer = (self.library)(call.function, call.numbers, arena.lend());
        if answer != expected.answer {
            let both = format!("{answer:?} and not {:?}", expected.answer);
            return Err(told(call, &both));
        }
        if let Some(place) = arena.difference(&should) {
            return Err(told(call, &format!("{answer:?}, and {place} is wrong")));
        }
        self.tally.count(call, answer);
        Ok(expected)
    }
}

/// A refusal leaves every byte as it was, whatever the second program did.
fn expected(call: &Call) -> Outcome {
    let mut buffers = call.buffers.clone();
    let lent = buffers.iter_mut().map(|buffer| &mut buffer[..]).collect();
    let answer = second::answer(call.function, call.numbers, lent);
    if is_refusal(answer) {
        buffers.clone_from(&call.buffers);
    }
    Outcome { answer, buffers }
}

fn told(call: &Call, what: &str) -> String {
    let buffers = call.buffers.iter().map(|buffer| write_bytes(buffer));
    let buffers: Vec<String> = buffers
        .map(|hex| String::from_utf8_lossy(&hex).into_owned())
        .collect();
    format!(
        "{:?}, numbers {:?}: {what}; lent were\n{}",
        call.function,
        call.numbers,
        buffers.join("\n")
    )
}
