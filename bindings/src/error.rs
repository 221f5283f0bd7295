//! What a call that is not done says.

use std::fmt;

use crate::header::*;

/// A refusal, or the verdict of a card that does not accept. A refusal leaves
/// every buffer, images among them, octet for octet as it was.
#[derive(Clone, Copy, Debug, PartialEq, Eq)]
pub enum Error {
    /// Refusal 1: unknown edition or function set.
    BadImage,
    /// Refusal 2: more than five vectors.
    BadCount,
    /// Refusal 3: a buffer of another size than named, or a vector past the
    /// batch.
    BadSize,
    /// Refusal 4: two RANDs of one batch are equal. The places, from 0, of the
    /// earliest such pair.
    EqualRands { first: u8, second: u8 },
    /// Refusal 5: SEQ_HE is out of range and MAC-S is wrong.
    BadMacS,
    /// Refusal 6: the last SEQ would pass its limit.
    PastLimit,
    /// Cause 20: the MAC is wrong; the card gives nothing.
    MacFailure,
    /// Cause 21: the SQN is not fresh; the card gives AUTS.
    SynchFailure,
}

impl Error {
    /// The library's number and the value that goes with it.
    pub(crate) fn of(number: u8, value: u64) -> Error {
        match (number, value) {
            (BAD_IMAGE, 0) => Error::BadImage,
            (BAD_COUNT, 0) => Error::BadCount,
            (BAD_SIZE, 0) => Error::BadSize,
            (EQUAL_RANDS, 0..=0xffff) => Error::EqualRands {
                first: value as u8,
                second: (value >> 8) as u8,
            },
            (BAD_MAC_S, 0) => Error::BadMacS,
            (PAST_LIMIT, 0) => Error::PastLimit,
            (MAC_FAILURE, 0) => Error::MacFailure,
            (SYNCH_FAILURE, 0) => Error::SynchFailure,
            _ => panic!("the header has no number {number} with the value {value}"),
        }
    }

    /// The number that the header has for it.
    pub fn number(self) -> u8 {
        match self {
            Error::BadImage => BAD_IMAGE,
            Error::BadCount => BAD_COUNT,
            Error::BadSize => BAD_SIZE,
            Error::EqualRands { .. } => EQUAL_RANDS,
            Error::BadMacS => BAD_MAC_S,
            Error::PastLimit => PAST_LIMIT,
            Error::MacFailure => MAC_FAILURE,
            Error::SynchFailure => SYNCH_FAILURE,
        }
    }

    /// The two verdicts are no refusals: the card has answered.
    pub fn is_refusal(self) -> bool {
        !matches!(self, Error::MacFailure | Error::SynchFailure)
    }
}

impl fmt::Display for Error {
    fn fmt(&self, out: &mut fmt::Formatter) -> fmt::Result {
        match self {
            Error::BadImage => write!(out, "unknown edition or function set"),
            Error::BadCount => write!(out, "more than {LARGEST_BATCH} vectors"),
            Error::BadSize => write!(out, "a buffer of another size, or a vector past the batch"),
            Error::EqualRands { first, second } => {
                write!(out, "the RANDs at places {first} and {second} are equal")
            }
            Error::BadMacS => write!(out, "SEQ_HE is out of range and MAC-S is wrong"),
            Error::PastLimit => write!(out, "the last SEQ would pass its limit"),
            Error::MacFailure => write!(out, "MAC failure"),
            Error::SynchFailure => write!(out, "synchronisation failure"),
        }
    }
}

impl std::error::Error for Error {}
