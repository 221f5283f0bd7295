//! The bits of a packed image, most significant bit first. Both images begin
//! with the edition, the set, K and OPc.

use crate::block::Block;
use crate::editions::{self, Edition};
use crate::functions::Subscriber;
use crate::usim::{Refusal, BAD_LENGTH, BAD_RECORD};

/// The widths of the fields.
const EDITION: usize = 4;
const SET: usize = 4;
pub const BYTE: usize = 8;

/// The bits of an image as far as it is written.
pub struct Writer {
    bits: Vec<bool>,
}

impl Writer {
    pub fn new(edition: &Edition, subscriber: &Subscriber) -> Writer {
        let mut writer = Writer { bits: Vec::new() };
        writer.push(edition.number.into(), EDITION);
        writer.push(subscriber.set.into(), SET);
        writer.push_bytes(&subscriber.k);
        writer.push_bytes(&subscriber.opc);
        writer
    }

    pub fn push(&mut self, number: u64, width: usize) {
        push(&mut self.bits, number, width);
    }

    pub fn push_bytes(&mut self, bytes: &[u8]) {
        for byte in bytes {
            self.push(u64::from(*byte), BYTE);
        }
    }

    pub fn bytes(&self) -> Vec<u8> {
        let bytes = self.bits.chunks(BYTE);
        bytes.map(|eight| number(eight) as u8).collect()
    }

    /// A buffer of another length stays as it was.
    pub fn copy_to(&self, buffer: &mut [u8]) -> Result<(), Refusal> {
        let bytes = self.bytes();
        if buffer.len() != bytes.len() {
            return Err(BAD_LENGTH);
        }
        buffer.copy_from_slice(&bytes);
        Ok(())
    }
}

/// The bits of some bytes, of which `at` are taken already.
pub struct Reader {
    bits: Vec<bool>,
    at: usize,
}

impl Reader {
    /// An image without bytes is refused first, then an unknown edition,
    /// whatever the length is, and then another length than the edition's.
    pub fn open(
        image: &[u8],
        length: fn(&Edition) -> usize,
    ) -> Result<(&'static Edition, Reader), Refusal> {
        if image.is_empty() {
            return Err(BAD_LENGTH);
        }
        let mut bits = Reader::new(image);
        let edition = editions::of(bits.take(EDITION) as u8).ok_or(BAD_RECORD)?;
        match image.len() == length(edition) {
            true => Ok((edition, bits)),
            false => Err(BAD_LENGTH),
        }
    }

    fn new(bytes: &[u8]) -> Reader {
        let mut bits = Vec::new();
        for byte in bytes {
            push(&mut bits, u64::from(*byte), BYTE);
        }
        Reader { bits, at: 0 }
    }

    pub fn take(&mut self, width: usize) -> u64 {
        let from = self.at;
        self.at += width;
        number(&self.bits[from..self.at])
    }

    pub fn take_byte(&mut self) -> u8 {
        self.take(BYTE) as u8
    }

    /// The set is for the record to judge.
    pub fn take_subscriber(&mut self) -> Subscriber {
        Subscriber {
            set: self.take(SET) as u8,
            k: self.take_block(),
            opc: self.take_block(),
        }
    }

    fn take_block(&mut self) -> Block {
        std::array::from_fn(|_| self.take_byte())
    }
}

fn push(bits: &mut Vec<bool>, number: u64, width: usize) {
    for place in (0..width).rev() {
        bits.push(number >> place & 1 == 1);
    }
}

fn number(bits: &[bool]) -> u64 {
    bits.iter().fold(0, |n, &bit| 2 * n + u64::from(bit))
}
