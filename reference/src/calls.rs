//! What `calls` prints: each line is one public call, a word and its fields.

use crate::functions::Subscriber;
use crate::text::{self, read_hex, read_number, write_hex, BAD_LINE};
use crate::usim::Refusal;
use crate::vlr::Node;
use crate::{auc_calls, handset_calls, usim_calls, vlr_calls};

/// The most bytes that a line may have.
pub const LONGEST: usize = 4_096;

/// The longest buffer that a line lends.
pub const LARGEST_BUFFER: u64 = 512;

pub fn answers(input: &[u8]) -> Vec<u8> {
    let mut node = Node::new();
    text::answers(input, |line| answer_with(&mut node, line))
}

/// The answer to one line, without its newline, where the node is new.
pub fn answer(line: &[u8]) -> Vec<u8> {
    answer_with(&mut Node::new(), line)
}

/// The node is all that is kept from one line to the next.
pub fn answer_with(node: &mut Node, line: &[u8]) -> Vec<u8> {
    match line.len() {
        0..=LONGEST => call(node, line).unwrap_or_else(|| BAD_LINE.to_vec()),
        _ => BAD_LINE.to_vec(),
    }
}

/// All fields are read before a call is made, so that a line of another form is
/// a bad line even where the call would be refused.
fn call(node: &mut Node, line: &[u8]) -> Option<Vec<u8>> {
    let fields: Vec<&[u8]> = line.split(|&b| b == b' ').collect();
    usim_calls::call(&fields)
        .or_else(|| auc_calls::call(&fields))
        .or_else(|| handset_calls::call(&fields))
        .or_else(|| vlr_calls::call(node, &fields))
}

pub fn read_subscriber([set, k, opc]: [&[u8]; 3]) -> Option<Subscriber> {
    Some(Subscriber {
        set: read_small(set)?,
        k: read_hex(k)?,
        opc: read_hex(opc)?,
    })
}

/// A number of at most 255.
pub fn read_small(field: &[u8]) -> Option<u8> {
    read_number(field)?.try_into().ok()
}

/// The length of a buffer to be lent.
pub fn read_length(field: &[u8]) -> Option<usize> {
    let length = read_number(field)?;
    (length <= LARGEST_BUFFER).then_some(length as usize)
}

pub fn write_image(image: &[u8]) -> Vec<u8> {
    [b"image ", &write_hex(image)[..]].concat()
}

pub fn write_refusal(Refusal(number): Refusal) -> Vec<u8> {
    format!("refused {number}").into_bytes()
}
