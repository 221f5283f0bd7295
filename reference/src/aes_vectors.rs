//! What `aes_vectors` prints: for each line `KEY PLAINTEXT` the ciphertext.

use crate::aes;
use crate::text::{self, fields, read_hex, write_hex, BAD_LINE};

pub fn answers(input: &[u8]) -> Vec<u8> {
    text::answers(input, answer)
}

/// The answer to one line, without its newline.
pub fn answer(line: &[u8]) -> Vec<u8> {
    ciphertext(line).unwrap_or_else(|| BAD_LINE.to_vec())
}

fn ciphertext(line: &[u8]) -> Option<Vec<u8>> {
    let [key, plaintext] = fields(line)?;
    let block = aes::encrypt(&read_hex(key)?, &read_hex(plaintext)?);
    Some(write_hex(&block))
}
