//! AES-128 against FIPS 197.

use reference::aes::{encrypt, inverse, key_expansion, multiply, s_box, xtime, Aes128, Word};
use reference::published::{self, AES_FILE};
use reference::text::{read_hex, write_hex};

fn block(hex: &str) -> [u8; 16] {
    read_hex(hex.as_bytes()).expect("a block in hex")
}

#[test]
fn every_published_block() {
    let vectors = published::aes();
    assert_eq!(vectors.len(), 6);
    for v in vectors {
        let ciphertext = encrypt(&block(v.key), &block(v.plaintext));
        assert_eq!(ciphertext, block(v.ciphertext));
    }
}

#[test]
fn one_expanded_key_serves_many_blocks() {
    let vectors = published::aes();
    let cipher = Aes128::new(&block(vectors[0].key));
    let same_key = vectors.iter().filter(|v| v.key == vectors[0].key);
    let right = same_key
        .filter(|v| cipher.encrypt(&block(v.plaintext)) == block(v.ciphertext))
        .count();
    assert_eq!(right, 5);
}

/// The two comment lines of the vector file that hold four words each.
fn appendix_a1() -> Vec<Word> {
    let comments = AES_FILE.lines().filter_map(|line| line.strip_prefix("# "));
    comments
        .map(|line| line.split(' ').collect::<Vec<_>>())
        .filter(|words| words.len() == 4 && words.iter().all(|w| w.len() == 8))
        .flatten()
        .map(|word| read_hex(word.as_bytes()).unwrap())
        .collect()
}

#[test]
fn key_expansion_of_appendix_a1() {
    let w = key_expansion(&block("2b7e151628aed2a6abf7158809cf4f3c"));
    let words = appendix_a1();
    assert_eq!(words.len(), 8);
    assert_eq!(w.len(), 44);
    assert_eq!(w[4..8], words[..4]);
    assert_eq!(w[40..44], words[4..]);
}

#[test]
fn the_first_words_are_the_key() {
    let key = block("000102030405060708090a0b0c0d0e0f");
    assert_eq!(key_expansion(&key)[..4].as_flattened(), key);
}

#[test]
fn field_products_of_the_standard() {
    assert_eq!(multiply(0x57, 0x83), 0xc1);
    assert_eq!(multiply(0x57, 0x13), 0xfe);
    assert_eq!(xtime(0x57), 0xae);
    assert_eq!(xtime(0xae), 0x47);
    for a in 0..=255 {
        assert_eq!(multiply(a, 1), a);
        assert_eq!(multiply(a, 0), 0);
        assert_eq!(multiply(a, 2), xtime(a));
    }
}

#[test]
fn every_byte_but_zero_has_an_inverse() {
    assert_eq!(inverse(0), 0);
    for a in 1..=255 {
        assert_eq!(multiply(a, inverse(a)), 1);
    }
}

#[test]
fn s_box_spots() {
    assert_eq!(s_box()[0], 0x63);
    assert_eq!(s_box()[1], 0x7c);
    assert_eq!(s_box()[0x53], 0xed);
    assert_eq!(s_box()[0xff], 0x16);
}

#[test]
fn the_s_box_holds_every_byte_once() {
    let mut bytes = s_box().to_vec();
    bytes.sort();
    assert_eq!(bytes, (0..=255).collect::<Vec<u8>>());
}

#[test]
fn blocks_come_back_in_hex() {
    let vector = &published::aes()[1];
    let ciphertext = encrypt(&block(vector.key), &block(vector.plaintext));
    assert_eq!(write_hex(&ciphertext), vector.ciphertext.as_bytes());
}
