//! AES-128 as FIPS 197 writes it, by plain byte operations.
//!
//! The byte of row r and column c of the state stands at place r + 4c, so the
//! state has the order of the input bytes.

use std::sync::OnceLock;

use crate::block::{xor, Block};

/// The key length and the block length in words, and the number of rounds.
const NK: usize = 4;
const NB: usize = 4;
const NR: usize = 10;

pub type Word = [u8; 4];
pub type SBox = [u8; 256];
pub type KeySchedule = [Word; NB * (NR + 1)];

/// The product with x, reduced by x^8 + x^4 + x^3 + x + 1.
pub fn xtime(b: u8) -> u8 {
    let reduction = if b & 0x80 != 0 { 0x1b } else { 0 };
    (b << 1) ^ reduction
}

/// The product of two field bytes: the sum of a times each power of x in b.
pub fn multiply(a: u8, b: u8) -> u8 {
    let mut product = 0;
    let mut power = a;
    for i in 0..8 {
        if (b >> i) & 1 == 1 {
            product ^= power;
        }
        power = xtime(power);
    }
    product
}

/// The multiplicative inverse, found by its definition; 0 has none and counts
/// as its own.
pub fn inverse(b: u8) -> u8 {
    (0..=255).find(|&c| multiply(b, c) == 1).unwrap_or(0)
}

/// The affine map of the S-box, bit by bit, with the constant 63.
fn affine(b: u8) -> u8 {
    let bit = |i: usize| (b >> (i % 8)) & 1;
    let mut mapped = 0;
    for i in 0..8 {
        let c = (0x63 >> i) & 1;
        let sum = bit(i) ^ bit(i + 4) ^ bit(i + 5) ^ bit(i + 6) ^ bit(i + 7) ^ c;
        mapped |= sum << i;
    }
    mapped
}

/// The S-box, computed from its rule once and then kept.
pub fn s_box() -> &'static SBox {
    static S_BOX: OnceLock<SBox> = OnceLock::new();
    S_BOX.get_or_init(|| std::array::from_fn(|b| affine(inverse(b as u8))))
}

fn sub_word(word: Word) -> Word {
    word.map(|b| s_box()[usize::from(b)])
}

fn rot_word(word: Word) -> Word {
    [word[1], word[2], word[3], word[0]]
}

/// KeyExpansion. The first byte of the round constant is a power of x, so it
/// is carried along.
pub fn key_expansion(key: &Block) -> KeySchedule {
    let mut w = [[0; 4]; NB * (NR + 1)];
    for i in 0..NK {
        w[i] = [key[4 * i], key[4 * i + 1], key[4 * i + 2], key[4 * i + 3]];
    }
    let mut rcon = 1;
    for i in NK..w.len() {
        let mut temp = w[i - 1];
        if i % NK == 0 {
            temp = xor(&sub_word(rot_word(temp)), &[rcon, 0, 0, 0]);
            rcon = xtime(rcon);
        }
        w[i] = xor(&w[i - NK], &temp);
    }
    w
}

fn sub_bytes(state: &mut Block, s_box: &SBox) {
    for b in state {
        *b = s_box[usize::from(*b)];
    }
}

/// Row r moves r places to the left.
fn shift_rows(state: &mut Block) {
    let old = *state;
    for r in 0..4 {
        for c in 0..NB {
            state[r + 4 * c] = old[r + 4 * ((c + r) % NB)];
        }
    }
}

/// Each column is multiplied by 03 x^3 + 01 x^2 + 01 x + 02.
fn mix_columns(state: &mut Block) {
    let two = xtime;
    let three = |b| xtime(b) ^ b;
    for column in state.chunks_exact_mut(4) {
        let s = [column[0], column[1], column[2], column[3]];
        column[0] = two(s[0]) ^ three(s[1]) ^ s[2] ^ s[3];
        column[1] = s[0] ^ two(s[1]) ^ three(s[2]) ^ s[3];
        column[2] = s[0] ^ s[1] ^ two(s[2]) ^ three(s[3]);
        column[3] = three(s[0]) ^ s[1] ^ s[2] ^ two(s[3]);
    }
}

fn add_round_key(state: &mut Block, round_key: &[Word]) {
    for (b, k) in state.iter_mut().zip(round_key.as_flattened()) {
        *b ^= k;
    }
}

/// AES-128 under one key, expanded once for any number of blocks.
#[derive(Clone)]
pub struct Aes128 {
    s_box: &'static SBox,
    w: KeySchedule,
}

impl Aes128 {
    pub fn new(key: &Block) -> Aes128 {
        Aes128 {
            s_box: s_box(),
            w: key_expansion(key),
        }
    }

    fn round_key(&self, round: usize) -> &[Word] {
        &self.w[NB * round..NB * (round + 1)]
    }

    /// Cipher.
    pub fn encrypt(&self, block: &Block) -> Block {
        let mut state = *block;
        add_round_key(&mut state, self.round_key(0));
        for round in 1..NR {
            sub_bytes(&mut state, self.s_box);
            shift_rows(&mut state);
            mix_columns(&mut state);
            add_round_key(&mut state, self.round_key(round));
        }
        sub_bytes(&mut state, self.s_box);
        shift_rows(&mut state);
        add_round_key(&mut state, self.round_key(NR));
        state
    }
}

/// One block under one key.
pub fn encrypt(key: &Block, block: &Block) -> Block {
    Aes128::new(key).encrypt(block)
}
