//! Ways to spoil a well-formed line, so that each result is a bad line.

// All ways have one type, also those that keep the length of the line.
#![allow(clippy::ptr_arg)]

use crate::random::Random;

/// Bytes that are neither a lower-case hex digit, a space nor a newline: the
/// neighbours of the digits, what looks like a digit or a space, and digits
/// with a bit turned over.
pub const STRANGE: &[u8] = b"\0\t\x0b\x0c\r\x10\x1f!+,-./:;@AFGZ_`ghxz\x7f\x80\xa0\xb0\xb9\xe1\xff";

pub type Damage = fn(&mut Vec<u8>, &mut Random);

pub const ALL: [Damage; 14] = [
    upper_case,
    missing_space,
    doubled_space,
    tab_for_space,
    moved_space,
    leading_space,
    trailing_space,
    carriage_return,
    trailing_nul,
    one_digit_fewer,
    one_digit_more,
    strange_byte,
    one_field_more,
    no_spaces,
];

/// The places of the spaces, or those of everything else.
pub fn places(line: &[u8], spaces: bool) -> Vec<usize> {
    (0..line.len())
        .filter(|&place| (line[place] == b' ') == spaces)
        .collect()
}

fn space(line: &[u8], random: &mut Random) -> usize {
    random.one_of(&places(line, true))
}

fn digit(line: &[u8], random: &mut Random) -> usize {
    random.one_of(&places(line, false))
}

/// One letter is made upper case; a line without letters gets one.
fn upper_case(line: &mut Vec<u8>, random: &mut Random) {
    let letters: Vec<usize> = (0..line.len())
        .filter(|&place| line[place].is_ascii_lowercase())
        .collect();
    if letters.is_empty() {
        let place = digit(line, random);
        line[place] = b'A';
    } else {
        line[random.one_of(&letters)].make_ascii_uppercase();
    }
}

fn missing_space(line: &mut Vec<u8>, random: &mut Random) {
    line.remove(space(line, random));
}

fn doubled_space(line: &mut Vec<u8>, random: &mut Random) {
    line.insert(space(line, random), b' ');
}

fn tab_for_space(line: &mut Vec<u8>, random: &mut Random) {
    let place = space(line, random);
    line[place] = b'\t';
}

/// One field is a digit short and the next a digit long: the length of the
/// line is right all the same.
fn moved_space(line: &mut Vec<u8>, random: &mut Random) {
    let place = space(line, random);
    line.swap(place, place - 1);
}

fn leading_space(line: &mut Vec<u8>, _: &mut Random) {
    line.insert(0, b' ');
}

fn trailing_space(line: &mut Vec<u8>, _: &mut Random) {
    line.push(b' ');
}

fn carriage_return(line: &mut Vec<u8>, _: &mut Random) {
    line.push(b'\r');
}

fn trailing_nul(line: &mut Vec<u8>, _: &mut Random) {
    line.push(0);
}

fn one_digit_fewer(line: &mut Vec<u8>, random: &mut Random) {
    line.remove(digit(line, random));
}

fn one_digit_more(line: &mut Vec<u8>, random: &mut Random) {
    line.insert(digit(line, random), b'0');
}

fn strange_byte(line: &mut Vec<u8>, random: &mut Random) {
    let place = digit(line, random);
    line[place] = random.one_of(STRANGE);
}

fn one_field_more(line: &mut Vec<u8>, random: &mut Random) {
    let field = random.digits(32);
    line.push(b' ');
    line.extend(field);
}

fn no_spaces(line: &mut Vec<u8>, _: &mut Random) {
    line.retain(|&b| b != b' ');
}
