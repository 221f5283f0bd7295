//! What the two programs print, line by line.

use reference::{aes_vectors, function_vectors};

const KEY: &str = "000102030405060708090a0b0c0d0e0f";
const PLAINTEXT: &str = "00112233445566778899aabbccddeeff";
const CIPHERTEXT: &str = "69c4e0d86a7b0430d8cdb78070b4c55a";
const ZEROS: &str = "00000000000000000000000000000000";
const SAMPLE: &str = "0001020304250606 0001020304250606 0001020304050607 \
                      0102030405060708090a0b0c0d0e0f00 02030405060708090a0b0c0d0e0f0001 \
                      030405060708 030405060708";

fn aes(line: &str) -> String {
    String::from_utf8(aes_vectors::answer(line.as_bytes())).unwrap()
}

fn function(line: &str) -> String {
    String::from_utf8(function_vectors::answer(line.as_bytes())).unwrap()
}

fn function_line(set: &str) -> String {
    format!("{set} {KEY} {ZEROS} {ZEROS} 000000000020 0001")
}

#[test]
fn an_aes_line_gives_the_ciphertext() {
    assert_eq!(aes(&format!("{KEY} {PLAINTEXT}")), CIPHERTEXT);
}

#[test]
fn other_aes_lines_are_bad() {
    let upper = PLAINTEXT.to_uppercase();
    for line in [
        String::new(),
        " ".to_string(),
        KEY.to_string(),
        format!("{KEY} "),
        format!("{KEY}{PLAINTEXT}"),
        format!("{KEY}  {PLAINTEXT}"),
        format!("{KEY}\t{PLAINTEXT}"),
        format!(" {KEY} {PLAINTEXT}"),
        format!("{KEY} {PLAINTEXT} "),
        format!("{KEY} {PLAINTEXT}\r"),
        format!("{KEY} {PLAINTEXT}\0"),
        format!("{KEY} {upper}"),
        format!("{KEY} {PLAINTEXT}0"),
        format!("{KEY}0 {}", &PLAINTEXT[1..]),
        format!("{} 0{PLAINTEXT}", &KEY[1..]),
        format!("{KEY} {PLAINTEXT} {CIPHERTEXT}"),
        format!("{KEY} {}g", &PLAINTEXT[1..]),
    ] {
        assert_eq!(aes(&line), "bad line", "{line:?}");
    }
}

#[test]
fn one_answer_to_each_line() {
    let input = format!("{KEY} {PLAINTEXT}\n\nx\n{KEY} {PLAINTEXT}");
    let output = format!("{CIPHERTEXT}\nbad line\nbad line\n{CIPHERTEXT}\n");
    assert_eq!(aes_vectors::answers(input.as_bytes()), output.as_bytes());
    assert_eq!(aes_vectors::answers(b""), b"");
    assert_eq!(function_vectors::answers(b"\n"), b"bad line\n");
}

#[test]
fn the_sample_of_set_0() {
    assert_eq!(function(&function_line("0")), SAMPLE);
}

#[test]
fn sets_above_1_are_refused() {
    for set in 2..=9 {
        assert_eq!(function(&function_line(&set.to_string())), "refused 1");
    }
}

#[test]
fn a_damaged_line_is_bad_before_it_is_refused() {
    let line = function_line("2");
    assert_eq!(function(&line[..line.len() - 1]), "bad line");
    assert_eq!(function(&line.to_uppercase()), "bad line");
    assert_eq!(function(&format!("{line} ")), "bad line");
}

#[test]
fn the_set_is_one_decimal_digit() {
    for set in ["", "00", "01", "10", "a", "A", "-", "/", ":", "+1"] {
        assert_eq!(function(&function_line(set)), "bad line", "{set:?}");
    }
}

#[test]
fn every_field_of_a_function_line_has_its_length() {
    let good = function_line("1");
    assert_ne!(function(&good), "bad line");
    for place in 0..good.len() {
        let shorter = [&good[..place], &good[place + 1..]].concat();
        assert_eq!(function(&shorter), "bad line");
        let longer = [&good[..place], "0", &good[place..]].concat();
        assert_eq!(function(&longer), "bad line");
    }
}
