//! The generated files: always the same, and with what they must hold.

use reference::damage::{self, STRANGE};
use reference::generate::{files, NodeLines, LONG, PIECE};
use reference::random::Random;
use reference::text::lines;
use reference::{aes_vectors, function_vectors, published};

const BAD: &[u8] = b"bad line";
const REFUSED: &[u8] = b"refused 1";

/// The input and the answers of one program.
fn generated(program: &str) -> (Vec<u8>, Vec<u8>) {
    let file = |name| {
        let path = format!("{program}/{name}");
        let mut found = files(NodeLines::With)
            .into_iter()
            .filter(|(p, _)| *p == path);
        found.next().expect("a file of this path").1
    };
    (file("stdin"), file("stdout"))
}

fn count(output: &[u8], answer: &[u8]) -> usize {
    lines(output).iter().filter(|line| **line == answer).count()
}

/// The line that holds the byte at this place, and where it starts.
fn line_at(input: &[u8], place: usize) -> (usize, &[u8]) {
    let newline = |b: &u8| *b == b'\n';
    let start = input[..place]
        .iter()
        .rposition(newline)
        .map_or(0, |n| n + 1);
    (start, lines(&input[start..])[0])
}

#[test]
fn the_same_bytes_every_time() {
    assert_eq!(files(NodeLines::With), files(NodeLines::With));
    let names: Vec<_> = files(NodeLines::With)
        .iter()
        .map(|(name, _)| *name)
        .collect();
    let expected = [
        "aes_vectors/stdin",
        "aes_vectors/stdout",
        "function_vectors/stdin",
        "function_vectors/stdout",
        "calls/stdin",
        "calls/stdout",
    ];
    assert_eq!(names, expected);
}

#[test]
fn the_generator_is_splitmix64() {
    let mut random = Random::new(1_234_567);
    assert_eq!(random.draw(), 6_457_827_717_110_365_317);
    assert_eq!(random.draw(), 3_203_168_211_198_807_973);
}

#[test]
fn published_blocks_come_first() {
    let (_, output) = generated("aes_vectors");
    let answers = lines(&output);
    for (v, answer) in published::aes().iter().zip(answers) {
        assert_eq!(answer, v.ciphertext.as_bytes());
    }
}

#[test]
fn published_sets_come_first_and_then_the_sample() {
    let (input, output) = generated("function_vectors");
    let answers = lines(&output);
    for (v, answer) in published::milenage().iter().zip(&answers) {
        let fields = [v.f1, v.f1_star, v.f2, v.f3, v.f4, v.f5, v.f5_star];
        assert_eq!(*answer, fields.join(" ").as_bytes());
    }
    assert!(lines(&input)[20].starts_with(b"0 000102030405060708090a0b0c0d0e0f 0000"));
    assert!(answers[20].starts_with(b"0001020304250606 0001020304250606 0001020304050607 "));
}

#[test]
fn there_are_enough_lines_of_each_sort() {
    for (program, published) in [("aes_vectors", 6), ("function_vectors", 21)] {
        let (input, output) = generated(program);
        let bad = count(&output, BAD);
        let refused = count(&output, REFUSED);
        let all = lines(&output).len();
        assert_eq!(lines(&input).len(), all);
        assert!(bad > 200);
        assert!(all - bad - refused >= 200 + published);
        assert_eq!(refused > 50, program == "function_vectors");
    }
}

#[test]
fn there_are_enough_lines_of_each_set() {
    let (input, output) = generated("function_vectors");
    let lines_of = |set| {
        let both = lines(&input).into_iter().zip(lines(&output));
        both.filter(|(line, answer)| line.first() == Some(&set) && *answer != BAD)
            .count()
    };
    assert!(lines_of(b'0') > 200);
    assert!(lines_of(b'1') > 220);
    assert!((b'2'..=b'9').all(|set| lines_of(set) >= 5));
}

#[test]
fn the_size_and_the_end() {
    for program in ["aes_vectors", "function_vectors"] {
        let (input, output) = generated(program);
        assert!((150_000..400_000).contains(&input.len()));
        assert_ne!(input.last(), Some(&b'\n'));
        assert_eq!(output.last(), Some(&b'\n'));
        let last = lines(&output).pop().unwrap();
        assert!(last != BAD && last != REFUSED);
        assert!(lines(&input).contains(&&b""[..]));
        assert!(lines(&input).iter().any(|line| line.len() == LONG));
    }
}

fn check_boundaries(input: &[u8], length: usize, answer: fn(&[u8]) -> Vec<u8>) {
    let good = |line: &[u8]| line.len() == length && answer(line) != BAD;
    let (start, line) = line_at(input, PIECE);
    assert!(start < PIECE && good(line));
    let (start, line) = line_at(input, 2 * PIECE);
    assert!(start < 2 * PIECE && line.len() == LONG);
    let (start, line) = line_at(input, 3 * PIECE - 1);
    assert!(start + length == 3 * PIECE - 1 && good(line));
    // This line is bad, but its parts before and behind would be good alone.
    let (start, line) = line_at(input, 4 * PIECE);
    assert!(start == 3 * PIECE && line.len() == PIECE + length);
    assert!(answer(line) == BAD && good(&line[..length]) && good(&line[PIECE..]));
    let (start, line) = line_at(input, 5 * PIECE);
    assert!(start + length == 5 * PIECE && good(line));
}

#[test]
fn lines_straddle_the_boundaries_of_pieces() {
    let (aes, _) = generated("aes_vectors");
    check_boundaries(&aes, 65, aes_vectors::answer);
    let (function, _) = generated("function_vectors");
    check_boundaries(&function, 118, function_vectors::answer);
}

#[test]
fn the_inputs_hold_many_byte_values() {
    for program in ["aes_vectors", "function_vectors"] {
        let (input, _) = generated(program);
        assert!((0..=255).all(|byte| input.contains(&byte)));
    }
}

#[test]
fn strange_bytes_are_no_digits() {
    let usual = b"0123456789abcdef \n";
    assert!(STRANGE.iter().all(|byte| !usual.contains(byte)));
}

#[test]
fn every_damage_makes_a_bad_line() {
    let zeros = "0".repeat(32);
    let aes = [
        format!("{zeros} {zeros}"),
        "2b7e151628aed2a6abf7158809cf4f3c 3243f6a8885a308d313198a2e0370734".to_string(),
    ];
    let function =
        ["0", "1", "9"].map(|set| format!("{set} {zeros} {zeros} {zeros} 000000000020 0001"));
    let mut random = Random::new(1);
    for damage in damage::ALL {
        for _ in 0..50 {
            for line in &aes {
                let mut line = line.clone().into_bytes();
                damage(&mut line, &mut random);
                assert_eq!(aes_vectors::answer(&line), BAD);
            }
            for line in &function {
                let mut line = line.clone().into_bytes();
                damage(&mut line, &mut random);
                assert_eq!(function_vectors::answer(&line), BAD);
            }
        }
    }
}
