//! The inputs with which the two implementations are compared, and this
//! program's answers to them. They are the same bytes at every run.

use std::collections::VecDeque;

use crate::damage::{self, places, STRANGE};
use crate::editions::EDITION_1;
use crate::random::Random;
use crate::{aes_vectors, bench, calls, function_vectors, published};
use crate::{auc_form_lines, auc_image_lines, batch_lines, bench_lines, edition_lines, node_lines};
use crate::{call_lines, challenge_lines, form_lines, handset_lines, image_lines, triplet_lines};

/// The size of the pieces in which a program may read its input. Lines are
/// laid across the boundaries between such pieces on purpose.
pub const PIECE: usize = 65_536;

/// The length of the longest line.
pub const LONG: usize = 70_000;

/// What the lines of one program look like: those that have outputs, all of
/// one length, and those that are well formed, which may be refused; and the
/// lines that try each edge of the rules. One line in `mixing` is a random one
/// as long as there are edges left.
struct Shape {
    seed: u64,
    length: usize,
    mixing: usize,
    good: fn(&mut Random) -> Vec<u8>,
    well_formed: fn(&mut Random) -> Vec<u8>,
    edges: fn(&Shape, &mut Random) -> Vec<Vec<u8>>,
}

const AES: Shape = Shape {
    seed: 197,
    length: 65,
    mixing: 3,
    good: aes_line,
    well_formed: aes_line,
    edges: edge_lines,
};

const FUNCTION: Shape = Shape {
    seed: 35_206,
    length: 118,
    mixing: 3,
    good: |random| {
        let set = random.one_of(b"01");
        function_line(set, random)
    },
    well_formed: |random| {
        let set = match random.below(8) {
            0 => random.one_of(b"23456789"),
            _ => random.one_of(b"01"),
        };
        function_line(set, random)
    },
    edges: edge_lines,
};

const CALLS: Shape = Shape {
    seed: 33_102,
    length: call_lines::CHALLENGE_LENGTH,
    mixing: 10,
    good: call_lines::good,
    well_formed: call_lines::well_formed,
    edges: |_, random| {
        let mut lines = challenge_lines::edges(&EDITION_1, random);
        lines.extend(image_lines::edges(&EDITION_1, random));
        lines.extend(form_lines::edges(random));
        lines
    },
};

fn aes_line(random: &mut Random) -> Vec<u8> {
    [32, 32].map(|count| random.field(count)).join(&b' ')
}

fn function_line(set: u8, random: &mut Random) -> Vec<u8> {
    let fields = [32, 32, 32, 12, 4].map(|count| random.field(count));
    [&[set, b' '], &fields.join(&b' ')[..]].concat()
}

/// Whether the calls have lines for the node.
#[derive(Clone, Copy, PartialEq, Eq)]
pub enum NodeLines {
    With,
    Without,
}

/// Every file, by its path below the chosen folder.
pub fn files(node_lines: NodeLines) -> Vec<(&'static str, Vec<u8>)> {
    let aes = input(&AES, aes_published());
    let function = input(&FUNCTION, function_published());
    let calls = calls_input(node_lines);
    let aes_answers = aes_vectors::answers(&aes);
    let function_answers = function_vectors::answers(&function);
    let calls_answers = calls::answers(&calls);
    vec![
        ("aes_vectors/stdin", aes),
        ("aes_vectors/stdout", aes_answers),
        ("function_vectors/stdin", function),
        ("function_vectors/stdout", function_answers),
        ("calls/stdin", calls),
        ("calls/stdout", calls_answers),
    ]
}

/// The files of the bench, likewise.
pub fn bench_files() -> Vec<(&'static str, Vec<u8>)> {
    let (run, more) = (bench_lines::run(), bench_lines::more());
    let (run_answers, more_answers) = (bench::answers(&run), bench::answers(&more));
    vec![
        ("bench/stdin", run),
        ("bench/stdout", run_answers),
        ("bench_more/stdin", more),
        ("bench_more/stdout", more_answers),
    ]
}

fn aes_published() -> Vec<String> {
    published::aes()
        .iter()
        .map(|v| format!("{} {}", v.key, v.plaintext))
        .collect()
}

/// The sets of TS 35.208, then the sample of the bench run.
fn function_published() -> Vec<String> {
    let sets = published::milenage();
    let lines = sets
        .iter()
        .map(|v| format!("1 {} {} {} {} {}", v.k, v.opc, v.rand, v.sqn, v.amf));
    let zeros = "0".repeat(32);
    let sample = format!("0 000102030405060708090a0b0c0d0e0f {zeros} {zeros} 000000000020 0001");
    lines.chain([sample]).collect()
}

fn input(shape: &Shape, published: Vec<String>) -> Vec<u8> {
    let mut input = Input::new(shape);
    for line in published {
        input.push(line.as_bytes());
    }
    // A good line with the boundary within a field.
    input.fill_to(PIECE - 20);
    input.push_good();
    let digits = input.random.digits(LONG);
    input.push(&digits);
    // A good line whose newline is the last byte of a piece. The line after it
    // takes that whole piece, and its rest in the next one looks good alone.
    input.fill_to(3 * PIECE - shape.length - 1);
    input.push_good();
    let two_ends = two_ends(shape, PIECE, &mut input.random);
    input.push(&two_ends);
    // A good line whose newline is the first byte of a piece.
    input.fill_to(5 * PIECE - shape.length);
    input.push_good();
    input.finish()
}

/// Calls are long: to leave room for them only one line takes a whole piece.
fn calls_input(node_lines: NodeLines) -> Vec<u8> {
    let length = CALLS.length;
    let mut input = Input::new(&CALLS);
    for line in challenge_lines::published(&EDITION_1) {
        input.push(&line);
    }
    // A good line with the boundary within a field.
    input.fill_to(PIECE - 20);
    input.push_good();
    // The longest line takes the next boundary, and its rest behind the one
    // after that looks good alone.
    input.fill_to(3 * PIECE + length - LONG);
    let two_ends = two_ends(&CALLS, LONG - length, &mut input.random);
    input.push(&two_ends);
    // Good lines whose newlines are the last byte of a piece and the first.
    input.fill_to(4 * PIECE - length - 1);
    input.push_good();
    input.fill_to(5 * PIECE - length);
    input.push_good();
    input.due.extend(centre_lines());
    if node_lines == NodeLines::With {
        input.due.extend(node_lines::lines());
    }
    input.due.extend(handset_lines::lines());
    input.due.extend(edition_lines::lines());
    input.finish()
}

/// The lines for the centre, which come after those for the card. They have
/// random numbers of their own, and so have those for triplets, the node, the
/// handset and the editions.
fn centre_lines() -> Vec<Vec<u8>> {
    let mut random = Random::new(33_103);
    let mut lines = batch_lines::published(&EDITION_1, &mut random);
    lines.extend(batch_lines::edges(&EDITION_1, &mut random));
    lines.extend(auc_image_lines::edges(&EDITION_1, &mut random));
    lines.extend(auc_image_lines::vectors(&mut random));
    lines.extend(auc_form_lines::edges(&mut random));
    lines.extend(triplet_lines::lines());
    lines
}

/// The input as far as it is written, and the lines that are still to come.
struct Input<'a> {
    shape: &'a Shape,
    random: Random,
    bytes: Vec<u8>,
    due: VecDeque<Vec<u8>>,
}

impl Input<'_> {
    fn new(shape: &Shape) -> Input<'_> {
        let mut random = Random::new(shape.seed);
        Input {
            due: (shape.edges)(shape, &mut random).into(),
            shape,
            random,
            bytes: Vec::new(),
        }
    }

    fn push(&mut self, line: &[u8]) {
        self.bytes.extend(line);
        self.bytes.push(b'\n');
    }

    fn push_good(&mut self) {
        let line = (self.shape.good)(&mut self.random);
        self.push(&line);
    }

    /// Most often one of the lines that are due, else a mixed one.
    fn next_line(&mut self) -> Vec<u8> {
        if self.random.below(self.shape.mixing) > 0 {
            if let Some(line) = self.due.pop_front() {
                return line;
            }
        }
        mixed_line(self.shape, &mut self.random)
    }

    /// Lines until the input has exactly this length. The last of them is made
    /// to measure, of digits alone.
    fn fill_to(&mut self, length: usize) {
        while self.bytes.len() < length {
            let room = length - self.bytes.len() - 1;
            let line = self.next_line();
            if line.len() <= room {
                self.push(&line);
            } else {
                self.due.push_front(line);
                let digits = self.random.digits(room);
                self.push(&digits);
            }
        }
    }

    /// A few lines more, and a good one with no newline after it.
    fn finish(mut self) -> Vec<u8> {
        while let Some(line) = self.due.pop_front() {
            self.push(&line);
        }
        self.push(b"");
        let last = (self.shape.good)(&mut self.random);
        self.bytes.extend(last);
        self.bytes
    }
}

/// A well-formed line, one in five of them damaged.
fn mixed_line(shape: &Shape, random: &mut Random) -> Vec<u8> {
    let mut line = (shape.well_formed)(random);
    if random.below(5) == 0 {
        random.one_of(&damage::ALL)(&mut line, random);
    }
    line
}

/// A line with a good line at both ends and digits between: what is left of it
/// after a number of bytes looks good.
fn two_ends(shape: &Shape, before: usize, random: &mut Random) -> Vec<u8> {
    let mut line = (shape.good)(random);
    line.extend(random.digits(before - shape.length));
    line.extend((shape.good)(random));
    line
}

/// The lines that try each edge of the rules.
fn edge_lines(shape: &Shape, random: &mut Random) -> Vec<Vec<u8>> {
    let mut lines = Vec::new();
    lines.extend(every_byte(shape, random));
    lines.extend(strange_separators(shape, random));
    lines.extend(each_place(shape, random));
    lines.extend(each_damage(shape, random));
    lines.extend(each_length(shape, random));
    lines
}

/// Every byte value that a line can hold, once at the first place, where
/// `function_vectors` has the set, and once at one of the others.
fn every_byte(shape: &Shape, random: &mut Random) -> Vec<Vec<u8>> {
    let mut lines = Vec::new();
    for byte in (0..=255).filter(|&b| b != b'\n') {
        let mut first = (shape.good)(random);
        first[0] = byte;
        lines.push(first);
        let mut other = (shape.good)(random);
        let digits = places(&other, false);
        other[digits[1 + usize::from(byte) % (digits.len() - 1)]] = byte;
        lines.push(other);
    }
    lines
}

/// Every strange byte in place of a space, each space in turn.
fn strange_separators(shape: &Shape, random: &mut Random) -> Vec<Vec<u8>> {
    let mut lines = Vec::new();
    for (turn, &byte) in STRANGE.iter().enumerate() {
        let mut line = (shape.good)(random);
        let spaces = places(&line, true);
        line[spaces[turn % spaces.len()]] = byte;
        lines.push(line);
    }
    lines
}

/// A strange byte at each place of a well-formed line.
fn each_place(shape: &Shape, random: &mut Random) -> Vec<Vec<u8>> {
    let mut lines = Vec::new();
    for place in 0..shape.length {
        let mut line = (shape.well_formed)(random);
        line[place] = random.one_of(STRANGE);
        lines.push(line);
    }
    lines
}

/// Each way of damage, several times over.
fn each_damage(shape: &Shape, random: &mut Random) -> Vec<Vec<u8>> {
    let mut lines = Vec::new();
    for _ in 0..6 {
        for damage in damage::ALL {
            let mut line = (shape.well_formed)(random);
            damage(&mut line, random);
            lines.push(line);
        }
    }
    lines
}

/// Every part of a good line from its start, the empty one too; then lines of
/// digits, and lines with two good ends, of lengths at which a count might
/// wrap or a buffer end.
fn each_length(shape: &Shape, random: &mut Random) -> Vec<Vec<u8>> {
    let mut lines = Vec::new();
    for length in 0..shape.length {
        let mut line = (shape.good)(random);
        line.truncate(length);
        lines.push(line);
    }
    for length in [
        64, 65, 66, 117, 118, 119, 255, 256, 257, 511, 512, 513, 1_024, 4_096,
    ] {
        lines.push(random.digits(length));
    }
    for before in [128, 256, 512, 1_024, 4_096] {
        lines.push(two_ends(shape, before, random));
    }
    lines
}
