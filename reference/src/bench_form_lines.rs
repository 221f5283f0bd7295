//! The bench's lines that try each edge of a line's form.

use crate::bench::LONGEST;
use crate::bench_lines::Script;
use crate::damage;
use crate::form_lines::NO_NUMBERS;
use crate::generate::{LONG, PIECE};

pub fn push(script: &mut Script) {
    sets(script);
    bad_lines(script);
    every_byte(script);
    script.key(1);
    script.order(4);
    long_lines(script);
    good_ends(script);
    greatest_lengths(script);
    script.all(&["show", "ask", "ask", "ask", "ask", "ask"]);
}

/// A set is one digit; above 1 it is refused.
fn sets(script: &mut Script) {
    let texts = [
        "0", "1", "2", "3", "4", "5", "6", "7", "8", "9", "00", "01", "02", "10", "11", "a", "f",
        "A", "-", "", "+1", "-1", "/", ":", " 1",
    ];
    for text in texts {
        let line = script.key_line(0);
        script.order(1);
        script.say(&format!("key {text}{}", &line[5..]));
        script.say("show");
    }
}

/// Every malformed form with vectors held, for each set, and after a failure.
fn bad_lines(script: &mut Script) {
    for turn in 0..3 {
        match turn {
            0 => script.key(0),
            1 => script.fall_out(0, 70, 1),
            _ => script.key(1),
        }
        script.order(5);
        for (place, line) in malformed(script).into_iter().enumerate() {
            script.push(&line);
            if place % 16 == 0 {
                script.say("show");
            }
        }
        for line in damaged(script) {
            script.push(&line);
            script.say("show");
        }
    }
}

/// A good line of each word.
fn one_of_each(script: &mut Script) -> Vec<Vec<u8>> {
    let mut lines = vec![b"ask".to_vec(), b"show".to_vec(), b"put 12 3".to_vec()];
    lines.push(script.key_line(1).into_bytes());
    for (word, n) in [("order", 1), ("order", 3), ("resync", 1), ("resync", 5)] {
        lines.push(format!("{word} {}", script.rands(n)).into_bytes());
    }
    lines
}

/// Each field left out, empty, doubled, a digit short, a digit long, in upper
/// case, with a strange byte at its end, and with what no number is; then
/// spaces and others around the whole. A few of these lines are good all the
/// same.
pub fn malformed(script: &mut Script) -> Vec<Vec<u8>> {
    let mut lines = Vec::new();
    for line in one_of_each(script) {
        let fields: Vec<&[u8]> = line.split(|&b| b == b' ').collect();
        for place in 0..fields.len() {
            for other in other_fields(fields[place]) {
                let parts = [&fields[..place], &other, &fields[place + 1..]];
                lines.push(parts.concat().join(&b' '));
            }
        }
        for (before, after) in [
            ("", " "),
            (" ", ""),
            ("  ", ""),
            ("", "  "),
            ("", "\r"),
            ("", "\0"),
            ("", "\t"),
            ("\t", ""),
            ("\0", ""),
            ("", " 0"),
            ("", " -"),
            ("\u{feff}", ""),
            ("", ";"),
        ] {
            lines.push([before.as_bytes(), &line, after.as_bytes()].concat());
        }
        let text = String::from_utf8(line).expect("digits and words");
        lines.push(text.replace(' ', "  ").into_bytes());
        lines.push(text.replace(' ', "\t").into_bytes());
    }
    lines.extend(counts(script));
    lines
}

fn other_fields(field: &[u8]) -> Vec<Vec<&[u8]>> {
    let mut others: Vec<Vec<&[u8]>> = vec![
        vec![],
        vec![b""],
        vec![b"-"],
        vec![field, field],
        vec![&field[1..]],
        vec![&field[..field.len() - 1]],
        vec![b"0000000000000000000000000000000g"],
        vec![b"0123456789ABCDEF0123456789ABCDEF"],
        vec![b"000000000000000000000000000000000"],
        vec![b"0000000000000000000000000000000000"],
    ];
    if field.len() < 4 {
        others.extend(NO_NUMBERS.map(|text| vec![text.as_bytes()]));
    }
    others
}

/// Every count with every number of RANDs, where the two do not agree.
fn counts(script: &mut Script) -> Vec<Vec<u8>> {
    let mut lines = Vec::new();
    let rands = script.rands(8);
    let rands: Vec<&str> = rands.split(' ').skip(1).collect();
    for word in ["order", "resync"] {
        for count in [
            "0", "1", "2", "5", "6", "7", "9", "01", "05", "10", "a", "+1", "-1",
        ] {
            for n in [0, 1, 2, 5, 6] {
                if count.parse() != Ok(n) || !(1..=5).contains(&n) {
                    let fields = [&[word, count], &rands[..n]].concat();
                    lines.push(fields.join(" ").into_bytes());
                }
            }
        }
    }
    lines
}

/// Each way of damage to each word that has fields.
pub fn damaged(script: &mut Script) -> Vec<Vec<u8>> {
    let mut lines = Vec::new();
    for damage in damage::ALL {
        for mut line in one_of_each(script) {
            if line.contains(&b' ') {
                damage(&mut line, &mut script.random);
                lines.push(line);
            }
        }
    }
    lines
}

/// Every byte value that a line can hold, at places of each sort.
fn every_byte(script: &mut Script) {
    script.fall_out(0, 30, 0);
    for byte in (0..=255).filter(|&byte| byte != b'\n') {
        let key = script.key_line(byte % 2).into_bytes();
        let order = format!("order {}", script.rands(2)).into_bytes();
        for (line, place) in [
            (b"show".to_vec(), usize::from(byte) % 4),
            (b"put 7 7".to_vec(), 4),
            (b"put 7 7".to_vec(), 3 + usize::from(byte) % 2 * 2),
            (key.clone(), 4),
            (key, 6 + usize::from(byte) % 69),
            (order.clone(), 6),
            (order, 7 + usize::from(byte) % 66),
        ] {
            let mut line = line;
            line[place] = byte;
            script.push(&line);
        }
        if byte % 8 == 0 {
            script.say("show");
        }
    }
}

/// Lines about the greatest length and far past it, some with a good beginning
/// or a good end.
fn long_lines(script: &mut Script) {
    for length in [
        255, 256, 257, 509, 510, 511, 512, 513, 514, 515, 767, 768, 1_023, 1_024, 1_025, 4_096,
        8_192,
    ] {
        let digits = script.random.digits(length);
        script.push(&digits);
        script.push(&vec![b' '; length]);
        let mut show = b"show".to_vec();
        show.resize(length, b' ');
        script.push(&show);
        show.rotate_left(4);
        script.push(&show);
        script.say("show");
    }
    for length in [PIECE - 1, PIECE, LONG] {
        let digits = script.random.digits(length);
        script.push(&digits);
    }
}

/// Lines of which the rest after so many bytes looks good.
fn good_ends(script: &mut Script) {
    for before in [
        255, 256, 508, 509, 511, 512, 513, 514, 1_024, 1_025, 4_096, PIECE,
    ] {
        let mut line = script.random.digits(before);
        line.extend(b"ask");
        script.push(&line);
        let mut line = b"ask".repeat(200);
        line.truncate(before);
        script.push(&line);
        script.say("show");
    }
}

/// Bytes of each sort, and fields that are too long, up to the greatest length.
fn greatest_lengths(script: &mut Script) {
    for length in [LONGEST - 1, LONGEST, LONGEST + 1, LONGEST + 2] {
        for byte in [0, 0xff, b'\r', b'k', b'9'] {
            script.push(&vec![byte; length]);
        }
        let mut order = format!("order {}", script.rands(5)).into_bytes();
        order.resize(length, b'0');
        script.push(&order);
        let mut put = b"put ".to_vec();
        put.resize(length - 2, b'0');
        put.extend(b" 0");
        script.push(&put);
    }
}

/// A program may read its input in pieces: a newline is the last byte of one, a
/// newline is the first byte of one, and a line lies across.
pub fn boundaries(script: &mut Script) {
    script.key(0);
    script.order(5);
    for before in [4, 3, 1] {
        let end = (script.bytes.len() / PIECE + 1) * PIECE;
        let room = end - script.bytes.len();
        let digits = script.random.digits(room - before - 1);
        script.push(&digits);
        script.all(&["ask", "show"]);
    }
}
