//! The lines that try each edge of the form of the node's words. Bad lines come
//! between operations: the node stays as it was.

use crate::auc_form_lines::{no_numbers, other_fields};
use crate::calls::LONGEST;
use crate::damage::STRANGE;
use crate::node_script::{renew, store, Script, Situation};
use crate::place::Kind::{Triplet, Vector};

/// Lines that are no operation. Those with a count and a batch but no kind were
/// operations before #102.
const BAD_LINES: [&str; 106] = [
    "ask ",
    " ask",
    "ask  ",
    "Ask",
    "ASK",
    "as",
    "asks",
    "ask -",
    "ask 0",
    "ask\r",
    "ask\0",
    "\task",
    "ask\t",
    "again ",
    "again -",
    "agai",
    "reject ",
    "reject 1",
    "timeout ",
    "timeout -",
    "time-out",
    "abandon ",
    "abandon -",
    "abandoned",
    "vlr-new ",
    "vlr-new -",
    "vlr-new 0",
    "vlr_new",
    "vlrnew",
    "vlr",
    "new",
    "answer",
    "answer ",
    "answer  -",
    "answer 0",
    "answer 0g",
    "answer 00 00",
    "answer 0 00000000",
    "answer 1 00000000",
    "answer - ",
    "answer -\r",
    "Answer -",
    "sync",
    "sync ",
    "sync 0",
    "sync 0A",
    "sync - -",
    "sync 0 -",
    "sync  -",
    "store",
    "store ",
    "store 0",
    "store 0 1",
    "store 0 1 ",
    "store 0 1 0",
    "store 1 1",
    "store 1 -",
    "store -",
    "store - -",
    "store - - -",
    "store 0 - -",
    "store 0 1 - -",
    "store  0 1 -",
    "store 0  1 -",
    "store 0 1  -",
    "store 0 a -",
    "store 0 +1 -",
    "store 0 -1 -",
    "store 0 1.0 -",
    "store 0 0x1 -",
    "store 0 18446744073709551616 -",
    "store 0 000000000000000000001 -",
    "store 1 000000000000000000001 -",
    "store 01 -",
    "store 0-1 -",
    "store 0,1 -",
    "store 1 0 0 -",
    "Store 0 1 -",
    "stores 0 1 -",
    "store0 1 -",
    "renew",
    "renew ",
    "renew 0",
    "renew 0 1",
    "renew 0 1 ",
    "renew 0 1 0",
    "renew 1 1",
    "renew 1 -",
    "renew -",
    "renew - -",
    "renew - - -",
    "renew 0 - -",
    "renew 0 1 - -",
    "renew  0 1 -",
    "renew 0  1 -",
    "renew 0 1  -",
    "renew 0 a -",
    "renew 0 18446744073709551616 -",
    "renew 1 18446744073709551616 -",
    "renew 01 -",
    "Renew 0 1 -",
    "renews 0 1 -",
    "renew1 1 -",
    "triplet 1 -",
    "vectors 1 -",
    "",
];

/// What no kind is.
const NO_KINDS: [&str; 20] = [
    "", "-", "00", "01", "10", "11", "000", "2", "3", "9", "128", "255", "256", "257", "+1", "-1",
    "0x1", "a", "true", "vector",
];

pub fn lines(script: &mut Script) {
    let node = script.node(Situation::Idle, &[Vector, Triplet]);
    script.set(&node);
    for line in BAD_LINES {
        script.push(line.as_bytes());
        if script.random.below(8) == 0 {
            script.words(&["ask", "abandon"]);
            script.set(&node);
        }
    }
    without_kind(script);
    kinds(script);
    every_byte(script);
    fields(script);
    long_lines(script);
}

/// A count and a batch as they were before there were kinds.
fn without_kind(script: &mut Script) {
    for (situation, word) in [(Situation::Idle, "store"), (Situation::Resyncing, "renew")] {
        let node = script.node(situation, &[]);
        for (count, length) in [(0, 0), (1, 72), (1, 28), (2, 144), (6, 1)] {
            script.set(&node);
            let batch = "3c".repeat(length);
            let batch = if batch.is_empty() { "-" } else { &batch };
            script.push(format!("{word} {count} {batch}").as_bytes());
        }
    }
}

/// Whether a line is bad is settled before the call, whatever it would refuse.
fn kinds(script: &mut Script) {
    for (situation, word) in [(Situation::Idle, "store"), (Situation::Resyncing, "renew")] {
        let node = script.node(situation, &[]);
        script.set(&node);
        for kind in NO_KINDS {
            script.push(format!("{word} {kind} 1 {}", "3c".repeat(28)).as_bytes());
            script.push(format!("{word} {kind} 6 -").as_bytes());
        }
        // The one that is right among them changes the node.
        script.push(format!("{word} 1 01 {}", "3c".repeat(28)).as_bytes());
    }
}

fn every_byte(script: &mut Script) {
    for byte in (0..=255).filter(|&byte| byte != b'\n') {
        script.push(&[b"as", &[byte][..]].concat());
        script.push(&[b"answer 0", &[byte][..]].concat());
        script.push(&[b"store ", &[byte][..], b" 1 -"].concat());
    }
    for byte in STRANGE {
        script.push(&[b"renew ", &[*byte][..], b" 1 -"].concat());
        script.push(&[b"renew 1", &[*byte][..], b" 1 -"].concat());
    }
}

/// Each field of a good line spoilt.
fn fields(script: &mut Script) {
    let batch = script.batch(Triplet, 1);
    for (situation, line) in [
        (Situation::Idle, store(Triplet, 1, &batch)),
        (Situation::Resyncing, renew(Triplet, 1, &batch)),
    ] {
        let node = script.node(situation, &[]);
        let mut lines = other_fields(&line);
        lines.extend(no_numbers(&line));
        script.each(&node, &lines);
    }
}

/// Lines about the greatest length, of a right form otherwise.
fn long_lines(script: &mut Script) {
    let short = store(Triplet, 1, &[0]).len() - 2;
    for length in [LONGEST, LONGEST + 2] {
        script.push(&store(Triplet, 1, &vec![0x5a; (length - short) / 2]));
    }
}
