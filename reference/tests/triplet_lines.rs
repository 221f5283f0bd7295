//! The generated lines for `triplets`: what they must hold.

use std::collections::BTreeSet;

use reference::calls::{answer, LONGEST};
use reference::triplet_lines::lines;

/// A line of a right form: batch, length and answer, no bytes as no digits.
struct Call {
    batch: String,
    length: usize,
    answer: String,
}

fn calls() -> Vec<Call> {
    let mut calls = Vec::new();
    for line in lines() {
        let answer = String::from_utf8(answer(&line)).unwrap();
        let line = String::from_utf8_lossy(&line).into_owned();
        if let ["triplets", batch, length] = line.split(' ').collect::<Vec<_>>()[..] {
            if answer != "bad line" {
                calls.push(Call {
                    batch: batch.replace('-', ""),
                    length: length.parse().unwrap(),
                    answer,
                });
            }
        }
    }
    calls
}

/// The conversion once more, on numbers.
fn triplet(vector: &str) -> String {
    let number = |from: usize| u64::from_str_radix(&vector[from..from + 16], 16).unwrap();
    let xres = number(32);
    let kc = number(48) ^ number(64) ^ number(80) ^ number(96);
    let sres = (xres >> 32) ^ (xres & 0xffff_ffff);
    format!("{}{sres:08x}{kc:016x}", &vector[..32])
}

#[test]
fn every_answer_follows_from_the_lengths_and_the_bytes() {
    for call in calls() {
        let n = call.batch.len() / 144;
        let whole = call.batch.len() == 144 * n && (1..=5).contains(&n);
        let expected = match whole && call.length == 28 * n {
            true => {
                let vectors = (0..n).map(|place| &call.batch[144 * place..144 * (place + 1)]);
                format!("triplets {}", vectors.map(triplet).collect::<String>())
            }
            false => "refused 3".to_string(),
        };
        assert_eq!(call.answer, expected);
    }
}

#[test]
fn there_are_enough_lines_and_the_same_every_time() {
    assert_eq!(lines(), lines());
    assert!(calls().len() >= 200);
    assert!(lines().iter().map(Vec::len).sum::<usize>() < 125_000);
    assert!(lines().iter().any(|line| line.len() == LONGEST));
    assert!(lines().iter().any(|line| line.len() == LONGEST + 2));
}

#[test]
fn the_sample_and_the_published_sets_come_first() {
    let calls = calls();
    let sample = "triplets 00000000000000000000000000000000040404040000000000000000";
    assert_eq!(calls[0].answer, sample);
    let first = "triplets 23553cbe9637a89d218ae64dae47bf3546f8416aeae4be823af9a08b";
    assert!(calls[1].answer.starts_with(first));
    assert!(calls[1..5].iter().all(|call| call.batch.len() == 720));
}

#[test]
fn batches_and_buffers_of_many_lengths() {
    let calls = calls();
    let batches: BTreeSet<usize> = calls.iter().map(|call| call.batch.len() / 2).collect();
    for length in [
        0, 1, 27, 28, 71, 72, 73, 143, 144, 145, 215, 216, 217, 287, 288, 289, 359, 360, 361, 365,
        432,
    ] {
        assert!(batches.contains(&length), "{length}");
    }
    for n in 0..=6 {
        for length in [0, 28, 56, 84, 112, 140, 168] {
            let fits = |call: &Call| call.batch.len() == 144 * n && call.length == length;
            assert!(calls.iter().any(fits), "{n} {length}");
        }
    }
    for n in 1..=5 {
        for length in [28 * n - 1, 28 * n + 1, 72 * n] {
            let fits = |call: &Call| call.batch.len() == 144 * n && call.length == length;
            assert!(calls.iter().any(fits), "{n} {length}");
        }
    }
    for length in [0, 27, 28, 29, 56, 140, 141, 168, 255, 256, 512] {
        assert!(calls.iter().any(|call| call.length == length), "{length}");
    }
}

/// Each byte of a vector stands alone in one that is zero otherwise.
#[test]
fn each_byte_is_tried_alone() {
    let mut places = BTreeSet::new();
    for call in calls().iter().filter(|call| call.answer != "refused 3") {
        for vector in call.batch.as_bytes().chunks(144) {
            let set: Vec<usize> = (0..72)
                .filter(|byte| &vector[2 * byte..2 * byte + 2] != b"00")
                .collect();
            if let [place] = set[..] {
                places.insert(place);
            }
        }
    }
    assert_eq!(places, (0..72).collect());
}

#[test]
fn bad_lines_are_tried() {
    let all = lines();
    let bad = |line: &str| {
        let found = all.iter().any(|given| given == line.as_bytes());
        found && answer(line.as_bytes()) == b"bad line"
    };
    for line in [
        "triplets",
        "triplets -",
        "triplets - 513",
        "triplets - -",
        "triplets - 0 0",
        "triplets  - 0",
        "triplets 1 - 28",
        "Triplets - 0",
        "triplet - 0",
        "tripletss - 0",
    ] {
        assert!(bad(line), "{line}");
    }
    let count = all.iter().filter(|line| answer(line) == b"bad line");
    assert!(count.count() >= 60);
}
