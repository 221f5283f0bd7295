//! The generated lines for the bench: what they must hold.

use std::collections::BTreeMap;

use reference::bench;
use reference::generate::{bench_files, LONG, PIECE};
use reference::text::lines;

fn file(path: &str) -> Vec<u8> {
    let mut found = bench_files().into_iter().filter(|(p, _)| *p == path);
    found.next().expect("a file of this path").1
}

#[test]
fn the_run_of_document_01_whole() {
    let input = "\
key 0 000102030405060708090a0b0c0d0e0f 00000000000000000000000000000000 0001
order 1 00000000000000000000000000000000
ask
ask
show
";
    let output = "\
key ok
stored 1 held 1
pass 000000000020 left 0
refused 8
auc 1 1 card 1 0
";
    assert_eq!(file("bench/stdin"), input.as_bytes());
    assert_eq!(file("bench/stdout"), output.as_bytes());
}

/// How often each sort of answer is given: its word, and what it is refused
/// for.
fn answers(output: &[u8]) -> BTreeMap<String, usize> {
    let mut counts = BTreeMap::new();
    for line in lines(output) {
        let line = String::from_utf8(line.to_vec()).unwrap();
        let end = match line.starts_with("refused") {
            true => line.len(),
            false => line.find(' ').unwrap_or(line.len()),
        };
        *counts.entry(line[..end].to_string()).or_default() += 1;
    }
    counts
}

/// Card and centre have the same keys and the node holds what the centre made,
/// so that no MAC is wrong, no AUTS either, and no count or length.
#[test]
fn every_answer_is_given_but_those_that_cannot_be() {
    let found = answers(&file("bench_more/stdout"));
    let expected = [
        "auc",
        "bad",
        "kept",
        "key",
        "pass",
        "put",
        "refused 1",
        "refused 4",
        "refused 6",
        "refused 7",
        "refused 8",
        "refused 9",
        "reset",
        "stored",
        "sync",
    ];
    assert!(found.keys().eq(expected));
    assert!(found.values().all(|count| *count >= 25), "{found:?}");
    assert!(found["bad"] >= 2_000 && found["pass"] >= 500);
}

#[test]
fn the_size_the_bytes_and_the_end() {
    let (input, output) = (file("bench_more/stdin"), file("bench_more/stdout"));
    let all = lines(&input);
    assert!(all.len() >= 5_000);
    assert_eq!(all.len(), lines(&output).len());
    assert!(input.len() < 1_500_000 && output.len() < 500_000);
    assert!((0..=255).all(|byte| input.contains(&byte)));
    for length in [0, 1, 511, 512, 513, 514, PIECE, LONG] {
        assert!(all.iter().any(|line| line.len() == length), "{length}");
    }
    assert!(input.ends_with(b"\nshow"));
    assert!(output.ends_with(b"\n"));
    assert!(lines(&output).pop().unwrap().starts_with(b"auc "));
}

#[test]
fn lines_straddle_the_boundaries_of_pieces() {
    let input = file("bench_more/stdin");
    let last = input.len() / PIECE;
    let about = |piece: usize| &input[piece * PIECE - 4..piece * PIECE + 4];
    // Before, at and across.
    assert_eq!(about(last - 2), b"ask\nshow");
    assert_eq!(&about(last - 1)[1..], b"ask\nsho");
    assert_eq!(&about(last)[3..], b"ask\ns");
}

#[test]
fn the_same_bytes_every_time() {
    assert_eq!(bench_files(), bench_files());
    assert_eq!(
        bench::answers(&file("bench_more/stdin")),
        file("bench_more/stdout")
    );
}
