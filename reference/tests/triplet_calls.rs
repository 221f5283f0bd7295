//! What `calls` prints for triplets, line by line.

use reference::calls::{answer, answers};
use reference::text::lines;

const VECTOR: &str = "0000000000000000000000000000000000010203040506070102030405060708090a0b0c0d\
                      0e0f0002030405060708090a0b0c0d0e0f000103040506072800010001020304250606";
const TRIPLET: &str = "00000000000000000000000000000000040404040000000000000000";

/// Test set 1 of TS 35.208 with an AUTN of ones, and its triplet.
const OTHER: &str = "23553cbe9637a89d218ae64dae47bf35a54211d5e3ba50bfb40ba9a3c58b2a05bbf0d987\
                     b21bf8cbf769bcd751044604127672711c6d344111111111111111111111111111111111";
const OTHER_TRIPLET: &str = "23553cbe9637a89d218ae64dae47bf3546f8416aeae4be823af9a08b";

const Z4: &str = "00000000";
const Z8: &str = "0000000000000000";
const Z16: &str = "00000000000000000000000000000000";

fn call(line: &str) -> String {
    String::from_utf8(answer(line.as_bytes())).unwrap()
}

/// The answers to these lines, one after the other.
fn calls(given: &[&str]) -> Vec<String> {
    let output = answers((given.join("\n") + "\n").as_bytes());
    let text = |line: &[u8]| String::from_utf8(line.to_vec()).unwrap();
    lines(&output).into_iter().map(text).collect()
}

#[test]
fn the_triplets_of_a_batch() {
    let triplets = |batch: &str, length: &str| call(&format!("triplets {batch} {length}"));
    assert_eq!(triplets(VECTOR, "28"), format!("triplets {TRIPLET}"));
    assert_eq!(triplets(OTHER, "0028"), format!("triplets {OTHER_TRIPLET}"));
    let both = format!("triplets {TRIPLET}{OTHER_TRIPLET}");
    assert_eq!(triplets(&format!("{VECTOR}{OTHER}"), "56"), both);
    assert!(triplets(&OTHER.repeat(5), "140").starts_with("triplets "));
    assert_eq!(triplets(&OTHER.repeat(6), "168"), "refused 3");
    for length in ["0", "27", "29", "56", "140", "512"] {
        assert_eq!(triplets(VECTOR, length), "refused 3");
    }
    for batch in ["-", "00", &VECTOR[2..], &format!("{VECTOR}00")] {
        assert_eq!(triplets(batch, "28"), "refused 3");
        assert_eq!(triplets(batch, "0"), "refused 3");
    }
}

#[test]
fn other_forms_are_bad_lines() {
    for line in [
        "triplets".to_string(),
        format!("triplets {VECTOR}"),
        format!("triplets {VECTOR} 513"),
        format!("triplets {VECTOR} 18446744073709551644"),
        format!("triplets {VECTOR} -"),
        format!("triplets {VECTOR} "),
        format!("triplets {VECTOR} 28 "),
        format!("triplets {VECTOR} 28 28"),
        format!("triplets  {VECTOR} 28"),
        format!("triplets {} 28", &VECTOR[1..]),
        format!("Triplets {VECTOR} 28"),
        format!("triplet {VECTOR} 28"),
        format!("store 1 {VECTOR}"),
        format!("store 0 {VECTOR}"),
        format!("renew 1 {VECTOR}"),
        format!("store 00 1 {VECTOR}"),
        format!("store 01 1 {TRIPLET}"),
        format!("store 2 1 {TRIPLET}"),
        format!("store - 1 {TRIPLET}"),
        format!("store  1 {TRIPLET}"),
        format!("renew 2 1 {TRIPLET}"),
        format!("renew 10 1 {TRIPLET}"),
        "store 2 6 -".to_string(),
        "renew 00 6 -".to_string(),
        "store 1 - -".to_string(),
    ] {
        assert_eq!(call(&line), "bad line", "{line}");
    }
}

/// What a node line says but for the places: the outcome, RAND, AUTN, AUTS, CK,
/// IK, KC, the state, the count held and the kind that stands first in OUT.
fn told(line: &str) -> Vec<String> {
    let mut fields: Vec<String> = line.split(' ').map(str::to_string).collect();
    fields.pop();
    let out = fields.pop().unwrap();
    assert_eq!(out.len(), 146);
    fields.push(out[..2].to_string());
    fields
}

#[test]
fn a_run_with_a_triplet() {
    let store = format!("store 1 1 {OTHER_TRIPLET}");
    let vector = format!("store 0 1 {VECTOR}");
    let printed = calls(&[
        &store,
        &vector,
        "ask",
        "sync 0304050607280001020304250607",
        "answer 46f8416aeae4be82",
        "answer 46f8416a",
        "answer 46f8416a",
        "answer 46f8416aeae4be82",
        "ask",
    ]);
    let auts = "0000000000000000000000000000";
    let rand = &OTHER_TRIPLET[..32];
    let autn = "03040506072800010001020304250606";
    for (line, expected) in printed.iter().zip([
        format!("done {Z16} {Z16} {auts} {Z16} {Z16} {Z8} 0 1 00"),
        format!("done {Z16} {Z16} {auts} {Z16} {Z16} {Z8} 0 2 00"),
        format!("done {rand} {Z16} {auts} {Z16} {Z16} {Z8} 1 1 01"),
        format!("refused 7 {Z16} {Z16} {auts} {Z16} {Z16} {Z8} 1 1 01"),
        format!("refused 3 {Z16} {Z16} {auts} {Z16} {Z16} {Z8} 1 1 01"),
        format!("passed {Z16} {Z16} {auts} {Z16} {Z16} eae4be823af9a08b 0 1 00"),
        format!("refused 3 {Z16} {Z16} {auts} {Z16} {Z16} {Z8} 0 1 00"),
        format!("refused 7 {Z16} {Z16} {auts} {Z16} {Z16} {Z8} 0 1 00"),
        format!("done {Z16} {autn} {auts} {Z16} {Z16} {Z8} 1 0 00"),
    ]) {
        assert_eq!(told(line).join(" "), expected);
    }
    // Behind the triplet are 44 zeros, then the vector with its kind.
    let places = format!("01{OTHER_TRIPLET}{}00{VECTOR}", "0".repeat(88));
    assert!(printed[1].ends_with(&format!(" {places}")));
    let out = format!(" 01{OTHER_TRIPLET}{} 00{VECTOR}", "0".repeat(88));
    assert!(printed[2].ends_with(&out));
}

#[test]
fn records_with_kinds() {
    let out = "0".repeat(146);
    let ask = |record: &str| told(&calls(&[record, "ask"])[1]).join(" ");
    for (record, outcome) in [
        (format!("vlr-record 0 1 {out} 01{OTHER_TRIPLET}"), "done"),
        (
            format!("vlr-record 0 1 {out} 01{OTHER_TRIPLET}{Z4}01"),
            "refused 1",
        ),
        (format!("vlr-record 0 1 {out} 02"), "refused 1"),
        (format!("vlr-record 0 0 {out} 01"), "refused 1"),
        (format!("vlr-record 0 1 01{} -", &out[2..]), "refused 1"),
        (format!("vlr-record 0 2 {out} 01"), "done"),
    ] {
        assert!(ask(&record).starts_with(outcome), "{record}");
    }
    let most = format!(
        "vlr-record 0 16 {out} {}",
        format!("01{}", &out[2..]).repeat(16)
    );
    assert!(ask(&most).starts_with("done"));
    for line in [
        format!("{most}00"),
        format!("vlr-record 0 0 {} -", &out[2..]),
        format!("vlr-record 0 0 {out}00 -"),
    ] {
        assert_eq!(call(&line), "bad line");
    }
}
