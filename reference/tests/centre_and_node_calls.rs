//! What `calls` prints for the centre and for the node, line by line.

use reference::calls::{answer, answers};
use reference::text::lines;

const K: &str = "000102030405060708090a0b0c0d0e0f";
const ZEROS: &str = "00000000000000000000000000000000";
const ONES: &str = "11111111111111111111111111111111";
const AUTS: &str = "0304050607280001020304250607";
const VECTOR: &str = "0000000000000000000000000000000000010203040506070102030405060708090a0b0c0d\
                      0e0f0002030405060708090a0b0c0d0e0f000103040506072800010001020304250606";

fn call(line: &str) -> String {
    String::from_utf8(answer(line.as_bytes())).unwrap()
}

/// The sample's centre with this SEQ_HE, index and AMF 1.
fn image(seq_he: u64, next: u64) -> String {
    format!("10{K}{ZEROS}0001{:012x}", 32 * seq_he + next)
}

#[test]
fn new_records() {
    let card = format!("image 10{K}{ONES}{}", "0".repeat(344));
    assert_eq!(call(&format!("card-new 1 0 {K} {ONES}")), card);
    let auc = format!("image 11{K}{ONES}beef000000000000");
    assert_eq!(call(&format!("auc-new 1 1 {K} {ONES} beef")), auc);
    for set in ["2", "15", "16", "255", "00002"] {
        assert_eq!(call(&format!("card-new 1 {set} {K} {ONES}")), "refused 1");
        assert_eq!(
            call(&format!("auc-new 1 {set} {K} {ONES} beef")),
            "refused 1"
        );
    }
    for line in [
        format!("card-new 1 256 {K} {ONES}"),
        format!("card-new 1 0 {K} -"),
        format!("card-new 1 0 {K} {ONES} beef"),
        format!("auc-new 1 256 {K} {ONES} beef"),
        format!("auc-new 1 0 {K} {ONES}"),
        format!("auc-new 1 0 {K} {ONES} be"),
        format!("auc-new 1 0 {K} {ONES} beefed"),
        format!("auc-new 1 0 {K} {ONES} BEEF"),
        format!("auc-new 1 2 {K} {ONES} -"),
    ] {
        assert_eq!(call(&line), "bad line");
    }
}

#[test]
fn a_centre_is_written_and_read() {
    let write = |set: &str, length: &str, seq_he: &str, next: &str| {
        call(&format!(
            "auc-write 1 {set} {K} {ZEROS} 0001 {length} {seq_he} {next}"
        ))
    };
    assert_eq!(write("0", "41", "9", "7"), format!("image {}", image(9, 7)));
    assert_eq!(write("0", "40", "9", "7"), "refused 3");
    assert_eq!(write("2", "40", "9", "7"), "refused 1");
    assert_eq!(write("0", "41", "8796093022208", "7"), "refused 1");
    assert_eq!(write("0", "41", "18446744073709551615", "7"), "refused 1");
    assert_eq!(write("0", "0", "9", "32"), "refused 1");
    for bad in [
        write("256", "41", "9", "7"),
        write("0", "513", "9", "7"),
        write("0", "41", "18446744073709551616", "7"),
        write("0", "41", "9", "256"),
        write("0", "41", "9", ""),
    ] {
        assert_eq!(bad, "bad line");
    }
    let read = |image: &str| call(&format!("auc-read {image}"));
    assert_eq!(read(&image(9, 7)), format!("auc 1 0 {K} {ZEROS} 0001 9 7"));
    assert_eq!(read(&image(9, 7)[..80]), "refused 3");
    assert_eq!(read(&image(9, 7)[2..]), "refused 1");
    assert_eq!(read(&image(9, 7).replacen("10", "12", 1)), "refused 1");
    assert_eq!(read("-"), "refused 3");
}

#[test]
fn the_order_of_the_sample_run() {
    let order = |image: &str, count: &str, rands: &str, length: &str| {
        call(&format!("order {image} {count} {rands} {length}"))
    };
    let given = format!("given 1 {} {VECTOR}", image(1, 1));
    assert_eq!(order(&image(0, 0), "1", ZEROS, "72"), given);
    assert_eq!(order(&image(0, 0), "1", ZEROS, "71"), "refused 3");
    assert_eq!(order(&image(0, 0), "0", ZEROS, "72"), "refused 3");
    assert_eq!(
        order(&image(0, 0), "18446744073709551615", "-", "0"),
        "refused 2"
    );
    assert_eq!(order(&image(0, 0)[..80], "6", "-", "0"), "refused 3");
    assert_eq!(
        order(&image(0, 0).replacen("10", "00", 1), "6", "-", "0"),
        "refused 1"
    );
    assert_eq!(
        order(&image(8_796_093_022_207, 0), "1", ZEROS, "72"),
        "refused 6"
    );
    let rands = [K, ZEROS, ONES, ZEROS, K].concat();
    assert_eq!(order(&image(0, 0), "5", &rands, "360"), "refused 4 0 4");
    assert_eq!(order(&image(0, 0), "0", &rands, "360"), "refused 4 0 4");
    assert_eq!(order(&image(0, 0), "1", ZEROS, "513"), "bad line");
    assert_eq!(order(&image(0, 0), "", ZEROS, "72"), "bad line");
}

#[test]
fn a_resynchronisation() {
    let resync = |seq_he: u64, auts: &str| {
        let image = image(seq_he, 31);
        call(&format!("resync {image} 1 {ZEROS} {auts} {ONES} 72"))
    };
    let wrong = format!("{}08", &AUTS[..26]);
    let kept = resync(1, AUTS);
    assert!(kept.starts_with(&format!("kept 1 {} {ONES}", image(2, 0))));
    assert_eq!(resync(1, &wrong), kept);
    let reset = resync(0, AUTS);
    assert!(reset.starts_with(&format!("reset 1 {} {ONES}", image(2, 0))));
    assert_eq!(resync(0, &wrong), "refused 5");
    assert_eq!(resync(0, &AUTS[2..]), "refused 3");
    assert!(resync(8_796_093_022_207, AUTS).starts_with("reset 1 "));
}

#[test]
fn a_vector_of_a_batch() {
    let vector = format!("vector {VECTOR}");
    assert_eq!(call(&format!("vector {VECTOR} 0")), vector);
    assert_eq!(
        call(&format!("vector {ONES}11111111{VECTOR} 0")),
        "vector -"
    );
    let second = format!("vector {}{VECTOR} 1", &ONES.repeat(5)[..144]);
    assert_eq!(call(&second), vector);
    assert_eq!(call(&format!("vector {VECTOR} 1")), "vector -");
    assert_eq!(call("vector - 0"), "vector -");
    assert_eq!(call("vector -"), "bad line");
}

/// The outcome, state and count held after each of these lines.
fn outcomes(given: &[&str]) -> Vec<String> {
    let output = answers((given.join("\n") + "\n").as_bytes());
    let short = |line: &[u8]| {
        let line = String::from_utf8(line.to_vec()).unwrap();
        let fields: Vec<&str> = line.split(' ').collect();
        match fields[..] {
            [ref outcome @ .., _, _, _, _, _, _, state, held, _, _] => {
                format!("{} {state} {held}", outcome.join(" "))
            }
            _ => line,
        }
    };
    lines(&output).into_iter().map(short).collect()
}

#[test]
fn the_node_is_kept_from_line_to_line() {
    let store = format!("store 0 1 {VECTOR}");
    let renew = format!("renew 0 1 {VECTOR}");
    let sync = format!("sync {AUTS}");
    let other = format!("vector {VECTOR} 7");
    let told = outcomes(&[
        "ask",
        &store,
        &store,
        "again",
        "ask",
        "ask ",
        "again",
        "answer 0001020304050607",
        "ask",
        &other,
        "answer 0001020304050608",
        "ask",
        &store,
        "ask",
        "reject",
        "ask",
        &sync,
        &store,
        "ask",
        &renew,
        "ask",
        &sync,
        "timeout",
        "timeout",
        "vlr-new",
        "abandon",
    ]);
    let expected = [
        "refused 8 0 0",
        "done 0 1",
        "done 0 2",
        "refused 7 0 2",
        "done 1 1",
        "bad line",
        "done 1 1",
        "passed 0 1",
        "done 1 0",
        "vector -",
        "cause 2 0 0",
        "refused 8 0 0",
        "done 0 1",
        "done 1 0",
        "cause 1 0 0",
        "refused 8 0 0",
        "refused 7 0 0",
        "done 0 1",
        "done 1 0",
        "refused 7 1 0",
        "refused 7 1 0",
        "done 2 0",
        "done 0 0",
        "refused 7 0 0",
        "done 0 0",
        "refused 7 0 0",
    ];
    assert_eq!(told, expected);
}

#[test]
fn the_node_line() {
    let zeros = "0".repeat(146);
    let line =
        |outcome: &str, parts: [&str; 6], end: &str| format!("{outcome} {} {end}", parts.join(" "));
    let none = [ZEROS, ZEROS, &zeros[..28], ZEROS, ZEROS, "0000000000000000"];
    assert_eq!(
        call("vlr-new"),
        line("done", none, &format!("0 0 {zeros} -"))
    );
    assert_eq!(
        call("ask"),
        line("refused 8", none, &format!("0 0 {zeros} -"))
    );
    let stored = line("done", none, &format!("0 1 {zeros} 00{VECTOR}"));
    assert_eq!(call(&format!("store 0 1 {VECTOR}")), stored);
    let cut = format!("vlr-record 1 200 00{VECTOR} 00{VECTOR}0000");
    let record = line("done", none, &format!("1 200 00{VECTOR} 00{VECTOR}"));
    assert_eq!(call(&cut), record);
}
