//! The bench: document 01's run, every refusal, and the form of its lines.

use reference::bench::{answers, Bench};
use reference::text::lines;

const K: &str = "000102030405060708090a0b0c0d0e0f";
const Z: &str = "00000000000000000000000000000000";

/// The RAND that is this number.
fn r(number: u64) -> String {
    format!("{number:032x}")
}

fn rands(from: u64, n: u64) -> String {
    let rands: Vec<String> = (from..from + n).map(r).collect();
    format!("{n} {}", rands.join(" "))
}

fn key(set: u8) -> String {
    format!("key {set} {K} {K} 8000")
}

/// What is printed for these lines, `/` with its spaces standing for a newline.
fn run(input: &str) -> Vec<String> {
    let output = answers(input.replace(" / ", "\n").as_bytes());
    let text = |line: &[u8]| String::from_utf8(line.to_vec()).unwrap();
    lines(&output).into_iter().map(text).collect()
}

fn last(input: &str) -> String {
    run(input).pop().unwrap()
}

#[test]
fn the_run_of_document_01() {
    let printed = run(&format!(
        "key 0 {K} {Z} 0001 / order 1 {Z} / ask / ask / show"
    ));
    let expected = [
        "key ok",
        "stored 1 held 1",
        "pass 000000000020 left 0",
        "refused 8",
        "auc 1 1 card 1 0",
    ];
    assert_eq!(printed, expected);
}

#[test]
fn another_word_before_the_first_key_is_a_bad_line() {
    for line in ["order 1 {Z}", "ask", "put 1 1", "resync 1 {Z}", "show"] {
        let line = line.replace("{Z}", Z);
        assert_eq!(last(&line), "bad line");
        let refused = format!("{} / {line}", key(2));
        assert_eq!(run(&refused), ["refused 1", "bad line"]);
        let taken = format!("{} / {line}", key(1));
        assert_eq!(last(&taken) == "bad line", line.starts_with("resync"));
    }
}

#[test]
fn a_key_makes_everything_new() {
    for set in [0, 1] {
        let used = format!("{} / order {} / ask / put 50 9", key(set), rands(1, 3));
        assert_eq!(last(&format!("{used} / show")), "auc 50 9 card 1 0");
        assert_eq!(
            last(&format!("{used} / {} / show", key(set))),
            "auc 0 0 card 0 0"
        );
        assert_eq!(last(&format!("{used} / {} / ask", key(set))), "refused 8");
        // A refused key changes nothing.
        assert_eq!(
            last(&format!("{used} / {} / show", key(7))),
            "auc 50 9 card 1 0"
        );
        assert_eq!(
            last(&format!("{used} / {} / ask", key(9))),
            "pass 000000000040 left 1"
        );
    }
}

#[test]
fn the_node_is_full_at_sixteen() {
    let order = |from, n| format!("order {}", rands(from, n));
    let full = [key(0), order(1, 5), order(6, 5), order(11, 5), order(16, 1)].join(" / ");
    assert_eq!(last(&full), "stored 1 held 16");
    let more = format!("{full} / order 1 {Z} / show");
    assert_eq!(run(&more)[5..], ["refused 9", "auc 16 4 card 0 0"]);
    let after = format!("{full} / ask / order 1 {Z} / order 1 {Z}");
    assert_eq!(
        run(&after)[5..],
        ["pass 000000000020 left 15", "stored 1 held 16", "refused 9"]
    );
}

#[test]
fn equal_rands_are_refused_without_the_pair() {
    let key = key(1);
    assert_eq!(last(&format!("{key} / order 2 {Z} {Z}")), "refused 4");
    assert_eq!(
        last(&format!("{key} / order 3 {K} {Z} {K} / show")),
        "auc 0 0 card 0 0"
    );
    // The same RAND in two batches is none of its business.
    assert_eq!(
        last(&format!("{key} / order 1 {Z} / order 1 {Z}")),
        "stored 1 held 2"
    );
}

#[test]
fn put_and_its_limits() {
    let put = |fields: &str| last(&format!("{} / put {fields}", key(0)));
    for good in ["0 0", "8796093022207 31", "0000000000001 07", "5 9", "1 00"] {
        assert_eq!(put(good), "put ok");
    }
    for past in [
        "8796093022208 0",
        "9999999999999 31",
        "0 32",
        "0 99",
        "8796093022208 99",
    ] {
        assert_eq!(put(past), "refused 1");
    }
    for bad in [
        "",
        "1",
        "1 ",
        "1 2 3",
        "00000000000001 0",
        "87960930222070 0",
        "0 000",
        "0 100",
        "a 0",
        "0 a",
        "-1 0",
        "+1 0",
        "0  0",
        " 0 0",
        "0 0 ",
        "1. 0",
    ] {
        assert_eq!(put(bad), "bad line", "put {bad}");
    }
    let shown = format!("{} / put 8796093022207 31 / put 0 99 / show", key(0));
    assert_eq!(last(&shown), "auc 8796093022207 31 card 0 0");
}

#[test]
fn the_limit_of_the_centre() {
    let order = |seq_he: u64| {
        let rands = rands(1, 5);
        last(&format!("{} / put {seq_he} 0 / order {rands}", key(1)))
    };
    assert_eq!(order(8_796_093_022_202), "stored 5 held 5");
    for seq_he in 8_796_093_022_203..=8_796_093_022_207 {
        assert_eq!(order(seq_he), "refused 6");
    }
}

#[test]
fn the_index_goes_round() {
    let line = format!(
        "{} / put 6 31 / order 1 {Z} / order 1 {Z} / show / ask / ask / show",
        key(0)
    );
    let expected = [
        "auc 8 1 card 0 0",
        "pass 0000000000ff left 1",
        "pass 000000000100 left 0",
        "auc 8 1 card 8 0",
    ];
    assert_eq!(run(&line)[4..], expected);
}

/// A card at SEQ 11 and a vector with SEQ 6 at the same index: it is stale.
fn out_of_step(set: u8) -> String {
    let orders = "put 10 0 / order 1 {Z} / put 5 0 / order 1 {Z} / ask / ask";
    format!("{} / {}", key(set), orders.replace("{Z}", Z))
}

#[test]
fn a_resynchronisation_that_resets_and_one_that_keeps() {
    for set in [0, 1] {
        let start = out_of_step(set);
        assert_eq!(run(&start)[5..], ["pass 000000000160 left 1", "sync"]);
        let reset = format!("{start} / resync 2 {Z} {K} / show / ask / ask / ask");
        let expected = [
            "reset 2 held 2",
            "auc 13 2 card 11 0",
            "pass 000000000181 left 1",
            "pass 0000000001a1 left 0",
            "refused 8",
        ];
        assert_eq!(run(&reset)[7..], expected);
        let kept = format!("{start} / put 11 30 / resync 1 {Z} / show / ask");
        let expected = [
            "put ok",
            "kept 1 held 1",
            "auc 12 31 card 11 0",
            "pass 00000000019e left 0",
        ];
        assert_eq!(run(&kept)[7..], expected);
    }
}

#[test]
fn while_the_node_waits_for_a_resynchronisation() {
    let start = out_of_step(1);
    assert_eq!(last(&format!("{start} / ask")), "refused 7");
    assert_eq!(last(&format!("{start} / order 1 {Z}")), "refused 7");
    assert_eq!(last(&format!("{start} / order 2 {Z} {Z}")), "refused 4");
    assert_eq!(
        last(&format!("{start} / put 8796093022207 0 / order 1 {Z}")),
        "refused 6"
    );
    assert_eq!(last(&format!("{start} / resync 2 {Z} {Z}")), "refused 4");
    // A refused order leaves the centre as it was.
    assert_eq!(
        last(&format!("{start} / order 1 {Z} / show")),
        "auc 6 1 card 11 0"
    );
    // Vectors that were held are dropped.
    let held = "put 10 0 / order 1 {Z} / put 5 0 / order 4 {R} / ask / ask / resync 1 {Z}";
    let held = held.replace("{Z}", Z).replace("{R}", &rands(1, 4)[2..]);
    assert_eq!(last(&format!("{} / {held}", key(0))), "reset 1 held 1");
}

#[test]
fn the_last_auts_is_kept_until_a_key_is_taken() {
    let start = out_of_step(0);
    let twice = format!("{start} / resync 1 {Z} / resync 1 {K} / show");
    assert_eq!(
        run(&twice)[7..],
        ["reset 1 held 1", "refused 7", "auc 12 2 card 11 0"]
    );
    let equal = format!("{start} / resync 1 {Z} / resync 2 {K} {K}");
    assert_eq!(last(&equal), "refused 4");
    let full = format!("{start} / resync 1 {Z} / put 8796093022207 0 / resync 1 {K}");
    assert_eq!(last(&full), "refused 7");
    let near = format!("{start} / put 268435466 0 / resync 1 {K}");
    assert_eq!(last(&near), "kept 1 held 1");
    let far = format!("{start} / put 268435467 0 / resync 1 {K}");
    assert_eq!(last(&far), "reset 1 held 1");
    let refused = format!("{start} / {} / nonsense / ask / resync 1 {Z}", key(2));
    assert_eq!(last(&refused), "reset 1 held 1");
    let again = format!("{start} / {} / resync 1 {Z}", key(0));
    assert_eq!(last(&again), "bad line");
    assert_eq!(last(&format!("{} / resync 1 {Z}", key(0))), "bad line");
}

#[test]
fn a_jump_too_far() {
    for (seq_he, answer) in [
        (268_435_455, "pass 000200000005 left 0"),
        (268_435_456, "sync"),
    ] {
        let line = format!("{} / put {seq_he} 5 / order 1 {Z} / ask", key(1));
        assert_eq!(last(&line), answer);
    }
}

#[test]
fn lines_of_another_form_change_nothing() {
    let key = key(1);
    let start = format!("{key} / order 1 {Z}");
    for bad in [
        "".to_string(),
        " ".to_string(),
        "ask ".to_string(),
        " ask".to_string(),
        "ask  ".to_string(),
        "ask\r".to_string(),
        "ask\0".to_string(),
        "Ask".to_string(),
        "asks".to_string(),
        "show 1".to_string(),
        "show\t".to_string(),
        "order".to_string(),
        "order 0".to_string(),
        "order 1".to_string(),
        format!("order 0 {Z}"),
        format!("order 01 {Z}"),
        format!("order 2 {Z}"),
        format!("order 1 {Z} {K}"),
        format!("order  1 {Z}"),
        format!("order 1  {Z}"),
        format!("order 1 {Z} "),
        format!("order 1 {Z}0"),
        format!("order 1 {}", &Z[1..]),
        format!("order 1 {}", K.to_uppercase()),
        format!("order 6 {}", &rands(1, 6)[2..]),
        format!("order 2 {Z}\t{K}"),
        format!("resync 0 {Z}"),
        format!("resync 1 {Z}"),
        format!("{key} "),
        key.replace(' ', "  "),
        key.replace("key 1", "key a"),
        key.replace("key 1", "key 01"),
        key.replace("key 1", "key -"),
        key.replace("8000", "80000"),
        key.replace("8000", "800"),
        key.replace("8000", "80 00"),
        "x".repeat(512),
        "x".repeat(513),
        format!("show{}", " ".repeat(508)),
        format!("show{}", " ".repeat(70_000)),
        "\u{ff}".to_string(),
    ] {
        let input = format!("{start}\n{bad}\nshow");
        let printed = run(&input);
        assert_eq!(printed[2..], ["bad line", "auc 1 1 card 0 0"], "{bad:?}");
    }
}

#[test]
fn the_end_of_the_input() {
    assert!(run("").is_empty());
    assert_eq!(run("\n"), ["bad line"]);
    assert_eq!(run(&key(0)), ["key ok"]);
    assert_eq!(run(&format!("{}\n", key(0))), ["key ok"]);
    assert_eq!(run(&format!("{}\n\n", key(0))), ["key ok", "bad line"]);
    assert_eq!(answers(b"show"), b"bad line\n");
}

#[test]
fn a_refused_line_leaves_the_bench_as_it_was() {
    let mut bench = Bench::default();
    for line in out_of_step(0).split(" / ") {
        bench.answer(line.as_bytes());
    }
    for line in [
        "key 2 {K} {Z} 0001",
        "order 1 {Z}",
        "order 2 {Z} {Z}",
        "ask",
        "put 0 32",
    ] {
        let before = bench.clone();
        let line = line.replace("{Z}", Z).replace("{K}", K);
        assert!(bench.answer(line.as_bytes()).starts_with(b"refused "));
        assert_eq!(bench, before);
    }
}
