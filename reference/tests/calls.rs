//! What `calls` prints, line by line.

use reference::calls::{answer, answers, LONGEST};

const K: &str = "000102030405060708090a0b0c0d0e0f";
const RAND: &str = "00000000000000000000000000000000";
const AUTN: &str = "03040506072800010001020304250606";
const RES: &str = "0001020304050607";
const CK: &str = "0102030405060708090a0b0c0d0e0f00";
const IK: &str = "02030405060708090a0b0c0d0e0f0001";

fn call(line: &str) -> String {
    String::from_utf8(answer(line.as_bytes())).unwrap()
}

/// The sample's card after a number of challenges accepted at index 0. Place 0
/// ends three bits into its sixth byte.
fn image(seq: u8) -> String {
    let places = format!("0000000000{:02x}", seq << 5);
    format!("10{K}{RAND}{places:0<344}")
}

fn challenge(image: &str, rand: &str, autn: &str) -> String {
    call(&format!("challenge {image} {rand} {autn}"))
}

fn write_line(set: &str, length: &str, place: &str) -> String {
    let zeros = " 0".repeat(63);
    format!("card-write 1 {set} {K} {RAND} {length} {place}{zeros}")
}

#[test]
fn the_sample_run() {
    let accepted = format!("accepted 32 {RES} {CK} {IK} {}", image(1));
    assert_eq!(challenge(&image(0), RAND, AUTN), accepted);
    let again = challenge(&image(1), RAND, AUTN);
    assert_eq!(again, "sync 0304050607280001020304250607");
    let wrong = AUTN.replace("06", "07");
    assert_eq!(challenge(&image(0), RAND, &wrong), "mac");
}

#[test]
fn a_challenge_is_refused_by_its_lowest_number() {
    let good = image(0);
    let unknown = good.replacen("10", "30", 1);
    let short = &good[..408];
    for other in ["-", "00", &RAND[2..], &AUTN.repeat(2)] {
        assert_eq!(challenge(&good, other, AUTN), "refused 3");
        assert_eq!(challenge(&good, RAND, other), "refused 3");
        assert_eq!(challenge(&unknown, other, AUTN), "refused 1");
        assert_eq!(challenge(&unknown, RAND, other), "refused 1");
        assert_eq!(challenge(short, other, other), "refused 3");
    }
    for (other, printed) in [
        ("-", "refused 3"),
        ("00", "refused 1"),
        (&RAND[2..], "refused 1"),
        (&K[1..31], "refused 1"),
        ("10", "refused 3"),
        ("1f", "refused 3"),
    ] {
        assert_eq!(challenge(other, RAND, AUTN), printed);
    }
    assert_eq!(challenge(&unknown, RAND, AUTN), "refused 1");
    assert_eq!(challenge("-", "-", "-"), "refused 3");
}

#[test]
fn a_card_is_read_and_written() {
    let zeros = " 0".repeat(63);
    let read = call(&format!("card-read {}", image(1)));
    assert_eq!(read, format!("card 1 0 {K} {RAND} 1{zeros}"));
    let written = call(&write_line("0", "205", "1"));
    assert_eq!(written, format!("image {}", image(1)));
}

#[test]
fn a_read_is_refused() {
    let good = image(0);
    let read = |image: &str| call(&format!("card-read {image}"));
    for image in ["-", "10", &good[..408], &format!("{good}00")] {
        assert_eq!(read(image), "refused 3");
    }
    assert_eq!(read("00"), "refused 1");
    for first in ["00", "30", "60", "f0", "12", "1f", "ff"] {
        assert_eq!(read(&good.replacen("10", first, 1)), "refused 1");
    }
    assert_eq!(read(&good.replacen("10", "20", 1)), "refused 3");
}

#[test]
fn a_write_is_refused() {
    assert_eq!(call(&write_line("1", "204", "0")), "refused 3");
    assert_eq!(call(&write_line("1", "512", "0")), "refused 3");
    assert_eq!(call(&write_line("1", "0", "0")), "refused 3");
    for (set, place) in [
        ("2", "0"),
        ("255", "0"),
        ("0", "8796093022208"),
        ("0", "18446744073709551615"),
    ] {
        assert_eq!(call(&write_line(set, "205", place)), "refused 1");
        assert_eq!(call(&write_line(set, "0", place)), "refused 1");
    }
    assert!(call(&write_line("0", "205", "8796093022207")).starts_with("image "));
}

#[test]
fn numbers_past_their_fields_are_bad_lines() {
    for (set, length, place) in [
        ("256", "205", "0"),
        ("18446744073709551616", "205", "0"),
        ("0", "513", "0"),
        ("0", "18446744073709551615", "0"),
        ("0", "205", "18446744073709551616"),
        ("0", "205", "000000000000000000000"),
        ("000000000000000000000", "205", "0"),
        ("-", "205", "0"),
        ("0", "-", "0"),
        ("0", "205", "-"),
        ("0", "205", ""),
        ("256", "0", "8796093022208"),
        ("2", "513", "8796093022208"),
    ] {
        assert_eq!(call(&write_line(set, length, place)), "bad line");
    }
    let padded = write_line(
        "00000000000000000000",
        "00000000000000000205",
        "00000000000000000001",
    );
    assert_eq!(call(&padded), call(&write_line("0", "205", "1")));
}

#[test]
fn keys_have_sixteen_bytes() {
    let good = write_line("2", "205", "0");
    assert_eq!(call(&good), "refused 1");
    for key in [
        "-",
        "",
        &K[1..],
        &K[2..],
        &format!("{K}00"),
        &K.to_uppercase(),
    ] {
        assert_eq!(call(&good.replace(K, key)), "bad line");
        assert_eq!(call(&good.replace(RAND, key)), "bad line");
    }
}

#[test]
fn sixty_four_places_are_named() {
    let good = write_line("0", "205", "0");
    assert!(call(&good).starts_with("image "));
    assert_eq!(call(&good[..good.len() - 2]), "bad line");
    assert_eq!(call(&format!("{good} 0")), "bad line");
    assert_eq!(call(&format!("{good} ")), "bad line");
    assert_eq!(call(&good[..good.len() - 64]), "bad line");
}

#[test]
fn lines_of_another_form_are_bad() {
    let good = format!("challenge {} {RAND} {AUTN}", image(0));
    assert!(call(&good).starts_with("accepted "));
    for line in [
        String::new(),
        " ".to_string(),
        "challenge".to_string(),
        "card-read".to_string(),
        "card-read ".to_string(),
        "card-read - -".to_string(),
        "card-read 0".to_string(),
        "card-read --".to_string(),
        "show".to_string(),
        format!(" {good}"),
        format!("{good} "),
        format!("{good}\r"),
        format!("{good}\0"),
        format!("{good} -"),
        good.replace(' ', "  "),
        good.replace(' ', "\t"),
        good.replace("challenge", "Challenge"),
        good.replace("0f", "0F"),
        good.replace(&format!(" {AUTN}"), ""),
        good.replace(AUTN, ""),
        good.replace(AUTN, &AUTN[1..]),
    ] {
        assert_eq!(call(&line), "bad line", "{line:?}");
    }
}

#[test]
fn a_line_has_at_most_4096_bytes() {
    assert_eq!(LONGEST, 4_096);
    for (length, rand, printed) in [
        (4_095, "-", "refused 3"),
        (4_096, RAND, "refused 3"),
        (4_097, "-", "bad line"),
        (4_098, RAND, "bad line"),
        (70_000, RAND, "bad line"),
    ] {
        let mut line = format!("challenge {} {rand} ", image(0));
        line.push_str(&"0".repeat(length - line.len()));
        assert_eq!(line.len(), length);
        assert_eq!(call(&line), printed);
    }
}

#[test]
fn one_answer_to_each_line() {
    assert_eq!(answers(b""), b"");
    assert_eq!(answers(b"\n"), b"bad line\n");
    let input = b"card-read -\n\n\xff\0\ncard-read 00";
    let output = b"refused 3\nbad line\nbad line\nrefused 1\n";
    assert_eq!(answers(input), output);
}
