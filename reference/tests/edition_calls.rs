//! What `calls` prints for records of both editions, line by line.

use reference::calls::answer;

const K: &str = "000102030405060708090a0b0c0d0e0f";
const Z: &str = "00000000000000000000000000000000";
const ONES: &str = "11111111111111111111111111111111";
const RES: &str = "0001020304050607";
const CK: &str = "0102030405060708090a0b0c0d0e0f00";
const IK: &str = "02030405060708090a0b0c0d0e0f0001";
const AUTN: &str = "03040506074800010001020304450606";
const AUTS: &str = "0304050607480001020304450607";

fn call(line: &str) -> String {
    String::from_utf8(answer(line.as_bytes())).unwrap()
}

/// The sample's centre of edition 2.
fn auc(seq_he: u64, next: u64) -> String {
    format!("20{K}{Z}0001{:012x}", 64 * seq_he + next)
}

/// The sample's card of edition 2 with SEQ 0 or 1 at index 0: place 0 ends two
/// bits into its sixth byte.
fn card(seq: u8) -> String {
    let places = format!("0000000000{:02x}", seq << 6);
    format!("20{K}{Z}{places:0<672}")
}

#[test]
fn the_sample_of_edition_2() {
    let new = call(&format!("auc-new 2 0 {K} {Z} 0001"));
    let image =
        "20000102030405060708090a0b0c0d0e0f000000000000000000000000000000000001000000000000";
    assert_eq!(new, format!("image {image}"));
    assert_eq!(image, auc(0, 0));
    let given = call(&format!("order {image} 1 {Z} 72"));
    let vector = format!("{Z}{RES}{CK}{IK}{AUTN}");
    assert_eq!(given, format!("given 1 {} {vector}", auc(1, 1)));
    assert!(auc(1, 1).ends_with("0001000000000041"));
    let new = call(&format!("card-new 2 0 {K} {Z}"));
    assert_eq!(new, format!("image {}", card(0)));
    let accepted = call(&format!("challenge {} {Z} {AUTN}", card(0)));
    let expected = format!("accepted 64 {RES} {CK} {IK} {}", card(1));
    assert_eq!(accepted, expected);
    let again = call(&format!("challenge {} {Z} {AUTN}", card(1)));
    assert_eq!(again, format!("sync {AUTS}"));
}

#[test]
fn an_order_of_five_from_index_62() {
    let rands = [Z, ONES, K, CK, IK].concat();
    let given = call(&format!("order {} 5 {rands} 360", auc(0, 62)));
    assert!(given.starts_with(&format!("given 5 {} {Z}", auc(5, 3))));
    assert!(auc(5, 3).ends_with("0001000000000143"));
    // RAND is zero, so that AK is 030405060708 and SQN 126 is 7e.
    assert!(given.contains(&format!("{IK}0304050607760001")));
}

#[test]
fn a_resynchronisation_of_edition_2() {
    let resync = |seq_he: u64, next: u64, auts: &str| {
        let image = auc(seq_he, next);
        call(&format!("resync {image} 1 {Z} {auts} {ONES} 72"))
    };
    let kept = resync(1, 63, AUTS);
    assert!(kept.starts_with(&format!("kept 1 {} {ONES}", auc(2, 0))));
    let reset = resync(0, 31, AUTS);
    assert!(reset.starts_with(&format!("reset 1 {} {ONES}", auc(2, 32))));
    assert_eq!(resync(0, 0, &AUTS.replace("07", "08")), "refused 5");
    assert!(resync(4_398_046_511_103, 0, AUTS).starts_with("reset 1 "));
}

#[test]
fn six_comes_at_the_limit_of_the_edition() {
    let order = |image: String| call(&format!("order {image} 1 {Z} 72"));
    let one = |seq_he: u64| format!("10{K}{Z}0001{:012x}", 32 * seq_he);
    assert!(order(auc(4_398_046_511_102, 0)).starts_with("given 1 "));
    assert_eq!(order(auc(4_398_046_511_103, 0)), "refused 6");
    assert!(order(one(4_398_046_511_103)).starts_with("given 1 "));
    assert!(order(one(8_796_093_022_206)).starts_with("given 1 "));
    assert_eq!(order(one(8_796_093_022_207)), "refused 6");
}

#[test]
fn images_that_are_not_read() {
    let begun = |first: &str, bytes: usize| format!("{first:0<0$}", 2 * bytes);
    let read = |word: &str, image: &str| call(&format!("{word} {image}"));
    for word in ["card-read", "auc-read"] {
        assert_eq!(read(word, "-"), "refused 3");
        assert_eq!(read(word, "00"), "refused 1");
        assert_eq!(read(word, "10"), "refused 3");
        assert_eq!(read(word, "22"), "refused 3");
        assert_eq!(read(word, "30"), "refused 1");
        assert_eq!(read(word, &begun("20", 205)), "refused 3");
        assert_eq!(read(word, &begun("60", 205)), "refused 1");
    }
    assert_eq!(read("card-read", &begun("12", 205)), "refused 1");
    assert_eq!(read("card-read", &begun("22", 369)), "refused 1");
    assert_eq!(read("card-read", &begun("1", 204)), "refused 3");
    assert_eq!(read("card-read", &begun("10", 369)), "refused 3");
    let zeros = " 0".repeat(64);
    let two = read("card-read", &begun("20", 369));
    assert_eq!(two, format!("card 2 0 {Z} {Z}{zeros}"));
    let one = read("card-read", &begun("11", 205));
    assert_eq!(one, format!("card 1 1 {Z} {Z}{zeros}"));
    let two = read("auc-read", &begun("21", 41));
    assert_eq!(two, format!("auc 2 1 {Z} {Z} 0000 0 0"));
}

#[test]
fn the_image_comes_before_everything_else() {
    let begun = |first: &str, bytes: usize| format!("{first:0<0$}", 2 * bytes);
    for (image, printed) in [
        ("-".to_string(), "refused 3"),
        ("00".to_string(), "refused 1"),
        ("20".to_string(), "refused 3"),
        (begun("10", 40), "refused 3"),
        (begun("12", 41), "refused 1"),
        (begun("30", 41), "refused 1"),
        (begun("f0", 500), "refused 1"),
    ] {
        for line in [
            format!("order {image} 6 - 0"),
            format!("order {image} 1 {Z} 72"),
            format!("resync {image} 6 - - - 0"),
            format!("resync {image} 1 {Z} - {Z} 72"),
        ] {
            assert_eq!(call(&line), printed, "{line}");
        }
    }
    for (image, printed) in [
        (begun("10", 41), "refused 3"),
        (begun("12", 205), "refused 1"),
        (begun("20", 205), "refused 3"),
        (begun("2f", 369), "refused 1"),
        (begun("50", 392), "refused 1"),
    ] {
        for line in [
            format!("challenge {image} {Z} {AUTN}"),
            format!("challenge {image} - -"),
            format!("phone 0 - {image} {Z} {} -", &AUTN[2..]),
            format!("phone 1 {Z}{Z} {image} - - {Z}"),
        ] {
            assert_eq!(call(&line), printed, "{line}");
        }
    }
}

fn write_line(edition: &str, length: &str, places: &[(usize, &str)]) -> String {
    let mut all = ["0"; 64];
    for (ind, seq) in places {
        all[*ind] = seq;
    }
    let places = all.join(" ");
    format!("card-write {edition} 0 {K} {Z} {length} {places}")
}

#[test]
fn a_card_is_written_by_its_edition() {
    let one = [(0, "1")];
    assert_eq!(
        call(&write_line("2", "369", &one)),
        format!("image {}", card(1))
    );
    assert_eq!(call(&write_line("2", "205", &one)), "refused 3");
    assert_eq!(call(&write_line("1", "369", &one)), "refused 3");
    for edition in ["0", "3", "17", "18", "255"] {
        assert_eq!(call(&write_line(edition, "205", &one)), "refused 1");
        assert_eq!(call(&write_line(edition, "0", &one)), "refused 1");
    }
    for (edition, length, place, printed) in [
        ("1", "205", (31, "8796093022207"), "image "),
        ("1", "205", (31, "8796093022208"), "refused 1"),
        ("1", "205", (32, "1"), "refused 1"),
        ("1", "0", (63, "1"), "refused 1"),
        ("2", "369", (63, "4398046511103"), "image "),
        ("2", "369", (63, "4398046511104"), "refused 1"),
        ("2", "0", (0, "8796093022207"), "refused 1"),
    ] {
        let written = call(&write_line(edition, length, &[place]));
        assert!(written.starts_with(printed), "{edition} {place:?}");
    }
}

#[test]
fn a_centre_is_written_by_its_edition() {
    let write = |edition: &str, length: &str, seq_he: &str, next: &str| {
        call(&format!(
            "auc-write {edition} 0 {K} {Z} 0001 {length} {seq_he} {next}"
        ))
    };
    let two = write("2", "41", "9", "63");
    assert_eq!(two, format!("image {}", auc(9, 63)));
    assert_eq!(write("2", "40", "9", "63"), "refused 3");
    assert_eq!(write("1", "41", "9", "63"), "refused 1");
    assert_eq!(write("2", "40", "9", "64"), "refused 1");
    assert_eq!(write("3", "41", "9", "7"), "refused 1");
    assert!(write("1", "41", "8796093022207", "31").starts_with("image 10"));
    assert!(write("2", "41", "4398046511103", "63").starts_with("image 20"));
    assert_eq!(write("2", "41", "4398046511104", "0"), "refused 1");
    assert_eq!(write("256", "41", "9", "7"), "bad line");
}

#[test]
fn new_records_name_their_edition() {
    for edition in ["0", "3", "4", "5", "15", "16", "17", "255"] {
        for set in ["0", "1", "2"] {
            let line = format!("card-new {edition} {set} {K} {Z}");
            assert_eq!(call(&line), "refused 1");
            let line = format!("auc-new {edition} {set} {K} {Z} 0001");
            assert_eq!(call(&line), "refused 1");
        }
    }
    assert_eq!(call(&format!("card-new 2 2 {K} {Z}")), "refused 1");
    for edition in ["256", "-", "", "+1", "000000000000000000001"] {
        assert_eq!(call(&format!("card-new {edition} 0 {K} {Z}")), "bad line");
    }
}

#[test]
fn the_old_forms_are_bad_lines() {
    let zeros = |n: usize| " 0".repeat(n);
    for line in [
        format!("card-new 0 {K} {Z}"),
        format!("auc-new 0 {K} {Z} 0001"),
        format!("auc-write 0 {K} {Z} 0001 41 1 1"),
        format!("card-write 0 {K} {Z} 205{}", zeros(32)),
        format!("card-write 0 {K} {Z} 205{}", zeros(64)),
        format!("card-write 1 0 {K} {Z} 205{}", zeros(32)),
        format!("card-write 2 0 {K} {Z} 369{}", zeros(63)),
        format!("card-write 2 0 {K} {Z} 369{}", zeros(65)),
    ] {
        assert_eq!(call(&line), "bad line", "{line}");
    }
}
