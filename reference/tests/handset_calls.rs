//! What `calls` prints for the handset, line by line.

use reference::calls::answer;

const K: &str = "000102030405060708090a0b0c0d0e0f";
const RAND: &str = "00000000000000000000000000000000";
const AUTN: &str = "03040506072800010001020304250606";
const NO_AUTS: &str = "0000000000000000000000000000";
const SHOWN: &str =
    "00010203040506070102030405060708090a0b0c0d0e0f0002030405060708090a0b0c0d0e0f0001";

fn call(line: &str) -> String {
    String::from_utf8(answer(line.as_bytes())).unwrap()
}

fn zeros(bytes: usize) -> String {
    "00".repeat(bytes)
}

/// The sample's card after a number of challenges accepted at index 0. Place 0
/// ends three bits into its sixth byte.
fn image(seq: u8) -> String {
    let places = format!("0000000000{:02x}", seq << 5);
    format!("10{K}{RAND}{places:0<344}")
}

/// The store after the sample's challenge.
fn stored() -> String {
    format!("{RAND}{SHOWN}")
}

#[test]
fn the_sample_run() {
    let (new, used) = (image(0), image(1));
    let (stored, z56, z40) = (stored(), zeros(56), zeros(40));
    let first = call(&format!("phone 0 {z56} {new} {RAND} {AUTN} {z40}"));
    let fresh = format!("fresh {SHOWN} {NO_AUTS} 1 {stored} {SHOWN} {used}");
    assert_eq!(first, fresh);
    let again = call(&format!("phone 1 {stored} {used} {RAND} {AUTN} {z40}"));
    let repeat = format!("repeat {SHOWN} {NO_AUTS} 1 {stored} {z40} {used}");
    assert_eq!(again, repeat);
    let unheld = call(&format!("phone 0 {stored} {used} {RAND} {AUTN} {SHOWN}"));
    let sync = format!("sync - 0304050607280001020304250607 0 {stored} {SHOWN} {used}");
    assert_eq!(unheld, sync);
    let wrong = AUTN.replace("06", "07");
    let spoilt = call(&format!("phone 0 {stored} {used} {RAND} {wrong} {SHOWN}"));
    let mac = format!("mac - {NO_AUTS} 0 {stored} {SHOWN} {used}");
    assert_eq!(spoilt, mac);
}

#[test]
fn a_refusal_of_the_call_shows_all_as_given() {
    let (image, stored) = (image(1), stored());
    let longer = format!("{stored}00");
    for held in ["0", "1"] {
        for (stored, rand, autn, fresh) in [
            (&stored[..], "-", AUTN, SHOWN),
            (&stored, &RAND[2..], AUTN, SHOWN),
            (&stored, &stored, AUTN, SHOWN),
            (&stored, RAND, &AUTN[2..], SHOWN),
            (&stored, RAND, AUTN, &SHOWN[2..]),
            (&stored, RAND, AUTN, &stored),
            (&stored, RAND, AUTN, "-"),
            (&stored[2..], RAND, AUTN, SHOWN),
            (&longer, RAND, AUTN, SHOWN),
            (RAND, RAND, AUTN, SHOWN),
            ("-", "-", "-", "-"),
        ] {
            let line = format!("phone {held} {stored} {image} {rand} {autn} {fresh}");
            let refused = format!("refused 3 - {NO_AUTS} {held} {stored} {fresh} {image}");
            assert_eq!(call(&line), refused);
        }
    }
}

#[test]
fn an_image_is_read_first_and_refused_alone() {
    let (good, stored) = (image(1), stored());
    for (image, refused) in [
        ("-", "refused 3"),
        ("00", "refused 1"),
        (&good[..408], "refused 3"),
        (&good[2..], "refused 1"),
        (&format!("{good}00"), "refused 3"),
        (&good.replacen("10", "20", 1), "refused 3"),
        (&good.replacen("10", "30", 1), "refused 1"),
        (&good.replacen("10", "00", 1), "refused 1"),
        (&good.replacen("10", "12", 1), "refused 1"),
    ] {
        for held in ["0", "1"] {
            for autn in [AUTN, &AUTN[2..], "-"] {
                let line = format!("phone {held} {stored} {image} {RAND} {autn} {SHOWN}");
                assert_eq!(call(&line), refused);
                let line = format!("phone {held} - {image} {RAND} {autn} -");
                assert_eq!(call(&line), refused);
            }
        }
    }
}

#[test]
fn a_store_is_cleared() {
    for held in ["0", "1"] {
        for stored in [stored(), zeros(56), "ff".repeat(56)] {
            let done = format!("done 0 {}", zeros(56));
            assert_eq!(call(&format!("phone-clear {held} {stored}")), done);
        }
        for length in [1, 16, 40, 55, 57, 65, 112, 312] {
            let stored = "a5".repeat(length);
            let refused = format!("refused 3 {held} {stored}");
            assert_eq!(call(&format!("phone-clear {held} {stored}")), refused);
        }
        let refused = format!("refused 3 {held} -");
        assert_eq!(call(&format!("phone-clear {held} -")), refused);
    }
}

#[test]
fn the_mark_is_one_digit_alone() {
    let (image, stored) = (image(1), stored());
    for held in ["", "-", "00", "01", "10", "11", "2", "9", "a", "+1", "1\r"] {
        let line = format!("phone {held} {stored} {image} {RAND} {AUTN} {SHOWN}");
        assert_eq!(call(&line), "bad line", "{held:?}");
        assert_eq!(call(&format!("phone {held} - - - - -")), "bad line");
        assert_eq!(call(&format!("phone-clear {held} {stored}")), "bad line");
        assert_eq!(call(&format!("phone-clear {held} -")), "bad line");
    }
}

#[test]
fn lines_of_another_form_are_bad() {
    let good = format!("phone 1 {} {} {RAND} {AUTN} {SHOWN}", stored(), image(1));
    assert!(call(&good).starts_with("repeat "));
    for line in [
        "phone".to_string(),
        "phone 1".to_string(),
        "phone-clear".to_string(),
        "phone-clear 1".to_string(),
        format!("phone-clear 1 {} -", stored()),
        format!("phone-Clear 1 {}", stored()),
        format!("phoneclear 1 {}", stored()),
        format!("phone-clea 1 {}", stored()),
        format!("phone-clear 1 {}", &stored()[1..]),
        format!("phone-clear 1  {}", stored()),
        format!(" {good}"),
        format!("{good} "),
        format!("{good} -"),
        format!("{good}\r"),
        format!("{good}0"),
        good.replace(' ', "  "),
        good.replace("phone", "Phone"),
        good.replace("phone", "phone-clear"),
        good.replace("0f", "0F"),
        good.replace(&format!(" {SHOWN}"), ""),
        good.replace(AUTN, ""),
        good.replace(AUTN, &AUTN[1..]),
    ] {
        assert_eq!(call(&line), "bad line", "{line:?}");
    }
}

#[test]
fn an_answer_may_be_longer_than_the_longest_line() {
    let (image, mut stored) = (image(0), String::new());
    for (length, refused) in [(4_096, true), (4_098, false)] {
        let rest = format!("phone 1  {image} - - 00").len();
        stored = format!("{stored:5<0$}", length - rest);
        let line = format!("phone 1 {stored} {image} - - 00");
        assert_eq!(line.len(), length);
        let expected = match refused {
            true => format!("refused 3 - {NO_AUTS} 1 {stored} 00 {image}"),
            false => "bad line".to_string(),
        };
        assert_eq!(call(&line), expected);
        assert_eq!(expected.len() > length, refused);
    }
}
