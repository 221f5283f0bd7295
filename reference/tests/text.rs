//! Lines, fields, hex digits and numbers at their edges.

use reference::text::{answers, fields, lines, read_bytes, read_hex, read_number, write_hex};

#[test]
fn lines_end_at_newlines_or_at_the_end() {
    let none: [&[u8]; 0] = [];
    assert_eq!(lines(b""), none);
    assert_eq!(lines(b"\n"), [b""]);
    assert_eq!(lines(b"\n\n"), [b"", b""]);
    assert_eq!(lines(b"a"), [b"a"]);
    assert_eq!(lines(b"a\n"), [b"a"]);
    assert_eq!(lines(b"a\nb"), [b"a", b"b"]);
    assert_eq!(lines(b"a\n\nb\n"), [&b"a"[..], b"", b"b"]);
    assert_eq!(lines(b"\na"), [&b""[..], b"a"]);
    assert_eq!(lines(b"a\n\n"), [&b"a"[..], b""]);
}

#[test]
fn only_the_newline_byte_ends_a_line() {
    assert_eq!(lines(b"a\rb\x0b\x0c\0\x85\xe2\x80\xa8c").len(), 1);
    assert_eq!(lines(b"a\r\nb"), [&b"a\r"[..], b"b"]);
}

#[test]
fn every_answer_ends_with_a_newline() {
    let same = |line: &[u8]| line.to_vec();
    assert_eq!(answers(b"", same), b"");
    assert_eq!(answers(b"a\n\nb", same), b"a\n\nb\n");
    assert_eq!(answers(b"a\n\nb\n", same), b"a\n\nb\n");
}

#[test]
fn fields_have_one_space_between() {
    assert_eq!(fields(b"a bc"), Some([&b"a"[..], b"bc"]));
    assert_eq!(fields::<2>(b"a"), None);
    assert_eq!(fields::<2>(b"a b c"), None);
    assert_eq!(fields::<2>(b"a\tb"), None);
    assert_eq!(fields::<2>(b"a  b"), None);
    assert_eq!(fields(b"a "), Some([&b"a"[..], b""]));
    assert_eq!(fields(b" a"), Some([&b""[..], b"a"]));
}

#[test]
fn every_byte_value_goes_to_hex_and_back() {
    for byte in 0..=255u8 {
        let digits = write_hex(&[byte]);
        assert_eq!(digits, format!("{byte:02x}").into_bytes());
        assert_eq!(read_hex(&digits), Some([byte]));
    }
}

#[test]
fn only_lower_case_digits_are_read() {
    for byte in 0..=255u8 {
        let good = b"0123456789abcdef".contains(&byte);
        assert_eq!(read_hex::<1>(&[byte, b'0']).is_some(), good);
        assert_eq!(read_hex::<1>(&[b'0', byte]).is_some(), good);
    }
}

#[test]
fn the_number_of_digits_is_exact() {
    assert_eq!(read_hex(b""), Some([]));
    assert_eq!(read_hex::<2>(b"0102"), Some([1, 2]));
    assert_eq!(read_hex::<2>(b"010"), None);
    assert_eq!(read_hex::<2>(b"01020"), None);
    assert_eq!(read_hex::<2>(b"010203"), None);
    assert_eq!(read_hex::<2>(b""), None);
}

#[test]
fn bytes_of_any_number_are_read() {
    assert_eq!(read_bytes(b"-"), Some(vec![]));
    assert_eq!(read_bytes(b"00"), Some(vec![0]));
    assert_eq!(read_bytes(b"00ff7a"), Some(vec![0, 0xff, 0x7a]));
    assert_eq!(read_bytes(&[b'a'; 4_000]), Some(vec![0xaa; 2_000]));
    for field in [
        "", "0", "000", "--", "-0", "0-", "00-", "-00", "0A", "0g", " 00",
    ] {
        assert_eq!(read_bytes(field.as_bytes()), None, "{field:?}");
    }
}

#[test]
fn numbers_of_1_to_20_digits_are_read() {
    assert_eq!(read_number(b"0"), Some(0));
    assert_eq!(read_number(b"007"), Some(7));
    assert_eq!(read_number(b"1234567890"), Some(1_234_567_890));
    assert_eq!(read_number(b"18446744073709551615"), Some(u64::MAX));
    assert_eq!(read_number(b"00000000000000000000"), Some(0));
    assert_eq!(
        read_number(b"09999999999999999999").map(|n| n % 10),
        Some(9)
    );
    for field in [
        "",
        "-",
        "+1",
        "-1",
        " 1",
        "1 ",
        "1a",
        "0x1",
        "000000000000000000000",
        "018446744073709551615",
        "18446744073709551616",
        "18446744073709551620",
        "99999999999999999999",
    ] {
        assert_eq!(read_number(field.as_bytes()), None, "{field:?}");
    }
}

#[test]
fn only_decimal_digits_make_numbers() {
    for byte in 0..=255u8 {
        let good = byte.is_ascii_digit();
        assert_eq!(read_number(&[byte]).is_some(), good);
        assert_eq!(read_number(&[b'1', byte]).is_some(), good);
    }
}
