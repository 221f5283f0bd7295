//! Lines, fields, hex digits and numbers. All of it works on bytes, since the input may
//! hold any byte.

pub const BAD_LINE: &[u8] = b"bad line";

/// The lines of the input without their newlines. A line ends at a newline, or
/// at the end of the input if bytes follow the last newline.
pub fn lines(input: &[u8]) -> Vec<&[u8]> {
    let mut lines: Vec<&[u8]> = input.split(|&b| b == b'\n').collect();
    // What follows the last newline is a line only if it holds a byte.
    if lines.last().is_some_and(|last| last.is_empty()) {
        lines.pop();
    }
    lines
}

/// One answer to each line of the input, every one ended by a newline.
pub fn answers(input: &[u8], mut answer: impl FnMut(&[u8]) -> Vec<u8>) -> Vec<u8> {
    let mut output = Vec::new();
    for line in lines(input) {
        output.extend(answer(line));
        output.push(b'\n');
    }
    output
}

/// The fields of a line with exactly one space between them. Two spaces side
/// by side, or one at an end, give an empty field, which no rule takes.
pub fn fields<const N: usize>(line: &[u8]) -> Option<[&[u8]; N]> {
    let fields: Vec<&[u8]> = line.split(|&b| b == b' ').collect();
    fields.try_into().ok()
}

fn hex_digit(digit: u8) -> Option<u8> {
    match digit {
        b'0'..=b'9' => Some(digit - b'0'),
        b'a'..=b'f' => Some(digit - b'a' + 10),
        _ => None,
    }
}

/// One byte from exactly two digits.
fn hex_byte(digits: &[u8]) -> Option<u8> {
    match digits {
        &[high, low] => Some(hex_digit(high)? << 4 | hex_digit(low)?),
        _ => None,
    }
}

/// N bytes from exactly 2N lower-case hex digits.
pub fn read_hex<const N: usize>(digits: &[u8]) -> Option<[u8; N]> {
    let bytes: Option<Vec<u8>> = digits.chunks(2).map(hex_byte).collect();
    bytes?.try_into().ok()
}

/// Bytes of any number. A field is never empty: `-` stands for no bytes.
pub fn read_bytes(field: &[u8]) -> Option<Vec<u8>> {
    match field {
        b"" => None,
        b"-" => Some(Vec::new()),
        digits => digits.chunks(2).map(hex_byte).collect(),
    }
}

/// A number below 2^64 from 1 to 20 decimal digits; leading zeros are taken.
pub fn read_number(field: &[u8]) -> Option<u64> {
    if field.is_empty() || field.len() > 20 {
        return None;
    }
    field.iter().try_fold(0u64, |number, digit| match digit {
        b'0'..=b'9' => number.checked_mul(10)?.checked_add(u64::from(digit - b'0')),
        _ => None,
    })
}

pub fn write_number(number: u64) -> Vec<u8> {
    number.to_string().into_bytes()
}

/// Bytes of any number, `-` for none.
pub fn write_bytes(bytes: &[u8]) -> Vec<u8> {
    match bytes {
        [] => b"-".to_vec(),
        _ => write_hex(bytes),
    }
}

/// Two lower-case hex digits for each byte.
pub fn write_hex(bytes: &[u8]) -> Vec<u8> {
    const DIGITS: &[u8; 16] = b"0123456789abcdef";
    let digit = |value: u8| DIGITS[usize::from(value)];
    bytes
        .iter()
        .flat_map(|b| [digit(b >> 4), digit(b & 15)])
        .collect()
}
