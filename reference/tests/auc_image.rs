//! The centre's packed image: its layout, both round trips and the refusals.

use reference::auc::Auc;
use reference::auc_image::{image, read, write};
use reference::functions::Subscriber;
use reference::random::Random;
use reference::usim::Refusal;

const LENGTH: usize = 41;
const SEQ_LIMIT: u64 = 8_796_093_022_207;

fn auc(set: u8, seq_he: u64, next: u8) -> Auc {
    let subscriber = Subscriber {
        set,
        k: std::array::from_fn(|i| i as u8),
        opc: std::array::from_fn(|i| 0xf0 + i as u8),
    };
    Auc {
        seq_he,
        next,
        ..Auc::new(1, subscriber, [0xab, 0xcd])
    }
}

#[test]
fn the_layout_of_a_made_up_record() {
    let mut expected = vec![0x11];
    expected.extend(0x00..=0x0f);
    expected.extend(0xf0..=0xff);
    expected.extend([0xab, 0xcd]);
    // SEQ_HE and the index together are the 48 bits of an SQN.
    expected.extend([0, 0, 0, 0, 0b0000_0110, 0b0101_1111]);
    assert_eq!(image(&auc(1, 50, 31)).unwrap(), expected);
    assert_eq!(read(&expected), Ok(auc(1, 50, 31)));
}

#[test]
fn each_bit_has_its_bit_in_the_image() {
    let zeros = image(&auc(0, 0, 0)).unwrap();
    for bit in 0..48 {
        let (seq_he, next) = ((1u64 << bit) / 32, ((1u64 << bit) % 32) as u8);
        let mut expected = zeros.clone();
        let at = 8 * LENGTH - 1 - bit;
        expected[at / 8] ^= 0x80 >> (at % 8);
        assert_eq!(read(&expected), Ok(auc(0, seq_he, next)));
        assert_eq!(image(&auc(0, seq_he, next)), Ok(expected));
    }
}

#[test]
fn both_round_trips() {
    let mut random = Random::new(41);
    for turn in 0..250 {
        let mut bytes: [u8; LENGTH] = random.bytes();
        bytes[0] = 0x10 + turn % 2;
        let record = read(&bytes).unwrap();
        assert!(record.is_valid());
        assert_eq!(image(&record), Ok(bytes.to_vec()));
        assert_eq!(read(&image(&record).unwrap()), Ok(record));
    }
}

#[test]
fn only_a_known_edition_and_a_known_set_are_read() {
    let mut bytes = image(&auc(0, 9, 9)).unwrap();
    for first in 0..=255 {
        bytes[0] = first;
        match first {
            0x10 | 0x11 => assert_eq!(read(&bytes), Ok(auc(first & 15, 9, 9))),
            0x20 | 0x21 => assert_eq!(read(&bytes).unwrap().edition, 2),
            _ => assert_eq!(read(&bytes), Err(Refusal(1))),
        }
    }
}

#[test]
fn an_unknown_edition_comes_before_another_length() {
    for (first, number) in [(0x10, 3), (0x12, 3), (0x20, 3), (0x00, 1), (0x30, 1)] {
        let mut bytes = image(&auc(0, 9, 9)).unwrap().repeat(10);
        bytes[0] = first;
        assert_eq!(read(&[]), Err(Refusal(3)));
        for length in (1..bytes.len()).filter(|&length| length != LENGTH) {
            assert_eq!(read(&bytes[..length]), Err(Refusal(number)));
        }
    }
}

#[test]
fn a_refused_write_leaves_the_buffer() {
    for length in [0, 1, 40, 41, 42, 512] {
        let check = |auc: &Auc, number| {
            let mut buffer = vec![0xee; length];
            assert_eq!(write(auc, &mut buffer), Err(Refusal(number)));
            assert_eq!(buffer, vec![0xee; length]);
        };
        for (set, seq_he, next) in [
            (2, 0, 0),
            (16, 0, 0),
            (255, 0, 0),
            (0, SEQ_LIMIT + 1, 0),
            (1, u64::MAX, 0),
            (0, 0, 32),
            (1, SEQ_LIMIT, 255),
        ] {
            check(&auc(set, seq_he, next), 1);
        }
        if length != LENGTH {
            check(&auc(1, SEQ_LIMIT, 31), 3);
        }
    }
}
