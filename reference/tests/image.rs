//! The packed image: its layout, both round trips and the refusals.

use reference::call_lines::random_card;
use reference::editions::EDITION_1;
use reference::functions::Subscriber;
use reference::image::{image, read, write};
use reference::random::Random;
use reference::usim::{Card, Refusal};

const LENGTH: usize = 205;
const PLACES: usize = 32;
const SEQ_LIMIT: u64 = 8_796_093_022_207;

fn card(set: u8) -> Card {
    let subscriber = Subscriber {
        set,
        k: std::array::from_fn(|i| i as u8),
        opc: std::array::from_fn(|i| 0xf0 + i as u8),
    };
    Card::new(1, subscriber)
}

#[test]
fn the_layout_of_a_made_up_card() {
    let mut card = card(1);
    card.places[0] = SEQ_LIMIT;
    card.places[1] = 1;
    card.places[2] = 1 << 42;
    card.places[8] = 0x555_5555_5555;
    card.places[31] = 2;
    let mut expected = vec![0x11];
    expected.extend(0x00..=0x0f);
    expected.extend(0xf0..=0xff);
    // 43 ones; 42 zeros and a one; a one: 5 bytes and 3 bits, 10 bytes and 6 bits.
    expected.extend([0xff, 0xff, 0xff, 0xff, 0xff, 0b1110_0000]);
    expected.extend([0, 0, 0, 0, 0b0000_0110]);
    // Eight places are 43 bytes, and place 8 is 101 0101 .. 0101 in 43 bits.
    expected.resize(33 + 43, 0);
    expected.extend([0xaa, 0xaa, 0xaa, 0xaa, 0xaa, 0b1010_0000]);
    expected.resize(204, 0);
    expected.push(2);
    assert_eq!(image(&card).unwrap(), expected);
    assert_eq!(read(&expected), Ok(card));
}

#[test]
fn each_bit_of_each_place_has_its_bit_in_the_image() {
    let zeros = image(&card(0)).unwrap();
    for ind in 0..PLACES {
        for bit in 0..43 {
            let mut card = card(0);
            card.places[ind] = 1 << bit;
            let mut expected = zeros.clone();
            let at = 8 + 256 + 43 * ind + (42 - bit);
            expected[at / 8] ^= 0x80 >> (at % 8);
            assert_eq!(read(&expected), Ok(card.clone()));
            assert_eq!(image(&card), Ok(expected));
        }
    }
}

#[test]
fn reading_what_was_written_gives_the_card() {
    let mut random = Random::new(205);
    for turn in 0..250 {
        let card = random_card(&EDITION_1, turn % 2, &mut random);
        assert_eq!(read(&image(&card).unwrap()), Ok(card));
    }
}

#[test]
fn writing_what_was_read_gives_the_bytes() {
    let mut random = Random::new(205);
    for turn in 0..250 {
        let mut bytes: [u8; LENGTH] = random.bytes();
        bytes[0] = 0x10 + turn % 2;
        let mut buffer = [0xee; LENGTH];
        assert_eq!(write(&read(&bytes).unwrap(), &mut buffer), Ok(()));
        assert_eq!(buffer, bytes);
    }
}

#[test]
fn of_this_length_only_edition_1_of_a_known_set_is_read() {
    let mut bytes = image(&card(0)).unwrap();
    for first in 0..=255 {
        bytes[0] = first;
        match first {
            0x10 | 0x11 => assert_eq!(read(&bytes), Ok(card(first & 15))),
            0x20..=0x2f => assert_eq!(read(&bytes), Err(Refusal(3))),
            _ => assert_eq!(read(&bytes), Err(Refusal(1))),
        }
    }
}

#[test]
fn an_unknown_edition_comes_before_another_length() {
    for (first, number) in [(0x10, 3), (0x12, 3), (0x00, 1), (0x30, 1), (0xff, 1)] {
        let mut bytes = image(&card(0)).unwrap().repeat(2);
        bytes[0] = first;
        assert_eq!(read(&[]), Err(Refusal(3)));
        for length in (1..=410).filter(|&n| n != LENGTH) {
            assert_eq!(read(&bytes[..length]), Err(Refusal(number)));
        }
    }
}

#[test]
fn a_refused_write_leaves_the_buffer() {
    let mut bad_place = card(1);
    bad_place.places[17] = SEQ_LIMIT + 1;
    let mut highest = card(1);
    highest.places[0] = u64::MAX;
    for length in [0, 1, 204, 205, 206, 512] {
        let check = |card: &Card, number| {
            let mut buffer = vec![0xee; length];
            assert_eq!(write(card, &mut buffer), Err(Refusal(number)));
            assert_eq!(buffer, vec![0xee; length]);
        };
        for bad in [&bad_place, &highest, &card(2), &card(16), &card(255)] {
            check(bad, 1);
        }
        if length != LENGTH {
            check(&card(1), 3);
        }
    }
}
