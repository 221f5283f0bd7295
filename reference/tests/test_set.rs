//! Set 0 against the sample of the bench run.

use reference::block::xor;
use reference::functions::{Outputs, Subscriber};
use reference::text::{read_hex, write_hex};

const SQN: [u8; 6] = [0, 0, 0, 0, 0, 0x20];
const AMF: [u8; 2] = [0, 1];

fn hex<const N: usize>(digits: &str) -> [u8; N] {
    read_hex(digits.as_bytes()).expect("hex of this length")
}

fn subscriber(set: u8, opc: u8) -> Subscriber {
    Subscriber {
        set,
        k: hex("000102030405060708090a0b0c0d0e0f"),
        opc: [opc; 16],
    }
}

fn sample(amf: &[u8; 2]) -> Outputs {
    subscriber(0, 0).outputs(&[0; 16], &SQN, amf).unwrap()
}

#[test]
fn res_and_keys_of_the_sample() {
    let outputs = sample(&AMF);
    assert_eq!(outputs.res, hex::<8>("0001020304050607"));
    assert_eq!(outputs.ck, hex::<16>("0102030405060708090a0b0c0d0e0f00"));
    assert_eq!(outputs.ik, hex::<16>("02030405060708090a0b0c0d0e0f0001"));
    assert_eq!(outputs.ak, hex::<6>("030405060708"));
    assert_eq!(outputs.ak_s, hex::<6>("030405060708"));
}

#[test]
fn autn_of_the_sample() {
    let outputs = sample(&AMF);
    let autn = [&xor(&SQN, &outputs.ak)[..], &AMF, &outputs.mac].concat();
    assert_eq!(write_hex(&autn), b"03040506072800010001020304250606");
}

#[test]
fn auts_of_the_sample() {
    // MAC-S has an AMF of two zero bytes.
    let outputs = sample(&[0, 0]);
    let auts = [&xor(&SQN, &outputs.ak_s)[..], &outputs.mac_s].concat();
    assert_eq!(write_hex(&auts), b"0304050607280001020304250607");
}

#[test]
fn rand_is_added_to_k() {
    let rand = [0xff; 16];
    let outputs = subscriber(0, 0).outputs(&rand, &SQN, &AMF).unwrap();
    assert_eq!(outputs.res, hex::<8>("fffefdfcfbfaf9f8"));
    assert_eq!(outputs.ck, hex::<16>("fefdfcfbfaf9f8f7f6f5f4f3f2f1f0ff"));
    assert_eq!(outputs.ik, hex::<16>("fdfcfbfaf9f8f7f6f5f4f3f2f1f0fffe"));
    assert_eq!(outputs.ak, hex::<6>("fcfbfaf9f8f7"));
    assert_eq!(outputs.mac, hex::<8>("fffefdfcfbdaf9f9"));
}

#[test]
fn opc_is_not_used() {
    let other = subscriber(0, 0x5a).outputs(&[0; 16], &SQN, &AMF);
    assert_eq!(other, Some(sample(&AMF)));
}

#[test]
fn every_other_set_is_refused() {
    for set in 2..=255 {
        assert_eq!(subscriber(set, 0).outputs(&[0; 16], &SQN, &AMF), None);
    }
}
