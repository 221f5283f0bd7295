//! Triplets against the conversions of TS 33.102, clause 6.8.1.2, done by hand.

use reference::random::Random;
use reference::text::{read_hex, write_hex};
use reference::triplet::{convert, Triplet, LENGTH};
use reference::usim::Refusal;
use reference::vector::{self, Vector};

fn hex<const N: usize>(digits: &str) -> [u8; N] {
    read_hex(digits.as_bytes()).expect("hex of this length")
}

/// RAND, SRES and Kc in hex.
fn triplet(rand: &str, xres: &str, ck: &str, ik: &str) -> [String; 3] {
    let vector = Vector {
        rand: hex(rand),
        xres: hex(xres),
        ck: hex(ck),
        ik: hex(ik),
        autn: [0xa5; 16],
    };
    let Triplet { rand, sres, kc } = Triplet::of_vector(&vector);
    [&rand[..], &sres, &kc].map(|part| String::from_utf8(write_hex(part)).unwrap())
}

/// All bytes of the sample's Kc cancel, each stands twice in CK and IK.
#[test]
fn the_triplet_of_the_sample_run() {
    let zeros = "00000000000000000000000000000000";
    let sample = triplet(
        zeros,
        "0001020304050607",
        "0102030405060708090a0b0c0d0e0f00",
        "02030405060708090a0b0c0d0e0f0001",
    );
    assert_eq!(sample, [zeros, "04040404", "0000000000000000"]);
}

/// Test set 1 of TS 35.208: XRES a54211d5 e3ba50bf; CK b40ba9a3c58b2a05
/// bbf0d987b21bf8cb, whose halves give 0ffb70247790d2ce; IK f769bcd751044604
/// 127672711c6d3441, whose halves give e51fcea64d697245.
#[test]
fn the_triplet_of_a_published_set() {
    let rand = "23553cbe9637a89d218ae64dae47bf35";
    let set = triplet(
        rand,
        "a54211d5e3ba50bf",
        "b40ba9a3c58b2a05bbf0d987b21bf8cb",
        "f769bcd751044604127672711c6d3441",
    );
    assert_eq!(set, [rand, "46f8416a", "eae4be823af9a08b"]);
}

#[test]
fn each_part_goes_where_it_should() {
    let rand = "00112233445566778899aabbccddeeff";
    let zeros = "00000000000000000000000000000000";
    let xres = "0000000000000000";
    let one = "0123456789abcdef";
    let kc = |ck: &str, ik: &str| triplet(rand, xres, ck, ik)[2].clone();
    for half in [format!("{one}{xres}"), format!("{xres}{one}")] {
        assert_eq!(kc(&half, zeros), one);
        assert_eq!(kc(zeros, &half), one);
        assert_eq!(kc(&half, &half), xres);
    }
    assert_eq!(
        triplet(rand, "0123456700000000", zeros, zeros)[1],
        "01234567"
    );
    assert_eq!(
        triplet(rand, "0000000089abcdef", zeros, zeros)[1],
        "89abcdef"
    );
    assert_eq!(
        triplet(rand, "0123456789abcdef", zeros, zeros)[1],
        "88888888"
    );
}

#[test]
fn the_bytes_of_a_triplet() {
    let triplet = Triplet {
        rand: hex("000102030405060708090a0b0c0d0e0f"),
        sres: hex("10111213"),
        kc: hex("1415161718191a1b"),
    };
    let bytes: [u8; LENGTH] = std::array::from_fn(|i| i as u8);
    assert_eq!(triplet.bytes(), bytes);
    assert_eq!(Triplet::of(&bytes), triplet);
}

#[test]
fn a_batch_is_converted_in_its_order() {
    let mut random = Random::new(28);
    for n in 1..=5 {
        let vectors: Vec<vector::Bytes> = (0..n).map(|_| random.bytes()).collect();
        let mut triplets = vec![0xee; LENGTH * n];
        assert_eq!(convert(&vectors.concat(), &mut triplets), Ok(()));
        for (vector, triplet) in vectors.iter().zip(triplets.chunks(LENGTH)) {
            let one = Triplet::of_vector(&Vector::of(vector));
            assert_eq!(one.bytes(), triplet);
        }
    }
}

#[test]
fn other_lengths_are_refused_3_and_nothing_is_written() {
    let batch = [0x5a; 600];
    for given in 0..=600 {
        for lent in [0, 1, 27, 28, 29, 56, 84, 112, 139, 140, 141, 168, 512] {
            let mut triplets = vec![0xee; lent];
            let answer = convert(&batch[..given], &mut triplets);
            let n = given / 72;
            if given == 72 * n && (1..=5).contains(&n) && lent == 28 * n {
                assert_eq!(answer, Ok(()));
            } else {
                assert_eq!(answer, Err(Refusal(3)));
                assert_eq!(triplets, vec![0xee; lent]);
            }
        }
    }
}
