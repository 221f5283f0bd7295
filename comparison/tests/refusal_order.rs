//! A library that gives another refusal than the lowest is noticed: each one
//! here is the second program with two refusals looked at in the wrong order.

use comparison::call::{Answer, Function, Numbers};
use comparison::compare::Comparison;
use comparison::{cases, images, second};
use reference::random::Random;
use vetrhoss::{AMF_SIZE, AUTN_SIZE, K_SIZE, OPC_SIZE, RAND_SIZE};
use vetrhoss::{AUC_IMAGE_SIZE_1, USIM_IMAGE_SIZE_1, USIM_IMAGE_SIZE_2};
use vetrhoss::{AUTS_SIZE, CK_SIZE, IK_SIZE, LARGEST_BATCH, RES_SIZE};

const MOST: u64 = LARGEST_BATCH as u64;

/// The same in both editions.
const AUC_IMAGE_SIZE: usize = AUC_IMAGE_SIZE_1;

/// The buffers of a challenge behind the image.
const CHALLENGE_SIZES: [usize; 6] = [RAND_SIZE, AUTN_SIZE, RES_SIZE, CK_SIZE, IK_SIZE, AUTS_SIZE];

/// The refusal that comes too early, or 0.
type Early = fn(Function, Numbers, &[&mut [u8]]) -> u8;

type Part = fn(&mut Comparison, &mut Random) -> Result<(), String>;

fn is_noticed_by(part: Part, early: Early) -> bool {
    let library =
        move |function, numbers, lent: Vec<&mut [u8]>| match early(function, numbers, &lent) {
            0 => second::answer(function, numbers, lent),
            refusal => Answer {
                number: refusal,
                value: 0,
            },
        };
    let mut comparison = Comparison::new(&library, Random::new(3));
    part(&mut comparison, &mut Random::new(4)).is_err()
}

fn is_noticed(early: Early) -> bool {
    is_noticed_by(cases::compare, early)
}

/// The size of a card's image, whose edition may be unknown.
fn usim_image_size(edition: u64) -> usize {
    match edition {
        2 => USIM_IMAGE_SIZE_2,
        _ => USIM_IMAGE_SIZE_1,
    }
}

/// The refusal where the sizes are not the ones named.
fn unless_sized(lent: &[&mut [u8]], sizes: &[usize]) -> u8 {
    let named = lent
        .iter()
        .zip(sizes)
        .all(|(buffer, &size)| buffer.len() == size);
    if named {
        0
    } else {
        3
    }
}

/// What the call would answer with other buffers, where that is one of the given
/// refusals.
fn answer_with(
    function: Function,
    numbers: Numbers,
    buffers: &mut [Vec<u8>],
    refusals: &[u8],
) -> u8 {
    let lent = buffers.iter_mut().map(|buffer| &mut buffer[..]).collect();
    let answer = second::answer(function, numbers, lent).number;
    if refusals.contains(&answer) {
        answer
    } else {
        0
    }
}

/// What is noticed below is the refusal, and nothing else.
#[test]
fn in_the_right_order_all_agree() {
    assert!(!is_noticed(|_, _, _| 0));
    assert!(!is_noticed_by(images::compare, |_, _, _| 0));
}

#[test]
fn size_before_set() {
    assert!(is_noticed(|function, [edition, _], lent| match function {
        Function::NewUsim => {
            unless_sized(lent, &[K_SIZE, OPC_SIZE, usim_image_size(edition)])
        }
        _ => 0,
    }));
    assert!(is_noticed(|function, _, lent| match function {
        Function::NewAuc => unless_sized(lent, &[K_SIZE, OPC_SIZE, AMF_SIZE, AUC_IMAGE_SIZE]),
        _ => 0,
    }));
    assert!(is_noticed(|function, _, lent| match function {
        Function::Challenge => unless_sized(&lent[1..], &CHALLENGE_SIZES),
        _ => 0,
    }));
}

fn reads_an_image(function: Function) -> bool {
    matches!(
        function,
        Function::Challenge | Function::Order | Function::Resynchronise
    )
}

/// The edition and the set with which an image begins.
fn begins(image: &[u8]) -> (u8, u8) {
    image
        .first()
        .map_or((0, 0), |first| (first >> 4, first & 15))
}

/// An image of an unknown edition gives 1 whatever its size is.
#[test]
fn size_before_edition() {
    for part in [cases::compare as Part, images::compare] {
        assert!(is_noticed_by(part, |function, _, lent| {
            let odd = |size| ![0, 41, 205, 369].contains(&size);
            match reads_an_image(function) && begins(lent[0]).0 > 2 && odd(lent[0].len()) {
                true => 3,
                false => 0,
            }
        }));
    }
}

/// An image of size 0 gives 3.
#[test]
fn edition_before_no_image() {
    for part in [cases::compare as Part, images::compare] {
        assert!(is_noticed_by(part, |function, _, lent| {
            u8::from(reads_an_image(function) && lent[0].is_empty())
        }));
    }
}

/// An image of another size than its edition's gives 3 whatever its set is.
#[test]
fn set_before_size() {
    for part in [cases::compare as Part, images::compare] {
        assert!(is_noticed_by(part, |function, _, lent| {
            let (edition, set) = begins(lent[0]);
            let known = reads_an_image(function) && (1..=2).contains(&edition);
            u8::from(known && set > 1)
        }));
    }
}

/// Where the image of a card has the size of another edition.
#[test]
fn one_size_for_both_editions() {
    for part in [cases::compare as Part, images::compare] {
        assert!(is_noticed_by(part, |function, _, lent| {
            let sizes = [USIM_IMAGE_SIZE_1, USIM_IMAGE_SIZE_2];
            let challenge = function == Function::Challenge && begins(lent[0]).0 == 2;
            u8::from(challenge && lent[0].len() == sizes[0])
        }));
    }
}

/// Where the image has the size named, so that its edition or set is unknown.
#[test]
fn count_before_edition() {
    assert!(is_noticed(|function, [count, _], lent| match function {
        Function::Order if count > MOST && lent[0].len() == AUC_IMAGE_SIZE => 2,
        _ => 0,
    }));
    assert!(is_noticed(|function, [count, _], lent| match function {
        Function::Resynchronise if count > MOST && lent[0].len() == AUC_IMAGE_SIZE => 2,
        _ => 0,
    }));
}

#[test]
fn count_before_the_size_of_the_image() {
    assert!(is_noticed(|function, [count, _], lent| match function {
        Function::Order if count > MOST && lent[0].len() != AUC_IMAGE_SIZE => 2,
        _ => 0,
    }));
    assert!(is_noticed(|function, [count, _], lent| match function {
        Function::Resynchronise if count > MOST && lent[0].len() != AUC_IMAGE_SIZE => 2,
        _ => 0,
    }));
}

fn copies(lent: &[&mut [u8]]) -> Vec<Vec<u8>> {
    lent.iter().map(|buffer| buffer.to_vec()).collect()
}

/// The RANDs are made unlike, so that what comes behind refusal 4 is answered.
fn with_unlike_rands(lent: &[&mut [u8]], place: usize) -> Vec<Vec<u8>> {
    let mut buffers = copies(lent);
    for (number, rand) in buffers[place].chunks_mut(RAND_SIZE).enumerate() {
        rand[0] = number as u8;
    }
    buffers
}

#[test]
fn limit_before_equal_rands() {
    assert!(is_noticed(|function, numbers, lent| match function {
        Function::Order => answer_with(function, numbers, &mut with_unlike_rands(lent, 1), &[6]),
        _ => 0,
    }));
}

#[test]
fn mac_s_before_equal_rands() {
    assert!(is_noticed(|function, numbers, lent| match function {
        Function::Resynchronise => {
            answer_with(function, numbers, &mut with_unlike_rands(lent, 3), &[5])
        }
        _ => 0,
    }));
}

/// SEQ_HE has the first 43 or 42 of the image's last 48 bits; all ones are its
/// limit.
fn is_at_its_limit(image: &[u8]) -> bool {
    let least = if begins(image).0 == 1 { 0xe0 } else { 0xc0 };
    image[35..40] == [0xff; 5] && image[40] >= least
}

#[test]
fn limit_before_mac_s() {
    assert!(is_noticed(|function, numbers, lent| match function {
        Function::Resynchronise => {
            let refusal = answer_with(function, numbers, &mut copies(lent), &[5]);
            if refusal == 5 && is_at_its_limit(lent[0]) {
                6
            } else {
                0
            }
        }
        _ => 0,
    }));
}
