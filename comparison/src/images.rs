//! Images of every edition and set in many sizes, and new ones: what the reading
//! of an image refuses comes before all else.

use reference::random::Random;
use vetrhoss::{BAD_IMAGE, BAD_SIZE, DONE};

use crate::call::{is_refusal, Call, Function};
use crate::cases::{filler, random_call};
use crate::compare::Comparison;

/// About the sizes of all images, and some others.
const SIZES: [usize; 16] = [
    0, 1, 2, 33, 40, 41, 42, 58, 204, 205, 206, 368, 369, 370, 392, 512,
];

/// The sizes of a card's and a centre's images of editions 1 and 2.
const CARD: [usize; 2] = [205, 369];
const CENTRE: [usize; 2] = [41, 41];

pub fn compare(comparison: &mut Comparison, random: &mut Random) -> Result<(), String> {
    for (function, sizes) in [
        (Function::Challenge, CARD),
        (Function::Order, CENTRE),
        (Function::Resynchronise, CENTRE),
    ] {
        for first in 0..=255 {
            for size in SIZES {
                lent(comparison, function, sizes, (first, size), random)?;
            }
        }
    }
    for (function, sizes) in [(Function::NewUsim, CARD), (Function::NewAuc, CENTRE)] {
        for edition in 0..=255 {
            for set in [0, 1, 2, 16, 255] {
                for size in SIZES {
                    new(comparison, function, sizes, [edition, set], size, random)?;
                }
            }
        }
    }
    Ok(())
}

/// What the reading of an image refuses, or 0.
fn reading(sizes: [usize; 2], first: u8, size: usize) -> u8 {
    let (edition, set) = (usize::from(first >> 4), first & 15);
    match (size, edition) {
        (0, _) => BAD_SIZE,
        (_, 1..=2) if size != sizes[edition - 1] => BAD_SIZE,
        (_, 1..=2) if set <= 1 => 0,
        _ => BAD_IMAGE,
    }
}

/// An image that begins with this byte, in a call that is right, or wrong in
/// any way, beside it.
fn lent(
    comparison: &mut Comparison,
    function: Function,
    sizes: [usize; 2],
    (first, size): (u8, usize),
    random: &mut Random,
) -> Result<(), String> {
    let mut call = random_call(function, random);
    call.buffers[0] = filler(size, random);
    if let Some(byte) = call.buffers[0].first_mut() {
        *byte = first;
    }
    let answer = comparison.call(&call)?.answer;
    match reading(sizes, first, size) {
        0 if answer.number != BAD_IMAGE => Ok(()),
        refusal if answer.number == refusal => Ok(()),
        _ => Err(format!("{call:?} gives {answer:?}")),
    }
}

/// A new image with all else right. Edition and set come before its size.
fn new(
    comparison: &mut Comparison,
    function: Function,
    sizes: [usize; 2],
    [edition, set]: [u64; 2],
    size: usize,
    random: &mut Random,
) -> Result<(), String> {
    let mut buffers = vec![filler(16, random), filler(16, random)];
    if function == Function::NewAuc {
        buffers.push(filler(2, random));
    }
    buffers.push(filler(size, random));
    let call = Call {
        function,
        numbers: [edition, set],
        buffers,
    };
    let answer = comparison.call(&call)?.answer;
    let expected = match edition {
        1..=2 if set > 1 => BAD_IMAGE,
        1..=2 if size == sizes[edition as usize - 1] => DONE,
        1..=2 => BAD_SIZE,
        _ => BAD_IMAGE,
    };
    match answer.number == expected && (expected == DONE || is_refusal(answer)) {
        true => Ok(()),
        false => Err(format!("{call:?} gives {answer:?}")),
    }
}
