//! Every buffer of every function with each wrong size, all else being right;
//! and every batch's size beside the sizes of triplets.

use reference::random::Random;
use vetrhoss::{LARGEST_BATCH, TRIPLET_SIZE, VECTOR_SIZE};

use crate::call::{is_refusal, Call, Function, ALL};
use crate::cases::{filler, random_call};
use crate::compare::Comparison;

/// A wrong size is noticed however the rest of the call looks.
const CALLS: usize = 3;

/// One byte more than a vector too many.
const LONGEST_BATCH: usize = (LARGEST_BATCH + 1) * VECTOR_SIZE + 1;

/// The triplets of 0 to 6 vectors, a byte less and a byte more; and far too many.
const FOR_TRIPLETS: [usize; 21] = [
    0, 1, 27, 28, 29, 55, 56, 57, 83, 84, 85, 111, 112, 113, 139, 140, 141, 167, 168, 169, 512,
];

pub fn compare(comparison: &mut Comparison, random: &mut Random) -> Result<(), String> {
    for function in ALL {
        for _ in 0..CALLS {
            let good = taken_call(comparison, function, random)?;
            for place in 0..good.buffers.len() {
                each_size(comparison, &good, place, random)?;
            }
        }
    }
    triplets_of_each_batch(comparison, random)
}

/// A call that is not refused.
fn taken_call(
    comparison: &mut Comparison,
    function: Function,
    random: &mut Random,
) -> Result<Call, String> {
    loop {
        let call = random_call(function, random);
        if !is_refusal(comparison.call(&call)?.answer) {
            return Ok(call);
        }
    }
}

/// All sizes from 0 to a little more than three times the right one.
fn each_size(
    comparison: &mut Comparison,
    good: &Call,
    place: usize,
    random: &mut Random,
) -> Result<(), String> {
    let right = good.buffers[place].len();
    for size in (0..=3 * right + 2).filter(|&size| size != right) {
        let mut call = good.clone();
        call.buffers[place] = filler(size, random);
        // An image keeps its edition.
        if let Some(first) = call.buffers[place].first_mut() {
            *first = good.buffers[place][0];
        }
        let answer = comparison.call(&call)?.answer;
        let batch_of_another_size = good.function == Function::VectorAt && size % VECTOR_SIZE == 0;
        if !is_refusal(answer) && !batch_of_another_size {
            return Err(format!(
                "{:?} takes {size} bytes for buffer {place}",
                good.function
            ));
        }
    }
    Ok(())
}

/// Which size is right for the triplets goes with that of the batch.
fn triplets_of_each_batch(comparison: &mut Comparison, random: &mut Random) -> Result<(), String> {
    for batch in 0..=LONGEST_BATCH {
        for lent in FOR_TRIPLETS {
            let call = Call {
                function: Function::Triplets,
                numbers: [0; 2],
                buffers: vec![filler(batch, random), filler(lent, random)],
            };
            let taken = !is_refusal(comparison.call(&call)?.answer);
            if taken != fit(batch, lent) {
                return Err(format!(
                    "a batch of {batch} bytes and {lent} for its triplets: taken is {taken}"
                ));
            }
        }
    }
    Ok(())
}

fn fit(batch: usize, triplets: usize) -> bool {
    (1..=LARGEST_BATCH).any(|n| batch == VECTOR_SIZE * n && triplets == TRIPLET_SIZE * n)
}
