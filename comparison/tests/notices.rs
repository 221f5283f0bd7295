//! The comparison notices what it is there to notice: each library here is the
//! second program with one fault.

use comparison::call::{is_refusal, Answer, Function};
use comparison::compare::Comparison;
use comparison::tally::Tally;
use comparison::{cases, chains, images, second, sizes};
use reference::random::Random;
use vetrhoss::{BAD_SIZE, DONE, LARGEST_BATCH, MAC_FAILURE, SYNCH_FAILURE};
use vetrhoss::{SRES_OFFSET, SRES_SIZE, TRIPLET_SIZE, VECTOR_SIZE, XRES_OFFSET};

/// Spoils an answer or the buffers after the call.
type Fault = fn(Function, &mut Answer, &mut [&mut [u8]]);

type Part = fn(&mut Comparison, &mut Random) -> Result<(), String>;

fn compare(part: Part, fault: Fault) -> Result<(), String> {
    let library = move |function, numbers, mut lent: Vec<&mut [u8]>| {
        let again = lent.iter_mut().map(|buffer| &mut buffer[..]).collect();
        let mut answer = second::answer(function, numbers, again);
        fault(function, &mut answer, &mut lent);
        answer
    };
    let mut comparison = Comparison::new(&library, Random::new(1));
    part(&mut comparison, &mut Random::new(2))
}

fn is_noticed(fault: Fault) -> bool {
    compare(cases::compare, fault).is_err()
}

#[test]
fn without_a_fault_all_agree() {
    let parts: [Part; 4] = [
        cases::compare,
        chains::compare,
        sizes::compare,
        images::compare,
    ];
    for part in parts {
        assert_eq!(compare(part, |_, _, _| ()), Ok(()));
    }
}

#[test]
fn a_byte_beyond_the_end() {
    // The byte is a guard: it lies in the same memory as the buffer.
    assert!(is_noticed(|function, answer, lent| {
        if function == Function::Order && answer.number == DONE {
            unsafe { *lent[2].as_mut_ptr_range().end ^= 1 }
        }
    }));
}

#[test]
fn a_byte_before_the_start() {
    assert!(is_noticed(|function, answer, lent| {
        if function == Function::Challenge && answer.number == MAC_FAILURE {
            unsafe { *lent[0].as_mut_ptr().sub(1) ^= 1 }
        }
    }));
}

#[test]
fn a_buffer_touched_on_refusal() {
    assert!(is_noticed(|function, answer, lent| {
        if function == Function::Order && answer.number == 6 {
            lent[2][0] ^= 1;
        }
    }));
}

#[test]
fn an_input_touched() {
    assert!(is_noticed(|function, answer, lent| {
        if function == Function::Resynchronise && answer.number == DONE {
            lent[2][13] ^= 1;
        }
    }));
}

#[test]
fn another_refusal() {
    assert!(is_noticed(|_, answer, _| {
        if is_refusal(*answer) && answer.number == 5 {
            answer.number = 6;
        }
    }));
}

#[test]
fn an_sqn_off_by_one() {
    assert!(is_noticed(|function, answer, _| {
        if function == Function::Challenge && answer.number == DONE {
            answer.value += 1;
        }
    }));
}

#[test]
fn the_last_vector_of_five() {
    assert!(is_noticed(|function, _, lent| {
        if function == Function::Order && lent[2].len() == LARGEST_BATCH * VECTOR_SIZE {
            lent[2][LARGEST_BATCH * VECTOR_SIZE - 1] ^= 1;
        }
    }));
}

#[test]
fn keys_left_at_a_synchronisation_failure() {
    assert!(is_noticed(|function, answer, lent| {
        if function == Function::Challenge && answer.number == SYNCH_FAILURE {
            lent[4].fill(0xaa);
        }
    }));
}

#[test]
fn the_last_triplet_of_five() {
    assert!(is_noticed(|function, answer, lent| {
        if function == Function::Triplets
            && answer.number == DONE
            && lent[1].len() == LARGEST_BATCH * TRIPLET_SIZE
        {
            lent[1][LARGEST_BATCH * TRIPLET_SIZE - 1] ^= 1;
        }
    }));
}

#[test]
fn an_sres_of_half_of_xres() {
    assert!(is_noticed(|function, answer, lent| {
        if function == Function::Triplets && answer.number == DONE {
            let half = lent[0][XRES_OFFSET..][..SRES_SIZE].to_vec();
            lent[1][SRES_OFFSET..][..SRES_SIZE].copy_from_slice(&half);
        }
    }));
}

#[test]
fn triplets_touched_on_refusal() {
    assert!(is_noticed(|function, answer, lent| {
        if function == Function::Triplets && answer.number == BAD_SIZE {
            if let Some(byte) = lent[1].first_mut() {
                *byte ^= 1;
            }
        }
    }));
}

#[test]
fn triplets_of_a_vector_too_many() {
    let fault: Fault = |function, answer, lent| {
        let six = LARGEST_BATCH + 1;
        if function == Function::Triplets
            && lent[0].len() == six * VECTOR_SIZE
            && lent[1].len() == six * TRIPLET_SIZE
        {
            *answer = Answer::done(0);
        }
    };
    assert!(compare(sizes::compare, fault).is_err());
}

/// Edition 2 counts its indices by vectors, not by batches.
#[test]
fn an_index_for_a_batch() {
    let fault: Fault = |function, answer, lent| {
        if function == Function::Order && answer.number == DONE && lent[0][0] >> 4 == 2 {
            let n = (lent[2].len() / VECTOR_SIZE) as u8;
            let (seq, next) = (lent[0][40] & 0xc0, lent[0][40] & 0x3f);
            lent[0][40] = seq + (next.wrapping_sub(n - 1) & 0x3f);
        }
    };
    for part in [cases::compare as Part, chains::compare] {
        assert!(compare(part, fault).is_err());
    }
}

/// Place 63 of an edition 2 card lies in the last octets of its image.
#[test]
fn the_last_place_of_a_card() {
    assert!(is_noticed(|function, answer, lent| {
        if function == Function::Challenge && answer.number == DONE && lent[0].len() == 369 {
            lent[0][368] ^= 1;
        }
    }));
}

#[test]
fn a_new_card_of_another_edition() {
    assert!(is_noticed(|function, answer, lent| {
        if function == Function::NewUsim && answer.number == DONE {
            lent[2][0] ^= 0x30;
        }
    }));
}

#[test]
fn an_answer_that_is_never_met() {
    assert!(Tally::default().is_full().is_err());
}
