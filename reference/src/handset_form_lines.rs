//! The lines that try each edge of the form of the handset's words.

use crate::auc_form_lines::other_fields;
use crate::calls::LONGEST;
use crate::challenge_lines::SETS;
use crate::damage::{self, STRANGE};
use crate::editions::EDITION_1;
use crate::handset::{Store, ANSWER, STORED};
use crate::handset_lines::{clear_line, Lent, Story};
use crate::random::Random;

/// Short lines. Most are bad lines; the others are refused for their lengths.
const SHORT: [&str; 60] = [
    "phone",
    "phone ",
    "phone 0",
    "phone 0 -",
    "phone 0 - - - -",
    "phone 0 - - - - ",
    "phone 0 - - - - -",
    "phone 1 - - - - -",
    "phone 0 - - - - - ",
    "phone 0 - - - - - -",
    "phone - - - - - -",
    "phone  - - - - -",
    "phone  0 - - - - -",
    "phone 0  - - - - -",
    "phone 0 - - - -  -",
    "phone 2 - - - - -",
    "phone 00 - - - - -",
    "phone 0 00 00 00 00 00",
    "phone 1 00 00 00 00 0",
    "phone 1 0 - - - -",
    "phone 1 - 0g - - -",
    "phone 1 - - 0A - -",
    "phone 1 - - - -- -",
    "phone 1 - - - - -\r",
    "phone 1 - - - - -\0",
    "phone\t1 - - - - -",
    " phone 1 - - - - -",
    "Phone 1 - - - - -",
    "PHONE 1 - - - - -",
    "phon 1 - - - - -",
    "phones 1 - - - - -",
    "phone- 1 - - - - -",
    "phone1 - - - - -",
    "phone-clear",
    "phone-clear ",
    "phone-clear -",
    "phone-clear 0",
    "phone-clear 1 ",
    "phone-clear 0 -",
    "phone-clear 1 -",
    "phone-clear 1 - ",
    "phone-clear 1 - -",
    "phone-clear  -",
    "phone-clear  1 -",
    "phone-clear 1  -",
    "phone-clear 1 0",
    "phone-clear 1 00",
    "phone-clear 1 0A",
    "phone-clear 1 -\r",
    " phone-clear 1 -",
    "Phone-clear 1 -",
    "phone-Clear 1 -",
    "phone_clear 1 -",
    "phoneclear 1 -",
    "phone clear 1 -",
    "phone-clea 1 -",
    "phone-clears 1 -",
    "phone-clear1 -",
    "phone- 1 -",
    "clear 1 -",
];

/// What no mark is.
const NO_MARKS: [&str; 12] = [
    "", "-", "00", "01", "10", "11", "2", "9", "-1", "+1", "true", "0 0",
];

pub fn edges(random: &mut Random) -> Vec<Vec<u8>> {
    let mut lines = SHORT.map(|line| line.as_bytes().to_vec()).to_vec();
    let (repeat, clear) = one_of_each(1, random);
    for line in [repeat, clear] {
        lines.extend(other_fields(&line));
        lines.extend(NO_MARKS.map(|mark| with_mark(&line, mark.as_bytes())));
    }
    lines.extend(strange_marks(random));
    lines.extend(each_damage(random));
    lines.extend(long_lines(random));
    lines
}

/// A repeat, and the clear of the same store.
fn one_of_each(set: u8, random: &mut Random) -> (Vec<u8>, Vec<u8>) {
    let (mut story, held) = Story::holding(&EDITION_1, set, random);
    let lent = story.lent(&held);
    (lent.line(), clear_line(&lent.store))
}

fn with_mark(line: &[u8], mark: &[u8]) -> Vec<u8> {
    let mut fields: Vec<&[u8]> = line.split(|&b| b == b' ').collect();
    fields[1] = mark;
    fields.join(&b' ')
}

/// Every strange byte as the mark, and behind a right one in turn.
fn strange_marks(random: &mut Random) -> Vec<Vec<u8>> {
    let (_, clear) = one_of_each(0, random);
    let marks = STRANGE
        .iter()
        .enumerate()
        .map(|(turn, &byte)| match turn % 2 {
            0 => vec![byte],
            _ => vec![b'1', byte],
        });
    marks.map(|mark| with_mark(&clear, &mark)).collect()
}

/// Each way of damage to a line of each word.
fn each_damage(random: &mut Random) -> Vec<Vec<u8>> {
    let mut lines = Vec::new();
    for (turn, damage) in damage::ALL.into_iter().enumerate() {
        let (mut repeat, mut clear) = one_of_each(SETS[turn % 2], random);
        damage(&mut repeat, random);
        damage(&mut clear, random);
        lines.extend([repeat, clear]);
    }
    lines
}

/// Lines about the greatest length, of a right form otherwise. Where RAND and
/// AUTN are missing the answer is longer than its line.
fn long_lines(random: &mut Random) -> Vec<Vec<u8>> {
    let (mut story, held) = Story::holding(&EDITION_1, 0, random);
    let lent = story.lent(&held);
    let with = |stored: usize, fresh: usize| Lent {
        store: Store {
            held: true,
            bytes: vec![0x5a; stored],
        },
        rand: Vec::new(),
        autn: Vec::new(),
        fresh: vec![0xa5; fresh],
        ..lent.clone()
    };
    // What is left to the store and the fresh answer together.
    let room = (LONGEST - "phone 1   - - ".len()) / 2 - EDITION_1.card_image();
    let mut lines: Vec<Vec<u8>> = [
        (room - ANSWER, ANSWER),
        (room - ANSWER + 1, ANSWER),
        (STORED, room - STORED),
        (STORED, room - STORED + 1),
        (room - 1, 1),
        (0, room - 1),
        (0, room),
    ]
    .map(|(stored, fresh)| with(stored, fresh).line())
    .to_vec();
    let room = (LONGEST - "phone-clear 1 ".len()) / 2;
    lines.extend([room, room + 1].map(|stored| clear_line(&with(stored, 0).store)));
    lines
}
