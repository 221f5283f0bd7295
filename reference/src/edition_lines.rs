//! The lines that try the editions. They come last of all. What is tried with
//! edition 1 elsewhere is tried with the later editions here; then comes what
//! the editions have of their own.

use crate::editions::{Edition, KNOWN};
use crate::random::Random;
use crate::{auc_image_lines, batch_lines, challenge_lines, handset_lines, image_lines};
use crate::{edition_batch_lines, edition_card_lines, edition_form_lines};
use crate::{edition_image_lines, edition_record_lines, window_lines};

pub fn lines() -> Vec<Vec<u8>> {
    let mut random = Random::new(33_105);
    let mut lines = Vec::new();
    for edition in &KNOWN[1..] {
        lines.extend(later(edition, &mut random));
    }
    for section in [
        edition_image_lines::lines,
        edition_record_lines::lines,
        edition_batch_lines::lines,
        edition_card_lines::lines,
        window_lines::lines,
        edition_form_lines::lines,
    ] {
        lines.extend(section(&mut random));
    }
    lines
}

fn later(edition: &Edition, random: &mut Random) -> Vec<Vec<u8>> {
    let mut lines = challenge_lines::published(edition);
    for section in [
        challenge_lines::numbers,
        image_lines::edges,
        batch_lines::published,
        batch_lines::later,
        auc_image_lines::edges,
        handset_lines::later,
    ] {
        lines.extend(section(edition, random));
    }
    lines
}
