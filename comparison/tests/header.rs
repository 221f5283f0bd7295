//! The bindings have every number of the header, under the same name.

use std::collections::BTreeMap;

use reference::editions;
use vetrhoss::*;

const HEADER: &str = include_str!("../../include/vetrhoss.h");

/// The names that stand for one number, without their prefix.
fn numbers_of_the_header() -> BTreeMap<&'static str, u64> {
    let defined = HEADER.lines().filter_map(|line| {
        let mut words = line.strip_prefix("#define VETRHOSS_")?.split_whitespace();
        Some((words.next()?, words.next()?.parse().ok()?))
    });
    defined.collect()
}

/// The constants named, each with its name.
macro_rules! named {
    ($($name:ident)*) => { BTreeMap::from([$((stringify!($name), $name as u64)),*]) };
}

#[test]
fn the_bindings_have_its_numbers() {
    let numbers = named![
        DONE BAD_IMAGE BAD_COUNT BAD_SIZE EQUAL_RANDS BAD_MAC_S PAST_LIMIT MAC_FAILURE SYNCH_FAILURE
        KEPT RESET EDITION_1 EDITION_2 TEST_SET MILENAGE
        K_SIZE OP_SIZE OPC_SIZE AMF_SIZE RAND_SIZE AUTN_SIZE RES_SIZE CK_SIZE IK_SIZE AUTS_SIZE
        SRES_SIZE KC_SIZE
        USIM_IMAGE_SIZE_1 USIM_IMAGE_SIZE_2 AUC_IMAGE_SIZE_1 AUC_IMAGE_SIZE_2 VECTOR_SIZE
        RAND_OFFSET XRES_OFFSET CK_OFFSET IK_OFFSET AUTN_OFFSET LARGEST_BATCH
        TRIPLET_SIZE SRES_OFFSET KC_OFFSET
    ];
    assert_eq!(numbers, numbers_of_the_header());
}

/// The sizes of the images are those of the second program's table.
#[test]
fn the_sizes_of_images() {
    for (edition, usim, auc) in [
        (EDITION_1, USIM_IMAGE_SIZE_1, AUC_IMAGE_SIZE_1),
        (EDITION_2, USIM_IMAGE_SIZE_2, AUC_IMAGE_SIZE_2),
    ] {
        let row = editions::of(edition).expect("a known edition");
        assert_eq!((row.card_image(), row.auc_image()), (usim, auc));
    }
    assert_eq!(editions::KNOWN.len(), 2);
}

/// A refusal is an error with its number, and 4 has its pair.
#[test]
fn refusals_are_errors() {
    let (keys, mut card, mut centre) = ([0; 16], [0; 205], [0; 41]);
    let unknown = new_usim(EDITION_1, 2, &keys, &keys, &mut card);
    assert_eq!(unknown, Err(Error::BadImage));
    let unknown = new_usim(3, TEST_SET, &keys, &keys, &mut card);
    assert_eq!(unknown, Err(Error::BadImage));
    let short = new_usim(EDITION_2, TEST_SET, &keys, &keys, &mut card);
    assert_eq!(short, Err(Error::BadSize));
    let centre_is_new = new_auc(EDITION_2, TEST_SET, &keys, &keys, &[0; 2], &mut centre);
    assert_eq!(centre_is_new, Ok(()));
    let rands = [[1; 16], [2; 16], [1; 16]].concat();
    let mut batch = [0; 3 * VECTOR_SIZE];
    let equal = order(&mut centre, 3, &rands, &mut batch);
    let pair = Error::EqualRands {
        first: 0,
        second: 2,
    };
    assert_eq!(equal, Err(pair));
    assert_eq!(pair.number(), EQUAL_RANDS);
    assert_eq!(vector_at(&batch, 3), Err(Error::BadSize));
    assert_eq!(vector_at(&batch, 2), Ok(2 * VECTOR_SIZE));
    let mut lent = [0; 3 * TRIPLET_SIZE];
    let short = triplets(&batch, &mut lent[..2 * TRIPLET_SIZE]);
    assert_eq!(short, Err(Error::BadSize));
    assert_eq!(triplets(&batch, &mut lent), Ok(()));
}
