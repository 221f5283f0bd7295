//! The numbers of `include/vetrhoss.h`, under the same names.

/// What a call returns: done, document 01's refusals, and the causes of
/// TS 24.008 for a card that does not accept.
pub const DONE: u8 = 0;
pub const BAD_IMAGE: u8 = 1;
pub const BAD_COUNT: u8 = 2;
pub const BAD_SIZE: u8 = 3;
pub const EQUAL_RANDS: u8 = 4;
pub const BAD_MAC_S: u8 = 5;
pub const PAST_LIMIT: u8 = 6;
pub const MAC_FAILURE: u8 = 20;
pub const SYNCH_FAILURE: u8 = 21;

/// The value of a resynchronisation that is done.
pub const KEPT: u64 = 0;
pub const RESET: u64 = 1;

/// Editions. The first has 32 indices, one for each batch; the second 64, one
/// for each vector, so that a vector among the last 50 may come late.
pub const EDITION_1: u8 = 1;
pub const EDITION_2: u8 = 2;

/// Function sets. The first has no secrecy at all: for trying things out only.
pub const TEST_SET: u8 = 0;
pub const MILENAGE: u8 = 1;

/// Sizes in octets.
pub const K_SIZE: usize = 16;
pub const OP_SIZE: usize = 16;
pub const OPC_SIZE: usize = 16;
pub const AMF_SIZE: usize = 2;
pub const RAND_SIZE: usize = 16;
pub const AUTN_SIZE: usize = 16;
pub const RES_SIZE: usize = 8;
pub const CK_SIZE: usize = 16;
pub const IK_SIZE: usize = 16;
pub const AUTS_SIZE: usize = 14;
pub const SRES_SIZE: usize = 4;
pub const KC_SIZE: usize = 8;

/// Sizes of images in octets, by edition.
pub const USIM_IMAGE_SIZE_1: usize = 205;
pub const USIM_IMAGE_SIZE_2: usize = 369;
pub const AUC_IMAGE_SIZE_1: usize = 41;
pub const AUC_IMAGE_SIZE_2: usize = 41;

/// A vector, and where its parts begin; XRES has the size of RES. A batch is 1
/// to 5 vectors one behind the other.
pub const VECTOR_SIZE: usize = 72;
pub const RAND_OFFSET: usize = 0;
pub const XRES_OFFSET: usize = 16;
pub const CK_OFFSET: usize = 24;
pub const IK_OFFSET: usize = 40;
pub const AUTN_OFFSET: usize = 56;
pub const LARGEST_BATCH: usize = 5;

/// A triplet, for GSM phones, and where its parts begin; RAND begins where it
/// does in a vector.
pub const TRIPLET_SIZE: usize = 28;
pub const SRES_OFFSET: usize = 16;
pub const KC_OFFSET: usize = 20;
