//! The independent second program of Vetrhoss.
//!
//! It is written from FIPS 197, TS 35.206 and the project's own rules for the
//! test set, the card, the centre, the node, the handset and the bench alone, in
//! the plainest form, so that its answers can be compared with those of the
//! proved implementation.

pub mod aes;
pub mod aes_vectors;
pub mod auc;
pub mod auc_call_lines;
pub mod auc_calls;
pub mod auc_form_lines;
pub mod auc_image;
pub mod auc_image_lines;
pub mod batch_lines;
pub mod bench;
pub mod bench_form_lines;
pub mod bench_lines;
pub mod bits;
pub mod block;
pub mod call_lines;
pub mod calls;
pub mod challenge_lines;
pub mod damage;
pub mod edition_batch_lines;
pub mod edition_card_lines;
pub mod edition_form_lines;
pub mod edition_image_lines;
pub mod edition_lines;
pub mod edition_record_lines;
pub mod editions;
pub mod form_lines;
pub mod function_vectors;
pub mod functions;
pub mod generate;
pub mod handset;
pub mod handset_calls;
pub mod handset_form_lines;
pub mod handset_lines;
pub mod image;
pub mod image_lines;
pub mod milenage;
pub mod node_form_lines;
pub mod node_lines;
pub mod node_record_lines;
pub mod node_response_lines;
pub mod node_script;
pub mod place;
pub mod published;
pub mod random;
pub mod test_set;
pub mod text;
pub mod triplet;
pub mod triplet_lines;
pub mod usim;
pub mod usim_calls;
pub mod vector;
pub mod vlr;
pub mod vlr_calls;
pub mod window_lines;
