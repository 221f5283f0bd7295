//! The exported functions of the proved library beside the second program: the
//! same calls to both, and every byte that was lent compared afterwards.

pub mod arena;
pub mod call;
pub mod cases;
pub mod chains;
pub mod compare;
pub mod images;
pub mod library;
pub mod published;
pub mod second;
pub mod sizes;
pub mod tally;
