//! A place of the node and its 73 bytes: the kind of what it holds, then a
//! vector, or a triplet and zeros.

use crate::triplet::{self, Triplet};
use crate::vector::{self, Vector};

pub const LENGTH: usize = 1 + vector::LENGTH;

/// The bytes of a place.
pub type Place = [u8; LENGTH];

/// A place that holds nothing. One with a vector of zeros looks the same.
pub const NONE: Place = [0; LENGTH];

#[derive(Clone, Copy, Debug, PartialEq, Eq)]
pub enum Kind {
    Vector,
    Triplet,
}

pub const KINDS: [Kind; 2] = [Kind::Vector, Kind::Triplet];

impl Kind {
    /// The first byte of a place that holds this kind.
    pub fn byte(self) -> u8 {
        match self {
            Kind::Vector => 0,
            Kind::Triplet => 1,
        }
    }

    /// The bytes of one item of this kind.
    pub fn length(self) -> usize {
        match self {
            Kind::Vector => vector::LENGTH,
            Kind::Triplet => triplet::LENGTH,
        }
    }

    /// The place that holds these bytes of one item.
    pub fn place(self, item: &[u8]) -> Place {
        let mut place = NONE;
        place[0] = self.byte();
        place[1..=self.length()].copy_from_slice(item);
        place
    }
}

/// What a place holds.
#[derive(Clone, Debug, PartialEq, Eq)]
pub enum Item {
    Vector(Vector),
    Triplet(Triplet),
}

impl Item {
    /// None where the kind is unknown or a triplet is not followed by zeros.
    pub fn of(place: &Place) -> Option<Item> {
        let (kind, item) = place.split_first().expect("73 bytes");
        match kind {
            0 => {
                let vector = item.try_into().expect("72 bytes");
                Some(Item::Vector(Vector::of(vector)))
            }
            1 => {
                let (triplet, behind) = item.split_first_chunk().expect("28 bytes and more");
                let zeros = behind.iter().all(|byte| *byte == 0);
                zeros.then(|| Item::Triplet(Triplet::of(triplet)))
            }
            _ => None,
        }
    }
}
