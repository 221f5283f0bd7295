//! One stretch of memory in which the buffers of a call lie, each with guard
//! bytes on both sides.

use std::ops::Range;

use reference::random::Random;

/// The least guard bytes between two buffers.
const GUARD: usize = 48;

pub struct Arena {
    bytes: Vec<u8>,
    places: Vec<Range<usize>>,
}

impl Arena {
    /// The guards are of several sizes, so that buffers begin at any alignment.
    pub fn new(buffers: &[Vec<u8>], random: &mut Random) -> Arena {
        let mut arena = Arena {
            bytes: Vec::new(),
            places: Vec::new(),
        };
        for buffer in buffers {
            arena.guard(random);
            let from = arena.bytes.len();
            arena.bytes.extend(buffer);
            arena.places.push(from..arena.bytes.len());
        }
        arena.guard(random);
        arena
    }

    fn guard(&mut self, random: &mut Random) {
        let size = GUARD + random.below(16);
        self.bytes
            .extend((0..size).map(|_| random.draw().to_le_bytes()[0]));
    }

    pub fn lend(&mut self) -> Vec<&mut [u8]> {
        let mut rest = &mut self.bytes[..];
        let mut passed = 0;
        let mut lent = Vec::new();
        for place in &self.places {
            let (_, from) = rest.split_at_mut(place.start - passed);
            let (buffer, behind) = from.split_at_mut(place.len());
            lent.push(buffer);
            rest = behind;
            passed = place.end;
        }
        lent
    }

    /// The same memory with other contents in the buffers.
    pub fn holding(&self, buffers: &[Vec<u8>]) -> Arena {
        let mut bytes = self.bytes.clone();
        for (place, buffer) in self.places.iter().zip(buffers) {
            bytes[place.clone()].copy_from_slice(buffer);
        }
        Arena {
            bytes,
            places: self.places.clone(),
        }
    }

    /// The first byte that differs, told by the buffer that it lies in or next
    /// behind.
    pub fn difference(&self, expected: &Arena) -> Option<String> {
        let mut pairs = self.bytes.iter().zip(&expected.bytes);
        let at = pairs.position(|(is, should)| is != should)?;
        let place = self.places.iter().rposition(|place| place.start <= at);
        Some(match place {
            Some(buffer) => format!(
                "buffer {buffer} of {} bytes, byte {}",
                self.places[buffer].len(),
                at - self.places[buffer].start
            ),
            None => "a byte before the first buffer".to_string(),
        })
    }
}
