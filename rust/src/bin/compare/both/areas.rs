//! What calls are lent beside a table: work areas and buffers, the same on both sides.

use crate::rng::Rng;
use drc::Table;

/// A work area on each side, and bytes behind it that no call may touch. The library has two, the
/// second for the calls that say where a fault is.
#[derive(Clone)]
pub struct Area {
    pub rust: Vec<u8>,
    pub library: Vec<u8>,
    pub library_at: Vec<u8>,
    words: Rng,
}

impl Area {
    pub fn new(rng: &mut Rng) -> Area {
        let mut rust = vec![0; 9_000];
        rng.fill(&mut rust);
        Area { library: rust.clone(), library_at: rust.clone(), rust, words: rng.clone() }
    }

    /// Any words, of which a call is to write one.
    pub fn any_words<const N: usize>(&mut self) -> [u32; N] {
        std::array::from_fn(|_| self.words.word())
    }

    pub fn put_word(&mut self, word: usize, value: u32) {
        for side in [&mut self.rust, &mut self.library, &mut self.library_at] {
            side[4 * word..4 * word + 4].copy_from_slice(&value.to_be_bytes());
        }
    }

    pub fn word(&self, word: usize) -> u32 {
        u32::from_be_bytes(self.rust[4 * word..4 * word + 4].try_into().unwrap())
    }
}

/// The buffers of the four arrays on each side, longer than any array of a table.
pub struct Buffers {
    pub rust: [Vec<u8>; 4],
    pub library: [Vec<u8>; 4],
}

impl Buffers {
    pub fn new(table: &Table) -> Buffers {
        // a name has at most 14 bytes, a type 5
        let longest = |each: usize| vec![0; 40 + each * table.connectors().len()];
        let rust = [14, 4, 4, 5].map(longest);
        Buffers { library: rust.clone(), rust }
    }

    /// How long each is.
    pub fn room(&self) -> [usize; 4] {
        self.rust.each_ref().map(Vec::len)
    }

    /// Any bytes, the same on both sides.
    pub fn fill(&mut self, rng: &mut Rng) {
        for (rust, library) in self.rust.iter_mut().zip(&mut self.library) {
            rng.fill(rust);
            library.copy_from_slice(rust);
        }
    }
}

/// The first bytes of each buffer.
pub fn lent(buffers: &mut [Vec<u8>; 4], room: [usize; 4]) -> [&mut [u8]; 4] {
    let mut room = room.into_iter();
    buffers.each_mut().map(|buffer| &mut buffer[..room.next().unwrap()])
}
