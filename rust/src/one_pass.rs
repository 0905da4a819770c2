//! The check once more, in one pass with a cursor and no token values, by either of two ways to
//! find and keep names: more yardsticks for the benchmarks, held to the library's check as the
//! first one is.

use crate::names::{ByEights, Names, Plain};
use crate::tree::{blocks_fit, BEGIN_NODE, END, END_NODE, NESTING, NO_OP, PROPERTY};
use crate::{word, HEADER, TWO_PAGES};

/// The structure block, a place in it, and the names met.
struct Pass<'a, N> {
    s: &'a [u8],
    at: usize,
    names: N,
}

impl<'a, N: Names<'a>> Pass<'a, N> {
    fn word(&mut self) -> Option<u32> {
        let word = word(self.s, self.at)?;
        self.at += 4;
        Some(word)
    }

    /// The next token's word past no-ops.
    fn kind(&mut self) -> Option<u32> {
        loop {
            let kind = self.word()?;
            if kind != NO_OP {
                return Some(kind);
            }
        }
    }

    /// Goes past `used` bytes and their padding to four, which must be zero.
    fn past(&mut self, used: usize) -> Option<()> {
        let end = self.at + used.next_multiple_of(4);
        let padding = self.s.get(self.at + used..end)?;
        self.at = end;
        padding.iter().all(|&b| b == 0).then_some(())
    }

    /// A property of a node, from past its token's word on.
    fn property(&mut self, node: usize) -> Option<()> {
        let length = self.word()? as usize;
        let offset = self.word()? as usize;
        let name = self.names.property(node, offset)?;
        if length > TWO_PAGES - HEADER - (name + 1) {
            return None;
        }
        self.past(length)
    }

    /// A node from past its token's word on. `nesting` more may stand below one another.
    fn node(&mut self, parent: usize, nesting: u32) -> Option<()> {
        let place = self.at;
        let name = self.names.child(parent, self.s.get(place..)?)?;
        self.past(name + 1)?;
        let mut kind = self.kind()?;
        while kind == PROPERTY {
            self.property(place)?;
            kind = self.kind()?;
        }
        while kind == BEGIN_NODE {
            self.node(place, nesting.checked_sub(1)?)?;
            kind = self.kind()?;
        }
        (kind == END_NODE).then_some(())
    }

    fn tree(&mut self) -> bool {
        self.kind() == Some(BEGIN_NODE)
            && self.node(0, NESTING - 1).is_some()
            && self.kind() == Some(END)
            && self.at == self.s.len()
    }
}

fn passes<'a, N: Names<'a>>(structure: &'a [u8], strings: &'a [u8]) -> bool {
    let names = || N::new(structure, strings);
    blocks_fit(structure, strings) && Pass { s: structure, at: 0, names: names() }.tree()
}

/// Whether a tree may be lent: the answers of `check`, with plain names.
pub fn check_in_one_pass(structure: &[u8], strings: &[u8]) -> bool {
    passes::<Plain>(structure, strings)
}

/// The same, with the fastest names.
pub fn check_by_eights(structure: &[u8], strings: &[u8]) -> bool {
    passes::<ByEights>(structure, strings)
}
