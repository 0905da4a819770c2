//! The names that the checks in one pass meet, in two ways: the plain one, and the fastest that was
//! found. Both answer a name's length where it is within its limits and new to its list.

use crate::tree::{name_at, NODE_NAME_LIMIT, PROPERTY_NAME_LIMIT};
use std::collections::HashSet;

/// A node's lists, of its properties and of its children, go by the place of the node's name.
pub(crate) trait Names<'a> {
    /// For a tree of which no name has been met.
    fn new(structure: &'a [u8], strings: &'a [u8]) -> Self;

    /// The name of a child, at the start of the bytes.
    fn child(&mut self, parent: usize, bytes: &'a [u8]) -> Option<usize>;

    /// The name of a property, at an offset of the strings block.
    fn property(&mut self, node: usize, offset: usize) -> Option<usize>;
}

/// Names found byte by byte, in the standard library's sets.
pub(crate) struct Plain<'a> {
    strings: &'a [u8],
    children: HashSet<(usize, &'a [u8])>,
    properties: HashSet<(usize, &'a [u8])>,
}

impl<'a> Names<'a> for Plain<'a> {
    fn new(_: &'a [u8], strings: &'a [u8]) -> Plain<'a> {
        Plain { strings, children: HashSet::new(), properties: HashSet::new() }
    }

    fn child(&mut self, parent: usize, bytes: &'a [u8]) -> Option<usize> {
        let name = name_at(bytes, NODE_NAME_LIMIT)?;
        self.children.insert((parent, name)).then_some(name.len())
    }

    fn property(&mut self, node: usize, offset: usize) -> Option<usize> {
        let name = name_at(self.strings.get(offset..)?, PROPERTY_NAME_LIMIT)?;
        self.properties.insert((node, name)).then_some(name.len())
    }
}

const ONES: u64 = 0x0101_0101_0101_0101;

/// A bit for the first zero byte, the lowest byte first, and perhaps for later ones.
fn zeros(eight: u64) -> u64 {
    eight.wrapping_sub(ONES) & !eight & (ONES << 7)
}

/// Any odd number whose bits have no order.
const SCATTER: u64 = 0x9E37_79B9_7F4A_7C15;

/// A name's bytes so far, and eight more.
fn joined(hash: u64, eight: u64) -> u64 {
    hash.rotate_left(11) ^ eight
}

/// The length of the name at the start of the bytes, of 1 to `limit` bytes and a NUL, and a hash of
/// it.
#[inline]
fn name_by_eights(bytes: &[u8], limit: usize) -> Option<(usize, u64)> {
    let (eights, rest) = bytes[..bytes.len().min(limit + 1)].as_chunks::<8>();
    let mut hash = SCATTER;
    for (i, eight) in eights.iter().enumerate() {
        let eight = u64::from_le_bytes(*eight);
        let zeros = zeros(eight);
        if zeros != 0 {
            let length = 8 * i + zeros.trailing_zeros() as usize / 8;
            let before = ((zeros & zeros.wrapping_neg()) - 1) >> 7;
            return (length > 0).then_some((length, joined(hash, eight & before)));
        }
        hash = joined(hash, eight);
    }
    let last = rest.iter().position(|&b| b == 0)?;
    let name = rest[..last].iter().rev().fold(0, |name, &b| name << 8 | u64::from(b));
    let length = 8 * eights.len() + last;
    (length > 0).then(|| (length, joined(hash, name)))
}

/// What is known of the property name at an offset; of no length, nothing.
#[derive(Clone, Copy, Default)]
struct Known {
    length: u16,
    /// the offset where this name was met first
    first: u16,
}

/// Names found eight bytes at a time, and hashed on the way.
///
/// A property's name is looked at once for each offset, in the whole tree: where the offset comes
/// again, the length is known, and so is the first offset of an equal name, which keeps the last
/// node that had it. So a large tree whose nodes have the same properties, as ordinary ones do,
/// costs little more than a check without a look at equal names. The names of children, and those of
/// properties at a new offset, go into one table for the whole tree, with their list in the hash.
///
/// Slower in trials, on a large ordinary tree or on the longest lists: each name against those
/// before it, the same behind a bit for each hash, the table for every name, the standard library's
/// set. A tree that is made against this hash, which has no secret, costs what the first does.
pub(crate) struct ByEights<'a> {
    strings: &'a [u8],
    known: Vec<Known>,
    /// where a name was met first, the last node that had it
    nodes: Vec<u16>,
    /// 1 and up: a name's number
    slots: Vec<u16>,
    met: Vec<(u64, &'a [u8])>,
}

/// The list of all property names, which is no place of a node's name.
const PROPERTY_NAMES: usize = 1;

impl<'a> Names<'a> for ByEights<'a> {
    fn new(structure: &'a [u8], strings: &'a [u8]) -> ByEights<'a> {
        // a name takes 12 bytes of structure or more, so about a third of the slots stays free
        let slots = (structure.len() / 8).next_power_of_two().max(16);
        ByEights {
            strings,
            known: vec![Known::default(); strings.len()],
            nodes: vec![0; strings.len()],
            slots: vec![0; slots],
            met: Vec::with_capacity(structure.len() / 24),
        }
    }

    #[inline]
    fn child(&mut self, parent: usize, bytes: &'a [u8]) -> Option<usize> {
        let (length, hash) = name_by_eights(bytes, NODE_NAME_LIMIT)?;
        self.insert(parent, hash, &bytes[..length]).is_none().then_some(length)
    }

    #[inline]
    fn property(&mut self, node: usize, offset: usize) -> Option<usize> {
        let mut known = *self.known.get(offset)?;
        if known.length == 0 {
            known = self.learn(offset)?;
        }
        let node = node as u16;
        let last = std::mem::replace(&mut self.nodes[usize::from(known.first)], node);
        (last != node).then_some(known.length.into())
    }
}

impl<'a> ByEights<'a> {
    /// Puts a name into the table, or answers the equal one of its list.
    #[inline]
    fn insert(&mut self, list: usize, hash: u64, name: &'a [u8]) -> Option<&'a [u8]> {
        let hash = (hash ^ list as u64).wrapping_mul(SCATTER);
        let mut at = (hash >> (64 - self.slots.len().trailing_zeros())) as usize;
        while self.slots[at] != 0 {
            let (other_hash, other) = self.met[usize::from(self.slots[at]) - 1];
            if other_hash == hash && other == name {
                return Some(other);
            }
            at = (at + 1) & (self.slots.len() - 1);
        }
        self.met.push((hash, name));
        self.slots[at] = self.met.len() as u16;
        None
    }

    /// Looks at the property name at an offset. Apart, so that the usual case stays short.
    #[inline(never)]
    fn learn(&mut self, offset: usize) -> Option<Known> {
        let bytes = &self.strings[offset..];
        let (length, hash) = name_by_eights(bytes, PROPERTY_NAME_LIMIT)?;
        let first = match self.insert(PROPERTY_NAMES, hash, &bytes[..length]) {
            Some(other) => other.as_ptr().addr() - self.strings.as_ptr().addr(),
            None => offset,
        };
        let known = Known { length: length as u16, first: first as u16 };
        self.known[offset] = known;
        Some(known)
    }
}
