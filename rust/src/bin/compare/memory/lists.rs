//! Blocks and sets, their lists as bytes, what can stand in them at an edge, and any such lists.

use super::{COUNT, ENTRY};
use crate::rng::Rng;
use crate::tally::ListEdge;

/// The most blocks that a list may have.
pub const BLOCKS: usize = 1_024;

/// Sizes next to the edges of their width, and next to those with which 1,024 blocks reach 64 bits.
pub const SIZES: [u64; 25] = [
    1,
    2,
    3,
    5,
    0xFF,
    0x100,
    0x1000,
    0x100_0000,
    0x1000_0000,
    0x4000_0000,
    (1 << 32) - 1,
    1 << 32,
    (1 << 32) + 1,
    (1 << 54) - 1,
    1 << 54,
    (1 << 54) + 1,
    0x0040_1004_0100_4010,
    0x0040_1004_0100_4011,
    1 << 55,
    (1 << 63) - 1,
    1 << 63,
    (1 << 63) + 1,
    u64::MAX - 2,
    u64::MAX - 1,
    u64::MAX,
];

pub const INDEXES: [u32; 8] =
    [0, 1, 0x7FFF_FFFF, 0x8000_0000, 0x8000_0004, 0xFFFF_FFFD, 0xFFFF_FFFE, 0xFFFF_FFFF];

#[derive(Clone, Copy, Debug, PartialEq, Eq)]
pub struct Block {
    pub address: u64,
    pub index: u32,
    pub reserved: u32,
    pub associativity: u32,
    pub flags: u32,
}

#[derive(Clone, Copy, Debug, PartialEq, Eq)]
pub struct Set {
    pub length: u32,
    pub address: u64,
    pub index: u32,
    pub associativity: u32,
    pub flags: u32,
}

// ---- Bytes.

fn list<const N: usize>(count: usize, entries: impl Iterator<Item = [u32; N]>) -> Vec<u8> {
    let words = [count as u32].into_iter().chain(entries.flatten());
    words.flat_map(u32::to_be_bytes).collect()
}

pub fn old(blocks: &[Block]) -> Vec<u8> {
    let words = |b: &Block| {
        [(b.address >> 32) as u32, b.address as u32, b.index, b.reserved, b.associativity, b.flags]
    };
    list(blocks.len(), blocks.iter().map(words))
}

pub fn new(sets: &[Set]) -> Vec<u8> {
    let words = |s: &Set| {
        [s.length, (s.address >> 32) as u32, s.address as u32, s.index, s.associativity, s.flags]
    };
    list(sets.len(), sets.iter().map(words))
}

/// Puts another count, as far as there are bytes for it.
pub fn put_count(list: &mut [u8], count: u32) {
    list.iter_mut().zip(count.to_be_bytes()).for_each(|(byte, new)| *byte = new);
}

/// The words of the whole entries.
fn entries(list: &[u8]) -> impl Iterator<Item = [u32; ENTRY / 4]> + '_ {
    let entries = list.get(COUNT..).unwrap_or(&[]).as_chunks::<ENTRY>().0;
    let word = |bytes: &[u8]| u32::from_be_bytes(bytes.try_into().unwrap());
    entries.iter().map(move |entry| std::array::from_fn(|i| word(&entry[4 * i..4 * i + 4])))
}

fn number(high: u32, low: u32) -> u64 {
    u64::from(high) << 32 | u64::from(low)
}

pub fn blocks_of(list: &[u8]) -> Vec<Block> {
    let block = |[high, low, index, reserved, associativity, flags]: [u32; 6]| Block {
        address: number(high, low),
        index,
        reserved,
        associativity,
        flags,
    };
    entries(list).map(block).collect()
}

pub fn sets_of(list: &[u8]) -> Vec<Set> {
    let set = |[length, high, low, index, associativity, flags]: [u32; 6]| Set {
        length,
        address: number(high, low),
        index,
        associativity,
        flags,
    };
    entries(list).map(set).collect()
}

/// How many blocks the sets have.
pub fn sum(sets: &[Set]) -> usize {
    sets.iter().map(|set| set.length as usize).sum()
}

// ---- Edges.

/// Why a block is no neighbour of the one before, if it is none.
pub fn between(block_size: u64, before: Block, block: Block) -> ListEdge {
    let (address, too_high) = before.address.overflowing_add(block_size);
    let (index, too_far) = before.index.overflowing_add(1);
    let reasons = [
        (block.address != address, ListEdge::OtherAddress),
        (block.index != index, ListEdge::OtherIndex),
        (block.associativity != before.associativity, ListEdge::OtherAssociativity),
        (block.flags != before.flags, ListEdge::OtherFlags),
        (block.address == address && too_high, ListEdge::AddressWraps),
        (block.index == index && too_far, ListEdge::IndexWraps),
    ];
    let mut reasons = reasons.into_iter().filter(|(holds, _)| *holds).map(|(_, edge)| edge);
    match (reasons.next(), reasons.next()) {
        (None, _) => ListEdge::Neighbours,
        (Some(only), None) => only,
        _ => ListEdge::Several,
    }
}

/// How far the last block of a set, or one more behind it, is above the first.
fn reach(block_size: u64, blocks: u32) -> u128 {
    u128::from(block_size) * u128::from(blocks)
}

/// What stops an accepted set of more blocks than one from having another one.
pub fn at_end(block_size: u64, set: Set) -> Vec<ListEdge> {
    let next = u128::from(set.address) + reach(block_size, set.length);
    let ends = [
        (next > u128::from(u64::MAX), ListEdge::LastAddress),
        (set.index.checked_add(set.length).is_none(), ListEdge::LastIndex),
    ];
    let ends = ends.into_iter().filter(|(holds, _)| *holds && set.length > 1);
    ends.map(|(_, edge)| edge).collect()
}

/// Why some block of a set is too far, if that has only one reason.
pub fn too_far(block_size: u64, set: Set) -> Option<ListEdge> {
    let (others, most) = (set.length - 1, u128::from(u64::MAX));
    let too_high = reach(block_size, others) + u128::from(set.address) > most;
    match (too_high, set.index.checked_add(others)) {
        (false, _) => Some(ListEdge::IndexTooFar),
        (true, None) => None,
        _ if reach(block_size, others) > most => Some(ListEdge::OthersTooFar),
        _ => Some(ListEdge::AddressTooFar),
    }
}

// ---- Any lists.

/// Any block size but zero.
pub fn block_size(rng: &mut Rng) -> u64 {
    match rng.below(5) {
        0 => rng.pick(&SIZES),
        1 => 1 << rng.below(64),
        2 => (rng.next() >> rng.below(64)).max(1),
        _ => rng.pick(&[0x1000_0000, 0x100_0000, 1]),
    }
}

/// Any block, often near the end of its widths.
pub fn block(rng: &mut Rng, block_size: u64) -> Block {
    let near = block_size.wrapping_mul(rng.below(40) as u64).wrapping_neg();
    let address = match rng.below(5) {
        0 => near,
        1 => near.wrapping_sub(1 + rng.below(3) as u64),
        2 => (1_u64 << 32).wrapping_add(near),
        3 => rng.next() >> rng.below(64),
        _ => block_size.wrapping_mul(rng.below(2_000) as u64),
    };
    let index = match rng.below(4) {
        0 => u32::MAX - rng.below(40) as u32,
        1 => rng.pick(&INDEXES),
        _ => 0x8000_0000 | rng.word() >> rng.below(32),
    };
    let associativity = rng.pick(&[0, 1, 2, 0xFFFF_FFFF]);
    Block { address, index, reserved: 0, associativity, flags: rng.pick(&[0, 8, 0xA0, 0x88]) }
}

/// The block behind another one, with sums that wrap.
pub fn next(block_size: u64, block: Block) -> Block {
    let address = block.address.wrapping_add(block_size);
    Block { address, index: block.index.wrapping_add(1), ..block }
}

/// Changes one thing.
pub fn change(rng: &mut Rng, block_size: u64, block: &mut Block) {
    let (back, any) = (block_size.wrapping_neg(), rng.next());
    let by = rng.pick(&[1, u64::MAX, block_size, back, 1 << 32, 1 << 63, any]);
    match rng.below(4) {
        0 => block.address = block.address.wrapping_add(by),
        1 => block.index = block.index.wrapping_add(by as u32 | 1),
        2 => block.associativity ^= 1 << rng.below(32),
        _ => block.flags ^= 1 << rng.below(32),
    }
}

/// So many blocks, in runs of neighbours that are long or short.
pub fn blocks(rng: &mut Rng, block_size: u64, count: usize) -> Vec<Block> {
    let alike = rng.pick(&[0, 40, 80, 97, 100]);
    let mut blocks = vec![];
    let mut here = block(rng, block_size);
    while blocks.len() < count {
        blocks.push(here);
        here = next(block_size, here);
        if !rng.percent(alike) {
            match rng.below(8) {
                0 => here = *blocks.last().unwrap(),
                1 => here = block(rng, block_size),
                2 => (0..2).for_each(|_| change(rng, block_size, &mut here)),
                _ => change(rng, block_size, &mut here),
            }
        }
    }
    blocks
}

/// A set of at most so many blocks, none of them too far, often up to the end of a width.
pub fn set(rng: &mut Rng, block_size: u64, most: u32) -> Set {
    let Block { address, index, associativity, flags, .. } = block(rng, block_size);
    let longest = (u64::MAX / block_size).saturating_add(1).min(u64::from(most)) as u32;
    let longest = rng.pick(&[1, 3, 40, longest]).min(longest);
    let length = rng.between(1, longest as usize) as u32;
    let highest = u64::MAX - block_size * u64::from(length - 1);
    let farthest = u32::MAX - (length - 1);
    Set { length, address: address.min(highest), index: index.min(farthest), associativity, flags }
}

/// Sets of so many blocks in all, some of them going on where the one before ends.
pub fn sets(rng: &mut Rng, block_size: u64, count: usize) -> Vec<Set> {
    let (mut sets, mut left): (Vec<Set>, _) = (vec![], count as u32);
    let going_on = rng.pick(&[0, 30, 100]);
    while left > 0 {
        let mut here = set(rng, block_size, left);
        if let (Some(last), true) = (sets.last(), rng.percent(going_on)) {
            let others = u64::from(here.length - 1);
            let from = u128::from(last.address) + reach(block_size, last.length);
            let end = from + u128::from(block_size * others);
            let index = last.index.checked_add(last.length);
            let last_index = index.and_then(|index| index.checked_add(here.length - 1));
            if let (Ok(_), Some(_), Some(index)) = (u64::try_from(end), last_index, index) {
                here = Set { length: here.length, address: from as u64, index, ..*last };
            }
        }
        left -= here.length;
        sets.push(here);
    }
    sets
}
