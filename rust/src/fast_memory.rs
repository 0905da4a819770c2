//! Memory lists once more, written for speed and with no memory of their own: the yardstick of the
//! benchmarks, held to the library as the first version is. Entries are read as three numbers of
//! eight bytes; a set's own words are copied as they are, and only what is counted up is swapped.

use crate::memory::{BLOCKS, COUNT, ENTRY};
use crate::status;

type Entry = [u8; ENTRY];

/// The entries of a list, or the refusal.
fn entries(list: &[u8]) -> Result<&[Entry], i32> {
    let (count, entries) = list.split_first_chunk().ok_or(status::WRONG_LENGTH)?;
    match entries.as_chunks() {
        (entries, []) if entries.len() == u32::from_be_bytes(*count) as usize => Ok(entries),
        _ => Err(status::WRONG_LENGTH),
    }
}

/// How many bytes a list of so many entries has.
fn length(entries: usize) -> usize {
    COUNT + ENTRY * entries
}

fn word_at<const AT: usize>(entry: &Entry) -> u32 {
    u32::from_be_bytes(*entry[AT..].first_chunk().unwrap())
}

// ---- Old to new.

/// Of a block: the address, the index above the reserved word, associativity and flags.
fn eights(block: &Entry) -> [u64; 3] {
    let (eights, _) = block.as_chunks();
    [u64::from_be_bytes(eights[0]), u64::from_be_bytes(eights[1]), u64::from_ne_bytes(eights[2])]
}

/// How many of the blocks behind a first one are of its set; they have its reserved word.
#[inline(always)]
fn run(block_size: u64, first: &Entry, others: &[Entry]) -> usize {
    let [mut address, mut index, rest] = eights(first);
    let is_apart = |block: &Entry| {
        let (next_address, too_high) = address.overflowing_add(block_size);
        let (next_index, too_far) = index.overflowing_add(1 << 32);
        let [a, i, r] = eights(block);
        (address, index) = (next_address, next_index);
        too_high | too_far | ((a ^ next_address) | (i ^ next_index) | (r ^ rest) != 0)
    };
    // sets of one block are told by associativity and flags mostly
    match others.first() {
        Some(next) if eights(next)[2] == rest => {
            others.iter().position(is_apart).unwrap_or(others.len())
        }
        _ => 0,
    }
}

fn has_reserved(blocks: &[Entry]) -> bool {
    blocks.iter().fold(0, |all, block| all | word_at::<12>(block)) != 0
}

/// The sets of blocks fit so many bytes. They are counted only while single blocks might not fit.
fn fits(block_size: u64, mut blocks: &[Entry], room: usize) -> bool {
    let mut sets = 0;
    while room < length(sets + blocks.len()) {
        let Some((first, others)) = blocks.split_first() else { return false };
        blocks = &others[run(block_size, first, others)..];
        sets += 1;
    }
    true
}

#[inline(always)]
fn put_set(set: &mut Entry, blocks: usize, first: &Entry) {
    set[..4].copy_from_slice(&(blocks as u32).to_be_bytes());
    set[4..16].copy_from_slice(&first[..12]);
    set[16..].copy_from_slice(&first[16..]);
}

/// Makes a new list of an old one: the answers of `memory_to_v2`.
pub fn memory_to_v2_by_runs(block_size: u64, list: &[u8], out: &mut [u8]) -> Result<u32, i32> {
    if block_size == 0 {
        return Err(status::NO_BLOCK_SIZE);
    }
    let blocks = entries(list)?;
    if blocks.len() > BLOCKS {
        return Err(status::TOO_MANY_BLOCKS);
    }
    // of the first set one reserved word is enough
    let start = blocks.first().map_or(0, |first| 1 + run(block_size, first, &blocks[1..]));
    if has_reserved(&blocks[..start.min(1)]) || has_reserved(&blocks[start..]) {
        return Err(status::RESERVED_NOT_ZERO);
    }
    if !fits(block_size, blocks, out.len()) {
        return Err(status::LIST_SHORT);
    }
    let (count, out) = out.split_first_chunk_mut().ok_or(status::LIST_SHORT)?;
    let (mut out, mut left) = (out.as_chunks_mut().0.iter_mut(), &blocks[start..]);
    let mut sets = 0;
    if let (Some(first), Some(set)) = (blocks.first(), out.next()) {
        put_set(set, start, first);
        sets += 1;
    }
    for set in out {
        let Some((first, others)) = left.split_first() else { break };
        let more = run(block_size, first, others);
        put_set(set, 1 + more, first);
        left = &others[more..];
        sets += 1;
    }
    *count = (sets as u32).to_be_bytes();
    Ok(length(sets) as u32)
}

// ---- New to old.

fn address_of(set: &Entry) -> u64 {
    u64::from_be_bytes(*set[4..].first_chunk().unwrap())
}

/// Some set has a block whose address or index leaves its width.
fn too_far(block_size: u64, sets: &[Entry]) -> bool {
    sets.iter().fold(false, |far, set| {
        let others = word_at::<0>(set).wrapping_sub(1);
        let last = u128::from(address_of(set)) + u128::from(others) * u128::from(block_size);
        far | (last >> 64 != 0) | word_at::<12>(set).overflowing_add(others).1
    })
}

/// How many blocks the sets have, or the refusal.
fn measure(block_size: u64, sets: &[Entry], room: usize) -> Result<usize, i32> {
    let (mut blocks, mut empty) = (0, false);
    for length in sets.iter().map(word_at::<0>) {
        blocks += u64::from(length);
        empty |= length == 0;
    }
    if blocks > BLOCKS as u64 {
        return Err(status::TOO_MANY_BLOCKS);
    }
    if empty {
        return Err(status::EMPTY_SET);
    }
    let blocks = blocks as usize;
    // sets of one block each have no further ones
    if blocks > sets.len() && too_far(block_size, sets) {
        return Err(status::BLOCK_TOO_FAR);
    }
    if room < length(blocks) {
        return Err(status::LIST_SHORT);
    }
    Ok(blocks)
}

/// Makes an old list of a new one: the answers of `memory_to_v1`.
pub fn memory_to_v1_by_runs(block_size: u64, list: &[u8], out: &mut [u8]) -> Result<u32, i32> {
    if block_size == 0 {
        return Err(status::NO_BLOCK_SIZE);
    }
    let sets = entries(list)?;
    let blocks = measure(block_size, sets, out.len())?;
    let (count, out) = out.split_first_chunk_mut().ok_or(status::LIST_SHORT)?;
    *count = (blocks as u32).to_be_bytes();
    let mut out = out.as_chunks_mut::<ENTRY>().0.iter_mut();
    for set in sets {
        let Some(first) = out.next() else { break };
        first[..12].copy_from_slice(&set[4..16]);
        first[12..16].fill(0);
        first[16..].copy_from_slice(&set[16..]);
        let others = word_at::<0>(set) as usize - 1;
        if others > 0 {
            let (mut address, mut index) = (address_of(set), u64::from(word_at::<12>(set)) << 32);
            for block in out.by_ref().take(others) {
                address = address.wrapping_add(block_size);
                index = index.wrapping_add(1 << 32);
                block[..8].copy_from_slice(&address.to_be_bytes());
                block[8..16].copy_from_slice(&index.to_be_bytes());
                block[16..].copy_from_slice(&set[16..]);
            }
        }
    }
    Ok(length(blocks) as u32)
}

#[cfg(test)]
mod tests {
    use super::*;
    use crate::{memory_to_v1, memory_to_v2};

    /// Numbers next to the edges, high and low.
    const EDGES: [u64; 9] = [0, 1, 2, 3, 1 << 32, 1 << 55, 1 << 63, u64::MAX - 1, u64::MAX];

    type Call = fn(u64, &[u8], &mut [u8]) -> Result<u32, i32>;

    /// Both versions answer the same, and write the same to so many bytes.
    fn same(plain: Call, fast: Call, block_size: u64, list: &[u8], room: usize) {
        let (mut out, mut fast_out) = (vec![0xEE; room], vec![0xEE; room]);
        let answer = plain(block_size, list, &mut out);
        assert_eq!(fast(block_size, list, &mut fast_out), answer);
        assert_eq!(fast_out, out);
    }

    /// Both ways, with every sort of room.
    fn both_ways(block_size: u64, list: &[u8]) {
        for room in [0, 4, 27, 28, 51, 52, 75, 76, 25_000] {
            same(memory_to_v2, memory_to_v2_by_runs, block_size, list, room);
            same(memory_to_v1, memory_to_v1_by_runs, block_size, list, room);
        }
    }

    /// Lists of three entries in each of which one number is at an edge, or two of one entry are.
    #[test]
    fn edges() {
        let list = |entries: [[u64; 6]; 3]| {
            let words = entries.into_iter().flatten().map(|number| number as u32);
            [3].into_iter().chain(words).flat_map(u32::to_be_bytes).collect::<Vec<_>>()
        };
        for (one, other) in (0..18).flat_map(|other| (0..=other).map(move |one| (one, other))) {
            for (a, b) in EDGES.into_iter().flat_map(|a| EDGES.map(|b| (a, b))) {
                let blocks = [[0, 16, 7, 0, 2, 8], [0, 19, 8, 0, 2, 8], [0, 22, 9, 0, 2, 8]];
                let sets = [[2, 0, 16, 7, 2, 8], [1, 0, 22, 9, 2, 8], [3, 0, 25, 10, 2, 8]];
                for mut entries in [blocks, sets] {
                    entries[one / 6][one % 6] = a;
                    entries[other / 6][other % 6] = b;
                    both_ways(3, &list(entries));
                }
            }
        }
        for (a, size) in EDGES.into_iter().flat_map(|a| EDGES.map(|size| (a, size))) {
            let (next, last) = (a.wrapping_add(size), a.wrapping_add(size).wrapping_add(size));
            for index in [0, u64::from(u32::MAX) - 2, u64::from(u32::MAX) - 1, u64::from(u32::MAX)]
            {
                let block = |a, by| [a >> 32, a, index + by, 0, 2, 8];
                both_ways(size, &list([block(a, 0), block(next, 1), block(last, 2)]));
                let set = |length, a, by| [length, a >> 32, a, index + by, 2, 8];
                both_ways(size, &list([set(2, a, 0), set(1, last, 2), set(3, 5, 0)]));
            }
        }
    }

    /// Lengths and counts that do not go together, and many sets.
    #[test]
    fn lengths() {
        for length in 0..100 {
            for count in [0, 1, 2, 3, 4, 1 << 29, 1 << 29 | 1, u32::MAX] {
                let mut list = vec![0; length];
                list.iter_mut().zip(count.to_be_bytes()).for_each(|(byte, new)| *byte = new);
                (0..2).for_each(|size| both_ways(size, &list));
            }
        }
        for count in [1_023, 1_024, 1_025, 3_000_u32] {
            for entry in [[1; 6], [0; 6]] {
                let words = [count].into_iter().chain([entry; 3_000].into_iter().flatten());
                let mut list: Vec<u8> = words.flat_map(u32::to_be_bytes).collect();
                list.truncate(length(count as usize));
                both_ways(1, &list);
            }
        }
    }
}
