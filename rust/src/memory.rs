//! The lists of memory blocks, old and new, and each made of the other. Both are of big-endian
//! words: a count, and so many entries of six words. An entry of the old list is a block: its
//! address (two words), its index, a reserved word, the index of its associativity list, its flags.
//! One of the new list is a set: how many blocks, and the address, the index, the associativity and
//! the flags of the first. From one block of a set to the next the address grows by the block size
//! and the index by one; the others are the same.

use crate::{status, word};

/// The bytes of a count and of an entry, and the most blocks that a list may have.
pub(crate) const COUNT: usize = 4;
pub(crate) const ENTRY: usize = 24;
pub(crate) const BLOCKS: usize = 1_024;

type Entry = [u32; ENTRY / 4];

#[derive(Clone, Copy, PartialEq, Eq)]
struct Block {
    address: u64,
    index: u32,
    associativity: u32,
    flags: u32,
}

#[derive(Clone, Copy)]
struct Set {
    length: u32,
    first: Block,
}

impl Block {
    /// The block so many further in its set; none if its address or its index leaves its width.
    fn further(self, block_size: u64, by: u32) -> Option<Block> {
        let address = u128::from(self.address) + u128::from(by) * u128::from(block_size);
        let index = u64::from(self.index) + u64::from(by);
        Some(Block { address: address.try_into().ok()?, index: index.try_into().ok()?, ..self })
    }

    /// An entry of the old list, with its reserved word.
    fn from_entry([high, low, index, reserved, associativity, flags]: Entry) -> (Block, u32) {
        let address = u64::from(high) << 32 | u64::from(low);
        (Block { address, index, associativity, flags }, reserved)
    }

    fn to_entry(self) -> Entry {
        let [high, low] = halves(self.address);
        [high, low, self.index, 0, self.associativity, self.flags]
    }
}

impl Set {
    fn from_entry([length, high, low, index, associativity, flags]: Entry) -> Set {
        let address = u64::from(high) << 32 | u64::from(low);
        Set { length, first: Block { address, index, associativity, flags } }
    }

    fn to_entry(self) -> Entry {
        let [high, low] = halves(self.first.address);
        [self.length, high, low, self.first.index, self.first.associativity, self.first.flags]
    }

    /// The blocks, those left out whose address or index leaves its width.
    fn blocks(self, block_size: u64) -> impl Iterator<Item = Block> {
        (0..self.length).filter_map(move |by| self.first.further(block_size, by))
    }

    /// Some block's address or index leaves its width: then the last one's does.
    fn is_too_far(self, block_size: u64) -> bool {
        self.length > 0 && self.first.further(block_size, self.length - 1).is_none()
    }
}

/// The upper and the lower word.
fn halves(number: u64) -> [u32; 2] {
    [(number >> 32) as u32, number as u32]
}

/// The blocks' sets, each as long as it can be.
fn group(block_size: u64, blocks: &[Block]) -> Vec<Set> {
    let runs = blocks.chunk_by(|block, next| block.further(block_size, 1) == Some(*next));
    runs.map(|run| Set { length: run.len() as u32, first: run[0] }).collect()
}

// ---- Lists as bytes.

/// The count that a list begins with, 0 if it has none.
fn count(list: &[u8]) -> usize {
    word(list, 0).unwrap_or(0) as usize
}

/// The whole entries that a list has, whatever its count.
fn entries(list: &[u8]) -> impl Iterator<Item = Entry> + '_ {
    let entries = list.get(COUNT..).unwrap_or(&[]).chunks_exact(ENTRY);
    entries.map(|entry| std::array::from_fn(|place| word(entry, 4 * place).unwrap()))
}

/// How many bytes a list of so many entries has.
fn length(entries: u64) -> u128 {
    COUNT as u128 + ENTRY as u128 * u128::from(entries)
}

fn has_wrong_length(list: &[u8]) -> bool {
    list.len() < COUNT || list.len() as u128 != length(count(list) as u64)
}

/// Writes a list. How many bytes it has.
fn write(entries: &[Entry], out: &mut [u8]) -> u32 {
    let count = [entries.len() as u32];
    let words = count.iter().chain(entries.as_flattened());
    let bytes: Vec<u8> = words.flat_map(|word| word.to_be_bytes()).collect();
    out[..bytes.len()].copy_from_slice(&bytes);
    bytes.len() as u32
}

// ---- What is refused.

/// What is wrong with a call: the numbers of the refusals in their order, of which the first is the
/// answer, each with the first entry at which it shows, or 0 if it is not of an entry.
pub type Faults = Vec<(i32, usize)>;

fn faults<const N: usize>(all: [(i32, Option<usize>); N]) -> Faults {
    all.into_iter().filter_map(|(refusal, entry)| Some((refusal, entry?))).collect()
}

/// No entry shows it.
fn whole(is_wrong: bool) -> Option<usize> {
    is_wrong.then_some(0)
}

/// What is wrong when an old list is to become a new one.
pub fn faults_to_v2(block_size: u64, list: &[u8], room: usize) -> Faults {
    let (blocks, reserved): (Vec<_>, Vec<_>) = entries(list).map(Block::from_entry).unzip();
    let sets = group(block_size, &blocks).len() as u64;
    faults([
        (status::NO_BLOCK_SIZE, whole(block_size == 0)),
        (status::WRONG_LENGTH, whole(has_wrong_length(list))),
        (status::TOO_MANY_BLOCKS, whole(count(list) > BLOCKS)),
        (status::RESERVED_NOT_ZERO, reserved.iter().position(|&word| word != 0)),
        (status::LIST_SHORT, whole((room as u128) < length(sets))),
    ])
}

/// What is wrong when a new list is to become an old one.
pub fn faults_to_v1(block_size: u64, list: &[u8], room: usize) -> Faults {
    let sets: Vec<Set> = entries(list).map(Set::from_entry).collect();
    let add = |sum: &mut u64, set: &Set| {
        *sum += u64::from(set.length);
        Some(*sum)
    };
    let sums: Vec<u64> = sets.iter().scan(0, add).collect();
    let blocks = sums.last().copied().unwrap_or(0);
    faults([
        (status::NO_BLOCK_SIZE, whole(block_size == 0)),
        (status::WRONG_LENGTH, whole(has_wrong_length(list))),
        (status::TOO_MANY_BLOCKS, sums.iter().position(|&sum| sum > BLOCKS as u64)),
        (status::EMPTY_SET, sets.iter().position(|set| set.length == 0)),
        (status::BLOCK_TOO_FAR, sets.iter().position(|set| set.is_too_far(block_size))),
        (status::LIST_SHORT, whole((room as u128) < length(blocks))),
    ])
}

// ---- The calls.

/// Makes a new list of an old one. How many bytes are written, or the refusal, which leaves `out`
/// as it is.
pub fn memory_to_v2(block_size: u64, list: &[u8], out: &mut [u8]) -> Result<u32, i32> {
    if let Some(&(refusal, _)) = faults_to_v2(block_size, list, out.len()).first() {
        return Err(refusal);
    }
    let blocks: Vec<Block> = entries(list).map(|entry| Block::from_entry(entry).0).collect();
    let sets: Vec<Entry> = group(block_size, &blocks).into_iter().map(Set::to_entry).collect();
    Ok(write(&sets, out))
}

/// Makes an old list of a new one. How many bytes are written, or the refusal, which leaves `out`
/// as it is.
pub fn memory_to_v1(block_size: u64, list: &[u8], out: &mut [u8]) -> Result<u32, i32> {
    if let Some(&(refusal, _)) = faults_to_v1(block_size, list, out.len()).first() {
        return Err(refusal);
    }
    let blocks = entries(list).flat_map(|entry| Set::from_entry(entry).blocks(block_size));
    let blocks: Vec<Entry> = blocks.map(Block::to_entry).collect();
    Ok(write(&blocks, out))
}

#[cfg(test)]
mod tests {
    use super::*;

    /// A block with some address and index, and its set with so many.
    const BLOCK: Block = Block { address: 0x1_0000, index: 7, associativity: 2, flags: 8 };
    const OTHER: u8 = 0xEE;
    /// Room for 1,024 blocks.
    const ROOM: usize = 24_580;

    fn old(blocks: &[Block]) -> Vec<u8> {
        list(&blocks.iter().map(|block| block.to_entry()).collect::<Vec<_>>())
    }

    fn new(sets: &[(u32, Block)]) -> Vec<u8> {
        let entry = |&(length, first): &(u32, Block)| Set { length, first }.to_entry();
        list(&sets.iter().map(entry).collect::<Vec<_>>())
    }

    fn list(entries: &[Entry]) -> Vec<u8> {
        let mut out = vec![0; COUNT + ENTRY * entries.len()];
        assert_eq!(write(entries, &mut out) as usize, out.len());
        out
    }

    /// The same block elsewhere.
    fn at(address: u64, index: u32) -> Block {
        Block { address, index, ..BLOCK }
    }

    type Call = fn(u64, &[u8], &mut [u8]) -> Result<u32, i32>;

    /// What a call writes to so many bytes, or the refusal; the bytes past it stay.
    fn called(call: Call, block_size: u64, list: &[u8], room: usize) -> Result<Vec<u8>, i32> {
        let mut out = vec![OTHER; room];
        let answer = call(block_size, list, &mut out);
        let past = out.split_off(answer.map_or(0, |written| written as usize));
        assert!(past.iter().all(|&byte| byte == OTHER));
        answer.map(|_| out)
    }

    fn to_v2(block_size: u64, list: &[u8]) -> Result<Vec<u8>, i32> {
        called(memory_to_v2, block_size, list, ROOM)
    }

    fn to_v1(block_size: u64, list: &[u8]) -> Result<Vec<u8>, i32> {
        called(memory_to_v1, block_size, list, ROOM)
    }

    /// A list that a guest was booted with (vectors/drmem-v2-boot.hex), with blocks of 256 MiB.
    #[test]
    fn the_boot_list() {
        #[rustfmt::skip]
        let list = [
            0, 0, 0, 2,
            0, 0, 0, 4, 0, 0, 0, 0, 0, 0, 0, 0,
            0, 0, 0, 0, 255, 255, 255, 255, 0, 0, 0, 0xA0,
            0, 0, 0, 12, 0, 0, 0, 0, 0x40, 0, 0, 0,
            0x80, 0, 0, 4, 255, 255, 255, 255, 0, 0, 0, 0,
        ];
        let blocks = to_v1(0x1000_0000, &list).unwrap();
        assert_eq!((blocks.len(), &blocks[..4]), (388, &[0, 0, 0, 16][..]));
        for (place, entry) in (0..).zip(entries(&blocks)) {
            let (index, flags) = if place < 4 { (place, 0xA0) } else { (0x8000_0000 | place, 0) };
            assert_eq!(entry, [0, 0x1000_0000 * place, index, 0, u32::MAX, flags]);
        }
        assert_eq!(to_v2(0x1000_0000, &blocks), Ok(list.to_vec()));
        // with another size no two are neighbours
        assert_eq!(to_v2(0x2000_0000, &blocks).map(|list| list.len()), Ok(388));
    }

    #[test]
    fn no_blocks() {
        assert_eq!(to_v2(1, &[0; 4]), Ok(vec![0; 4]));
        assert_eq!(to_v1(u64::MAX, &[0; 4]), Ok(vec![0; 4]));
    }

    #[test]
    fn what_makes_neighbours() {
        let next = Block { address: 0x1_0010, index: 8, ..BLOCK };
        assert_eq!(to_v2(0x10, &old(&[BLOCK, next])), Ok(new(&[(2, BLOCK)])));
        for other in [
            Block { address: BLOCK.address, ..next },
            Block { address: next.address - 1, ..next },
            Block { address: next.address + 1, ..next },
            Block { address: next.address | 1 << 32, ..next },
            Block { index: BLOCK.index, ..next },
            Block { index: next.index + 1, ..next },
            Block { associativity: 3, ..next },
            Block { flags: 0, ..next },
        ] {
            let sets = [(1, BLOCK), (1, other)];
            assert_eq!(to_v2(0x10, &old(&[BLOCK, other])), Ok(new(&sets)));
            assert_eq!(to_v1(0x10, &new(&sets)), Ok(old(&[BLOCK, other])));
        }
    }

    /// Two blocks of which the second is where it would be if sums wrapped.
    #[test]
    fn sums_that_leave_their_width() {
        for (block_size, address, index, neighbours) in [
            (0x10, u64::MAX - 0x10, 7, true),
            (0x10, u64::MAX - 0xF, 7, false),
            (0x10, u64::MAX, 7, false),
            (1, u64::MAX, 7, false),
            (u64::MAX, 0, 7, true),
            (u64::MAX, 1, 7, false),
            (1 << 63, (1 << 63) - 1, 7, true),
            (1 << 63, 1 << 63, 7, false),
            (0x10, 0xFFFF_FFFF, 7, true),
            (0x10, 0, u32::MAX - 1, true),
            (0x10, 0, u32::MAX, false),
            (0x10, u64::MAX, u32::MAX, false),
        ] {
            let first = at(address, index);
            let next = at(address.wrapping_add(block_size), index.wrapping_add(1));
            let (blocks, set) = (old(&[first, next]), new(&[(2, first)]));
            let sets = if neighbours { set.clone() } else { new(&[(1, first), (1, next)]) };
            assert_eq!(to_v2(block_size, &blocks), Ok(sets));
            assert_eq!(to_v1(block_size, &set), if neighbours { Ok(blocks) } else { Err(-46) });
        }
    }

    /// The last block that is neither too high nor too far, and the next one.
    #[test]
    fn sets_that_leave_their_width() {
        for (block_size, address, index, most) in [
            (1 << 54, 0, 0, 1_024),
            (1 << 55, 0, 0, 512),
            (1 << 55, (1 << 55) - 1, 0, 512),
            (1 << 55, 1 << 55, 0, 511),
            (1 << 63, 0, 0, 2),
            (u64::MAX, 0, 0, 2),
            (u64::MAX, 1, 0, 1),
            (3, u64::MAX - 9, 0, 4),
            (1, u64::MAX - 1_022, 0, 1_023),
            (1, u64::MAX, u32::MAX, 1),
            (1, 0, u32::MAX - 9, 10),
            (1, 0, 0xFFFF_FC01, 1_023),
            (1, 0, 0xFFFF_FC00, 1_024),
        ] {
            let first = at(address, index);
            let blocks = to_v1(block_size, &new(&[(most, first)])).unwrap();
            assert_eq!(blocks.len(), COUNT + ENTRY * most as usize);
            assert_eq!(to_v2(block_size, &blocks), Ok(new(&[(most, first)])));
            let refusal = if most < 1_024 { -46 } else { -43 };
            assert_eq!(to_v1(block_size, &new(&[(most + 1, first)])), Err(refusal));
        }
    }

    #[test]
    fn lengths_and_counts() {
        for (call, mut list) in
            [(to_v2 as fn(_, &_) -> _, old(&[BLOCK; 3])), (to_v1, new(&[(1, BLOCK); 3]))]
        {
            let whole = list.clone();
            for length in 0..whole.len() {
                assert_eq!(call(1, &whole[..length]), Err(-42));
            }
            for more in 1..50 {
                assert_eq!(call(1, &[&whole[..], &vec![0; more]].concat()), Err(-42));
            }
            // the last ones have the right length in 32 bits
            for count in [0, 1, 2, 4, 0x300, 3 << 24, u32::MAX, 3 | 1 << 29, 3 | 1 << 31] {
                list[..4].copy_from_slice(&u32::to_be_bytes(count));
                assert_eq!(call(1, &list), Err(-42));
            }
            list[..4].copy_from_slice(&[0, 0, 0, 3]);
            assert!(call(1, &list).is_ok());
        }
    }

    #[test]
    fn at_most_1_024_blocks() {
        let blocks = old(&[BLOCK; 1_025]);
        assert_eq!(to_v2(1, &blocks), Err(-43));
        let blocks = old(&[BLOCK; 1_024]);
        assert_eq!(to_v2(1, &blocks), Ok(new(&[(1, BLOCK); 1_024])));
        assert_eq!(to_v1(1, &new(&[(1, BLOCK); 1_024])), Ok(blocks));
        for (lengths, answer) in [
            (&[1_023][..], Ok(24_556)),
            (&[1_024], Ok(24_580)),
            (&[1_025], Err(-43)),
            (&[1_000, 24], Ok(24_580)),
            (&[1_000, 25], Err(-43)),
            (&[1, 1_024], Err(-43)),
            // the sum is 1 or 2 in 32 bits
            (&[u32::MAX, 2], Err(-43)),
            (&[1 << 31, 1 << 31, 2], Err(-43)),
            (&[u32::MAX; 3], Err(-43)),
        ] {
            let sets: Vec<_> = lengths.iter().map(|&length| (length, BLOCK)).collect();
            assert_eq!(to_v1(1, &new(&sets)).map(|list| list.len()), answer);
        }
        // sets without blocks are none too many
        assert_eq!(to_v1(1, &new(&[(0, BLOCK); 2_000])), Err(-45));
    }

    #[test]
    fn reserved_words() {
        let blocks = old(&[BLOCK; 3]);
        for at in [16, 17, 18, 19, 40, 43, 64, 67] {
            let mut list = blocks.clone();
            list[at] = 1;
            assert_eq!(to_v2(1, &list), Err(-44));
        }
    }

    #[test]
    fn room() {
        let (blocks, sets) =
            (old(&[at(0, 7), at(1, 8), at(1, 8)]), new(&[(2, at(0, 7)), (1, at(1, 8))]));
        for room in 0..100 {
            let short = |enough| if room < enough { Err(-47) } else { Ok(()) };
            assert_eq!(called(memory_to_v2, 1, &blocks, room).map(|_| ()), short(52));
            assert_eq!(called(memory_to_v1, 1, &sets, room).map(|_| ()), short(76));
            assert_eq!(called(memory_to_v2, 1, &[0; 4], room).map(|_| ()), short(4));
            assert_eq!(called(memory_to_v1, 1, &[0; 4], room).map(|_| ()), short(4));
        }
    }

    /// A call has all that is refused, and loses one after the other.
    #[test]
    fn the_order() {
        let mut list = old(&[BLOCK; 1_025]);
        (list[4 + 24 * 1_023 + 15], list[3]) = (1, 0);
        assert_eq!(called(memory_to_v2, 0, &list, 0), Err(-41));
        assert_eq!(called(memory_to_v2, 1, &list, 0), Err(-42));
        list[3] = 1;
        assert_eq!(called(memory_to_v2, 1, &list, 0), Err(-43));
        list.truncate(ROOM);
        list[3] = 0;
        assert_eq!(called(memory_to_v2, 1, &list, 0), Err(-44));
        list[4 + 24 * 1_023 + 15] = 0;
        assert_eq!(called(memory_to_v2, 1, &list, 0), Err(-47));
        assert_eq!(to_v2(1, &list), Ok(list_of_ones(&list)));

        let far = (2, at(u64::MAX, 7));
        let mut sets = vec![far, (0, BLOCK), (1_023, BLOCK)];
        assert_eq!(called(memory_to_v1, 0, &new(&sets)[1..], 0), Err(-41));
        assert_eq!(called(memory_to_v1, 1, &new(&sets)[1..], 0), Err(-42));
        assert_eq!(called(memory_to_v1, 1, &new(&sets), 0), Err(-43));
        sets[2].0 -= 1;
        assert_eq!(called(memory_to_v1, 1, &new(&sets), 0), Err(-45));
        sets.remove(1);
        assert_eq!(called(memory_to_v1, 1, &new(&sets), 0), Err(-46));
        sets.remove(0);
        assert_eq!(called(memory_to_v1, 1, &new(&sets), 0), Err(-47));
        assert_eq!(to_v1(1, &new(&sets)).map(|list| list.len()), Ok(ROOM - 2 * ENTRY));
    }

    /// The new list of an old one in which no two are neighbours.
    fn list_of_ones(blocks: &[u8]) -> Vec<u8> {
        let blocks: Vec<_> = entries(blocks).map(|entry| (1, Block::from_entry(entry).0)).collect();
        new(&blocks)
    }

    /// What is wrong, and the entry that shows it.
    #[test]
    fn all_faults() {
        let sets = new(&[(1, BLOCK), (3, at(u64::MAX, 7)), (0, BLOCK), (1_021, BLOCK)]);
        assert_eq!(faults_to_v1(1, &sets, 99), [(-43, 3), (-45, 2), (-46, 1), (-47, 0)]);
        let mut blocks = old(&[BLOCK; 3]);
        blocks[4 + 24 + 15] = 1;
        assert_eq!(faults_to_v2(0, &blocks[..75], 75), [(-41, 0), (-42, 0), (-44, 1)]);
        assert_eq!(faults_to_v2(1, &blocks, 76), [(-44, 1)]);
    }

    /// The blocks of which these places are the first of a set, the first one always.
    fn cut_before(blocks: &[Block], places: u32) -> Vec<(u32, Block)> {
        let mut sets: Vec<(u32, Block)> = vec![];
        for (place, &block) in blocks.iter().enumerate() {
            match sets.last_mut() {
                Some((length, _)) if places >> place & 1 == 0 => *length += 1,
                _ => sets.push((1, block)),
            }
        }
        sets
    }

    /// Every list of five blocks that each are the one before, the next one or another; and every
    /// list of sets that expands to it, of which none is shorter than that of the grouping.
    #[test]
    fn trips() {
        for choice in 0..256 {
            let mut blocks = vec![BLOCK];
            for place in 0..4 {
                let last = *blocks.last().unwrap();
                blocks.push(match choice >> (2 * place) & 3 {
                    0 => last,
                    1 => Block { flags: last.flags ^ 1, ..last.further(5, 1).unwrap() },
                    _ => last.further(5, 1).unwrap(),
                });
            }
            let list = old(&blocks);
            let sets = to_v2(5, &list).unwrap();
            assert_eq!(to_v1(5, &sets), Ok(list.clone()));
            let cuts = (0..16).map(|places| new(&cut_before(&blocks, places << 1)));
            let same: Vec<_> = cuts.filter(|cut| to_v1(5, cut).as_ref() == Ok(&list)).collect();
            assert!(same.contains(&sets) && same.contains(&list_of_ones(&list)));
            assert!(same.iter().all(|cut| cut.len() >= sets.len()));
        }
    }
}
