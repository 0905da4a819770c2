//! Every edge once: lengths, counts, bytes, places in a list, the widths of addresses and indexes, the
//! sum of the sets' lengths, and two faults in every order.

use super::lists::{self, new, old, Block, Set, BLOCKS, INDEXES, SIZES};
use super::{around, back_and_there, convert, either_way, length, there_and_back};
use super::{ENTRY, TO_V1, TO_V2};
use crate::rng::Rng;
use crate::tally::Tally;

/// What a guest was booted with, of blocks of 256 MiB (vectors/drmem-v2-boot.hex).
const BOOT: [Set; 2] = [
    Set { length: 4, address: 0, index: 0, associativity: u32::MAX, flags: 0xA0 },
    Set { length: 12, address: 0x4000_0000, index: 0x8000_0004, associativity: u32::MAX, flags: 0 },
];

const SET: Set = Set { length: 1, address: 0x1000, index: 0x8000_0001, associativity: 2, flags: 8 };
const BLOCK: Block =
    Block { address: 0x1000, index: 0x8000_0001, reserved: 0, associativity: 2, flags: 8 };
const SIZE: u64 = 0x1000_0000;

/// Sets of these lengths.
fn of_lengths(lengths: &[u32]) -> Vec<Set> {
    lengths.iter().map(|&length| Set { length, ..SET }).collect()
}

/// The sets of the boot list, with the right block size and with others.
fn boot(rng: &mut Rng, tally: &mut Tally) {
    for block_size in [SIZE, 0].into_iter().chain(SIZES) {
        either_way(rng, tally, block_size, &new(&BOOT));
    }
}

/// Lists of few entries, as long as they are, cut at each byte and longer, with counts next to the
/// right one, far from it, and such that the length is right in 32 bits.
fn every_length(rng: &mut Rng, tally: &mut Tally) {
    for entries in 0..4 {
        let blocks = lists::blocks(rng, SIZE, entries);
        for list in [old(&blocks), new(&of_lengths(&vec![1; entries]))] {
            for cut in 0..list.len() + 2 * ENTRY + 2 {
                let mut list = list.clone();
                let long = list.len();
                list.resize(cut.max(long), 0);
                list.truncate(cut);
                let whole = cut.saturating_sub(4) as u32 / ENTRY as u32;
                let near = [whole.wrapping_sub(1), whole, whole + 1, entries as u32];
                let same = (1..8).map(|high| whole | high << 29);
                for count in near.into_iter().chain(same).chain([0, 1, whole << 24, u32::MAX]) {
                    lists::put_count(&mut list, count);
                    either_way(rng, tally, SIZE, &list);
                }
            }
        }
    }
}

/// Every byte of lists of two entries, with each value.
fn every_byte(rng: &mut Rng, tally: &mut Tally) {
    let blocks = old(&[BLOCK, lists::next(SIZE, BLOCK)]);
    let sets = new(&[SET, Set { length: 3, ..SET }]);
    for at in 0..blocks.len() {
        for byte in 0..=255 {
            let (mut blocks, mut sets) = (blocks.clone(), sets.clone());
            (blocks[at], sets[at]) = (byte, byte);
            there_and_back(rng, tally, SIZE, &blocks);
            back_and_there(rng, tally, SIZE, &sets);
        }
    }
}

/// Every room up to past what is needed.
fn every_room(rng: &mut Rng, tally: &mut Tally) {
    for count in [0, 1, 2, 5] {
        let (blocks, sets) = (lists::blocks(rng, SIZE, count), lists::sets(rng, SIZE, count));
        for room in 0..length(count) + 30 {
            convert(rng, tally, &TO_V2, SIZE, &old(&blocks), room);
            convert(rng, tally, &TO_V1, SIZE, &new(&sets), room);
        }
    }
}

/// Counts next to the limit, and far past it.
fn every_count(rng: &mut Rng, tally: &mut Tally) {
    for count in [0, 1, 255, 256, 1_022, 1_023, 1_024, 1_025, 1_026, 2_048, 70_000] {
        let run = std::iter::successors(Some(BLOCK), |&block| Some(lists::next(1, block)));
        let blocks: Vec<Block> = run.take(count).collect();
        around(rng, tally, &TO_V2, 1, &old(&blocks));
        there_and_back(rng, tally, 1, &old(&blocks));
        there_and_back(rng, tally, 2, &old(&blocks));
        for length in [0, 1, 2, 1_024, 1_025, u32::MAX] {
            let mut sets = vec![Set { length, ..SET }; count];
            back_and_there(rng, tally, 1, &new(&sets));
            sets.extend([Set { length: 1_024, ..SET }]);
            back_and_there(rng, tally, 1, &new(&sets));
        }
    }
}

/// Lengths of sets with a sum next to the limit, in 32 bits or not.
fn every_sum(rng: &mut Rng, tally: &mut Tally) {
    for sum in [1_023, 1_024, 1_025] {
        for ones in [0, 1, 2, 511, 512, 1_022] {
            let mut lengths = vec![1; ones];
            lengths.push(sum - ones as u32);
            for _ in 0..2 {
                back_and_there(rng, tally, 1, &new(&of_lengths(&lengths)));
                lengths.reverse();
            }
            around(rng, tally, &TO_V1, 1, &new(&of_lengths(&lengths)));
        }
    }
    // as many blocks as there may be, and sets without any before, among and behind them
    for (before, behind) in [(0, 1_024), (1, 1_023), (512, 512), (1_023, 1), (1_024, 0)] {
        for empty in [1, 2, 255, 256, 1_024, 5_000] {
            let lengths = [vec![1; before], vec![0; empty], vec![1; behind]].concat();
            back_and_there(rng, tally, 1, &new(&of_lengths(&lengths)));
            back_and_there(rng, tally, 1, &new(&of_lengths(&lengths[1..])));
        }
    }
    for low in [0, 1, 2, 1_023, 1_024, 1_025] {
        for lengths in [
            vec![u32::MAX, low + 1],
            vec![1 << 31, 1 << 31, low],
            vec![1, u32::MAX - 1, 1, low],
            [&vec![1 << 24; 256][..], &[low]].concat(),
            [&vec![u32::MAX; 1_000][..], &[1_000 + low]].concat(),
            vec![low, 1 << 16, 0, 1 << 31],
            vec![1 << 10 | low << 16],
        ] {
            back_and_there(rng, tally, 1, &new(&of_lengths(&lengths)));
        }
    }
}

/// Two blocks of which the second is where the sums put it, with a carry or not, or next to that.
fn every_neighbour(rng: &mut Rng, tally: &mut Tally) {
    for size in SIZES {
        let ends = [0, size, size.wrapping_mul(2), 1 << 32, 1 << 63].map(u64::wrapping_neg);
        for address in
            ends.into_iter().flat_map(|end| [end.wrapping_sub(1), end, end.wrapping_add(1)])
        {
            for index in INDEXES {
                let first = Block { address, index, ..BLOCK };
                let next = lists::next(size, first);
                let mut others = vec![next];
                for by in [1, u64::MAX, 1 << 32, 1 << 63] {
                    others.push(Block { address: next.address.wrapping_add(by), ..next });
                    others.push(Block { index: next.index.wrapping_add(by as u32), ..next });
                }
                for other in others {
                    there_and_back(rng, tally, size, &old(&[first, other]));
                }
            }
        }
    }
}

/// Sets whose last block is next to the end of both widths.
fn every_end(rng: &mut Rng, tally: &mut Tally) {
    for size in SIZES.into_iter().chain((54..64).map(|bit| 1 << bit)) {
        let turns = (u64::MAX / size).min(1_023) as u32;
        for length in [1, 2, 3, 512, 513, 1_023, 1_024, turns, turns + 1, turns.min(1_022) + 2] {
            let others = u128::from(length.saturating_sub(1)) * u128::from(size);
            let end = u128::from(u64::MAX).saturating_sub(others) as u64;
            let wrapped = (others as u64).wrapping_neg();
            let addresses = [0, end.saturating_sub(1), end, end.saturating_add(1), wrapped];
            for address in addresses {
                let last = u32::MAX - length.saturating_sub(1);
                for index in [0, last - 1, last, last.saturating_add(1), u32::MAX] {
                    let set = Set { length, address, index, ..SET };
                    let set_and_block = [SET, set];
                    let sets = if length < 1_024 { &set_and_block[..] } else { &[set] };
                    back_and_there(rng, tally, size, &new(sets));
                }
            }
        }
    }
}

/// Something that is not as in the others at each place of a list, or at some of a long one: another
/// field, a reserved word, no blocks, too many, one too far.
fn every_place(rng: &mut Rng, tally: &mut Tally, count: usize) {
    let first = Block { address: 0x100, ..BLOCK };
    let run = std::iter::successors(Some(first), |&block| Some(lists::next(3, block)));
    let blocks: Vec<Block> = run.take(count).collect();
    let some = [0, 1, 2, 31, 32, 63, 64, 65, 255, 256, 511, 512, 1_000, count - 2, count - 1];
    for at in (0..count).filter(|at| count < 100 || some.contains(at)) {
        let block = blocks[at];
        for other in [
            Block { address: block.address ^ 1 << 40, ..block },
            Block { index: block.index ^ 1 << 30, ..block },
            Block { associativity: 0, ..block },
            Block { flags: 0, ..block },
            Block { reserved: 1 << rng.below(32), ..block },
        ] {
            let mut blocks = blocks.clone();
            blocks[at] = other;
            there_and_back(rng, tally, 3, &old(&blocks));
        }
        for set in [
            Set { length: 0, ..SET },
            Set { length: 2, address: u64::MAX - 2, ..SET },
            Set { length: 2, index: u32::MAX, ..SET },
            Set { length: BLOCKS as u32, ..SET },
            Set { length: (BLOCKS - count + 1) as u32, ..SET },
        ] {
            let mut sets = vec![SET; count];
            sets[at] = set;
            back_and_there(rng, tally, 3, &new(&sets));
        }
    }
}

/// Two faults of sets and a sound set, in every order.
fn every_order(rng: &mut Rng, tally: &mut Tally) {
    let many = Set { length: 1_025, ..SET };
    let empty = Set { length: 0, ..SET };
    let far = Set { length: 2, index: u32::MAX, ..SET };
    let both = Set { length: 1_025, index: u32::MAX, ..SET };
    let kinds = [SET, many, empty, far, both];
    for choice in 0..125 {
        let sets = [choice % 5, choice / 5 % 5, choice / 25].map(|kind: usize| kinds[kind]);
        let list = new(&sets);
        back_and_there(rng, tally, 1, &list);
        for (size, room) in [(1, 0), (0, 0), (0, length(2 * BLOCKS))] {
            convert(rng, tally, &TO_V1, size, &list, room);
        }
    }
}

pub fn every(rng: &mut Rng, tally: &mut Tally) {
    boot(rng, tally);
    every_length(rng, tally);
    every_byte(rng, tally);
    every_room(rng, tally);
    every_count(rng, tally);
    every_sum(rng, tally);
    every_neighbour(rng, tally);
    every_end(rng, tally);
    every_place(rng, tally, 40);
    every_place(rng, tally, 1_024);
    every_order(rng, tally);
}
