//! Lists that are made up: sound ones, each two faults in one call, damaged bytes, and any bytes.

use super::lists::{self, new, old, Block, Set};
use super::{around, back_and_there, convert, length, there_and_back};
use super::{either_way, Way, COUNT, ENTRY, TO_V1, TO_V2};
use crate::rng::Rng;
use crate::tally::Tally;

/// What can be wrong, each by the number of its refusal.
const FAULTS_TO_V2: [i32; 5] = [-41, -42, -43, -44, -47];
const FAULTS_TO_V1: [i32; 6] = [-41, -42, -43, -45, -46, -47];

/// How many blocks a list has.
fn any_count(rng: &mut Rng) -> usize {
    match rng.below(10) {
        0 => rng.pick(&[0, 1, 2, 63, 64, 65, 1_023, 1_024]),
        1 => rng.below(1_025),
        _ => rng.below(20),
    }
}

// ---- Sound lists.

/// Sound lists of both sorts, with every sort of room.
fn sound(rng: &mut Rng, tally: &mut Tally) {
    let (size, count) = (lists::block_size(rng), any_count(rng));
    let (blocks, sets) = (lists::blocks(rng, size, count), lists::sets(rng, size, count));
    let (blocks, sets) = (old(&blocks), new(&sets));
    there_and_back(rng, tally, size, &blocks);
    back_and_there(rng, tally, size, &sets);
    around(rng, tally, &TO_V2, size, &blocks);
    around(rng, tally, &TO_V1, size, &sets);
    for (way, list) in [(&TO_V2, blocks), (&TO_V1, sets)] {
        let room = rng.below(length(count) + 2);
        convert(rng, tally, way, size, &list, room);
        // with another size the same bytes say something else, or are refused
        let size = lists::block_size(rng);
        convert(rng, tally, way, size, &list, (way.plenty)(&list));
    }
}

// ---- Faults.

/// A call as it will be made.
struct Spoiled {
    block_size: u64,
    list: Vec<u8>,
    room: usize,
}

/// What only bytes and room can have wrong.
fn spoil_call(rng: &mut Rng, fault: i32, call: &mut Spoiled) {
    match fault {
        -41 => call.block_size = 0,
        -42 => spoil_length(rng, &mut call.list),
        -47 => {
            let exact = length(call.list.len() / ENTRY);
            let any = rng.below(exact);
            call.room = rng.pick(&[0, 3, 27, exact - 1, any]);
        }
        _ => {}
    }
}

/// Makes a list of another length than its count says, mostly.
fn spoil_length(rng: &mut Rng, list: &mut Vec<u8>) {
    let count = (list.len() / ENTRY) as u32;
    let near = [count.wrapping_sub(1), count + 1, count ^ 1 << rng.below(32), u32::MAX, 0];
    match rng.below(4) {
        0 => list.truncate(rng.below(list.len())),
        1 => list.truncate(list.len().saturating_sub(rng.between(1, COUNT))),
        2 => list.resize(list.len() + rng.pick(&[1, 2, 23, 24, 25, 48]), 0),
        _ => lists::put_count(list, rng.pick(&near)),
    }
}

fn spoil_blocks(rng: &mut Rng, fault: i32, block_size: u64, blocks: &mut Vec<Block>) {
    match fault {
        -43 => {
            let count = rng.pick(&[1_025, 1_026, 1_100, 1_500]);
            *blocks = lists::blocks(rng, block_size, count);
        }
        -44 => {
            for _ in 0..rng.between(1, 2) {
                let at = rng.below(blocks.len());
                if let Some(block) = blocks.get_mut(at) {
                    block.reserved = rng.pick(&[1, 0x80, 0x100, 1 << 31, u32::MAX]);
                }
            }
        }
        _ => {}
    }
}

fn spoil_sets(rng: &mut Rng, fault: i32, block_size: u64, sets: &mut Vec<Set>) {
    let at = rng.below(sets.len() + 1);
    let mut set = lists::set(rng, block_size.max(1), 5);
    match fault {
        -43 if at < sets.len() && rng.percent(50) => {
            sets[at].length = rng.pick(&[1_025, 1 << 16, 1 << 31, u32::MAX]);
            return;
        }
        -43 => {
            let sum = sets.iter().map(|set| u64::from(set.length)).sum::<u64>();
            let short = 1_025_u64.saturating_sub(sum) as u32;
            set.length = rng.pick(&[short, short + 1, sum.wrapping_neg() as u32, u32::MAX]);
        }
        -45 => set.length = 0,
        -46 if rng.percent(50) => {
            set.length += 1;
            set.index = u32::MAX - rng.below(set.length as usize - 1) as u32;
        }
        -46 => {
            set.length += 1;
            let others = block_size.wrapping_mul(u64::from(set.length - 1));
            set.address = rng.pick(&[u64::MAX, others.wrapping_neg(), others.wrapping_neg() | 1]);
        }
        _ => return,
    }
    sets.insert(at, set);
}

/// Calls of both sorts with two things wrong, or one, if they can be.
fn faulty(rng: &mut Rng, tally: &mut Tally, way: &Way, faults: [i32; 2]) {
    let (size, count) = (lists::block_size(rng), rng.below(20));
    let list = if way.call == TO_V2.call {
        let mut blocks = lists::blocks(rng, size, count);
        faults.iter().for_each(|&fault| spoil_blocks(rng, fault, size, &mut blocks));
        old(&blocks)
    } else {
        let mut sets = lists::sets(rng, size, count);
        faults.iter().for_each(|&fault| spoil_sets(rng, fault, size, &mut sets));
        new(&sets)
    };
    let mut call = Spoiled { block_size: size, room: (way.plenty)(&list), list };
    faults.iter().for_each(|&fault| spoil_call(rng, fault, &mut call));
    convert(rng, tally, way, call.block_size, &call.list, call.room);
}

// ---- Damaged bytes.

/// Lists with up to three bytes or words changed.
fn damaged(rng: &mut Rng, tally: &mut Tally) {
    let (size, count) = (lists::block_size(rng), rng.below(6));
    let (blocks, sets) = (lists::blocks(rng, size, count), lists::sets(rng, size, count));
    for mut list in [old(&blocks), new(&sets)] {
        for _ in 0..rng.between(1, 3) {
            let at = rng.below(list.len());
            match rng.below(3) {
                0 => list[at] ^= 1 << rng.below(8),
                1 => list[at] = rng.pick(&[0, 1, 0x7F, 0x80, 0xFF]),
                _ => {
                    let word = rng.pick(&lists::INDEXES);
                    list[at & !3..(at & !3) + 4].copy_from_slice(&word.to_be_bytes());
                }
            }
        }
        either_way(rng, tally, size, &list);
    }
}

/// Any bytes behind a count that is right or not.
fn any_bytes(rng: &mut Rng, tally: &mut Tally) {
    let count = rng.below(5);
    let mut list = vec![0; length(count) + rng.pick(&[0, 0, 0, 1, 23])];
    rng.fill(&mut list);
    if rng.percent(80) {
        lists::put_count(&mut list, count as u32);
    }
    // a set of any length is too long, mostly
    for entry in list[COUNT..].chunks_exact_mut(ENTRY) {
        if rng.percent(70) {
            entry[..3].fill(0);
        }
        if rng.percent(90) {
            entry[12..16].fill(0);
        }
    }
    let (size, room) = (lists::block_size(rng), rng.below(200));
    either_way(rng, tally, size, &list);
    for way in [&TO_V2, &TO_V1] {
        convert(rng, tally, way, size, &list, room);
    }
}

pub fn some(rng: &mut Rng, tally: &mut Tally) {
    for _ in 0..60 {
        sound(rng, tally);
        damaged(rng, tally);
        any_bytes(rng, tally);
    }
    for faults in FAULTS_TO_V2.iter().flat_map(|&one| FAULTS_TO_V2.map(|other| [one, other])) {
        faulty(rng, tally, &TO_V2, faults);
    }
    for faults in FAULTS_TO_V1.iter().flat_map(|&one| FAULTS_TO_V1.map(|other| [one, other])) {
        faulty(rng, tally, &TO_V1, faults);
    }
}
