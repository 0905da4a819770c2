//! Memory lists: old ones made new and new ones made old, sound, at the edges of every width, damaged
//! and made up, and there and back.

mod edges;
mod faulty;
mod lists;

use crate::library;
use crate::rng::Rng;
use crate::tally::{differ, same, Call, ListEdge, Tally};
use drc::{faults_to_v1, faults_to_v2, Faults};
use drc::{memory_to_v1, memory_to_v1_by_runs, memory_to_v2, memory_to_v2_by_runs};
use lists::{blocks_of, sets_of, BLOCKS};
use std::fmt::Debug;

/// The bytes of a count and of an entry.
const COUNT: usize = 4;
const ENTRY: usize = 24;

/// The bytes of a list of so many entries.
const fn length(entries: usize) -> usize {
    COUNT + ENTRY * entries
}

/// How many bytes more are lent than are needed, and how many stand behind what is lent.
const SPARE: usize = 8;

type Convert = fn(u64, &[u8], &mut [u8]) -> Result<u32, i32>;

/// What makes one list of the other, on each side, and what can be wrong with a call; more room than
/// the list that is made takes.
struct Way {
    call: Call,
    plenty: fn(&[u8]) -> usize,
    library: fn(u64, &[u8], &mut [u8], &mut u32) -> i32,
    rust: Convert,
    fast: Convert,
    faults: fn(u64, &[u8], usize) -> Faults,
}

const TO_V2: Way = Way {
    call: Call::MemoryToV2,
    plenty: |list| list.len() + SPARE,
    library: library::memory_to_v2,
    rust: memory_to_v2,
    fast: memory_to_v2_by_runs,
    faults: faults_to_v2,
};

const TO_V1: Way = Way {
    call: Call::MemoryToV1,
    plenty: |list| length(lists::sum(&sets_of(list)).min(BLOCKS)) + SPARE,
    library: library::memory_to_v1,
    rust: memory_to_v1,
    fast: memory_to_v1_by_runs,
    faults: faults_to_v1,
};

// ---- Calls.

/// Any bytes, of which those from some place on are lent: so many, before others.
fn buffer(rng: &mut Rng, lent: usize) -> (Vec<u8>, usize) {
    let at = rng.below(9);
    let mut bytes = vec![0; at + lent + SPARE];
    rng.fill(&mut bytes);
    (bytes, at)
}

/// Makes one list of the other on both sides, and by the fast version in Rust, in so many bytes,
/// between others that no call may touch. The list that is made, or none where all refuse.
fn convert(
    rng: &mut Rng,
    tally: &mut Tally,
    way: &Way,
    block_size: u64,
    list: &[u8],
    room: usize,
) -> Option<Vec<u8>> {
    let (mut lent, start) = buffer(rng, list.len());
    lent[start..start + list.len()].copy_from_slice(list);
    let before = lent.clone();
    let (mut out, at) = buffer(rng, room);
    let (mut library_out, mut fast_out, unwritten) = (out.clone(), out.clone(), rng.word());
    let mut given = unwritten;
    let (lent_list, lent_out) = (&lent[start..start + list.len()], at..at + room);
    let answer = (way.rust)(block_size, list, &mut out[lent_out.clone()]);
    let library_lent = &mut library_out[lent_out.clone()];
    let library = (way.library)(block_size, lent_list, library_lent, &mut given);
    let fast = (way.fast)(block_size, list, &mut fast_out[lent_out]);
    let call = || format!("{:?} {block_size:#x} room {room}, list {list:02x?}", way.call);
    tally.answer(way.call, call, answer.err().unwrap_or(0).into(), library.into());
    same("the number of bytes written", call, &[answer.unwrap_or(unwritten)], &[given]);
    same("the list that is made", call, &out, &library_out);
    same("the list that is lent to read", call, &before, &lent);
    if fast != answer {
        differ(&call(), "the fast version's answer", &answer, &fast);
    }
    same("the fast version's list", call, &out, &fast_out);
    if answer.is_err() {
        let faults = (way.faults)(block_size, list, room);
        if let [(-46, place), ..] = faults[..] {
            let edge = lists::too_far(block_size, sets_of(list)[place]);
            edge.into_iter().for_each(|edge| tally.list_edge(edge));
        }
        tally.together(way.call, &faults);
    }
    answer.ok().map(|written| out[at..at + written as usize].to_vec())
}

/// What is claimed of the lists that are made one of the other.
fn claim<T: PartialEq + Debug>(what: &str, block_size: u64, list: &[u8], right: T, given: T) {
    if right != given {
        differ(&format!("there and back {block_size:#x} {list:02x?}"), what, &right, &given);
    }
}

/// Makes a new list of an old one. Where that is accepted, an old one made of it has the same bytes,
/// and it has one set for each block that is not the neighbour of the one before.
fn there_and_back(rng: &mut Rng, tally: &mut Tally, block_size: u64, list: &[u8]) {
    let plenty = (TO_V2.plenty)(list);
    let Some(sets) = convert(rng, tally, &TO_V2, block_size, list, plenty) else { return };
    let again = convert(rng, tally, &TO_V1, block_size, &sets, list.len());
    claim("an old list made new and old", block_size, list, Some(list), again.as_deref());
    let blocks = blocks_of(list);
    let mut least = blocks.len();
    for pair in blocks.windows(2) {
        let edge = lists::between(block_size, pair[0], pair[1]);
        least -= usize::from(edge == ListEdge::Neighbours);
        tally.list_edge(edge);
    }
    claim("the bytes of an old list made new", block_size, list, length(least), sets.len());
    match blocks.len() {
        0 => tally.list_edge(ListEdge::NoneToV2),
        BLOCKS => tally.list_edge(ListEdge::MostToV2),
        _ => {}
    }
}

/// Makes an old list of a new one. Where that is accepted, a new one made of it has no more bytes,
/// and says the same blocks.
fn back_and_there(rng: &mut Rng, tally: &mut Tally, block_size: u64, list: &[u8]) {
    let plenty = (TO_V1.plenty)(list);
    let Some(blocks) = convert(rng, tally, &TO_V1, block_size, list, plenty) else { return };
    let least = convert(rng, tally, &TO_V2, block_size, &blocks, list.len()).unwrap_or_default();
    let again = convert(rng, tally, &TO_V1, block_size, &least, blocks.len());
    claim("a new list made old, new and old", block_size, list, Some(&blocks), again.as_ref());
    for set in sets_of(list) {
        lists::at_end(block_size, set).into_iter().for_each(|edge| tally.list_edge(edge));
    }
    match blocks_of(&blocks).len() {
        0 => tally.list_edge(ListEdge::NoneToV1),
        BLOCKS => tally.list_edge(ListEdge::MostToV1),
        _ => {}
    }
}

/// Either way, whichever list it is.
fn either_way(rng: &mut Rng, tally: &mut Tally, block_size: u64, list: &[u8]) {
    there_and_back(rng, tally, block_size, list);
    back_and_there(rng, tally, block_size, list);
}

/// One call each with room next to what is needed, where the call is accepted.
fn around(rng: &mut Rng, tally: &mut Tally, way: &Way, block_size: u64, list: &[u8]) {
    if let Some(made) = convert(rng, tally, way, block_size, list, (way.plenty)(list)) {
        for room in [0, made.len() - 1, made.len(), made.len() + 1] {
            convert(rng, tally, way, block_size, list, room);
        }
    }
}

/// What is the same at each run, but for the numbers in sound lists.
pub fn every(rng: &mut Rng, tally: &mut Tally) {
    edges::every(rng, tally);
}

/// Lists that are made up.
pub fn some(rng: &mut Rng, tally: &mut Tally) {
    faulty::some(rng, tally);
}
