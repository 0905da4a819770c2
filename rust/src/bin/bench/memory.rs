//! Memory lists: 1,024 blocks made new and old, in one set, in sets of one block and in 32 sets,
//! beside the first version in Rust and the fastest.

use crate::names::scattered;
use crate::{bench_all, library};
use drc::{memory_to_v1, memory_to_v1_by_runs, memory_to_v2, memory_to_v2_by_runs};
use std::hint::black_box;

const BLOCKS: usize = 1_024;
const BLOCK_SIZE: u64 = 0x1000_0000;
/// The bytes of a list of so many entries.
const ROOM: usize = 4 + 24 * BLOCKS;

/// Lists, and how many of them a turn converts.
const LISTS: usize = 10;
const CALLS: usize = 20;

type Convert = fn(u64, &[u8], &mut [u8]) -> Result<u32, i32>;

// The library's calls, with an answer as the others give it.

fn to_v2(block_size: u64, list: &[u8], out: &mut [u8]) -> Result<u32, i32> {
    let mut written = 0;
    match library::memory_to_v2(block_size, list, out, &mut written) {
        0 => Ok(written),
        refusal => Err(refusal),
    }
}

fn to_v1(block_size: u64, list: &[u8], out: &mut [u8]) -> Result<u32, i32> {
    let mut written = 0;
    match library::memory_to_v1(block_size, list, out, &mut written) {
        0 => Ok(written),
        refusal => Err(refusal),
    }
}

/// A new list with sets of these lengths, each behind the other, of two associativities in turn.
fn new_list(lengths: &[u32]) -> Vec<u8> {
    let (mut list, mut blocks) = ((lengths.len() as u32).to_be_bytes().to_vec(), 0);
    for (place, &length) in (0..).zip(lengths) {
        list.extend(length.to_be_bytes());
        list.extend((BLOCK_SIZE * u64::from(blocks)).to_be_bytes());
        list.extend([0x8000_0000 | blocks, place % 2, 8].map(u32::to_be_bytes).as_flattened());
        blocks += length;
    }
    assert_eq!(blocks as usize, BLOCKS);
    list
}

/// What is made of each list.
fn made(convert: Convert, lists: &[Vec<u8>]) -> Vec<Vec<u8>> {
    let made = |list: &Vec<u8>| {
        let mut out = vec![0; ROOM];
        let written = convert(BLOCK_SIZE, list, &mut out).unwrap();
        out.truncate(written as usize);
        out
    };
    lists.iter().map(made).collect()
}

/// A side of the benchmark that converts lists.
fn turns(convert: Convert, lists: &[Vec<u8>]) -> impl FnMut() -> usize + '_ {
    let (mut lists, mut out) = (lists.iter().cycle(), vec![0; ROOM]);
    move || {
        for list in lists.by_ref().take(CALLS) {
            let (list, out) = (black_box(&list[..]), black_box(&mut out[..]));
            assert!(convert(black_box(BLOCK_SIZE), list, out).is_ok());
        }
        CALLS
    }
}

/// All sides make the same of the lists, one after the other.
fn side_by_side(name: &str, sides: [Convert; 3], lists: &[Vec<u8>]) -> Vec<Vec<u8>> {
    let [ours, rust, fastest] = sides.map(|side| made(side, lists));
    assert!(ours == rust && ours == fastest);
    let [mut a, mut b, mut c] = sides.map(|side| turns(side, lists));
    bench_all(name, [&mut a, &mut b, &mut c]);
    ours
}

/// Lists of sets of these lengths made old, and new again.
fn both_ways(name: &str, mut lengths: impl FnMut() -> Vec<u32>) {
    let lists: Vec<Vec<u8>> = (0..LISTS).map(|_| new_list(&lengths())).collect();
    let sides = [to_v1 as Convert, memory_to_v1, memory_to_v1_by_runs];
    let old = side_by_side(&format!("memory to v1, 1,024 blocks in {name}"), sides, &lists);
    let sides = [to_v2 as Convert, memory_to_v2, memory_to_v2_by_runs];
    let new = side_by_side("memory to v2, the same", sides, &old);
    assert!(new == lists);
}

pub fn all() {
    print!("{:52} {:>14} {:>14} {:>7}", "lists per second", "ours", "Rust", "ratio");
    println!(" {:>14} {:>7}", "fastest", "ratio");
    both_ways("one set", || vec![BLOCKS as u32]);
    both_ways("1,024 sets of one", || vec![1; BLOCKS]);
    // two sets after the other have 64 blocks
    let mut first = scattered(63).map(|length| 1 + length as u32);
    both_ways("32 sets", || {
        first.by_ref().take(16).flat_map(|length| [length, 64 - length]).collect()
    });
}
