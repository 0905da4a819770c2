//! Changed nodes: 4,096 changes reported to the end, all calls together, and the areas of that read,
//! beside the first version in Rust and the fastest.

use crate::names::scattered;
use crate::{bench_all, library};
use drc::{read_updates, read_updates_in_place, update_nodes, update_nodes_by_blocks};
use std::hint::black_box;

const CHANGES: usize = 4_096;
const AREA: usize = 4_096;
/// Room for the changes of any area.
const ROOM: usize = 3_054;

/// Lists of changes, and how many of them a turn reports.
const LISTS: usize = 10;
const RUNS: usize = 5;
/// Areas that a turn reads.
const AREAS: usize = 20;

type Update = fn(u32, &[u32], &mut [u8]) -> i32;
type Read = fn(&[u8], &mut [u32]) -> Result<u32, i32>;

/// The library's reader, with an answer as the others give it.
fn read(work: &[u8], out: &mut [u32]) -> Result<u32, i32> {
    let mut written = 0;
    match library::read_updates(work, out, &mut written) {
        0 => Ok(written),
        refusal => Err(refusal),
    }
}

/// Lists of changes of these kinds.
fn lists(mut kinds: impl Iterator<Item = usize>) -> Vec<Vec<u32>> {
    let change =
        |(place, kind): (u32, usize)| [1 + kind as u32, 0x1000 + place, 0x8000_0000 | place];
    let mut list = || (0..).zip(kinds.by_ref().take(CHANGES)).flat_map(change).collect();
    (0..LISTS).map(|_| list()).collect()
}

/// Calls until nothing is left; what is done with each area.
fn run(update: Update, changes: &[u32], work: &mut [u8], mut each: impl FnMut(&[u8])) {
    let mut status = 1;
    work[..16].fill(0);
    while status == 1 {
        status = update(1, black_box(changes), black_box(&mut *work));
        each(work);
    }
    assert_eq!(status, 0);
}

/// All areas of the lists.
fn areas(update: Update, lists: &[Vec<u32>]) -> Vec<Vec<u8>> {
    let (mut areas, mut work) = (vec![], vec![0; AREA]);
    for list in lists {
        run(update, list, &mut work, |area| areas.push(area.to_vec()));
    }
    areas
}

/// A side of the benchmark that reports whole lists.
fn reports(update: Update, lists: &[Vec<u32>]) -> impl FnMut() -> usize + '_ {
    let (mut lists, mut work) = (lists.iter().cycle(), vec![0; AREA]);
    move || {
        lists.by_ref().take(RUNS).for_each(|list| run(update, list, &mut work, |_| {}));
        RUNS
    }
}

/// A side of the benchmark that reads areas.
fn readings(read: Read, areas: &[Vec<u8>]) -> impl FnMut() -> usize + '_ {
    let (mut areas, mut out) = (areas.iter().cycle(), vec![0; ROOM]);
    move || {
        for area in areas.by_ref().take(AREAS) {
            assert!(read(black_box(area), black_box(&mut out)).is_ok());
        }
        AREAS
    }
}

/// Reports lists of changes of these kinds to the end, and reads every area.
fn report_and_read(name: &str, kinds: impl Iterator<Item = usize>) {
    let lists = lists(kinds);
    let sides: [Update; 3] = [library::update_nodes, update_nodes, update_nodes_by_blocks];
    let [ours, rust, fastest] = sides.map(|side| areas(side, &lists));
    assert!(ours == rust && ours == fastest);
    let [mut a, mut b, mut c] = sides.map(|side| reports(side, &lists));
    bench_all(&format!("update-nodes, all calls, {name}"), [&mut a, &mut b, &mut c]);
    let sides: [Read; 3] = [read, read_updates, read_updates_in_place];
    let [mut a, mut b, mut c] = sides.map(|side| readings(side, &ours));
    bench_all("read-updates, an area of these", [&mut a, &mut b, &mut c]);
}

pub fn all() {
    print!("{:52} {:>14} {:>14} {:>7}", "whole lists, areas per second", "ours", "Rust", "ratio");
    println!(" {:>14} {:>7}", "fastest", "ratio");
    report_and_read("kinds mixed", scattered(3));
    report_and_read("one kind after another", (0..CHANGES).map(|i| 3 * i / CHANGES).cycle());
}
