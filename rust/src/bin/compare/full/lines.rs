//! Tables made by hand: which resources are free, and how many lines of the ledger are used.

use super::{COUNTS, PLACES};
use crate::any_tables::{line_cells, made};
use crate::both::Both;
use crate::tables::KINDS;
use crate::tally::{differ, Met, Tally};
use drc::RESOURCES;

const MEM: u32 = 8;
const INDEX: u32 = 0x8000_0001;

/// A line: its kind, and where it stands.
type Line = (u32, u32);

/// What a line is filled with that has no free memory.
const FILLINGS: [fn(usize) -> Line; 4] = [
    |_| (MEM, INDEX),
    |_| (1, 0),
    |line| (KINDS[line % 3], (line % 2) as u32),
    |line| ([MEM | 1 << 8, MEM | 1 << 16, MEM | 1 << 31, 0, 9, 4][line % 6], 0),
];

/// The words of a line, with their places.
fn cells(line: usize, (kind, at): Line) -> [(usize, u32); 2] {
    let [kind_cell, at_cell] = line_cells(line);
    [(kind_cell, kind), (at_cell, at)]
}

/// A table with one connector, and every line filled.
fn filled(filling: fn(usize) -> Line) -> Both {
    let mut both = Both::any_words(made(1, &[(0, [INDEX, MEM, 1, 0, 0, 0, 0, 0, 0, 0])]));
    both.put((0..RESOURCES).flat_map(|line| cells(line, filling(line))));
    both
}

fn is_used(line: usize, count: u32) -> bool {
    line < (count as usize).min(RESOURCES)
}

/// The free memories of a table: how many, and the lowest number.
fn pool(tally: &mut Tally, both: &Both, free: impl Iterator<Item = usize>) {
    let free: Vec<usize> = free.filter(|&line| is_used(line, both.words()[1])).collect();
    let right = (free.len() as u32, free.first().map_or(0, |&line| line as u32 + 1));
    let is = both.pool(tally, MEM);
    if is != right {
        let call = format!("pool of {free:?} and {} lines", both.words()[1]);
        differ(&call, "how many are free and the lowest", &right, &is);
    }
}

/// One free memory among lines of every sort.
fn only(tally: &mut Tally) {
    for filling in FILLINGS {
        let mut both = filled(filling);
        for (line, count) in PLACES.iter().flat_map(|&line| COUNTS.map(|count| (line, count))) {
            both.put(cells(line, (MEM, 0)).into_iter().chain([(1, count)]));
            pool(tally, &both, [line].into_iter());
            for kind in [1, 2, 3, 0, 4, MEM | 1 << 8, MEM | 1 << 31] {
                both.pool(tally, kind);
            }
            tally.met(if is_used(line, count) { Met::OnlyFree } else { Met::FreePastCount }, line);
            tally.met(Met::LinesCounted, count as usize);
            both.put(cells(line, filling(line)));
        }
    }
}

/// Every line, and as many used as before it, with it, and all.
fn each_line(tally: &mut Tally) {
    let mut both = filled(FILLINGS[0]);
    for line in 0..RESOURCES {
        for count in [line, line + 1, RESOURCES].map(|count| count as u32) {
            both.put(cells(line, (MEM, 0)).into_iter().chain([(1, count)]));
            pool(tally, &both, [line].into_iter());
            both.catalogue(tally, 0, line as u32 + 1);
        }
        both.put(cells(line, (MEM, INDEX)));
    }
}

/// Two free memories, all from one to the other, and all but these.
fn several(tally: &mut Tally) {
    let [mut few, mut many] = [FILLINGS[0], |_| (MEM, 0)].map(filled);
    for (at, &first) in PLACES.iter().enumerate() {
        for &last in &PLACES[at + 1..] {
            for count in [last, last + 1, RESOURCES].map(|count| count as u32) {
                let two = [first, last];
                few.put(two.iter().flat_map(|&line| cells(line, (MEM, 0))).chain([(1, count)]));
                pool(tally, &few, two.into_iter());
                few.put((first..last).flat_map(|line| cells(line, (MEM, 0))));
                pool(tally, &few, first..=last);
                few.put((first..=last).flat_map(|line| cells(line, (MEM, INDEX))));
                many.put(two.iter().flat_map(|&line| cells(line, (MEM, 1))).chain([(1, count)]));
                pool(tally, &many, (0..RESOURCES).filter(|line| !two.contains(line)));
                many.put(two.iter().flat_map(|&line| cells(line, (MEM, 0))));
            }
            tally.met(Met::LowerFree, first);
        }
    }
    for count in COUNTS {
        many.put([(1, count)]);
        pool(tally, &many, 0..RESOURCES);
    }
}

/// A line whose word for the connector is any number but 0 is not free.
fn standing(tally: &mut Tally) {
    let mut both = filled(FILLINGS[0]);
    for (line, bit) in PLACES.iter().flat_map(|&line| (0..32).map(move |bit| (line, bit))) {
        for at in [1 << bit, u32::MAX << bit] {
            both.put(cells(line, (MEM, at)));
            pool(tally, &both, [].into_iter());
        }
        both.put(cells(line, (MEM, INDEX)));
    }
}

/// A resource is placed, and goes back to the pool.
fn placing(tally: &mut Tally) {
    let mut both = filled(|_| (MEM, 0));
    for line in PLACES {
        let last = [line, line + 1, RESOURCES, RESOURCES + 1].map(|count| count as u32);
        for count in last.into_iter().chain([u32::MAX]) {
            both.put([(1, count)]);
            let status = both.place(tally, line as u32 + 1, INDEX);
            let right = if is_used(line, count) { 0 } else { -17 };
            if status != right {
                let call = format!("place of resource {} of {count}", line + 1);
                differ(&call, "the answer", &right, &status);
            }
            let standing = is_used(line, count).then_some(line);
            pool(tally, &both, (0..RESOURCES).filter(|&free| Some(free) != standing));
            both.place(tally, 0, INDEX);
            both.place(tally, RESOURCES as u32 + 1, INDEX);
            both.retract(tally, INDEX);
            pool(tally, &both, 0..RESOURCES);
        }
    }
}

/// A new resource behind any number of others.
fn adding(tally: &mut Tally) {
    let mut both = filled(FILLINGS[0]);
    for count in (0..=RESOURCES as u32).chain(COUNTS) {
        both.put([(1, count)]);
        both.add_resource(tally, 4);
        let status = both.add_resource(tally, MEM);
        let line = count as usize;
        if status != if line < RESOURCES { 0 } else { -15 } {
            differ(&format!("add_resource behind {count}"), "the answer", &(line, -15), &status);
        }
        pool(tally, &both, (status == 0).then_some(line).into_iter());
        if status == 0 {
            both.put(cells(line, (MEM, INDEX)));
        }
    }
}

/// Every edge once.
pub fn every(tally: &mut Tally) {
    only(tally);
    each_line(tally);
    several(tally);
    standing(tally);
    placing(tally);
    adding(tally);
}
