//! Calls on a table with the last row and the last line used: 1,024 connectors, of which each holds a
//! resource and is Available.

use crate::library::{self, Words};
use crate::trees::Blocks;
use crate::walks::{at_table, step};
use crate::{bench, bench_all, get_sensor, tables, At, Owned, MEM, PARTITION};
use drc::{Index, Resource, Table, CONNECTORS};
use std::hint::black_box;

const LAST: u32 = CONNECTORS as u32;
const INDEX: u32 = MEM | LAST;

/// Calls of a turn, and of the pool and of walks.
const CALLS: usize = 3_000;
const POOL_CALLS: usize = 1_000;
const WALKS: usize = 3;

fn full() -> (Words, Table) {
    tables(LAST, Owned::All)
}

/// A table in which only the last resource is free.
fn last_free() -> (Words, Table) {
    let (mut words, mut table) = full();
    library::set_indicator(&mut words, PARTITION, 9003, INDEX, 0);
    table.set_indicator(PARTITION, 9003, Index(INDEX), 0);
    assert_eq!(drc::encode(&table), words);
    (words, table)
}

/// So many calls, which all give this answer.
fn turn<T: PartialEq>(calls: usize, right: T, mut call: impl FnMut() -> T) -> usize {
    assert!((0..calls).all(|_| call() == right));
    calls
}

#[inline(never)]
fn position(column: &[u32], index: u32) -> Option<usize> {
    column.iter().position(|&other| other == index)
}

#[inline(never)]
fn position_by_sixteens(column: &[u32], index: u32) -> Option<usize> {
    let sixteens = column.chunks_exact(16);
    let rest = sixteens.remainder();
    for (number, sixteen) in sixteens.enumerate() {
        if sixteen.iter().fold(false, |found, &other| found | (other == index)) {
            let at = sixteen.iter().position(|&other| other == index)?;
            return Some(16 * number + at);
        }
    }
    let at = rest.iter().position(|&other| other == index)?;
    Some(column.len() - rest.len() + at)
}

/// Also beside a plain column of indexes, by sixteens and one by one.
fn find() {
    let (words, table) = full();
    let row = LAST as i32 - 1;
    let column: Vec<u32> = table.connectors().iter().map(|connector| connector.index.0).collect();
    print!("{:52} {:>14} {:>14} {:>7}", "calls per second", "ours", "Rust", "ratio");
    println!(" {:>14} {:>7} {:>14} {:>7}", "by sixteens", "ratio", "position", "ratio");
    let right = Some(CONNECTORS - 1);
    bench_all(
        "find, the last of 1,024 connectors",
        [
            &mut || turn(CALLS, row, || library::find(black_box(&words), INDEX)),
            &mut || turn(CALLS, row, || black_box(&table).row_of(Index(INDEX))),
            &mut || turn(CALLS, right, || position_by_sixteens(black_box(&column), INDEX)),
            &mut || turn(CALLS, right, || position(black_box(&column), INDEX)),
        ],
    );
}

/// A connector more, which is refused when its index was looked for in all rows.
fn add() {
    let (mut words, mut table) = full();
    let new = INDEX + 1;
    let ours = || {
        let words = black_box(&mut words);
        turn(CALLS, -15, || library::add_connector(words, 8, new, PARTITION, 0))
    };
    let rust = || {
        let table = black_box(&mut table);
        turn(CALLS, -15, || table.add_connector(8, Index(new), PARTITION, None))
    };
    bench("add connector, refused at 1,024", ours, rust);
}

/// Unusable, which is a release, place and usable in turn: three calls that leave the table as it
/// was.
fn release() {
    let (mut words, mut table) = full();
    let ours = || {
        let words = black_box(&mut words);
        for _ in 0..CALLS / 3 {
            let released = library::set_indicator(words, PARTITION, 9003, INDEX, 0);
            let placed = library::place(words, LAST, INDEX);
            let usable = library::set_indicator(words, PARTITION, 9003, INDEX, 1);
            assert_eq!((released, placed, usable), (0, 0, 0));
        }
        CALLS
    };
    let rust = || {
        let table = black_box(&mut table);
        for _ in 0..CALLS / 3 {
            let released = table.set_indicator(PARTITION, 9003, Index(INDEX), 0);
            let placed = table.place(Resource(LAST), Index(INDEX));
            let usable = table.set_indicator(PARTITION, 9003, Index(INDEX), 1);
            assert_eq!((released, placed, usable), (0, 0, 0));
        }
        CALLS
    };
    bench("unusable, place, usable, the last of 1,024", ours, rust);
}

/// A kind, and the index where it stands or 0.
type Pair = (u32, u32);

#[inline(never)]
fn count_pairs(pairs: &[Pair], kind: u32) -> usize {
    pairs.iter().filter(|pair| **pair == (kind, 0)).count()
}

/// The same without a branch.
#[inline(never)]
fn sum_pairs(pairs: &[Pair], kind: u32) -> u32 {
    pairs.iter().map(|pair| u32::from((pair.0 == kind) & (pair.1 == 0))).sum()
}

#[inline(never)]
fn find_pair(pairs: &[Pair], kind: u32) -> Option<usize> {
    pairs.iter().position(|pair| *pair == (kind, 0))
}

/// How many are free, and the lowest, where that is the last alone.
fn pool() {
    let (words, table) = last_free();
    let line = |line: &drc::Line| (line.kind, line.at.map_or(0, |at| at.0));
    let pairs: Vec<Pair> = table.ledger().iter().map(line).collect();
    print!("{:52} {:>14} {:>14} {:>7}", "calls per second", "ours", "Rust", "ratio");
    println!(" {:>14} {:>7} {:>14} {:>7}", "pairs", "ratio", "sum", "ratio");
    bench_all(
        "pool, how many, the only one the last of 1,024",
        [
            &mut || turn(POOL_CALLS, 1, || library::free_count(black_box(&words), 8)),
            &mut || turn(POOL_CALLS, 1, || black_box(&table).free_count(8)),
            &mut || turn(POOL_CALLS, 1, || count_pairs(black_box(&pairs), 8)),
            &mut || turn(POOL_CALLS, 1, || sum_pairs(black_box(&pairs), 8)),
        ],
    );
    let lowest = Some(Resource(LAST));
    bench_all(
        "pool, the lowest, the only one the last of 1,024",
        [
            &mut || turn(POOL_CALLS, LAST, || library::free_lowest(black_box(&words), 8)),
            &mut || turn(POOL_CALLS, lowest, || black_box(&table).free_lowest(8)),
            &mut || turn(POOL_CALLS, Some(CONNECTORS - 1), || find_pair(black_box(&pairs), 8)),
        ],
    );
}

pub fn all(properties: &[Blocks]) {
    let rows = [("first", 1), ("middle", LAST / 2), ("last", LAST)];
    let rows = rows.map(|(row, number)| (row, At { number, connectors: LAST, owned: Owned::All }));
    for (row, at) in rows {
        let name = format!("walk, 1,000 properties, at the {row} of 1,024");
        at_table(&name, at, (properties, WALKS), step);
    }
    for (row, at) in rows {
        get_sensor(&format!("get-sensor, at the {row} of 1,024 connectors"), at, CALLS);
    }
    add();
    release();
    find();
    pool();
}
