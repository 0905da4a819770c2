//! Whole walks, at a table and at a record, with each of the library's two calls: the second says where
//! a fault is.

use crate::library::{self, Words};
use crate::trees::{self, Blocks};
use crate::{bench, last, page, tables, At, Owned, MEM, PARTITION};
use drc::{Connector, Index, CONNECTOR_WORDS};
use std::hint::black_box;

type Record = [u32; CONNECTOR_WORDS];

pub fn step(words: &mut Words, work: &mut [u8], tree: &Blocks) -> i32 {
    library::configure_connector(words, PARTITION, work, tree.lent())
}

fn step_at(words: &mut Words, work: &mut [u8], tree: &Blocks) -> i32 {
    library::configure_connector_at(words, PARTITION, work, tree.lent(), &mut 0)
}

fn step_record(record: &mut Record, work: &mut [u8], tree: &Blocks, words: &Words) -> i32 {
    library::walk_record(record, work, tree.lent(), words)
}

fn step_record_at(record: &mut Record, work: &mut [u8], tree: &Blocks, words: &Words) -> i32 {
    library::walk_record_at(record, work, tree.lent(), words, &mut 0)
}

/// Steps up to the end of a walk; how many.
fn to_end(mut step: impl FnMut() -> i32) -> usize {
    let (mut calls, mut status) = (0, 1);
    while status > 0 {
        status = step();
        calls += 1;
    }
    assert_eq!(status, 0);
    calls
}

/// So many whole walks at a table.
pub fn at_table(
    name: &str,
    at: At,
    (trees, walks): (&[Blocks], usize),
    step: impl Fn(&mut Words, &mut [u8], &Blocks) -> i32,
) {
    let (mut words, mut table) = tables(at.connectors, at.owned);
    let index = MEM | at.number;
    let (mut our_work, mut rust_work) = (page(index), page(index));
    let trees = || trees.iter().cycle().take(walks);
    let ours = || {
        let walk = |tree| {
            library::set_indicator(&mut words, PARTITION, 9001, index, 0);
            library::set_indicator(&mut words, PARTITION, 9001, index, 1);
            to_end(|| step(&mut words, black_box(&mut our_work[..]), tree))
        };
        trees().map(walk).sum()
    };
    let rust = || {
        let walk = |tree: &Blocks| {
            table.set_indicator(PARTITION, 9001, Index(index), 0);
            table.set_indicator(PARTITION, 9001, Index(index), 1);
            let (structure, strings) = tree.lent();
            to_end(|| {
                let work = black_box(&mut rust_work[..]);
                table.configure_connector(PARTITION, work, structure, strings).status
            })
        };
        trees().map(walk).sum()
    };
    bench(name, ours, rust);
}

/// Ten whole walks at a record that no table holds, beside a table of 64 connectors.
fn at_record(
    name: &str,
    trees: &[Blocks],
    step: impl Fn(&mut Record, &mut [u8], &Blocks, &Words) -> i32,
) {
    let (words, table) = tables(64, Owned::All);
    let start = [MEM | 1, 8, PARTITION, 0, 2, 1, 0, 0, 0, 0];
    let (mut our_work, mut rust_work) = (page(MEM | 1), page(MEM | 1));
    let trees = || trees.iter().cycle().take(10);
    let ours = || {
        let walk = |tree| {
            let mut record = start;
            let calls = to_end(|| step(&mut record, black_box(&mut our_work[..]), tree, &words));
            assert_eq!(record[4], 3);
            calls
        };
        trees().map(walk).sum()
    };
    let rust = || {
        let walk = |tree: &Blocks| {
            let mut record = Connector::from_words(start);
            let (structure, strings) = tree.lent();
            let calls = to_end(|| {
                record.step(&table, black_box(&mut rust_work[..]), structure, strings).status
            });
            assert_eq!(record.to_words()[4], 3);
            calls
        };
        trees().map(walk).sum()
    };
    bench(name, ours, rust);
}

pub fn of_properties(trees: &[Blocks], of_64: At) {
    let one = last(1, Owned::Last);
    at_record("walk, 1,000 properties of 8 bytes, at the record", trees, step_record);
    at_table("walk, the same, at a table of one connector", one, (trees, 10), step);
    at_table("walk, the same, at the last of 64 connectors", of_64, (trees, 10), step);
    at_record("walk, with the place of a fault, at the record", trees, step_record_at);
    at_table("walk, with the place of a fault, at a table of one", one, (trees, 10), step_at);
}

pub fn of_names(trees: &[Blocks]) {
    at_record("walk, the trees of 1,000 node names, at the record", trees, step_record);
}

/// Walks at the last of 64 connectors, of children that belong to the others: of owned ones, and of
/// unowned ones, which are left out.
pub fn of_children() {
    let index = |child: usize| MEM | (1 + child % 63) as u32;
    let owned = [trees::children_of_connectors(120, 20, index)];
    let unowned = [trees::children_of_connectors(500, 2, index)];
    assert!([&owned, &unowned].iter().all(|[tree]| drc::check(&tree.structure, &tree.strings)));
    let [all, one] = [Owned::All, Owned::Last].map(|owned| last(64, owned));
    at_table("walk, 120 children, their index last of 20", all, (&owned, 10), step);
    at_table("walk, 500 children that are left out", one, (&unowned, 10), step);
}
