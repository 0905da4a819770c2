//! Runs the Rust version and the proved library on the same random calls, and compares every
//! answer, every word of the tables and records, and every byte of the areas and buffers.
//!
//!     compare [SEED [ROUNDS]]

mod any_tables;
mod both;
mod faults;
mod full;
mod hotplug;
mod library;
mod memory;
mod name_edges;
mod node_changes;
mod properties;
mod readers;
mod rng;
mod tables;
mod tally;
mod trees;
mod twin_names;
mod unowned;
mod walks;
mod wanted;

use rng::Rng;
use tally::Tally;
use trees::{check_tree, compare_trees, Blocks, Tree};

/// Trees of every sort, sound ones first among them.
fn forest(rng: &mut Rng, tally: &mut Tally) -> Vec<Blocks> {
    let mut forest = Vec::new();
    for _ in 0..60 {
        let loose = rng.percent(15);
        let tree = match rng.below(20) {
            0 => Tree::chain(rng, 8),
            1 => Tree::chain(rng, 9),
            _ => Tree::random(rng, loose),
        };
        let mut blocks = tree.blocks(rng);
        check_tree(tally, &blocks);
        let again = if rng.percent(60) { tree.clone() } else { tree.altered(rng) };
        let mut second = again.blocks(rng);
        let answer = compare_trees(tally, blocks.lent(), second.lent());
        if answer != -33 && (answer == 1) != (again == tree) {
            tally::differ("compare_trees", "what the trees are", &(again == tree), &answer);
        }
        match rng.below(10) {
            0 => trees::stretch(rng, &mut blocks),
            1 => blocks = trees::soup(rng),
            2 => blocks = trees::at_limits(rng),
            3 => blocks = name_edges::any(rng),
            4 => blocks = twin_names::any(rng),
            5 => blocks = unowned::any(rng),
            _ => {}
        }
        for _ in 0..rng.below(12) {
            trees::damage(rng, &mut second);
            check_tree(tally, &second);
            compare_trees(tally, blocks.lent(), second.lent());
        }
        if rng.percent(15) {
            trees::damage(rng, &mut blocks);
        }
        check_tree(tally, &blocks);
        forest.push(blocks);
    }
    forest
}

/// One round of every kind of call, over trees of its own.
fn round(rng: &mut Rng, tally: &mut Tally) {
    let forest = forest(rng, tally);
    let lent = forest.clone();
    name_edges::some(rng, tally);
    twin_names::some(rng, tally);
    unowned::some(rng, tally);
    wanted::some(rng, tally, &forest);
    full::some(rng, tally, &forest);
    faults::some(rng, tally);
    for _ in 0..10 {
        tables::history(rng, tally, &forest);
    }
    for _ in 0..150 {
        any_tables::any_table(rng, tally, &forest);
    }
    for _ in 0..100 {
        walks::lone_record(rng, tally, &forest);
        let tree = rng.below(forest.len());
        walks::rebuilt(rng, tally, &forest[tree]);
    }
    for _ in 0..20 {
        readers::made_up(rng, tally);
        readers::any_record(rng, tally);
    }
    for _ in 0..2 {
        properties::reached(rng, tally);
        properties::any_table(rng, tally);
        properties::arrays(rng, tally);
    }
    hotplug::some(rng, tally);
    node_changes::some(rng, tally);
    memory::some(rng, tally);
    if forest != lent {
        println!("a call changed a tree that it was lent to read");
        std::process::exit(1);
    }
}

fn main() {
    let mut arguments = std::env::args().skip(1).map(|a| a.parse::<u64>().expect("a number"));
    let seed = arguments.next().unwrap_or(1);
    let rounds = arguments.next().unwrap_or(400);
    println!("seed {seed}, {rounds} rounds");
    let mut rng = Rng::new(seed);
    let mut tally = Tally::default();
    properties::many(&mut rng, &mut tally);
    hotplug::every(&mut rng, &mut tally);
    node_changes::every(&mut rng, &mut tally);
    memory::every(&mut rng, &mut tally);
    name_edges::every(&mut tally);
    twin_names::every(&mut tally);
    unowned::every(&mut rng, &mut tally);
    wanted::every(&mut rng, &mut tally);
    full::every(&mut rng, &mut tally);
    faults::every(&mut rng, &mut tally);
    for _ in 0..rounds {
        round(&mut rng, &mut tally);
    }
    if !tally.report() {
        println!("some answer did not occur");
        std::process::exit(1);
    }
    println!("no difference");
}
