//! Times the proved library and the Rust version on the same work, turn by turn in one run.
//! Each line: calls per second of each (the median of the rounds), and the ratio; for the check,
//! also those of the Rust versions in one pass, and for the longest lists of names the time of one
//! check; for the pool, also those of Rust over plain pairs, and for a look-up over a plain column; for
//! changed nodes and memory lists, also those of the fastest Rust version; for names and padding, those
//! of plain byte loops.

mod full;
mod hotplug;
#[allow(dead_code)]
#[path = "../compare/library.rs"]
mod library;
mod memory;
mod names;
mod node_changes;
mod properties;
mod trees;
mod walks;

use drc::{Index, Resource, Table, TABLE_WORDS};
use library::Words;
use std::hint::black_box;
use std::time::Instant;
use trees::{Blocks, Ordinary};

const ROUNDS: usize = 501;
const MEM: u32 = 8 << 28;
const PARTITION: u32 = 1;

fn median(mut values: Vec<f64>) -> f64 {
    values.sort_by(f64::total_cmp);
    values[values.len() / 2]
}

/// Calls per second of one turn, which makes as many calls as it answers.
fn timed(turn: &mut dyn FnMut() -> usize) -> f64 {
    let start = Instant::now();
    let calls = turn();
    calls as f64 / start.elapsed().as_secs_f64()
}

/// Both sides turn by turn, each first in half of the rounds.
fn bench(name: &str, mut ours: impl FnMut() -> usize, mut rust: impl FnMut() -> usize) {
    let (mut our_rates, mut rust_rates, mut ratios) = (vec![], vec![], vec![]);
    assert_eq!(ours(), rust());
    for round in 0..ROUNDS {
        let (our_rate, rust_rate) = if round % 2 == 0 {
            let our_rate = timed(&mut ours);
            (our_rate, timed(&mut rust))
        } else {
            let rust_rate = timed(&mut rust);
            (timed(&mut ours), rust_rate)
        };
        our_rates.push(our_rate);
        rust_rates.push(rust_rate);
        ratios.push(our_rate / rust_rate);
    }
    let (our_rate, rust_rate) = (median(our_rates), median(rust_rates));
    println!("{name:52} {our_rate:14.0} {rust_rate:14.0} {:7.2}", median(ratios));
}

/// Any number of sides turn by turn, in another order each round: our rate, and each other one with
/// its ratio. The rates.
fn bench_all<const N: usize>(name: &str, mut sides: [&mut dyn FnMut() -> usize; N]) -> [f64; N] {
    let mut rates = [const { Vec::new() }; N];
    let calls = sides.each_mut().map(|side| side());
    assert_eq!(calls, [calls[0]; N]);
    for round in 0..ROUNDS {
        for side in (0..N).map(|side| (round + side) % N) {
            rates[side].push(timed(sides[side]));
        }
    }
    print!("{name:52} {:14.0}", median(rates[0].clone()));
    for other in &rates[1..] {
        let ratios = rates[0].iter().zip(other).map(|(ours, rate)| ours / rate).collect();
        print!(" {:14.0} {:7.2}", median(other.clone()), median(ratios));
    }
    println!();
    rates.map(median)
}

/// A page in which only word 0 is set.
fn page(index: u32) -> Vec<u8> {
    let mut page = vec![0; 4_096];
    page[..4].copy_from_slice(&index.to_be_bytes());
    page
}

/// Which connectors of a table have a resource and are Available.
#[derive(Clone, Copy)]
enum Owned {
    Last,
    All,
}

/// Tables with this many memory connectors.
fn tables(connectors: u32, owned: Owned) -> (Words, Table) {
    let (mut words, mut table) = ([0; TABLE_WORDS], Table::new());
    library::fresh(&mut words);
    for number in 1..=connectors {
        library::add_connector(&mut words, 8, MEM | number, PARTITION, 0);
        table.add_connector(8, Index(MEM | number), PARTITION, None);
    }
    let first = match owned {
        Owned::Last => connectors,
        Owned::All => 1,
    };
    for (resource, index) in (1..).zip(MEM | first..=MEM | connectors) {
        library::add_resource(&mut words, 8, &mut 0);
        library::place(&mut words, resource, index);
        library::set_indicator(&mut words, PARTITION, 9003, index, 1);
        let _ = table.add_resource(8);
        table.place(Resource(resource), Index(index));
        table.set_indicator(PARTITION, 9003, Index(index), 1);
    }
    assert_eq!(drc::encode(&table), words);
    (words, table)
}

/// A connector, counted from 1, in a table of so many.
#[derive(Clone, Copy)]
struct At {
    number: u32,
    connectors: u32,
    owned: Owned,
}

/// The last connector of so many.
fn last(connectors: u32, owned: Owned) -> At {
    At { number: connectors, connectors, owned }
}

/// The library's check, the Rust version's, and the two in one pass, so many calls a turn. The
/// rates.
fn check(name: &str, trees: &[Blocks], calls: usize) -> [f64; 4] {
    let turn = |check: fn(&Blocks) -> bool| {
        let passed = |tree: &&Blocks| check(black_box(tree));
        let passed = trees.iter().cycle().take(calls).filter(passed).count();
        assert_eq!(passed, calls);
        passed
    };
    let mut ours = || turn(|tree| library::check_tree(tree.lent()) == 1);
    let mut rust = || turn(|tree| drc::check(&tree.structure, &tree.strings));
    let mut one_pass = || turn(|tree| drc::check_in_one_pass(&tree.structure, &tree.strings));
    let mut by_eights = || turn(|tree| drc::check_by_eights(&tree.structure, &tree.strings));
    bench_all(name, [&mut ours, &mut rust, &mut one_pass, &mut by_eights])
}

/// The check of a tree with one long list of names, and how long one call takes.
fn check_longest(name: &str, tree: Blocks) {
    let rates = check(name, &[tree], 2);
    let [ours, rust, one_pass, by_eights] = rates.map(|rate| 1e6 / rate);
    print!("{:52} {ours:14.1} {rust:14.1} {:7}", "  one of them, in microseconds", "");
    println!(" {one_pass:14.1} {:7} {by_eights:14.1}", "");
}

/// The check of ordinary trees, of long names, and of the longest lists of names.
fn checks(names: &[Blocks]) {
    let of = Ordinary { memories: 20, processors: 12, bridges: 2, devices: 28 };
    let large = [trees::ordinary(of)];
    let of = Ordinary { memories: 4, processors: 2, bridges: 1, devices: 4 };
    let small = [trees::ordinary(of)];
    for tree in [&large, &small] {
        let name = format!("check, an ordinary tree of {} bytes", tree[0].structure.len());
        check(&name, tree, 10);
    }
    check("check, 1,000 node names of 47 bytes in two trees", names, 10);
    check_longest("check, 2,729 properties of one node", trees::most_properties());
    check_longest("check, 2,729 children of one node", trees::most_children());
    check_longest("check, 584 children with names of 47 bytes", trees::most_long_children());
    check_longest("check, 41 nodes of 64 properties that seem alike", trees::most_alike());
}

fn get_sensor(name: &str, at: At, calls: usize) {
    let (words, table) = tables(at.connectors, at.owned);
    let index = MEM | at.number;
    let ours = || {
        let mut sum = 0;
        for _ in 0..calls {
            let mut value = 0;
            library::get_sensor(black_box(&words), PARTITION, 9003, index, &mut value);
            sum += value as usize;
        }
        sum
    };
    let rust = || {
        let mut sum = 0;
        for _ in 0..calls {
            sum += black_box(&table).get_sensor(PARTITION, 9003, Index(index)).1 as usize;
        }
        sum
    };
    bench(name, ours, rust);
}

fn main() {
    let properties = [trees::properties(1_000)];
    // one tree has no room for 1,000 names of 47 bytes
    let names = [trees::long_names(500), trees::long_names(500)];
    print!("{:52} {:>14} {:>14} {:>7}", "calls per second", "ours", "Rust", "ratio");
    println!(" {:>14} {:>7} {:>14} {:>7}", "in one pass", "ratio", "by eights", "ratio");
    let of_64 = last(64, Owned::Last);
    walks::of_properties(&properties, of_64);
    walks::of_children();
    checks(&names);
    walks::of_names(&names);
    get_sensor("get-sensor, at the last of 64 connectors", of_64, 20_000);
    full::all(&properties);
    properties::write_and_read("64 connectors", properties::usual);
    properties::write_and_read("64 names of nine digits", properties::large);
    hotplug::write_and_read("legacy, an index", 0, [2, 1, 2, 0, MEM | 1]);
    hotplug::write_and_read("modern, a count from an index on", 1, [2, 2, 4, 16, MEM | 1]);
    node_changes::all();
    memory::all();
    names::all();
}
