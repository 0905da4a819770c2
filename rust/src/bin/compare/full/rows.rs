//! Tables made by hand: where a connector stands, how many rows are used, and which of two counts.

use super::{COUNTS, PLACES};
use crate::any_tables::{cell, line_cells, made, row_cells};
use crate::both::{Area, Both, Buffers, Record};
use crate::properties::partition_arrays;
use crate::rng::Rng;
use crate::tally::{differ, Met, Tally};
use crate::trees::Blocks;
use crate::unowned::{written, STYLES};
use drc::{CONNECTORS, PARTITIONS};

/// A bridge of partition 1 that is looked for, and a slot below it.
const BRIDGE: u32 = 0x2000_0001;
const SLOT: u32 = 0x3000_0001;

const PARTITION: usize = 2;

/// The bridge in a state, with the first resource.
fn bridge(state: u32) -> Record {
    [BRIDGE, 2, 1, 0, state, 1, 0, 0, 0, 0]
}

/// Another connector: each row has an index of its own.
fn other(row: usize) -> Record {
    [0x8000_1000 | row as u32, 8, 2, 0, row as u32 % 4, 0, 0, 0, 0, 0]
}

/// A table in which all rows are others, with three resources: two of bridges, one of slots.
fn others() -> Both {
    let rows: Vec<_> = (0..CONNECTORS).map(|row| (row, other(row))).collect();
    let mut words = made(CONNECTORS as u32, &rows);
    words[1] = 3;
    for (line, (kind, at)) in [(2, BRIDGE), (2, 0), (3, SLOT)].into_iter().enumerate() {
        let cells = line_cells(line);
        (words[cells[0]], words[cells[1]]) = (kind, at);
    }
    Both::any_words(words)
}

fn is_used(row: usize, count: u32) -> bool {
    row < (count as usize).min(CONNECTORS)
}

/// The row of the bridge.
fn find(tally: &mut Tally, both: &Both, right: Option<usize>) {
    let right = right.map_or(-16, |row| row as i32);
    let row = both.find(tally, BRIDGE);
    if row != right {
        differ(&format!("find beside {} rows", both.words()[0]), "the row", &right, &row);
    }
}

/// Every call that looks for a connector, one after the other.
fn calls(tally: &mut Tally, both: &mut Both, area: &mut Area, tree: &Blocks) {
    area.put_word(0, BRIDGE);
    area.put_word(1, 0);
    both.get_sensor(tally, 1, 9003, BRIDGE);
    both.get_sensor(tally, 2, 9003, BRIDGE);
    both.set_indicator(tally, (1, 9001, BRIDGE, 1));
    for _ in 0..3 {
        both.configure_connector(tally, 1, (area, 4_096), tree.lent());
    }
    both.want_back(tally, BRIDGE);
    both.set_indicator(tally, (1, 9001, BRIDGE, 0));
    both.set_indicator(tally, (1, 9003, BRIDGE, 0));
    both.place(tally, 2, BRIDGE);
    both.set_indicator(tally, (1, 9003, BRIDGE, 1));
    both.set_indicator(tally, (1, 9003, BRIDGE, 0));
    both.place(tally, 1, BRIDGE);
    both.retract(tally, BRIDGE);
    both.pool(tally, 2);
    both.add_connector(tally, (3, SLOT, 1, BRIDGE));
    both.add_connector(tally, (2, BRIDGE, 1, 0));
    both.find(tally, SLOT);
    both.find(tally, BRIDGE);
}

/// The bridge in one row alone.
fn alone(rng: &mut Rng, tally: &mut Tally) {
    let (table, mut area) = (others(), Area::new(rng));
    let tree = written("(r(ax))", STYLES[0]);
    for (row, count) in PLACES.iter().flat_map(|&row| COUNTS.map(|count| (row, count))) {
        let mut both = table.clone();
        both.put(row_cells(row, bridge(1)).chain([(0, count)]));
        find(tally, &both, is_used(row, count).then_some(row));
        both.catalogue(tally, row as u32, 1);
        both.catalogue(tally, count, count);
        tally.met(if is_used(row, count) { Met::Alone } else { Met::PastCount }, row);
        tally.met(Met::RowsCounted, count as usize);
        calls(tally, &mut both, &mut area, &tree);
    }
}

/// Every row, and as many used as before it, with it, and all.
fn each_row(tally: &mut Tally) {
    let mut both = others();
    for row in 0..CONNECTORS {
        for count in [row, row + 1, CONNECTORS].map(|count| count as u32) {
            both.put(row_cells(row, bridge(1)).chain([(0, count)]));
            find(tally, &both, is_used(row, count).then_some(row));
        }
        both.put(row_cells(row, other(row)));
    }
}

/// Pairs of places, the first one before the second.
fn pairs() -> impl Iterator<Item = (usize, usize)> {
    let behind = |at: usize| PLACES[at + 1..].iter().map(move |&second| (PLACES[at], second));
    (0..PLACES.len()).flat_map(behind)
}

/// The index in two rows, of which the second is partition 2's: the first one counts.
fn twins(tally: &mut Tally) {
    let mut both = others();
    for (first, second) in pairs() {
        let mut twin = bridge(0);
        twin[PARTITION] = 2;
        for count in [first, first + 1, second, second + 1, CONNECTORS].map(|count| count as u32) {
            let rows = row_cells(first, bridge(1)).chain(row_cells(second, twin));
            both.put(rows.chain([(0, count)]));
            find(tally, &both, is_used(first, count).then_some(first));
            both.get_sensor(tally, 1, 9003, BRIDGE);
            both.get_sensor(tally, 2, 9003, BRIDGE);
            both.want_back(tally, BRIDGE);
        }
        tally.met(Met::First, first);
        tally.met(Met::Second, second);
        both.put(row_cells(first, other(first)).chain(row_cells(second, other(second))));
    }
}

/// A bridge that is Configured and a slot below it, in either order and at the end of the used rows.
fn below(tally: &mut Tally) {
    let mut both = others();
    for (one, two) in pairs().flat_map(|(one, two)| [(one, two), (two, one)]) {
        let slot = [SLOT, 3, 1, BRIDGE, 0, 3, 0, 0, 0, 0];
        for count in [one.max(two), one.max(two) + 1, CONNECTORS].map(|count| count as u32) {
            both.put(row_cells(one, bridge(3)).chain(row_cells(two, slot)).chain([(0, count)]));
            let usable = both.set_indicator(tally, (1, 9003, SLOT, 1));
            let isolated = both.set_indicator(tally, (1, 9001, BRIDGE, 0));
            let right = match (is_used(one, count), is_used(two, count)) {
                (true, true) => (0, -9000),
                (true, false) => (-3, 0),
                (false, _) => (-3, -3),
            };
            if (usable, isolated) != right {
                let call = format!("orders at bridge {one} and slot {two} of {count}");
                differ(&call, "the answers", &right, &(usable, isolated));
            }
        }
        both.put(row_cells(one, other(one)).chain(row_cells(two, other(two))));
    }
}

/// A new connector behind any number of others; with the last row used each refusal in its order.
fn adding(tally: &mut Tally) {
    let mut both = others();
    both.put(row_cells(0, bridge(3)));
    for count in (0..=CONNECTORS as u32).chain(COUNTS) {
        both.put([(0, count)]);
        let parent = if count == 0 { 0 } else { BRIDGE };
        both.add_connector(tally, (3, BRIDGE, 1, parent));
        both.add_connector(tally, (8, other(0)[0], PARTITIONS + 1, SLOT));
        both.add_connector(tally, (8, other(1)[0], PARTITIONS + 1, SLOT));
        both.add_connector(tally, (3, SLOT, PARTITIONS + 1, SLOT));
        both.add_connector(tally, (3, SLOT, PARTITIONS, BRIDGE));
        let status = both.add_connector(tally, (3, SLOT, 1, parent));
        let row = count as usize;
        if status != if row < CONNECTORS { 0 } else { -15 } {
            differ(&format!("add_connector behind {count}"), "the answer", &(row, -15), &status);
        }
        if status == 0 {
            both.put(row_cells(row, if row == 0 { bridge(3) } else { other(row) }));
        }
    }
}

/// The arrays of the last partition, whose connectors stand at the edges.
fn shelf(rng: &mut Rng, tally: &mut Tally) {
    let mut both = others();
    both.put(PLACES.map(|row| (cell(PARTITION, row), PARTITIONS)));
    for count in COUNTS {
        both.put([(0, count)]);
        let mut buffers = Buffers::new(&both.table);
        for partition in [2, PARTITIONS, PARTITIONS + 1] {
            partition_arrays(rng, tally, &both, partition, &mut buffers);
        }
    }
}

/// Every edge once.
pub fn every(rng: &mut Rng, tally: &mut Tally) {
    alone(rng, tally);
    each_row(tally);
    twins(tally);
    below(tally);
    adding(tally);
    shelf(rng, tally);
}
