//! Tables that calls fill to the last row and the last line, and calls on them.

use super::PLACES;
use crate::both::{Area, Both, Buffers};
use crate::properties::{every_partition, partition_arrays};
use crate::rng::Rng;
use crate::tables::{go_on, KINDS};
use crate::tally::{differ, Tally};
use crate::trees::Blocks;
use crate::unowned::{written, STYLES};
use drc::{CONNECTORS, PARTITIONS, RESOURCES};

/// How the connectors of a table are added.
#[derive(Clone, Copy)]
struct Plan {
    partitions: usize,
    /// the row with this number has the first kind, and so on
    shift: usize,
    /// connectors and resources in turn, and not one after the other
    in_turn: bool,
}

impl Plan {
    /// A row's kind, which is also that of the line with its number.
    fn kind(self, row: usize) -> u32 {
        KINDS[(row + self.shift) % 4]
    }

    fn index(self, row: usize) -> u32 {
        self.kind(row) << 28 | (row as u32 + 1)
    }

    fn partition(self, row: usize) -> u32 {
        1 + (row / 4 % self.partitions) as u32
    }

    /// By chance a slot that stands at no edge has the bridge of its partition before it as parent.
    fn parent(self, rng: &mut Rng, row: usize) -> u32 {
        let bridge = row.wrapping_sub(1);
        let fits = self.kind(row) == 3 && row > 0 && self.partition(bridge) == self.partition(row);
        if fits && !PLACES.contains(&row) && rng.percent(60) {
            self.index(bridge)
        } else {
            0
        }
    }

    fn add_connector(self, rng: &mut Rng, tally: &mut Tally, both: &mut Both, row: usize) {
        let (kind, index, partition) = (self.kind(row), self.index(row), self.partition(row));
        if rng.percent(3) {
            both.add_connector(tally, (kind, index, PARTITIONS + 1, 0));
            both.add_connector(tally, (kind, self.index(rng.below(row + 1)), partition, 0));
            // an unused row's index is 0
            both.find(tally, 0);
            both.find(tally, index);
        }
        let parent = self.parent(rng, row);
        both.add_connector(tally, (kind, index, partition, parent));
    }

    /// A table with the last row and the last line used, and nothing placed.
    fn fill(self, rng: &mut Rng, tally: &mut Tally) -> Both {
        let mut both = Both::fresh(rng, tally);
        for row in 0..CONNECTORS {
            self.add_connector(rng, tally, &mut both, row);
            if self.in_turn {
                both.add_resource(tally, self.kind(row));
            }
        }
        while both.table.ledger().len() < RESOURCES {
            both.add_resource(tally, self.kind(both.table.ledger().len()));
        }
        refusals(tally, &mut both, self);
        both
    }

    /// Places every resource at the connector with its number, in order: the lowest free one of each
    /// kind comes by every line.
    fn place_all(self, tally: &mut Tally, both: &mut Both) {
        for row in 0..CONNECTORS {
            let free = both.pool(tally, self.kind(row));
            let right = ((CONNECTORS - row).div_ceil(4) as u32, row as u32 + 1);
            if free != right {
                differ(&format!("pool before row {row}"), "what is free", &right, &free);
            }
            both.place(tally, row as u32 + 1, self.index(row));
        }
    }

    /// Every call at a row of a table in which everything is placed.
    fn visit(self, rng: &mut Rng, tally: &mut Tally, both: &mut Both, row: usize) {
        let (index, partition) = (self.index(row), self.partition(row));
        let (mut area, number) = (Area::new(rng), row as u32 + 1);
        area.put_word(0, index);
        area.put_word(1, 0);
        both.find(tally, index);
        both.catalogue(tally, row as u32, number);
        for (token, value) in [(9003, 1), (9001, 1)] {
            both.set_indicator(tally, (partition, token, index, value));
        }
        let tree = written("(r(ax)(bu)(cn))", STYLES[0]);
        let mut status = 1;
        while status > 0 {
            let lent = (&mut area, 4_096);
            status = both.configure_connector(tally, partition, lent, tree.lent()).status;
        }
        both.want_back(tally, index);
        for (token, value) in [(9001, 0), (9003, 0), (9003, 1)] {
            both.set_indicator(tally, (partition, token, index, value));
            both.get_sensor(tally, partition, 9003, index);
        }
        let free = [both.pool(tally, self.kind(row))];
        both.place(tally, number, index);
        both.retract(tally, index);
        let again = [both.pool(tally, self.kind(row))];
        if (free, again) != ([(1, number)], [(1, number)]) {
            differ(&format!("pool after row {row}"), "what is free", &number, &(free, again));
        }
        both.place(tally, number, index);
    }
}

/// What a full table answers to one connector more, in the order of the refusals, and to a resource.
fn refusals(tally: &mut Tally, both: &mut Both, plan: Plan) {
    let (used, past) = (plan.index(0), 8 << 28 | 0xFFF);
    let connectors = [
        ((1, past, PARTITIONS + 1, used), -11),
        ((plan.kind(0), used, PARTITIONS + 1, used), -12),
        ((8, past, PARTITIONS + 1, used), -13),
        ((8, past, 0, used), -13),
        ((8, past, PARTITIONS, used), -14),
        ((8, past, PARTITIONS, 0), -15),
        ((8, past, 1, 0), -15),
    ];
    let answers = connectors.map(|(connector, _)| both.add_connector(tally, connector));
    if answers != connectors.map(|(_, right)| right) {
        differ("add_connector at a full table", "the answers", &connectors, &answers);
    }
    let answers = [0, 8].map(|kind| both.add_resource(tally, kind));
    if answers != [-11, -15] {
        differ("add_resource at a full table", "the answers", &[-11, -15], &answers);
    }
}

/// A table by each plan, every call at each edge, and the arrays of every partition.
pub fn every(rng: &mut Rng, tally: &mut Tally) {
    for (shift, partitions) in
        [PARTITIONS as usize, 1, 3, PARTITIONS as usize].into_iter().enumerate()
    {
        let plan = Plan { partitions, shift, in_turn: shift % 2 == 0 };
        let mut both = plan.fill(rng, tally);
        plan.place_all(tally, &mut both);
        for row in PLACES {
            plan.visit(rng, tally, &mut both, row);
        }
        let mut buffers = Buffers::new(&both.table);
        for partition in 0..=PARTITIONS + 1 {
            partition_arrays(rng, tally, &both, partition, &mut buffers);
        }
    }
}

/// By chance a full table, and many calls on it.
pub fn some(rng: &mut Rng, tally: &mut Tally, forest: &[Blocks]) {
    if rng.percent(80) {
        return;
    }
    let partitions = rng.pick(&[1, 2, PARTITIONS as usize]);
    let plan = Plan { partitions, shift: rng.below(4), in_turn: rng.percent(50) };
    let mut both = plan.fill(rng, tally);
    if rng.percent(50) {
        plan.place_all(tally, &mut both);
    }
    every_partition(rng, tally, &both);
    go_on(rng, tally, forest, both, 1_500);
}
