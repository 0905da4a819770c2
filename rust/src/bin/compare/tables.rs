//! Histories of calls from a fresh table, or from one that others have filled.

use crate::both::{Area, Both};
use crate::full::PLACES;
use crate::properties;
use crate::readers::Readers;
use crate::rng::Rng;
use crate::tally::{differ, Tally};
use crate::trees::{compare_trees, Blocks};
use drc::{Connector, Page, State, Walk, PARTITIONS};
use std::collections::HashMap;

pub const KINDS: [u32; 4] = [1, 2, 3, 8];

/// A history: a table, a work area, and a reader for each connector that is walked.
struct History<'a> {
    both: Both,
    area: Area,
    readers: HashMap<u32, Readers>,
    forest: &'a [Blocks],
    /// the tree of each connector, by its index
    shift: usize,
    /// an end-node and the begin-node behind it go to the reader as one reply
    siblings: bool,
    /// connectors are bridges and slots only
    bridges: bool,
    partitions: usize,
}

/// A place in a list of this length, of a long one mostly one at an edge.
fn any_place(rng: &mut Rng, length: usize) -> usize {
    let edge = rng.pick(&PLACES);
    if edge < length && length > 100 && rng.percent(80) {
        edge
    } else {
        rng.below(length)
    }
}

pub fn kind(rng: &mut Rng) -> u32 {
    match rng.below(40) {
        0 => rng.word(),
        1 => rng.pick(&[0, 4, 5, 7, 9]),
        _ => rng.pick(&KINDS),
    }
}

/// A partition, or a number near theirs.
fn any_partition(rng: &mut Rng) -> u32 {
    if rng.percent(50) {
        rng.below(5) as u32
    } else {
        rng.below(PARTITIONS as usize + 3) as u32
    }
}

impl<'a> History<'a> {
    fn new(rng: &mut Rng, both: Both, forest: &'a [Blocks]) -> History<'a> {
        History {
            both,
            area: Area::new(rng),
            readers: HashMap::new(),
            forest,
            shift: rng.below(forest.len()),
            siblings: rng.percent(30),
            bridges: rng.percent(30),
            partitions: rng.pick(&[1, 2, 3, PARTITIONS as usize]),
        }
    }

    fn find(&self, index: u32) -> Option<&Connector> {
        self.both.table.connectors().iter().find(|c| c.index.0 == index)
    }

    /// A connector that is looked for, by chance.
    fn connector(&self, rng: &mut Rng, fits: impl Fn(&Connector) -> bool) -> Option<Connector> {
        let all = self.both.table.connectors();
        for _ in 0..6 {
            if let Some(connector) = all.get(any_place(rng, all.len())) {
                if fits(connector) {
                    return Some(*connector);
                }
            }
        }
        None
    }

    /// An index, mostly of a connector that is there, and mostly with its partition.
    fn target(&self, rng: &mut Rng, fits: impl Fn(&Connector) -> bool) -> (u32, u32) {
        match self.connector(rng, fits).or_else(|| self.connector(rng, |_| true)) {
            Some(c) if rng.percent(96) => {
                let other = rng.percent(8);
                (if other { any_partition(rng) } else { c.partition }, c.index.0)
            }
            _ => (any_partition(rng), rng.pick(&KINDS) << 28 | rng.below(80) as u32),
        }
    }

    fn tree(&self, index: u32) -> &'a Blocks {
        let place = (index ^ (index >> 28)) as usize + self.shift;
        &self.forest[place % self.forest.len()]
    }

    fn add_connector(&mut self, rng: &mut Rng, tally: &mut Tally) {
        let mut partition = 1 + rng.below(self.partitions) as u32;
        let mut kind = if self.bridges { rng.pick(&[2, 3, 3]) } else { kind(rng) };
        let index = (kind << 28) | rng.between(1, 30) as u32;
        let index = if rng.percent(3) { rng.word() } else { index };
        let mut parent = 0;
        if kind == 3 && rng.percent(75) {
            if let Some(bridge) = self.connector(rng, |c| c.kind == 2) {
                (parent, partition) = (bridge.index.0, bridge.partition);
            }
        }
        match rng.below(40) {
            0 => parent = self.target(rng, |_| true).1,
            1 => partition = rng.pick(&[0, PARTITIONS + 1, PARTITIONS + 2, u32::MAX]),
            2 => partition = 1 + rng.below(PARTITIONS as usize) as u32,
            3 => kind = rng.pick(&KINDS),
            _ => {}
        }
        self.both.add_connector(tally, (kind, index, partition, parent));
    }

    fn place(&mut self, rng: &mut Rng, tally: &mut Tally) {
        let (_, index) = self.target(rng, |c| c.resource.is_none());
        let free = self.find(index).and_then(|c| self.both.table.free_lowest(c.kind));
        let resource = match free {
            Some(resource) if rng.percent(85) => resource.0,
            _ => (any_place(rng, self.both.table.ledger().len() + 2) + rng.below(2)) as u32,
        };
        let resource = if rng.percent(1) { rng.word() } else { resource };
        self.both.place(tally, resource, index);
    }

    /// An order that moves the connector on, or any order.
    fn set_indicator(&mut self, rng: &mut Rng, tally: &mut Tally) {
        let (partition, index) = self.target(rng, |c| c.resource.is_some());
        let state = self.find(index).map(|c| c.state);
        let (token, value) = match (rng.below(10), state) {
            (0..6, Some(State::Unusable)) => (9003, 1),
            (0..4, Some(State::Available)) => (9001, 1),
            (4..6, Some(State::Available)) => (9003, 0),
            (5..7, Some(State::Configured)) => (9001, 0),
            (9, _) => (rng.pick(&[9001, 9002, 9003, 9004, 0]), rng.pick(&[0, 1, 2, 3, u32::MAX])),
            (7.., _) => (rng.pick(&[9001, 9003]), rng.pick(&[0, 1])),
            _ => (9001, 1),
        };
        self.both.set_indicator(tally, (partition, token, index, value));
    }

    fn get_sensor(&mut self, rng: &mut Rng, tally: &mut Tally) {
        let (partition, index) = self.target(rng, |_| true);
        let token = if rng.percent(90) { 9003 } else { rng.pick(&[9001, 9002, 0, 9004]) };
        self.both.get_sensor(tally, partition, token, index);
    }

    /// Some steps of a walk, to the end by chance, with a reader that follows.
    fn walk(&mut self, rng: &mut Rng, tally: &mut Tally) {
        let (partition, index) = self.target(rng, |c| c.state == State::Unisolated);
        let steps = if rng.percent(15) { 10_000 } else { rng.between(1, 12) };
        for _ in 0..steps {
            let walk = self.find(index).map_or(Walk::default(), |c| c.walk);
            if walk == Walk::default() {
                self.readers.remove(&index);
            }
            let page = walk.page;
            let status = self.step(rng, tally, partition, index, page);
            if status <= 0 {
                break;
            }
        }
    }

    fn step(
        &mut self,
        rng: &mut Rng,
        tally: &mut Tally,
        partition: u32,
        index: u32,
        page: Page,
    ) -> i32 {
        let tree = if rng.percent(1) {
            &self.forest[rng.below(self.forest.len())]
        } else {
            self.tree(index)
        };
        let length = match (rng.below(200), page) {
            (0, _) => rng.pick(&[0, 3, 4, 7, 8, 20, 4_092, 4_095, 4_097, 8_191, 8_193]),
            (1, _) => rng.below(9_000),
            (2, _) => rng.pick(&[4_096, 8_192]),
            (_, Page::None) => 4_096,
            (0..20, Page::Asked) => 4_096,
            (_, Page::Asked | Page::Taken) => 8_192,
        };
        let damaged = rng.below(400);
        self.area.put_word(0, if damaged == 0 { rng.word() } else { index });
        self.area.put_word(1, if damaged == 1 { rng.pick(&[1, 1 << 24, u32::MAX]) } else { 0 });
        let lent = (&mut self.area, length);
        let status = self.both.configure_connector(tally, partition, lent, tree.lent()).status;
        if rng.percent(97) {
            self.reply(rng, tally, index, status, length, tree);
        }
        status
    }

    /// A reply goes to the connector's reader.
    fn reply(
        &mut self,
        rng: &mut Rng,
        tally: &mut Tally,
        index: u32,
        status: i32,
        length: usize,
        tree: &Blocks,
    ) {
        let readers = self.readers.entry(index).or_insert_with(|| {
            let slack = rng.pick(&[0, 16, 64, 64, 64, 100]);
            let structure = (tree.structure.len() + slack).saturating_sub(30);
            let strings = (tree.strings.len() * 2 + slack).saturating_sub(10);
            Readers::new(rng, tally, structure, strings)
        });
        let work = &self.area.rust[..length];
        if rng.percent(1) {
            let mut damaged = work.to_vec();
            let at = rng.below(damaged.len().min(64));
            if let Some(byte) = damaged.get_mut(at) {
                *byte = rng.pick(&[0, 1, 19, 255]);
            }
            let status = rng.pick(&[status, 0, 1, 2, 3, 4, 5, 9_902]);
            readers.clone().read(tally, status, &damaged);
        }
        let answer = readers.follow(tally, status, work, self.siblings);
        if answer == 0 {
            let structure = &readers.structure[0][..readers.rust.structure_used as usize];
            let strings = &readers.strings[0][..readers.rust.strings_used as usize];
            compare_trees(tally, tree.lent(), (structure, strings));
        }
    }

    fn call(&mut self, rng: &mut Rng, tally: &mut Tally, crowded: bool) {
        let few = self.both.table.connectors().len() < 12 || crowded;
        match rng.below(if few { 130 } else { 100 }) {
            0..2 => self.add_connector(rng, tally),
            2..5 => drop(self.both.add_resource(tally, kind(rng))),
            5..20 => self.place(rng, tally),
            20..23 => {
                let (_, index) = self.target(rng, |c| c.resource.is_some());
                self.both.retract(tally, index);
            }
            23 => {
                let (_, index) = self.target(rng, |c| c.wanted);
                self.both.retract(tally, index);
            }
            24..28 => drop(self.both.pool(tally, kind(rng))),
            28..60 => self.set_indicator(rng, tally),
            60..70 => self.get_sensor(rng, tally),
            70..95 => self.walk(rng, tally),
            95..97 => {
                let (_, index) = self.target(rng, |c| c.resource.is_some());
                self.both.want_back(tally, index);
            }
            97..100 => {
                let rows = self.both.table.connectors().len();
                let number =
                    if rng.percent(5) { rng.word() } else { any_place(rng, rows + 3) as u32 };
                self.both.catalogue(tally, number, number.wrapping_add(1));
                let (_, index) = self.target(rng, |_| true);
                self.both.find(tally, index);
            }
            100..118 => self.add_connector(rng, tally),
            _ => drop(self.both.add_resource(tally, kind(rng))),
        }
        self.empty_and_wanted();
    }

    /// No empty connector is wanted back.
    fn empty_and_wanted(&self) {
        let mut connectors = self.both.table.connectors().iter();
        if let Some(connector) = connectors.find(|c| c.wanted && c.resource.is_none()) {
            differ("a history", "an empty connector that is wanted back", &"none", connector);
        }
    }
}

/// A list of calls on a fresh table.
pub fn history(rng: &mut Rng, tally: &mut Tally, forest: &[Blocks]) {
    let crowded = rng.percent(10);
    let both = Both::fresh(rng, tally);
    let mut history = History::new(rng, both, forest);
    for _ in 0..rng.between(50, 1_000) {
        history.call(rng, tally, crowded);
    }
    if rng.percent(30) {
        properties::every_partition(rng, tally, &history.both);
    }
}

/// So many more calls on a table.
pub fn go_on(rng: &mut Rng, tally: &mut Tally, forest: &[Blocks], both: Both, calls: usize) {
    let mut history = History::new(rng, both, forest);
    (0..calls).for_each(|_| history.call(rng, tally, false));
}
