//! Random trees full of properties that say to which connector a node belongs.

use super::{desk, start, tree_text, Walks, NAME, WALKER};
use crate::any_tables::{any_index, any_number, any_words, cell};
use crate::both::{walk_record, Area, Both};
use crate::full::COUNTS;
use crate::readers::Readers;
use crate::rng::Rng;
use crate::tally::{differ, Tally, Walked};
use crate::trees::{another, check_tree, compare_trees, damage, Blocks, Tree};
use drc::{Index, Table, CONNECTORS};

const KINDS: [u32; 4] = [1, 2, 3, 8];
/// As much as a reader needs for all the names.
const NAMES_ROOM: usize = 100;

/// An index that a connector of a history, or of any words, may have.
fn index(rng: &mut Rng) -> u32 {
    match rng.below(4) {
        0 => any_index(rng),
        1 => rng.pick(&KINDS) << 28 | rng.between(1, 30) as u32,
        _ => rng.pick(&KINDS) << 28 | rng.between(1, 3) as u32,
    }
}

fn value(rng: &mut Rng) -> Vec<u8> {
    let eight = [index(rng).to_be_bytes(), index(rng).to_be_bytes()].concat();
    let length = if rng.percent(85) { 4 } else { rng.pick(&[0, 3, 5, 8]) };
    eight[..length].to_vec()
}

fn property_name(rng: &mut Rng) -> Vec<u8> {
    const OTHERS: [&[u8]; 6] =
        [b"reg", b"ibm,my-drc-inde", b"m,my-drc-index", b"ibm,my-drc-indey", b"x", b"status"];
    if rng.percent(60) {
        NAME.to_vec()
    } else {
        rng.pick(&OTHERS).to_vec()
    }
}

/// A node. Where twins may be, it can have several of the properties.
fn node(rng: &mut Rng, named: Vec<u8>, depth: usize, twins: bool) -> Tree {
    let mut tree = Tree::named(named);
    for _ in 0..rng.below(4) {
        let taken = |name: &[u8]| !twins && tree.has_property(name);
        let named = another(|| property_name(rng), taken);
        tree.properties.push((named, value(rng)));
    }
    let children = match depth {
        1 => rng.between(0, 5),
        2..8 => rng.below(4) * rng.below(2),
        _ => 0,
    };
    for number in 0..children {
        let named = vec![b'a' + number as u8; rng.between(1, 5)];
        tree.children.push(node(rng, named, depth + 1, twins));
    }
    tree
}

fn tree(rng: &mut Rng, twins: bool) -> Tree {
    node(rng, b"r".to_vec(), 1, twins)
}

pub fn any(rng: &mut Rng) -> Blocks {
    let twins = rng.percent(30);
    tree(rng, twins).blocks(rng)
}

/// The index in the first property that counts.
fn own_index(tree: &Tree) -> Option<Index> {
    let mut own = tree.properties.iter().filter(|(name, _)| name == NAME);
    own.find_map(|(_, value)| value[..].try_into().ok().map(|four| Index(u32::from_be_bytes(four))))
}

/// A node of which a part was sent: what was, and how many properties and children are done.
struct Open<'a> {
    node: &'a Tree,
    sent: Tree,
    properties: usize,
    children: usize,
}

impl<'a> Open<'a> {
    fn new(node: &'a Tree) -> Open<'a> {
        Open { node, sent: Tree::named(node.name.clone()), properties: 0, children: 0 }
    }
}

/// What is sent of a tree, told from the tree and not from its blocks.
struct Sending<'a> {
    open: Vec<Open<'a>>,
    root: &'a Tree,
    sent: Option<Tree>,
    left_out: bool,
}

impl<'a> Sending<'a> {
    fn new(root: &'a Tree) -> Sending<'a> {
        Sending { open: vec![], root, sent: None, left_out: false }
    }

    /// The next reply.
    fn next(&mut self, table: &Table) -> i32 {
        let Some(open) = self.open.last_mut() else {
            self.open.push(Open::new(self.root));
            return 2;
        };
        if let Some(property) = open.node.properties.get(open.properties) {
            open.properties += 1;
            open.sent.properties.push(property.clone());
            return 3;
        }
        while let Some(child) = open.node.children.get(open.children) {
            open.children += 1;
            if !own_index(child).is_some_and(|index| table.is_unowned(index)) {
                self.open.push(Open::new(child));
                return 2;
            }
            self.left_out = true;
        }
        self.close()
    }

    fn close(&mut self) -> i32 {
        let sent = self.open.pop().unwrap().sent;
        match self.open.last_mut() {
            Some(parent) => {
                parent.sent.children.push(sent);
                4
            }
            None => {
                self.sent = Some(sent);
                0
            }
        }
    }
}

/// A table with the walker and connectors of every state, of which some are in trees.
pub fn crowd(rng: &mut Rng, tally: &mut Tally) -> Both {
    let mut both = desk(rng, tally);
    for _ in 0..rng.between(0, 20) {
        let index = index(rng);
        let (kind, partition) = (index >> 28, rng.between(1, 3) as u32);
        both.add_connector(tally, (kind, index, partition, 0));
    }
    for _ in 0..rng.between(0, 20) {
        both.add_resource(tally, rng.pick(&KINDS));
    }
    (0..rng.pick(&[0, 10, 30, 60])).for_each(|_| change(rng, tally, &mut both));
    both
}

/// A connector that does not walk changes its state, by chance to another owner.
fn change(rng: &mut Rng, tally: &mut Tally, both: &mut Both) {
    let row = rng.between(1, both.table.connectors().len() - 1);
    let connector = both.table.connectors()[row];
    let index = connector.index.0;
    let free = both.table.free_lowest(connector.kind);
    match (connector.resource, free, rng.below(20)) {
        (None, Some(resource), _) => drop(both.place(tally, resource.0, index)),
        (_, _, 0..2) => drop(both.retract(tally, index)),
        (_, _, 2) => drop(both.want_back(tally, index)),
        _ => {
            let (token, value) = (rng.pick(&[9001, 9003]), rng.below(2) as u32);
            both.set_indicator(tally, (connector.partition, token, index, value));
        }
    }
}

/// A whole walk of a sound tree while the table changes: each reply is what the tree and the table
/// at that call say, and the reader's tree is the one that was sent.
fn changing(rng: &mut Rng, tally: &mut Tally) {
    let tree = tree(rng, false);
    let blocks = tree.blocks(rng);
    if blocks.structure.len() > 32_768 {
        return;
    }
    check_tree(tally, &blocks);
    let both = crowd(rng, tally);
    let mut walks = Walks::new(rng, both);
    let mut readers = Readers::new(rng, tally, blocks.structure.len(), NAMES_ROOM);
    let mut sending = Sending::new(&tree);
    let often = rng.pick(&[0, 0, 10, 50, 90]);
    while sending.sent.is_none() {
        while rng.percent(often) {
            change(rng, tally, &mut walks.both);
        }
        let right = sending.next(&walks.both.table);
        let status = walks.step(tally, &blocks).status;
        if status != right {
            differ(&tree_text(&blocks), "what the tree's next reply is", &right, &status);
        }
        readers.read(tally, status, &walks.area.rust[..4_096]);
    }
    let sent = sending.sent.unwrap().blocks(rng);
    let built = (
        &readers.structure[0][..readers.rust.structure_used as usize],
        &readers.strings[0][..readers.rust.strings_used as usize],
    );
    let same = compare_trees(tally, sent.lent(), built);
    if same != 1 {
        differ(&tree_text(&blocks), "the tree that the reader built", &1, &same);
    }
    tally.walked(if sending.left_out { Walked::InPart } else { Walked::Whole });
}

/// The walk of a damaged tree while the table changes, up to its end or to where it can't go on.
fn damaged(rng: &mut Rng, tally: &mut Tally) {
    let mut blocks = any(rng);
    for _ in 0..rng.between(1, 3) {
        if rng.percent(50) && !blocks.structure.is_empty() {
            let at = rng.below(blocks.structure.len());
            blocks.structure[at] ^= 1 << rng.below(8);
        } else {
            damage(rng, &mut blocks);
        }
    }
    let both = crowd(rng, tally);
    let mut walks = Walks::new(rng, both);
    let often = rng.pick(&[0, 10, 50]);
    for _ in 0..3_000 {
        while rng.percent(often) {
            change(rng, tally, &mut walks.both);
        }
        let status = walks.step(tally, &blocks).status;
        if status == -1 {
            tally.walked(Walked::Stopped);
        }
        if status == 0 || status < 0 && rng.percent(70) {
            break;
        }
    }
}

/// A walk of a lone record beside a table of any words, of which some change.
fn beside_any(rng: &mut Rng, tally: &mut Tally) {
    let blocks = any(rng);
    let mut table = Both::any_words(any_words(rng));
    let (mut record, mut area) = (start(WALKER), Area::new(rng));
    for _ in 0..1_000 {
        if rng.percent(30) {
            let state = rng.pick(&[0, 1, 2, 3, 4, 256, u32::MAX]);
            let row = (any_number(rng) as usize).min(CONNECTORS - 1);
            let count =
                if rng.percent(70) { rng.pick(&[5, 20, 64, 65]) } else { rng.pick(&COUNTS) };
            table.put([(cell(4, row), state), (0, count)]);
        }
        let lent = (&mut area, 4_096);
        if walk_record(tally, &mut record, lent, blocks.lent(), &table).status <= 0 {
            break;
        }
    }
}

/// Some walks of each sort.
pub fn some(rng: &mut Rng, tally: &mut Tally) {
    for _ in 0..30 {
        changing(rng, tally);
        damaged(rng, tally);
        beside_any(rng, tally);
    }
}
