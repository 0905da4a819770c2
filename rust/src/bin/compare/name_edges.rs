//! Small trees that the check decides by one name or one run of padding: what a search for a NUL by
//! eight bytes, or a test of padding by a word, could get wrong.

use crate::rng::Rng;
use crate::tally::{differ, Tally};
use crate::trees::{another, check_lent, compare_trees, Blocks, Tree};

/// Bytes of names: beside zero, at the sign bit, and a letter.
const FILLS: [u8; 7] = [0x01, 0x7F, 0x80, 0x81, 0xFE, 0xFF, b'n'];
/// What is put where a zero stood.
const MARKS: [u8; 3] = [0x01, 0x80, 0xFF];

/// The node that has the name: the root, or a child behind the root's property, which the check goes
/// past by other code.
const NODES: [Named; 2] = [Named::Root, Named::Child];

#[derive(Clone, Copy)]
enum Named {
    Root,
    Child,
}

/// A root with a property, and perhaps a child; nothing is damaged unless its parts are.
struct Parts {
    no_ops: usize,
    node: Named,
    /// the node's name with its NUL
    name: Vec<u8>,
    strings: Vec<u8>,
    offset: u32,
    value: Vec<u8>,
}

/// The name of a root that has no other.
const ROOT: &[u8] = b"r\0";

impl Parts {
    fn sound() -> Parts {
        let (name, strings) = (ROOT.into(), b"x\0".into());
        Parts { no_ops: 0, node: Named::Root, name, strings, offset: 0, value: vec![] }
    }

    /// Where the name stands, with an empty value and no no-ops.
    fn name_at(node: Named) -> usize {
        match node {
            Named::Root => 4,
            Named::Child => 24,
        }
    }

    fn blocks(self) -> Blocks {
        let mut out = Blocks { strings: self.strings, ..Blocks::default() };
        (0..self.no_ops).for_each(|_| out.put_word(4));
        begin(&mut out, if let Named::Child = self.node { ROOT } else { &self.name });
        out.put_word(3);
        out.put_word(self.value.len() as u32);
        out.put_word(self.offset);
        out.structure.extend(&self.value);
        out.pad();
        if let Named::Child = self.node {
            begin(&mut out, &self.name);
            out.put_word(2);
        }
        out.put_word(2);
        out.put_word(9);
        out
    }
}

fn begin(out: &mut Blocks, name: &[u8]) {
    out.put_word(1);
    out.structure.extend(name);
    out.pad();
}

/// The name of so many bytes, with its NUL.
fn filled(fill: u8, length: usize) -> Vec<u8> {
    let mut name = vec![fill; length];
    name.push(0);
    name
}

/// A run of bytes lent from inside a larger one, whose other bytes are all the same.
fn surrounded(bytes: &[u8], before: usize, around: u8) -> Vec<u8> {
    let mut out = vec![around; before + bytes.len() + 16];
    out[before..before + bytes.len()].copy_from_slice(bytes);
    out
}

/// The check, with zeros around both blocks and with other bytes, at some place of eight.
pub fn check(tally: &mut Tally, blocks: &Blocks) -> bool {
    let before = (blocks.structure.len() / 4 + blocks.strings.len()) % 8;
    let [zeros, others] = [0, 0xFF].map(|around| {
        let structure = surrounded(&blocks.structure, before, around);
        let strings = surrounded(&blocks.strings, before, around);
        let structure = &structure[before..before + blocks.structure.len()];
        let strings = &strings[before..before + blocks.strings.len()];
        check_lent(tally, structure, strings)
    });
    if zeros != others {
        differ("check_tree", "the answers with zeros and other bytes around", &zeros, &others);
    }
    zeros
}

/// Node names of every length, behind no-ops so that they begin at every word of sixteen bytes.
fn node_names(tally: &mut Tally) {
    for node in NODES {
        for length in 0..=48 {
            for (fill, no_ops) in FILLS.iter().flat_map(|&fill| (0..4).map(move |n| (fill, n))) {
                let name = filled(fill, length);
                check(tally, &Parts { no_ops, node, name, ..Parts::sound() }.blocks());
            }
        }
    }
}

/// Property names of every length at every place of eight, that more bytes follow, that end the
/// strings block, or whose NUL is missing.
fn property_names(tally: &mut Tally) {
    for length in 0..=33 {
        for before in 0..=9 {
            for fill in FILLS {
                for ending in [&b"\0tail\0"[..], b"\0", b""] {
                    let mut strings = vec![b's'; before];
                    strings.resize(before + length, fill);
                    strings.extend(ending);
                    let offset = before as u32;
                    check(tally, &Parts { strings, offset, ..Parts::sound() }.blocks());
                }
            }
        }
    }
}

/// Two NULs and the bytes between them, in the strings block and behind a node's name.
fn two_nuls(tally: &mut Tally) {
    for before in 0..=9 {
        for first in 0..=12 {
            for between in 0..=9 {
                for fill in [0x01, 0x80, b'n'] {
                    let mut names = filled(fill, first);
                    names.resize(first + 1 + between, fill);
                    names.push(0);
                    let strings = [&vec![b's'; before][..], &names].concat();
                    for offset in [0, before as u32, (before + first + 1) as u32] {
                        let strings = strings.clone();
                        check(tally, &Parts { strings, offset, ..Parts::sound() }.blocks());
                    }
                    for node in NODES {
                        let (no_ops, name) = (before % 4, names.clone());
                        check(tally, &Parts { no_ops, node, name, ..Parts::sound() }.blocks());
                    }
                }
            }
        }
    }
}

/// Short strings blocks with one NUL or none, and offsets in them, at their end and far past it.
fn short_strings(tally: &mut Tally) {
    let far = [1 << 16, (1 << 31) - 1, 1 << 31].into_iter().chain(u32::MAX - 9..=u32::MAX);
    let offsets: Vec<u32> = (0..=22).chain(far).collect();
    for length in 0..=20 {
        for nul in 0..=length {
            let mut strings = vec![b's'; length];
            strings.iter_mut().skip(nul).take(1).for_each(|byte| *byte = 0);
            for &offset in &offsets {
                let strings = strings.clone();
                check(tally, &Parts { strings, offset, ..Parts::sound() }.blocks());
            }
        }
    }
}

/// Every padding of node names and values, sound and with each of its bytes marked.
fn paddings(tally: &mut Tally) {
    for node in NODES {
        for (length, fill) in (1..=47).flat_map(|length| [(length, b'n'), (length, 0xFF)]) {
            let blocks = Parts { node, name: filled(fill, length), ..Parts::sound() }.blocks();
            marked(tally, blocks, Parts::name_at(node) + length + 1);
        }
    }
    for length in 0..=24 {
        for fill in [0, 0x01, 0xA5, 0xFF] {
            let blocks = Parts { value: vec![fill; length], ..Parts::sound() }.blocks();
            marked(tally, blocks, 20 + length);
        }
    }
}

/// The blocks as they are, then with each byte from `at` on to the next word marked.
fn marked(tally: &mut Tally, mut blocks: Blocks, at: usize) {
    check(tally, &blocks);
    for byte in at..at.next_multiple_of(4) {
        for mark in MARKS {
            blocks.structure[byte] = mark;
            check(tally, &blocks);
        }
        blocks.structure[byte] = 0;
    }
}

/// The structure block whole, and cut after each byte of a node's name, its NUL and padding; only a
/// block cut after a word is read at all.
fn cuts(tally: &mut Tally) {
    for node in NODES {
        for length in 1..=47 {
            let name = filled(b'n', length);
            let mut blocks = Parts { node, name, ..Parts::sound() }.blocks();
            check(tally, &blocks);
            for kept in (0..(length + 1).next_multiple_of(4)).rev() {
                blocks.structure.truncate(Parts::name_at(node) + kept);
                check(tally, &blocks);
            }
        }
    }
}

/// Every edge once.
pub fn every(tally: &mut Tally) {
    node_names(tally);
    property_names(tally);
    two_nuls(tally);
    short_strings(tally);
    paddings(tally);
    cuts(tally);
}

fn name(rng: &mut Rng, limit: usize) -> Vec<u8> {
    let length = match rng.below(100) {
        0 => 0,
        1 => limit + 1,
        2..12 => limit,
        _ => rng.between(1, limit),
    };
    let fill = rng.pick(&FILLS);
    (0..length).map(|_| if rng.percent(80) { fill } else { rng.pick(&FILLS) }).collect()
}

fn node(rng: &mut Rng, named: Vec<u8>, depth: usize) -> Tree {
    let mut tree = Tree::named(named);
    for _ in 0..rng.below(4) {
        let value = vec![rng.pick(&FILLS); rng.below(10)];
        let named = another(|| name(rng, 31), |name| tree.has_property(name));
        tree.properties.push((named, value));
    }
    for _ in 0..if depth < 3 { rng.below(3) } else { 0 } {
        let named = another(|| name(rng, 47), |name| tree.has_child(name));
        tree.children.push(node(rng, named, depth + 1));
    }
    tree
}

/// A tree with names of every length, at times with one zero of either block marked, or with the
/// strings block cut.
pub fn any(rng: &mut Rng) -> Blocks {
    let root = name(rng, 47);
    let mut blocks = node(rng, root, 1).blocks(rng);
    let block = match rng.below(10) {
        0 => &mut blocks.strings,
        1..4 => &mut blocks.structure,
        4 => {
            blocks.strings.truncate(rng.below(blocks.strings.len() + 1));
            return blocks;
        }
        _ => return blocks,
    };
    let zeros: Vec<&mut u8> = block.iter_mut().filter(|byte| **byte == 0).collect();
    let which = rng.below(zeros.len());
    if let Some(zero) = zeros.into_iter().nth(which) {
        *zero = rng.pick(&MARKS);
    }
    blocks
}

/// Some trees of all sorts of names, checked, and compared with a copy.
pub fn some(rng: &mut Rng, tally: &mut Tally) {
    for _ in 0..100 {
        let blocks = any(rng);
        check(tally, &blocks);
        compare_trees(tally, blocks.lent(), blocks.clone().lent());
    }
}
