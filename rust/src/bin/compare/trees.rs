//! Random trees, the blocks that mean them, and damaged blocks.

use crate::library;
use crate::rng::Rng;
use crate::tally::{differ, Call, Tally};

#[derive(Clone, PartialEq)]
pub struct Tree {
    pub name: Vec<u8>,
    pub properties: Vec<(Vec<u8>, Vec<u8>)>,
    pub children: Vec<Tree>,
    /// the last property stands behind the children, which the check refuses
    late: bool,
}

#[derive(Clone, PartialEq, Default)]
pub struct Blocks {
    pub structure: Vec<u8>,
    pub strings: Vec<u8>,
}

impl Blocks {
    pub fn lent(&self) -> (&[u8], &[u8]) {
        (&self.structure, &self.strings)
    }

    pub fn put_word(&mut self, word: u32) {
        self.structure.extend(word.to_be_bytes());
    }

    pub fn pad(&mut self) {
        self.structure.resize(self.structure.len().next_multiple_of(4), 0);
    }
}

/// How a tree is made.
struct Shape {
    /// bytes of structure left
    budget: usize,
    /// names and nesting may pass their limits, and properties may be late
    loose: bool,
    /// the longest values
    values: usize,
    /// names of one list may be equal
    twins: bool,
}

fn name(rng: &mut Rng, limit: usize, loose: bool) -> Vec<u8> {
    let length = match rng.below(100) {
        0..3 => limit,
        3..5 => limit - 1,
        5 if loose => limit + 1,
        6 if loose => 0,
        _ => rng.between(1, 9),
    };
    (0..length).map(|_| rng.pick(b"abr,-#@")).collect()
}

/// A name that is not taken.
pub fn another(name: impl FnMut() -> Vec<u8>, taken: impl Fn(&[u8]) -> bool) -> Vec<u8> {
    std::iter::repeat_with(name).find(|name| !taken(name)).unwrap()
}

/// Few different names, so that they repeat, and some that end like others.
fn property_name(rng: &mut Rng, loose: bool) -> Vec<u8> {
    const NAMES: [&[u8]; 6] =
        [b"reg", b"ibm,my-drc-index", b"drc-index", b"index", b"x", b"status"];
    if rng.percent(60) {
        return rng.pick(&NAMES).to_vec();
    }
    name(rng, 31, loose)
}

fn value(rng: &mut Rng, longest: usize) -> Vec<u8> {
    let length = match rng.below(100) {
        0..4 => rng.between(4040, 4080),
        4..6 => rng.between(8130, 8172),
        6..10 => rng.below(8172),
        _ => rng.below(25),
    };
    let mut value = vec![0; length.min(longest)];
    if rng.percent(20) {
        // tokens, for a walk whose place is not where one begins
        let (first, token) = (rng.below(4), rng.pick(&[1, 2, 3, 4, 9]));
        value.iter_mut().skip(first).step_by(4).for_each(|byte| *byte = token);
    } else {
        rng.fill(&mut value);
    }
    value
}

fn add_properties(rng: &mut Rng, shape: &mut Shape, tree: &mut Tree) {
    let count = if rng.percent(70) { rng.below(5) } else { rng.below(40) };
    for _ in 0..count {
        let value = value(rng, shape.values.min(shape.budget));
        let cost = 16 + value.len();
        if cost > shape.budget {
            break;
        }
        shape.budget -= cost;
        let taken = |name: &[u8]| !shape.twins && tree.has_property(name);
        let name = another(|| property_name(rng, shape.loose), taken);
        tree.properties.push((name, value));
    }
}

fn node(rng: &mut Rng, shape: &mut Shape, named: Vec<u8>, depth: usize) -> Tree {
    let late = shape.loose && rng.percent(10);
    let mut tree = Tree { late, ..Tree::named(named) };
    shape.budget = shape.budget.saturating_sub(60);
    add_properties(rng, shape, &mut tree);
    let deepest = if shape.loose { 9 } else { 8 };
    let children = if depth < deepest { rng.below(4) } else { 0 };
    for _ in 0..children {
        if shape.budget < 100 {
            break;
        }
        let taken = |name: &[u8]| !shape.twins && tree.has_child(name);
        let named = another(|| name(rng, 47, shape.loose), taken);
        tree.children.push(node(rng, shape, named, depth + 1));
    }
    tree
}

impl Tree {
    /// A node with this name and nothing in it.
    pub fn named(name: Vec<u8>) -> Tree {
        Tree { name, properties: vec![], children: vec![], late: false }
    }

    /// A tree; a loose one may pass the limits of names and nesting, or have late properties.
    pub fn random(rng: &mut Rng, loose: bool) -> Tree {
        let (budget, values) = match rng.below(100) {
            0..55 => (rng.between(0, 500), 30),
            55..75 => (rng.between(500, 3000), 60),
            75..90 => (20_000, 8172),
            _ => (rng.between(20_000, 31_000), 8172),
        };
        let twins = rng.percent(10);
        let root = name(rng, 47, loose);
        node(rng, &mut Shape { budget, loose, values, twins }, root, 1)
    }

    /// A chain of nodes, as deep as `depth`.
    pub fn chain(rng: &mut Rng, depth: usize) -> Tree {
        let mut tree = Tree::named(name(rng, 47, false));
        for _ in 1..depth {
            let child = std::mem::replace(&mut tree, Tree::named(name(rng, 47, false)));
            tree.children.push(child);
        }
        tree
    }

    pub fn has_property(&self, name: &[u8]) -> bool {
        self.properties.iter().any(|property| property.0 == name)
    }

    pub fn has_child(&self, name: &[u8]) -> bool {
        self.children.iter().any(|child| child.name == name)
    }

    /// Whether some node has two properties, or two children, of one name.
    pub fn has_twins(&self) -> bool {
        let pairs = |count: usize| (0..count).flat_map(|j| (0..j).map(move |i| (i, j)));
        let properties = &self.properties;
        pairs(properties.len()).any(|(i, j)| properties[i].0 == properties[j].0)
            || pairs(self.children.len())
                .any(|(i, j)| self.children[i].name == self.children[j].name)
            || self.children.iter().any(Tree::has_twins)
    }

    /// The same tree with one thing changed.
    pub fn altered(&self, rng: &mut Rng) -> Tree {
        let mut tree = self.clone();
        let mut at = &mut tree;
        while !at.children.is_empty() && rng.percent(70) {
            let child = rng.below(at.children.len());
            at = &mut at.children[child];
        }
        let which = rng.below(at.properties.len());
        match rng.below(7) {
            0 if !at.properties.is_empty() => at.properties[which].1.push(0),
            1 if !at.properties.is_empty() => at.properties[which].0 = property_name(rng, false),
            2 if at.properties.len() > 1 => at.properties.swap(0, which),
            3 if at.children.len() > 1 => at.children.swap(0, 1),
            4 if !at.children.is_empty() => drop(at.children.pop()),
            5 if !at.properties.is_empty() => drop(at.properties.pop()),
            _ => at.name = name(rng, 47, false),
        }
        tree
    }

    /// Blocks that mean the tree, with no-ops and an arrangement of the strings by chance.
    pub fn blocks(&self, rng: &mut Rng) -> Blocks {
        let mut out = Blocks::default();
        let no_ops = rng.pick(&[0, 0, 5, 30]);
        let share = rng.pick(&[100, 100, 80]);
        if rng.percent(30) {
            out.strings.extend([b'z'; 3]);
        }
        self.put(rng, &mut out, no_ops, share);
        put_no_ops(rng, &mut out, no_ops);
        out.put_word(9);
        if rng.percent(30) {
            out.strings.extend([b'z'; 5]);
        }
        out
    }

    fn put(&self, rng: &mut Rng, out: &mut Blocks, no_ops: usize, share: usize) {
        put_no_ops(rng, out, no_ops);
        out.put_word(1);
        out.structure.extend(&self.name);
        out.structure.push(0);
        out.pad();
        let early = self.properties.len().saturating_sub(self.late.into());
        for property in &self.properties[..early] {
            put_property(rng, out, no_ops, share, property);
        }
        for child in &self.children {
            child.put(rng, out, no_ops, share);
        }
        for property in &self.properties[early..] {
            put_property(rng, out, no_ops, share, property);
        }
        put_no_ops(rng, out, no_ops);
        out.put_word(2);
    }
}

fn put_property(
    rng: &mut Rng,
    out: &mut Blocks,
    no_ops: usize,
    share: usize,
    (name, value): &(Vec<u8>, Vec<u8>),
) {
    put_no_ops(rng, out, no_ops);
    out.put_word(3);
    out.put_word(value.len() as u32);
    let at = name_offset(rng, &mut out.strings, name, share);
    out.put_word(at);
    out.structure.extend(value);
    out.pad();
}

fn put_no_ops(rng: &mut Rng, out: &mut Blocks, no_ops: usize) {
    while rng.percent(no_ops) {
        out.put_word(4);
    }
}

/// The offset of a name: where it stands already, also as the end of a longer one, or a new place.
fn name_offset(rng: &mut Rng, strings: &mut Vec<u8>, name: &[u8], share: usize) -> u32 {
    let mut ended = name.to_vec();
    ended.push(0);
    if rng.percent(share) {
        if let Some(at) = strings.windows(ended.len()).position(|w| w == ended) {
            return at as u32;
        }
    }
    strings.extend(&ended);
    (strings.len() - ended.len()) as u32
}

/// Changes some bytes, words or lengths.
pub fn damage(rng: &mut Rng, blocks: &mut Blocks) {
    let structure = &mut blocks.structure;
    let word_at = 4 * rng.below(structure.len() / 4);
    let byte_at = rng.below(structure.len());
    match rng.below(12) {
        0 if byte_at < structure.len() => structure[byte_at] = rng.pick(&[0, 1, b'a', 255]),
        1 => structure.truncate(word_at),
        2 => structure.truncate(byte_at),
        3 => structure.extend([0, 0, 0, rng.pick(&[1u8, 2, 3, 4, 9])]),
        4 => structure.extend(vec![rng.pick(&[0u8, 1]); rng.below(5)]),
        5 => blocks.strings.truncate(rng.below(blocks.strings.len() + 1)),
        6 => drop(blocks.strings.pop()),
        7 => {
            let at = rng.below(blocks.strings.len());
            if let Some(byte) = blocks.strings.get_mut(at) {
                *byte = rng.pick(&[0, b'q']);
            }
        }
        _ if word_at + 4 <= structure.len() => {
            let word = match rng.below(4) {
                0 => rng.below(48) as u32,
                1 => rng.pick(&[8_171, 8_172, 32_768, u32::MAX, 1 << 31]),
                _ => rng.pick(&[1, 2, 3, 4, 9, 0, 5]),
            };
            structure[word_at..word_at + 4].copy_from_slice(&word.to_be_bytes());
        }
        _ => {}
    }
}

/// No-ops before the end up to a length, and bytes behind the strings.
pub fn stretch(rng: &mut Rng, blocks: &mut Blocks) {
    let length = rng.pick(&[32_764, 32_768, 32_768, 32_772]);
    if rng.percent(50) && blocks.structure.len() < length {
        blocks.structure.truncate(blocks.structure.len() - 4);
        while blocks.structure.len() < length - 4 {
            blocks.put_word(4);
        }
        blocks.put_word(9);
    } else if blocks.strings.len() < 4_095 {
        blocks.strings.resize(rng.pick(&[4_095, 4_096, 4_096, 4_097]), b's');
    }
}

/// A property at the limits: its name ends the strings block, its value has a given length.
pub fn at_limits(rng: &mut Rng) -> Blocks {
    let mut out = Blocks::default();
    let name = vec![b'n'; rng.pick(&[0, 1, 3, 30, 31, 32])];
    let node_name = vec![b'm'; rng.pick(&[0, 1, 46, 47, 48])];
    let longest = 8_192 - 20 - (name.len() + 1);
    let one_page = 4_096 - 20 - (name.len() + 1);
    let length = rng.pick(&[
        0,
        1,
        4,
        one_page - 1,
        one_page,
        one_page + 1,
        longest - 1,
        longest,
        longest + 1,
    ]);
    out.strings = vec![b's'; rng.below(4) * 1_000];
    out.put_word(1);
    out.structure.extend(&node_name);
    out.structure.push(0);
    out.pad();
    out.put_word(3);
    out.put_word(length as u32);
    out.put_word(out.strings.len() as u32);
    out.structure.extend(vec![7; length]);
    out.pad();
    out.strings.extend(&name);
    if rng.percent(90) {
        out.strings.push(0);
    }
    out.put_word(2);
    out.put_word(9);
    out
}

/// Any tokens in any order.
pub fn soup(rng: &mut Rng) -> Blocks {
    let mut out = Blocks { strings: b"reg\0x\0".to_vec(), ..Blocks::default() };
    for _ in 0..rng.below(30) {
        match rng.below(8) {
            0..3 => {
                out.put_word(1);
                out.structure.extend([rng.pick(b"nopqrstu"), 0, 0, 0]);
            }
            3..5 => out.put_word(2),
            5 => {
                out.put_word(3);
                out.put_word(4);
                out.put_word(rng.pick(&[0, 0, 4, 1, 5, 6]));
                out.put_word(rng.word());
            }
            6 => out.put_word(rng.pick(&[4, 4, 4, 0, 5, 8])),
            _ => out.put_word(9),
        }
    }
    out
}

/// The check, which the Rust version has in three ways.
pub fn check_lent(tally: &mut Tally, structure: &[u8], strings: &[u8]) -> bool {
    let rust = drc::check(structure, strings);
    let one_pass = [drc::check_in_one_pass, drc::check_by_eights].map(|f| f(structure, strings));
    let library = library::check_tree((structure, strings));
    let call = || format!("check_tree\n{structure:02x?}\n{strings:02x?}");
    if one_pass.map(u32::from) != [library; 2] {
        differ(&call(), "the answers in one pass", &one_pass, &library);
    }
    tally.answer(Call::CheckTree, call, rust.into(), library.into());
    rust
}

pub fn check_tree(tally: &mut Tally, blocks: &Blocks) -> bool {
    check_lent(tally, &blocks.structure, &blocks.strings)
}

pub fn compare_trees(tally: &mut Tally, a: (&[u8], &[u8]), b: (&[u8], &[u8])) -> i32 {
    let answer = drc::compare(a, b);
    let library = library::compare_trees(a, b);
    let call = || format!("compare_trees\n{a:02x?}\n{b:02x?}");
    tally.answer(Call::CompareTrees, call, answer.into(), library.into());
    answer
}
