//! Trees that the check decides by the names of one list, a node's properties or its children: two
//! equal ones are refused, and ones that are nearly equal or stand in different lists pass.

use crate::name_edges::check;
use crate::rng::Rng;
use crate::tally::{differ, Edge, Tally};
use crate::trees::{compare_trees, Blocks, Tree};
use crate::walks::rebuilt;

/// The check's answer to a tree that is known, and the comparison's of the tree with a copy.
fn expect(tally: &mut Tally, edge: Edge, blocks: &Blocks, passes: bool) {
    let answer = check(tally, blocks);
    if answer != passes {
        differ(&format!("{edge:?}\n{:02x?}", blocks.lent()), "what the tree is", &passes, &answer);
    }
    let same = compare_trees(tally, blocks.lent(), blocks.clone().lent());
    if same != if passes { 1 } else { -33 } {
        differ(&format!("{edge:?}\n{:02x?}", blocks.lent()), "a tree and its copy", &passes, &same);
    }
    tally.edge(edge, passes);
}

/// A node with the lists that decide, and the nodes that it stands below.
#[derive(Clone, Default)]
struct Lists {
    above: usize,
    strings: Vec<u8>,
    offsets: Vec<u32>,
    children: Vec<Vec<u8>>,
}

fn begin(out: &mut Blocks, name: &[u8]) {
    out.put_word(1);
    out.structure.extend(name);
    out.structure.push(0);
    out.pad();
}

fn property(out: &mut Blocks, offset: u32, value: &[u8]) {
    out.put_word(3);
    out.put_word(value.len() as u32);
    out.put_word(offset);
    out.structure.extend(value);
    out.pad();
}

impl Lists {
    /// Two properties, each name at a place of its own.
    fn properties(names: [&[u8]; 2]) -> Lists {
        let strings = [names[0], b"\0", names[1], b"\0"].concat();
        Lists { strings, offsets: vec![0, names[0].len() as u32 + 1], ..Lists::default() }
    }

    fn children(names: [&[u8]; 2]) -> Lists {
        Lists { children: names.map(<[u8]>::to_vec).into(), ..Lists::default() }
    }

    fn blocks(&self) -> Blocks {
        let mut out = Blocks { strings: self.strings.clone(), ..Blocks::default() };
        (0..=self.above).for_each(|_| begin(&mut out, b"n"));
        self.offsets.iter().for_each(|&offset| property(&mut out, offset, b""));
        for name in &self.children {
            begin(&mut out, name);
            out.put_word(2);
        }
        (0..=self.above).for_each(|_| out.put_word(2));
        out.put_word(9);
        out
    }
}

/// Lists of so many names; as many as fit is the last.
const COUNTS: [usize; 11] = [1, 2, 3, 63, 64, 65, 66, 84, 85, 200, usize::MAX];

/// As many names as fit, at 12 bytes each.
fn count(wanted: usize, above: usize) -> usize {
    wanted.min((32_768 - 4 - 12 * (above + 1)) / 12)
}

/// Two places of a list: side by side and apart, the first, the last and those around 64.
fn places(count: usize) -> Vec<(usize, usize)> {
    let mut marks = vec![0, 1, count / 2, 62, 63, 64, 65, count.wrapping_sub(2), count - 1];
    marks.retain(|&mark| mark < count);
    marks.sort_unstable();
    marks.dedup();
    let pairs = marks.iter().flat_map(|&i| marks.iter().map(move |&j| (i, j)));
    pairs.filter(|(i, j)| i < j).collect()
}

/// Strings of 31 bytes that differ in the last one alone: each name is the end of one of them, and
/// of other names.
const RUNS: usize = 120;

fn many_properties(count: usize, above: usize) -> Lists {
    let run = |last: usize| [&[b'n'; 30][..], &[0x80 + last as u8, 0]].concat();
    let offset = |place: usize| (place % RUNS * 32 + place / RUNS) as u32;
    let strings = (0..RUNS).flat_map(run).collect();
    Lists { above, strings, offsets: (0..count).map(offset).collect(), children: vec![] }
}

/// A number in letters: a to z, then aa to zz, and so on.
fn letters(number: usize) -> Vec<u8> {
    let mut name = if number < 26 { vec![] } else { letters(number / 26 - 1) };
    name.push(b'a' + (number % 26) as u8);
    name
}

fn many_children(count: usize, above: usize) -> Lists {
    Lists { above, children: (0..count).map(letters).collect(), ..Lists::default() }
}

/// The ways of a property to the name of another: its offset, a second copy of it in the strings
/// block, the end of a longer string.
const WAYS: [(Edge, &[u8]); 3] =
    [(Edge::SameOffset, b""), (Edge::SecondCopy, b""), (Edge::EndOfLonger, b"long-")];

/// The name of one property becomes that of another.
fn twin_property(lists: &mut Lists, (one, other): (usize, usize), (way, before): (Edge, &[u8])) {
    let offset = lists.offsets[one];
    if let Edge::SameOffset = way {
        lists.offsets[other] = offset;
        return;
    }
    let rest = &lists.strings[offset as usize..];
    let name = rest[..=rest.iter().position(|&b| b == 0).unwrap()].to_vec();
    lists.strings.extend(before);
    lists.offsets[other] = lists.strings.len() as u32;
    lists.strings.extend(name);
}

/// Lists of different names, and with one pair of equal ones, at the root and at every depth; the
/// longest at the root alone.
fn long_lists(tally: &mut Tally) {
    for wanted in COUNTS {
        for above in 0..if wanted > 200 { 1 } else { 8 } {
            let lists = many_properties(count(wanted, above), above);
            list_of_properties(tally, &lists);
            if above < 7 {
                list_of_children(tally, &many_children(count(wanted, above), above));
            }
        }
    }
}

/// Two bytes of the name go by its number, from this place on.
fn alike_around(length: usize, place: usize, number: usize) -> Vec<u8> {
    let mut name = vec![b'n'; length];
    name[place] = b'a' + (number / 16) as u8;
    name[place + 1] = b'a' + (number % 16) as u8;
    name
}

/// Lists of long names that differ in two bytes between equal ones.
fn lists_alike_around(tally: &mut Tally) {
    for count in [2, 30, 63, 64, 65, 66, 96] {
        for place in [8, 10, 20, 22] {
            let string = |number| [alike_around(31, place, number), vec![0]].concat();
            let strings = (0..count).flat_map(string).collect();
            let offsets = (0..count).map(|number| 32 * number as u32).collect();
            list_of_properties(tally, &Lists { strings, offsets, ..Lists::default() });
        }
        for place in [8, 18, 28, 38] {
            let children = (0..count).map(|number| alike_around(47, place, number)).collect();
            list_of_children(tally, &Lists { children, ..Lists::default() });
        }
    }
}

fn list_of_properties(tally: &mut Tally, lists: &Lists) {
    let count = lists.offsets.len();
    for way in WAYS {
        expect(tally, way.0, &lists.blocks(), true);
        note(tally, [Edge::RootsProperties, Edge::DeepProperties], lists, count, None);
        for places in places(count) {
            let mut lists = lists.clone();
            twin_property(&mut lists, places, way);
            expect(tally, way.0, &lists.blocks(), false);
            note(tally, [Edge::RootsProperties, Edge::DeepProperties], &lists, count, Some(places));
        }
    }
}

fn list_of_children(tally: &mut Tally, lists: &Lists) {
    let count = lists.children.len();
    expect(tally, Edge::SameChild, &lists.blocks(), true);
    note(tally, [Edge::RootsChildren, Edge::DeepChildren], lists, count, None);
    for (one, other) in places(count) {
        let mut lists = lists.clone();
        lists.children[other] = lists.children[one].clone();
        expect(tally, Edge::SameChild, &lists.blocks(), false);
        note(tally, [Edge::RootsChildren, Edge::DeepChildren], &lists, count, Some((one, other)));
    }
}

/// Counts a list with a pair of equal names or none: where it stands, how long it is, and the pair
/// at its two ends.
fn note(
    tally: &mut Tally,
    [root, deep]: [Edge; 2],
    lists: &Lists,
    count: usize,
    twins: Option<(usize, usize)>,
) {
    tally.edge(if lists.above == 0 { root } else { deep }, twins.is_none());
    tally.edge(Edge::ListOf(count), twins.is_none());
    if twins.is_none_or(|twins| twins == (0, count - 1)) {
        tally.edge(Edge::FirstAndLast, twins.is_none());
    }
}

/// Two names of each length, equal and with one byte that differs, at every place.
fn one_byte(tally: &mut Tally) {
    for (fill, mark) in [(b'n', b'm'), (0x01, 0x81), (0x80, 0x01), (0xFF, 0xFE), (b'c', b'C')] {
        for length in 1..=47 {
            let name = vec![fill; length];
            two_names(tally, Edge::OneByte, [&name, &name], false);
            for at in 0..length {
                let mut other = name.clone();
                other[at] = mark;
                let edge = if at + 1 == length { Edge::LastByte } else { Edge::OneByte };
                two_names(tally, edge, [&name, &other], true);
                two_names(tally, edge, [&other, &other], false);
            }
        }
    }
}

/// Two names in one list, as children and, where they are short enough, as properties.
fn two_names(tally: &mut Tally, edge: Edge, names: [&[u8]; 2], passes: bool) {
    expect(tally, edge, &Lists::children(names).blocks(), passes);
    if names.iter().all(|name| name.len() <= 31) {
        expect(tally, edge, &Lists::properties(names).blocks(), passes);
    }
}

/// Of two names one begins like the other, or ends like it; ends share their bytes, too.
fn parts_of_names(tally: &mut Tally) {
    for length in 2..=47 {
        let whole: Vec<u8> = (0..length).map(|i| b'A' + i as u8).collect();
        let same = vec![b's'; length];
        for name in [&whole[..], &same] {
            for kept in 1..length {
                let (start, end) = (&name[..kept], &name[length - kept..]);
                two_names(tally, Edge::Beginning, [name, start], true);
                two_names(tally, Edge::Beginning, [start, name], true);
                two_names(tally, Edge::Ending, [name, end], true);
                two_names(tally, Edge::Ending, [end, name], true);
            }
        }
        if length <= 31 {
            shared_ends(tally, &whole);
            shared_ends(tally, &same);
        }
    }
}

/// All the ends of one string are names of one node.
fn shared_ends(tally: &mut Tally, name: &[u8]) {
    let strings = [name, b"\0"].concat();
    let offsets: Vec<u32> = (0..name.len() as u32).collect();
    let lists = Lists { strings, offsets, ..Lists::default() };
    expect(tally, Edge::Ending, &lists.blocks(), true);
}

/// Trees as text: a bracket opens a node with its name, or closes it, and = is a property.
const SHAPES: [(Edge, &str, bool); 30] = [
    (Edge::Unit, "(n(c)(c@1))", true),
    (Edge::Unit, "(n(c@1)(c))", true),
    (Edge::Unit, "(n(c@1)(c@2)(c)(c@))", true),
    (Edge::Unit, "(n(c@1)(c)(c@1))", false),
    (Edge::Unit, "(n=c=c@1(c)(c@1))", true),
    (Edge::OtherNode, "(n=x(c=x)(d=x))", true),
    (Edge::OtherNode, "(n=x=y(c=y=x)(d=x=y))", true),
    (Edge::OtherNode, "(n(n(n)))", true),
    (Edge::OtherNode, "(n(a(c))(b(c)))", true),
    (Edge::OtherNode, "(n(a(b))(b(a)))", true),
    (Edge::OtherNode, "(n(a(x)(y))(x)(y))", true),
    (Edge::OtherNode, "(n(a(b(c(d(e(f(g)))))))(b(c))(c))", true),
    (Edge::OtherNode, "(n=x(c=x)(d=x=x))", false),
    (Edge::OtherNode, "(n=x=y(c=y=x)(d=x=y=x))", false),
    (Edge::OtherNode, "(n(a(c))(b(c)(c)))", false),
    (Edge::OtherNode, "(n(a(b))(b(a))(a))", false),
    (Edge::OtherNode, "(n(a(x)(y))(x)(y)(x))", false),
    (Edge::OtherNode, "(n(a(b(c(d(e(f(g)(g)))))))(b(c))(c))", false),
    (Edge::OtherNode, "(n(a(b(c(d(e(f(g=x=x)))))))(b(c))(c))", false),
    (Edge::OtherNode, "(n(c(a)(b))(c))", false),
    (Edge::OtherNode, "(n(c=x)(d=x)(c=x))", false),
    (Edge::OtherNode, "(n=x(c=x)(d=x)(d))", false),
    (Edge::OtherNode, "(n=x(c=x(e=x))(d=x)(e=x))", true),
    (Edge::OtherNode, "(n(c(a)(b))(d)(c(a)(b)))", false),
    (Edge::ChildAndProperty, "(n=c(c))", true),
    (Edge::ChildAndProperty, "(n=n(n=n(n)))", true),
    (Edge::ChildAndProperty, "(n=c=d(d)(c))", true),
    (Edge::ChildAndProperty, "(n=c=c(c))", false),
    (Edge::ChildAndProperty, "(n=c(c)(c))", false),
    (Edge::ChildAndProperty, "(n=c(c=c=c))", false),
];

/// The blocks of a tree as text, perhaps with no-ops, and each name once or at each use.
fn written(text: &str, no_ops: usize, once: bool) -> Blocks {
    let mut out = Blocks::default();
    for at in (0..text.len()).filter(|&at| "(=)".contains(&text[at..=at])) {
        let name = text[at + 1..].split(['(', '=', ')']).next().unwrap().as_bytes();
        (0..no_ops).for_each(|_| out.put_word(4));
        match &text[at..=at] {
            "(" => begin(&mut out, name),
            ")" => out.put_word(2),
            _ => {
                let ended = [name, b"\0"].concat();
                let found = out.strings.windows(ended.len()).position(|w| w == ended);
                let offset = found.filter(|_| once).unwrap_or(out.strings.len());
                if offset == out.strings.len() {
                    out.strings.extend(ended);
                }
                property(&mut out, offset as u32, &b"value"[..at % 6]);
            }
        }
    }
    out.put_word(9);
    out
}

fn shapes(tally: &mut Tally) {
    for (edge, text, passes) in SHAPES {
        for (no_ops, once) in [(0, true), (0, false), (1, true), (3, false)] {
            expect(tally, edge, &written(text, no_ops, once), passes);
        }
    }
}

/// Every edge once.
pub fn every(tally: &mut Tally) {
    long_lists(tally);
    lists_alike_around(tally);
    one_byte(tally);
    parts_of_names(tally);
    shapes(tally);
}

/// A list of different names that begin alike, at times with one name twice.
fn names(rng: &mut Rng, alike: &[u8]) -> Vec<Vec<u8>> {
    let count = match rng.below(40) {
        0 => rng.between(60, 70),
        1..4 => rng.below(30),
        _ => rng.below(5),
    };
    let mut names: Vec<Vec<u8>> =
        (0..count).map(|number| [alike, &letters(number)].concat()).collect();
    for last in (1..count).rev() {
        names.swap(last, rng.below(last + 1));
    }
    if count > 1 && rng.percent(5) {
        names[rng.below(count)] = names[rng.below(count)].clone();
    }
    names
}

/// How the names of properties and of children begin.
struct Alike {
    properties: Vec<u8>,
    children: Vec<u8>,
}

fn node(rng: &mut Rng, alike: &Alike, name: Vec<u8>, depth: usize) -> Tree {
    let mut tree = Tree::named(name);
    for name in names(rng, &alike.properties) {
        tree.properties.push((name, vec![b'v'; rng.below(6)]));
    }
    let children = if depth < 4 { names(rng, &alike.children) } else { vec![] };
    tree.children = children.into_iter().map(|name| node(rng, alike, name, depth + 1)).collect();
    tree
}

/// Any tree of such lists.
fn tree(rng: &mut Rng) -> Tree {
    let depth = rng.pick(&[2, 3, 3, 4]);
    let alike = Alike {
        properties: vec![rng.pick(b"nm\x01\x80\xFF"); rng.below(30)],
        children: vec![rng.pick(b"nm\x01\x80\xFF"); rng.below(46)],
    };
    node(rng, &alike, b"n".to_vec(), depth)
}

pub fn any(rng: &mut Rng) -> Blocks {
    tree(rng).blocks(rng)
}

/// Some trees, against the names that they were made of. A walk refuses none of them.
pub fn some(rng: &mut Rng, tally: &mut Tally) {
    for _ in 0..40 {
        let tree = tree(rng);
        let blocks = tree.blocks(rng);
        if blocks.structure.len() > 32_768 || blocks.strings.len() > 4_096 {
            continue;
        }
        expect(tally, Edge::Any, &blocks, !tree.has_twins());
        let answer = if tree.has_twins() { rebuilt(rng, tally, &blocks) } else { 0 };
        if answer != 0 {
            differ("a whole walk of equal names", "the reader's last answer", &0, &answer);
        }
    }
}
