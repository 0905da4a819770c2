//! Names and values that are nearly the right ones, tables that are made by hand, and trees with every
//! word damaged.

use super::cases::{written, Writer, STRINGS, STYLES};
use super::{desk, expect, start, tree_text, Walks, NAME, OTHER, WALKER};
use crate::any_tables::{any_wanted, cell, made};
use crate::both::{walk_record, Area, Both, Record};
use crate::full::{COUNTS, PLACES};
use crate::library::Words;
use crate::rng::Rng;
use crate::tally::{differ, Tally};
use crate::trees::Blocks;
use drc::CONNECTORS;

// ---- Names and values that are nearly the right ones.

/// Where the property stands in such a tree.
const PROPERTY: u32 = 16;

/// A tree whose one child has a property of this name and value.
fn child(strings: &[u8], offset: u32, value: &[u8]) -> Blocks {
    let mut writer = Writer::new(strings, STYLES[0]);
    writer.begin(b"r");
    writer.begin(b"a");
    writer.property(offset, value);
    (0..2).for_each(|_| writer.word(2));
    writer.word(9);
    writer.out
}

fn replies(left_out: bool) -> &'static str {
    if left_out {
        "20"
    } else {
        "22340"
    }
}

/// A name at every place of eight, with bytes before it, and behind it others or the block's end.
fn name(rng: &mut Rng, tally: &mut Tally, name: &[u8]) {
    for before in [0, 1, 2, 3, 4, 5, 6, 7, 8, 15, 16, 17, 4_000] {
        for behind in [&b"\0"[..], b"\0reg\0"] {
            let strings = [&vec![b'z'; before], name, behind].concat();
            let tree = child(&strings, before as u32, &OTHER.to_be_bytes());
            let both = desk(rng, tally);
            expect(tally, Walks::new(rng, both), (&tree, 0), replies(name == NAME));
        }
    }
}

fn names(rng: &mut Rng, tally: &mut Tally) {
    name(rng, tally, NAME);
    for length in 1..NAME.len() {
        name(rng, tally, &NAME[..length]);
        name(rng, tally, &NAME[length..]);
    }
    for longer in [&b"x"[..], b"-", b"es", b",,,,,,,,", b"ibm,my-drc-inde"] {
        name(rng, tally, &[longer, NAME].concat());
        name(rng, tally, &[NAME, longer].concat());
    }
    for at in 0..NAME.len() {
        for bits in [1, 0x20, 0x80, NAME[at] ^ b'x'] {
            let mut other = NAME.to_vec();
            other[at] ^= bits;
            if other[at] != 0 {
                name(rng, tally, &other);
            }
        }
    }
    // the NUL is missing
    let (both, tree) = (desk(rng, tally), child(NAME, 0, &OTHER.to_be_bytes()));
    expect(tally, Walks::new(rng, both), (&tree, PROPERTY), "2xx");
}

/// Indexes that differ in one bit, or in the order of their bytes.
fn values(rng: &mut Rng, tally: &mut Tally) {
    let mut indexes: Vec<u32> = (0..32).map(|bit| OTHER ^ 1 << bit).collect();
    indexes.extend([OTHER, OTHER.swap_bytes(), OTHER.rotate_left(16), 0, u32::MAX]);
    for index in indexes {
        let both = desk(rng, tally);
        let tree = child(STRINGS, 0, &index.to_be_bytes());
        expect(tally, Walks::new(rng, both), (&tree, 0), replies(index == OTHER));
    }
}

// ---- Tables that are made by hand.

/// A row with an index and a state.
fn row(index: u32, state: u32) -> Record {
    [index, 8, 2, 0, state, 0, 0, 0, 0, 0]
}

/// Whether the node of an index is left out, beside a table of these words.
fn beside(rng: &mut Rng, tally: &mut Tally, words: Box<Words>, index: u32, left_out: bool) {
    let tree = child(STRINGS, 0, &index.to_be_bytes());
    expect(tally, Walks::new(rng, Both::any_words(words)), (&tree, 0), replies(left_out));
}

/// The same for a lone record, which the table need not know.
fn beside_lone(rng: &mut Rng, tally: &mut Tally, words: &Words, index: u32, left_out: bool) {
    let tree = child(STRINGS, 0, &index.to_be_bytes());
    let table = Both::any_words(Box::new(*words));
    let (mut record, mut area) = (start(WALKER), Area::new(rng));
    for sign in replies(left_out).bytes() {
        let lent = (&mut area, 4_096);
        let status = walk_record(tally, &mut record, lent, tree.lent(), &table).status;
        if status != i32::from(sign - b'0') {
            differ(&tree_text(&tree), "the reply beside a table", &char::from(sign), &status);
        }
    }
}

/// A state that is none reads as Unusable.
fn states(rng: &mut Rng, tally: &mut Tally) {
    let low_bits = [4, 5, 0x80, 0xFF, 0x100, 0x101, 0x102, 0x103, 0x1_0001, 0x1_0002, 1 << 16];
    let high_bits = [1 << 31, 1 << 31 | 1, 1 << 31 | 2, 1 << 31 | 3, !1, !0];
    for state in (0..4).chain(low_bits).chain(high_bits) {
        for index in [OTHER, 0, 1, u32::MAX >> 1, 1 << 31, u32::MAX] {
            let words = made(2, &[(0, start(WALKER)), (1, row(index, state))]);
            beside(rng, tally, words, index, !(1..4).contains(&state));
        }
        let others = [(1, 0), (2, 1), (2, 0), (3, WALKER), (5, 1), (6, 4), (8, 2), (9, 1)];
        for (column, word) in others {
            let mut words = made(2, &[(0, row(OTHER, state)), (1, start(WALKER))]);
            words[cell(column, 0)] = word;
            beside(rng, tally, words, OTHER, !(1..4).contains(&state));
        }
    }
}

/// Rows at the end of the used ones, before it and behind it; a count over the limit reads as it.
fn counts(rng: &mut Rng, tally: &mut Tally) {
    for at in PLACES {
        let walker = if at == 0 { 1 } else { 0 };
        let last = [at as u32, at as u32 + 1, at as u32 + 2];
        for count in last.into_iter().chain(COUNTS) {
            let words = made(count, &[(walker, start(WALKER)), (at, row(OTHER, 0))]);
            let used = at < (count as usize).min(CONNECTORS);
            beside_lone(rng, tally, &words, OTHER, used);
            if walker < count as usize {
                beside(rng, tally, words, OTHER, used);
            }
        }
    }
}

/// Of two rows with one index the first counts, and the walker's own comes before a second one.
fn twins(rng: &mut Rng, tally: &mut Tally) {
    for (one, two) in (0..5).flat_map(|one| (0..5).map(move |two| (one, two))) {
        for (first, second) in [(1, 2), (1, 1_023), (62, 63), (63, 64), (5, 40), (1_007, 1_008)] {
            let rows = [(0, start(WALKER)), (first, row(OTHER, one)), (second, row(OTHER, two))];
            beside(rng, tally, made(1_024, &rows), OTHER, !(1..4).contains(&one));
            let unused = made(first as u32, &rows);
            beside(rng, tally, unused, OTHER, false);
        }
        let rows = [(0, start(WALKER)), (1, row(WALKER, one)), (2, row(WALKER, two))];
        beside(rng, tally, made(3, &rows), WALKER, false);
        let words = made(2, &[(0, row(WALKER, one)), (1, row(WALKER, two))]);
        beside_lone(rng, tally, &words, WALKER, !(1..4).contains(&one));
    }
    beside_lone(rng, tally, &made(0, &[]), OTHER, false);
    beside_lone(rng, tally, &made(1, &[]), 0, true);
}

// ---- Every word damaged, every place and depth.

/// Trees that have most of what the cases have.
const DAMAGED: [&str; 4] = [
    "(r(au(bo)x)(co(du)x)).",
    "(r-x(ax3u-(b(c))(d))-(e5o(fu-)(gx)))",
    "(r(a(b(c(d(eu(f(g)))(hu))))))",
    "(rx(au)(bu(c))x(d)(e-x-u-)-)",
];

/// Trees in which a walk stops behind nodes that are left out.
const STOPPING: [&str; 4] =
    ["(r(au)(bu)?", "(r(a(bu)(cu)(dx?", "(rx(au(b)x)(cu)L)", "(r(a(bu).))(cu)."];

fn small(text: &str) -> Blocks {
    written(text, STYLES[0])
}

/// The walk of a tree with each word changed, and with the block cut at each word.
fn words(rng: &mut Rng, tally: &mut Tally) {
    for text in DAMAGED {
        let tree = small(text);
        for at in (0..tree.structure.len()).step_by(4) {
            for word in [0, 1, 2, 3, 4, 5, 9, 16, 17, 260, 65_540, OTHER, 1 << 31 | 4, u32::MAX] {
                let mut damaged = tree.clone();
                damaged.structure[at..at + 4].copy_from_slice(&word.to_be_bytes());
                walk_to_end(rng, tally, &damaged);
            }
            let mut cut = tree.clone();
            cut.structure.truncate(at);
            walk_to_end(rng, tally, &cut);
        }
    }
}

fn walk_to_end(rng: &mut Rng, tally: &mut Tally, tree: &Blocks) {
    let both = desk(rng, tally);
    Walks::new(rng, both).finish(tally, tree);
}

/// A page and how much is lent: not asked for, asked for, taken.
const PAGES: [(u32, usize); 4] = [(0, 4_096), (1, 4_096), (1, 8_192), (2, 8_192)];

/// One step of a lone record from each place, with each depth.
fn places(rng: &mut Rng, tally: &mut Tally) {
    let (table, mut area) = (desk(rng, tally), Area::new(rng));
    let trees = [DAMAGED, STOPPING].concat().into_iter().map(small).collect::<Vec<_>>();
    for (tree, (page, length)) in trees.iter().flat_map(|tree| PAGES.map(|page| (tree, page))) {
        for place in (0..tree.structure.len() as u32 + 8).step_by(4) {
            for depth in (0..10).chain([1 << 31, u32::MAX]) {
                let mut record = start(WALKER);
                (record[6], record[7], record[8]) = (place, depth, page);
                record[9] = any_wanted(rng);
                walk_record(tally, &mut record, (&mut area, length), tree.lent(), &table);
            }
        }
    }
}

/// Every edge once.
pub fn every(rng: &mut Rng, tally: &mut Tally) {
    names(rng, tally);
    values(rng, tally);
    states(rng, tally);
    counts(rng, tally);
    twins(rng, tally);
    words(rng, tally);
    places(rng, tally);
}
