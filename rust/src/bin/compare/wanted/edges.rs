//! Tables that are made by hand: each call on a connector whose words are at the edges of each width.

use super::WANTED;
use crate::any_tables::{cell, line_cells, made, row_cells};
use crate::both::{Area, Both, Record};
use crate::full::{COUNTS, PLACES};
use crate::library::Words;
use crate::rng::Rng;
use crate::tally::{differ, Tally};
use crate::unowned::{written, STYLES};
use drc::{CONNECTORS, RESOURCES};

const INDEX: u32 = 0x8000_0001;
const OTHER: u32 = 0x8000_0002;

/// Its row, and the columns that matter here.
const ROW: usize = 1;
const STATE: usize = 4;
const RESOURCE: usize = 5;
const PAGE: usize = 8;

/// A resource that is in the pool.
const FREE: u32 = 63;

/// Numbers at the edges of each width: a bit alone, all below it, it and the lowest, all others.
fn wide() -> Vec<u32> {
    let edges = |bit: u32| [1 << bit, (1 << bit) - 1, 1 << bit | 1, !(1 << bit)];
    let mut numbers: Vec<u32> = (0..32).flat_map(edges).chain([u32::MAX]).collect();
    numbers.sort_unstable();
    numbers.dedup();
    numbers
}

// ---- Each call.

#[derive(Clone, Copy, Debug)]
enum Act {
    WantBack,
    Retract,
    Place,
    Isolate,
    Unisolate,
    Usable,
    Unusable,
    Sense,
}

const ACTS: [Act; 8] = [
    Act::WantBack,
    Act::Retract,
    Act::Place,
    Act::Isolate,
    Act::Unisolate,
    Act::Usable,
    Act::Unusable,
    Act::Sense,
];

impl Act {
    fn make(self, tally: &mut Tally, both: &mut Both) -> i32 {
        match self {
            Act::WantBack => both.want_back(tally, INDEX),
            Act::Retract => both.retract(tally, INDEX),
            Act::Place => both.place(tally, FREE, INDEX),
            Act::Isolate => both.set_indicator(tally, (1, 9001, INDEX, 0)),
            Act::Unisolate => both.set_indicator(tally, (1, 9001, INDEX, 1)),
            Act::Usable => both.set_indicator(tally, (1, 9003, INDEX, 1)),
            Act::Unusable => both.set_indicator(tally, (1, 9003, INDEX, 0)),
            Act::Sense => both.get_sensor(tally, 1, 9003, INDEX).0,
        }
    }

    /// What the documents say: the answer, and whether the connector is wanted back afterwards.
    fn right(self, record: &Record) -> (i32, bool) {
        let (state, empty) = (record[STATE], record[RESOURCE] == 0);
        let (unusable, wanted) = (!(1..4).contains(&state), record[WANTED] == 1);
        match self {
            Act::WantBack if empty => (-21, wanted),
            Act::WantBack => (0, true),
            Act::Retract if empty => (-21, wanted),
            Act::Retract if !unusable => (-22, wanted),
            Act::Retract => (0, false),
            Act::Place => (if empty { 0 } else { -20 }, wanted),
            Act::Unisolate if unusable => (-3, wanted),
            Act::Usable if unusable && (empty || wanted) => (-3, wanted),
            Act::Unusable if state == 1 => (0, false),
            Act::Unusable if !unusable => (-3, wanted),
            Act::Isolate | Act::Unisolate | Act::Usable | Act::Unusable | Act::Sense => (0, wanted),
        }
    }
}

/// A table with another connector, and so many resources, all of them in the pool.
fn table(resources: u32) -> Both {
    let mut words = made(2, &[(0, held(OTHER, 0))]);
    words[1] = resources;
    (0..RESOURCES).for_each(|line| words[line_cells(line)[0]] = 8);
    Both::any_words(words)
}

/// Every call on a connector with these words, where the resource that it holds stands there, at
/// another connector, or in the pool. The table's resources are in the pool before and afterwards.
fn calls(tally: &mut Tally, both: &mut Both, record: Record) {
    let place = |number: u32| line_cells(number as usize - 1)[1];
    let resources = both.table.ledger().len() as u32;
    let line = (1..=resources).contains(&record[RESOURCE]).then(|| place(record[RESOURCE]));
    let standing = if line.is_some() { &[INDEX, OTHER, 0][..] } else { &[0] };
    for (at, act) in standing.iter().flat_map(|at| ACTS.map(|act| (*at, act))) {
        let lines = line.map(|line| (line, at)).into_iter().chain([(place(FREE), 0)]);
        both.put(row_cells(ROW, record).chain(lines));
        let answer = act.make(tally, both);
        let is = (answer, both.table.connectors()[ROW].wanted);
        if is != act.right(&record) {
            let call = format!("{act:?} at {record:x?}");
            differ(&call, "the answer and what is wanted back then", &act.right(&record), &is);
        }
    }
    both.put(line.map(|line| (line, 0)));
}

/// Words for these columns.
const FEW: [(usize, &[u32]); 4] = [
    (STATE, &[0, 1, 2, 3, 4]),
    (RESOURCE, &[0, 1, 64, 65]),
    (PAGE, &[0, 3]),
    (WANTED, &[0, 1, 2, u32::MAX]),
];

/// Resources at the end of a full ledger, before it and behind it.
const LAST: [u32; 6] = [64, 65, 1_022, 1_023, 1_024, 1_025];

/// Every call where one of the columns has any of these words, and each other one a few.
fn columns(tally: &mut Tally, both: &mut Both, column: usize, numbers: &[u32]) {
    let mut records = vec![[INDEX, 8, 1, 0, 0, 0, 36, 1, 0, 0]];
    for (other, few) in FEW {
        let words = if other == column { numbers } else { few };
        let with = |word: &u32, mut record: Record| {
            record[other] = *word;
            record
        };
        let more = |record| words.iter().map(move |word| with(word, record));
        records = records.into_iter().flat_map(more).collect();
    }
    records.retain(|record| record[RESOURCE] != FREE);
    records.into_iter().for_each(|record| calls(tally, both, record));
}

// ---- Rows.

/// A request at a table of these words.
fn want_back(tally: &mut Tally, words: &Words, index: u32, right: i32) {
    let answer = Both::any_words(Box::new(*words)).want_back(tally, index);
    if answer != right {
        differ(&format!("want_back {index:x}"), "the answer", &right, &answer);
    }
}

/// A connector that holds a resource, or none.
fn held(index: u32, resource: u32) -> Record {
    [index, 8, 1, 0, 0, resource, 0, 0, 0, 0]
}

/// Every row, at the end of the used ones, before it and behind it; a count over the limit reads as
/// the limit.
fn counts(tally: &mut Tally) {
    let near = (0..CONNECTORS).flat_map(|at| [0, 1, 2].map(|more| (at, at as u32 + more)));
    let places = PLACES.iter().flat_map(|&at| COUNTS.map(|count| (at, count)));
    for (at, count) in near.chain(places) {
        let words = made(count, &[(at, held(INDEX, 1))]);
        let used = at < (count as usize).min(CONNECTORS);
        want_back(tally, &words, INDEX, if used { 0 } else { -16 });
    }
}

/// Any index is looked for as it is, and of two rows with one index the first counts.
fn indexes(tally: &mut Tally) {
    for index in wide() {
        let words = made(2, &[(0, held(!index, 1)), (1, held(index, 1))]);
        for other in (0..32).map(|bit| index ^ 1 << bit).chain([index, index.swap_bytes()]) {
            let there = other == index || other == !index;
            want_back(tally, &words, other, if there { 0 } else { -16 });
        }
    }
    for (one, two) in [(0, 0), (0, 1), (1, 0), (1, 1)] {
        let words = made(u32::MAX, &[(5, held(INDEX, one)), (6, held(INDEX, two))]);
        want_back(tally, &words, INDEX, if one == 0 { -21 } else { 0 });
    }
}

/// A new connector is not wanted back, whatever stood in its row.
fn new_rows(tally: &mut Tally) {
    let rows = PLACES.iter().flat_map(|&row| wide().into_iter().map(move |word| (row, word)));
    for (row, word) in rows {
        let mut words = made(row as u32, &[]);
        words[cell(WANTED, 0)..].fill(word);
        let mut both = Both::any_words(words);
        let status = both.add_connector(tally, (8, INDEX, 1, 0));
        if status != 0 || both.words()[cell(WANTED, row)] != 0 {
            differ(&format!("add_connector beside {word:x}"), "a new row", &0, &status);
        }
    }
}

// ---- Walks.

/// The replies of a walk that asks for a second page, and how much is lent.
const REPLIES: [(i32, usize); 7] =
    [(2, 4_096), (2, 4_096), (3, 4_096), (4, 4_096), (5, 4_096), (3, 8_192), (0, 8_192)];

/// Such a walk leaves the word as it is, whatever it is.
fn steps(rng: &mut Rng, tally: &mut Tally) {
    let tree = written("(r(ax)B)", STYLES[0]);
    for word in wide() {
        let words = made(1, &[(0, [INDEX, 8, 1, 0, 2, 1, 0, 0, 3, word])]);
        let (mut both, mut area) = (Both::any_words(words), Area::new(rng));
        area.put_word(0, INDEX);
        area.put_word(1, 0);
        for (right, length) in REPLIES {
            let reply = both.configure_connector(tally, 1, (&mut area, length), tree.lent());
            let is = (reply.status, both.words()[cell(WANTED, 0)]);
            if is != (right, word) {
                differ("a walk's step", "the reply and the word", &(right, word), &is);
            }
        }
    }
}

/// Every edge once.
pub fn every(rng: &mut Rng, tally: &mut Tally) {
    let mut both = table(64);
    for (column, _) in FEW {
        columns(tally, &mut both, column, &wide());
    }
    columns(tally, &mut table(u32::MAX), RESOURCE, &LAST);
    counts(tally);
    indexes(tally);
    new_rows(tally);
    steps(rng, tally);
}
