//! Calls on tables of any words.

use crate::both::{Area, Both, Record};
use crate::full::{COUNTS, PLACES};
use crate::library::Words;
use crate::rng::Rng;
use crate::tables::{kind, KINDS};
use crate::tally::Tally;
use crate::trees::Blocks;
use drc::{CONNECTORS, RESOURCES, TABLE_WORDS};

/// Where a word of a row stands.
pub fn cell(column: usize, row: usize) -> usize {
    2 + 2 * RESOURCES + CONNECTORS * column + row
}

/// Where the kind of a line stands, and the index of its connector.
pub fn line_cells(line: usize) -> [usize; 2] {
    [2 + line, 2 + RESOURCES + line]
}

/// The words of a row, with their places.
pub fn row_cells(row: usize, record: Record) -> impl Iterator<Item = (usize, u32)> {
    (0..).zip(record).map(move |(column, word)| (cell(column, row), word))
}

/// Words of a table with these rows.
pub fn made(count: u32, rows: &[(usize, Record)]) -> Box<Words> {
    let mut words = Box::new([0; TABLE_WORDS]);
    words[0] = count;
    for &(row, record) in rows {
        row_cells(row, record).for_each(|(at, word)| words[at] = word);
    }
    words
}

/// As many rows, and lines, are drawn; they are repeated up to the last one.
const DRAWN: usize = 83;

/// A count, mostly of fewer rows than are drawn.
fn any_count(rng: &mut Rng) -> u32 {
    if rng.percent(75) {
        rng.pick(&[0, 1, 5, 20, 63, 64, 65])
    } else {
        rng.pick(&COUNTS)
    }
}

/// A word for a column: the ledger's two are the first.
fn any_word(rng: &mut Rng, column: usize) -> u32 {
    match column {
        0 | 3 => rng.pick(&[1, 2, 3, 8, 2, 3, 4, 0]),
        1 | 2 | 5 => any_index(rng),
        4 => rng.between(0, 3) as u32,
        6 => rng.below(5) as u32,
        7 => rng.below(8) as u32 * rng.below(2) as u32,
        8 => rng.below(90) as u32 & rng.pick(&[!3, !3, !0]),
        9 => rng.below(10) as u32,
        10 => rng.below(4) as u32,
        _ => any_wanted(rng),
    }
}

/// Fills the columns of a table, each with so many words that are drawn, over and over.
pub fn fill_columns(words: &mut Words, drawn: usize, mut draw: impl FnMut(usize) -> u32) {
    let (ledger, rows) = words[2..].split_at_mut(2 * RESOURCES);
    let columns = ledger.chunks_mut(RESOURCES).chain(rows.chunks_mut(CONNECTORS));
    for (column, words) in columns.enumerate() {
        let (first, rest) = words.split_at_mut(drawn);
        first.fill_with(|| draw(column));
        rest.chunks_mut(drawn).for_each(|again| again.copy_from_slice(&first[..again.len()]));
    }
}

/// Words of which many name one another.
pub fn any_words(rng: &mut Rng) -> Box<Words> {
    let mut words = Box::new([0; TABLE_WORDS]);
    let wild = rng.percent(10);
    fill_columns(&mut words, DRAWN, |column| {
        if wild || rng.percent(1) {
            rng.word()
        } else {
            any_word(rng, column)
        }
    });
    (words[0], words[1]) = (any_count(rng), any_count(rng));
    if words[0] as usize > DRAWN {
        scatter(rng, &mut words);
    }
    words
}

/// Gives each row an index of its own, and then some rows, mostly at edges, one that others name.
fn scatter(rng: &mut Rng, words: &mut Words) {
    (0..CONNECTORS).for_each(|row| words[cell(0, row)] = 0x6000_0000 | row as u32);
    for _ in 0..rng.pick(&[3, 12, 40]) {
        let row = if rng.percent(70) { rng.pick(&PLACES) } else { rng.below(CONNECTORS) };
        words[cell(0, row)] = any_index(rng);
    }
}

/// A word for wanted back: 1 is the only one that says so.
pub fn any_wanted(rng: &mut Rng) -> u32 {
    match rng.below(10) {
        0..4 => 1,
        4..7 => 0,
        7 => rng.word(),
        _ => rng.pick(&[2, 3, 0x100, 0x101, 0x1_0001, 1 << 31, 1 << 31 | 1, u32::MAX]),
    }
}

pub fn any_index(rng: &mut Rng) -> u32 {
    match rng.below(10) {
        0 => 0,
        1..4 => 0x2000_0000 | rng.below(3) as u32,
        4..7 => 0x3000_0000 | rng.below(3) as u32,
        _ => rng.pick(&[0x1000_0001, 0x8000_0001, 0x8000_0002, 7]),
    }
}

/// A row, or a resource, mostly of a small table.
pub fn any_number(rng: &mut Rng) -> u32 {
    if rng.percent(80) {
        rng.below(70) as u32
    } else {
        (rng.pick(&PLACES) + rng.below(3)) as u32
    }
}

/// Calls on a table of any words.
pub fn any_table(rng: &mut Rng, tally: &mut Tally, forest: &[Blocks]) {
    let mut both = Both::any_words(any_words(rng));
    let mut area = Area::new(rng);
    both.find(tally, 0);
    for _ in 0..30 {
        let index = any_index(rng);
        let partition = rng.between(0, 3) as u32;
        both.find(tally, index);
        match rng.below(11) {
            0 => {
                let kind = rng.pick(&KINDS);
                let fresh = kind << 28 | rng.below(1_000) as u32;
                let parent = if rng.percent(50) { any_index(rng) } else { 0 };
                both.add_connector(tally, (kind, fresh, partition, parent));
            }
            1 => drop(both.add_resource(tally, kind(rng))),
            2 => drop(both.place(tally, any_number(rng), index)),
            3 => drop(both.retract(tally, index)),
            4 => drop(both.pool(tally, kind(rng))),
            5 | 6 => {
                let (token, value) = (rng.pick(&[9001, 9003]), rng.below(2) as u32);
                both.set_indicator(tally, (partition, token, index, value));
            }
            7 => drop(both.get_sensor(tally, partition, 9003, index)),
            8 => both.catalogue(tally, any_number(rng), any_number(rng)),
            9 => drop(both.want_back(tally, index)),
            _ => {
                area.put_word(0, index);
                area.put_word(1, 0);
                let tree = &forest[rng.below(forest.len())];
                let length = rng.pick(&[4_096, 4_096, 8_192]);
                both.configure_connector(tally, partition, (&mut area, length), tree.lent());
            }
        }
    }
}
