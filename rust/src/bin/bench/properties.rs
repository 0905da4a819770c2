//! The array properties of a full table, whose connectors are all of one partition.

use crate::library::{self, Words};
use crate::{bench, PARTITION};
use drc::{read_properties, Index, Table, TABLE_WORDS};
use std::hint::black_box;

const CALLS: usize = 1_000;

/// As long as the longest arrays of 64 connectors, and their list.
const ROOM: [usize; 4] = [900, 260, 260, 324];
const LIST: usize = 768;

type Arrays = [Vec<u8>; 4];

fn lent(buffers: &mut Arrays) -> [&mut [u8]; 4] {
    buffers.each_mut().map(|buffer| &mut buffer[..])
}

/// The low bits of an index, as they stand in real trees: a thread, a bridge, a slot, a block.
pub fn usual(kind: u32, number: u32) -> u32 {
    match kind {
        1 => 8 * number,
        2 => 1 + number,
        3 => 0x1_0000 + 8 * number,
        _ => 16 + number,
    }
}

/// Low bits of nine digits.
pub fn large(_: u32, number: u32) -> u32 {
    0x0FFF_FFFF - number
}

/// Tables with 64 connectors of every kind in turn.
fn tables(low_bits: fn(u32, u32) -> u32) -> (Words, Table) {
    let (mut words, mut table) = ([0; TABLE_WORDS], Table::new());
    library::fresh(&mut words);
    let kinds = [1, 8, 2, 8, 3, 8, 3, 8].into_iter().cycle();
    for (number, kind) in (0..64).zip(kinds) {
        let index = kind << 28 | low_bits(kind, number);
        library::add_connector(&mut words, kind, index, PARTITION, 0);
        table.add_connector(kind, Index(index), PARTITION, None);
    }
    assert_eq!((drc::encode(&table), words[0]), (words, 64));
    (words, table)
}

/// Writes the arrays, and reads them.
pub fn write_and_read(name: &str, low_bits: fn(u32, u32) -> u32) {
    let (words, table) = tables(low_bits);
    let (mut ours, mut rust) = (ROOM.map(|room| vec![0; room]), ROOM.map(|room| vec![0; room]));
    let lengths = write(&format!("write-properties, {name}"), &words, &table, &mut ours, &mut rust);
    assert_eq!(ours, rust);
    for (array, length) in ours.iter_mut().zip(lengths) {
        array.truncate(length as usize);
    }
    read(&format!("read-properties, {name}"), &ours);
}

fn write(
    name: &str,
    words: &Words,
    table: &Table,
    ours: &mut Arrays,
    rust: &mut Arrays,
) -> [u32; 4] {
    let (mut our_lengths, mut rust_lengths) = ([0; 4], [0; 4]);
    let our_turn = || {
        for _ in 0..CALLS {
            let arrays = lent(black_box(&mut *ours));
            let (words, lengths) = (black_box(words), &mut our_lengths);
            assert_eq!(library::write_properties(words, PARTITION, arrays, lengths), 0);
        }
        CALLS
    };
    let rust_turn = || {
        for _ in 0..CALLS {
            let arrays = lent(black_box(&mut *rust));
            rust_lengths = black_box(table).write_properties(PARTITION, arrays).unwrap();
        }
        CALLS
    };
    bench(name, our_turn, rust_turn);
    assert_eq!(our_lengths, rust_lengths);
    our_lengths
}

fn read(name: &str, arrays: &Arrays) {
    let lent = || black_box(arrays).each_ref().map(|array| &array[..]);
    let (mut ours, mut rust) = (vec![0; LIST], vec![0; LIST]);
    let our_turn = || {
        for _ in 0..CALLS {
            let mut written = 0;
            let status = library::read_properties(lent(), black_box(&mut ours), &mut written);
            assert_eq!((status, written), (0, LIST));
        }
        CALLS
    };
    let rust_turn = || {
        for _ in 0..CALLS {
            assert_eq!(read_properties(lent(), black_box(&mut rust)), Ok(LIST));
        }
        CALLS
    };
    bench(name, our_turn, rust_turn);
    assert_eq!(ours, rust);
}
