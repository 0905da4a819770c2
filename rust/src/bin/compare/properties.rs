//! The array properties: written from tables of every sort, and read as they were written, damaged
//! and made up.

use crate::any_tables::fill_columns;
use crate::both::{Both, Buffers};
use crate::full::COUNTS;
use crate::library::{self, Words};
use crate::rng::Rng;
use crate::tally::{differ, same, Call, Tally};
use drc::{read_properties, PARTITIONS, TABLE_WORDS};

/// Names, indexes, domains and types.
type Arrays = [Vec<u8>; 4];

const TYPES: [&str; 4] = ["CPU", "PHB", "SLOT", "MEM"];

/// Strings that are no type.
const NO_TYPES: [&str; 24] = [
    "", "C", "CP", "CPUU", "cpu", "CPu", "P", "PH", "PHBB", "Phb", "S", "SL", "SLO", "SLOTT",
    "SLOt", "slot", "M", "ME", "MEMM", "mem", "MEM ", " MEM", "PHBMEM", "28",
];

// ---- Tables.

/// The low bits of an index, of any number of digits.
fn low_bits(rng: &mut Rng) -> u32 {
    match rng.below(8) {
        0 => rng.pick(&[0, 268_435_455]),
        1 => 10_u32.pow(rng.below(9) as u32) - rng.below(2) as u32,
        _ => rng.word() >> rng.between(4, 31),
    }
}

/// A table reached by calls, some of them refused, with rows of few partitions or of all.
pub fn reached(rng: &mut Rng, tally: &mut Tally) {
    let mut both = Both::fresh(rng, tally);
    let partitions = rng.pick(&[1, 2, PARTITIONS as usize]);
    for _ in 0..rng.pick(&[0, 1, 3, 10, 30, 80]) {
        let kind = rng.pick(&[1, 2, 3, 8]);
        let partition = 1 + rng.below(partitions) as u32;
        both.add_connector(tally, (kind, kind << 28 | low_bits(rng), partition, 0));
    }
    every_partition(rng, tally, &both);
}

/// Any words for a table, of which many are of a known kind and of one partition.
fn any_words(rng: &mut Rng) -> Box<Words> {
    let mut words = Box::new([0; TABLE_WORDS]);
    let partitions = rng.pick(&[1, 3, 10, 40]);
    fill_columns(&mut words, 205, |column| match column {
        _ if rng.percent(2) => rng.word(),
        2 => rng.word() << 28 | low_bits(rng),
        3 => rng.pick(&[1, 2, 3, 8, 8, 3, 0, 4, 9]),
        4 => rng.below(partitions) as u32,
        _ => rng.word(),
    });
    let few = rng.pick(&[0, 1, 20, 63, 64, 65, 200]);
    words[0] = if rng.percent(80) { few } else { rng.pick(&COUNTS) };
    words[1] = rng.word();
    words
}

/// A table of any words.
pub fn any_table(rng: &mut Rng, tally: &mut Tally) {
    let both = Both::any_words(any_words(rng));
    every_partition(rng, tally, &both);
}

/// The arrays of some partitions of a table, the last among them, and of numbers that are none.
pub fn every_partition(rng: &mut Rng, tally: &mut Tally, both: &Both) {
    let mut buffers = Buffers::new(&both.table);
    let others = [0; 3].map(|_| rng.between(6, PARTITIONS as usize - 1) as u32);
    let none = [0, PARTITIONS + 1, rng.pick(&[PARTITIONS + 2, 1 << 31, u32::MAX]), rng.word()];
    for partition in [1, 2, 3, 4, 5, PARTITIONS].into_iter().chain(others).chain(none) {
        partition_arrays(rng, tally, both, partition, &mut buffers);
    }
}

/// A partition's arrays, written and read.
pub fn partition_arrays(
    rng: &mut Rng,
    tally: &mut Tally,
    both: &Both,
    partition: u32,
    buffers: &mut Buffers,
) {
    let arrays = write(rng, tally, both, partition, buffers);
    let count = arrays[1].len() / 4 - 1;
    let room = rng.pick(&[12 * count, 12 * count + 1, 12 * count + 100]);
    let status = read(rng, tally, &arrays, room);
    if status != 0 {
        differ(&format!("read_properties {arrays:02x?}"), "what was written", &0, &status);
    }
    read_damaged(rng, tally, &arrays, count);
}

/// A partition's arrays, after calls with every sort of room.
fn write(
    rng: &mut Rng,
    tally: &mut Tally,
    both: &Both,
    partition: u32,
    buffers: &mut Buffers,
) -> Arrays {
    let all = buffers.room();
    let exact = both.write_properties(rng, tally, partition, (buffers, all)).unwrap_or(all);
    for array in 0..4 {
        for length in [0, exact[array] - 1] {
            let mut room = if rng.percent(50) { exact } else { all };
            room[array] = length;
            both.write_properties(rng, tally, partition, (buffers, room));
        }
    }
    let around = exact.map(|length| length + 3 - rng.below(5));
    both.write_properties(rng, tally, partition, (buffers, around));
    both.write_properties(rng, tally, partition, (buffers, exact));
    let mut exact = exact.into_iter();
    buffers.rust.each_ref().map(|buffer| buffer[..exact.next().unwrap()].to_vec())
}

// ---- The reader.

/// Reads arrays on both sides, into a list with this room and bytes behind that no call may touch.
fn read(rng: &mut Rng, tally: &mut Tally, arrays: &Arrays, room: usize) -> i32 {
    let before = arrays.clone();
    let lent = arrays.each_ref().map(|array| &array[..]);
    let mut out = vec![0; room + 8];
    rng.fill(&mut out);
    let mut library_out = out.clone();
    let unwritten = rng.next() as usize;
    let (rust, written) = match read_properties(lent, &mut out[..room]) {
        Ok(written) => (0, written),
        Err(refusal) => (refusal, unwritten),
    };
    let mut given = unwritten;
    let library = library::read_properties(lent, &mut library_out[..room], &mut given);
    let call = || format!("read_properties room {room}\n{before:02x?}");
    tally.answer(Call::ReadProperties, call, rust.into(), library.into());
    same("the number of bytes written", call, &[written], &[given]);
    same("the list", call, &out, &library_out);
    same("the arrays that are lent to read", call, &before, arrays);
    rust
}

/// Reads arrays into lists of every length around theirs.
fn read_around(rng: &mut Rng, tally: &mut Tally, arrays: &Arrays, count: usize) {
    for room in [0, 11, 12, (12 * count).saturating_sub(1), 12 * count, 12 * count + 1] {
        read(rng, tally, arrays, room);
    }
}

fn set_count(array: &mut [u8], count: u32) {
    if let Some(bytes) = array.first_chunk_mut() {
        *bytes = count.to_be_bytes();
    }
}

/// A count near another one, or far: also one of which four times is the same in 32 bits.
fn other_count(rng: &mut Rng, count: usize) -> u32 {
    let count = count as u32;
    let far = [0, u32::MAX, 1 << 31, 1 << 30 | count, count.swap_bytes()];
    match rng.below(4) {
        0 => count.wrapping_sub(1),
        1 => count + 1,
        2 => rng.pick(&far),
        _ => rng.word() >> rng.below(32),
    }
}

/// Arrays of so many connectors, with any names, indexes and domains.
fn made_up(rng: &mut Rng, count: usize) -> Arrays {
    let mut arrays = [(); 4].map(|_| (count as u32).to_be_bytes().to_vec());
    let [names, indexes, domains, types] = &mut arrays;
    for _ in 0..count {
        let length = if rng.percent(5) { rng.below(200) } else { rng.below(8) };
        names.extend((0..length).map(|_| rng.between(1, 255) as u8));
        names.push(0);
        indexes.extend(rng.word().to_be_bytes());
        domains.extend(rng.word().to_be_bytes());
        types.extend(rng.pick(&TYPES).bytes());
        types.push(0);
    }
    arrays
}

/// Puts another string in the place of a type, or behind the last one.
fn change_type(rng: &mut Rng, types: &mut Vec<u8>, string: &str) {
    let ends: Vec<usize> = (4..types.len()).filter(|&at| types[at] == 0).collect();
    let which = rng.below(ends.len() + 1);
    let start = if which == 0 { types.len().min(4) } else { ends[which - 1] + 1 };
    let end = ends.get(which).copied().unwrap_or(types.len());
    types.splice(start..end, string.bytes());
}

/// A string, where the array has one, loses its NUL.
fn unend(rng: &mut Rng, array: &mut [u8]) {
    let mut ends: Vec<&mut u8> = array.iter_mut().skip(4).filter(|byte| **byte == 0).collect();
    let which = rng.below(ends.len());
    if let Some(byte) = ends.get_mut(which) {
        **byte = b'x';
    }
}

/// Changes, removes or adds a byte.
fn damage_byte(rng: &mut Rng, array: &mut Vec<u8>, at: usize) {
    let byte = rng.pick(&[0, 0, 1, b'C', b'M', b'T', b' ', 255]);
    match rng.below(6) {
        0 => array[at] = byte,
        1 => array[at] ^= 1 << rng.below(8),
        2 => array[at] = array[at].wrapping_add(rng.pick(&[1, 255])),
        3 => drop(array.remove(at)),
        4 => array.insert(at, byte),
        _ => array.insert(at, array[at]),
    }
}

/// Changes arrays of so many connectors in one way.
fn damage(rng: &mut Rng, arrays: &mut Arrays, count: usize) {
    let which = rng.below(4);
    let array = &mut arrays[which];
    let at = rng.below(array.len());
    match rng.below(11) {
        0 if at < array.len() => damage_byte(rng, array, at),
        1 => array.truncate(at),
        2 => array.truncate(array.len().saturating_sub(rng.between(1, 3))),
        3 => array.extend(vec![rng.pick(&[0, b'x', 255]); rng.between(1, 5)]),
        4 => array.extend_from_within(at..),
        5 => set_count(array, other_count(rng, count)),
        6 => {
            let count = other_count(rng, count);
            arrays.iter_mut().for_each(|array| set_count(array, count));
        }
        7 => arrays.swap(which, rng.below(4)),
        8 => unend(rng, array),
        _ => {
            let string = if rng.percent(50) { rng.pick(&TYPES) } else { rng.pick(&NO_TYPES) };
            change_type(rng, &mut arrays[3], string);
        }
    }
}

/// Arrays with one thing changed, at every place that they have.
fn read_each_damage(rng: &mut Rng, tally: &mut Tally, arrays: &Arrays, count: usize) {
    let room = 12 * (count + 2);
    for which in 0..4 {
        for at in 0..arrays[which].len() {
            let mut cut = arrays.clone();
            cut[which].truncate(at);
            read(rng, tally, &cut, room);
            let mut damaged = arrays.clone();
            damage_byte(rng, &mut damaged[which], at);
            read(rng, tally, &damaged, room);
        }
        for _ in 0..8 {
            let mut counted = arrays.clone();
            set_count(&mut counted[which], other_count(rng, count));
            read(rng, tally, &counted, room);
        }
        for other in 0..which {
            let mut swapped = arrays.clone();
            swapped.swap(which, other);
            read(rng, tally, &swapped, room);
        }
    }
    for string in TYPES.iter().chain(&NO_TYPES) {
        let mut changed = arrays.clone();
        change_type(rng, &mut changed[3], string);
        read(rng, tally, &changed, room);
    }
}

/// Arrays with up to three things changed.
fn read_damaged(rng: &mut Rng, tally: &mut Tally, arrays: &Arrays, count: usize) {
    for _ in 0..8 {
        let mut damaged = arrays.clone();
        for _ in 0..rng.between(1, 3) {
            damage(rng, &mut damaged, count);
        }
        let exact = 12 * count;
        let room = rng.pick(&[exact, exact, exact + 24, exact.saturating_sub(1), 0]);
        read(rng, tally, &damaged, room);
    }
}

/// Arrays of more connectors than 16 bits count.
pub fn many(rng: &mut Rng, tally: &mut Tally) {
    let sound = made_up(rng, 70_000);
    read_around(rng, tally, &sound, 70_000);
}

/// Arrays that no table has: sound ones, those with one thing changed, those with some.
pub fn arrays(rng: &mut Rng, tally: &mut Tally) {
    let few = rng.between(0, 6);
    let sound = made_up(rng, few);
    read_each_damage(rng, tally, &sound, few);
    for _ in 0..30 {
        let count = rng.pick(&[0, 1, 1, 2, 3, 5, 20, 65, 300, 1_024]);
        let sound = made_up(rng, count);
        read_around(rng, tally, &sound, count);
        read_damaged(rng, tally, &sound, count);
    }
}
