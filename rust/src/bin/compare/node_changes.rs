//! Changed nodes: lists of changes reported over whole runs of calls, from every state and with
//! every fault, and areas read as they were written, damaged and made up.

mod areas;
mod reports;

use crate::library;
use crate::rng::Rng;
use crate::tally::{differ, same, Call, Tally};
use drc::{read_updates, read_updates_in_place, update_nodes, update_nodes_by_blocks};

/// Kind, phandle and index.
type Change = [u32; 3];

/// The bytes of an area, those before its operation lists, and how many words stand from there on.
const AREA: usize = 4_096;
const HEADER: usize = 16;
const WORDS: usize = (AREA - HEADER) / 4;

/// Room for the changes of any area.
const ROOM: usize = 3 * WORDS;

/// Words that could be taken for others: for the end, for operators, for kinds.
const TELLING: [u32; 12] = [
    0, 1, 2, 3, 0x1000000, 0x1000001, 0x2000002, 0x3000001, 0x3000002, 0x4000001, 0x80000000,
    0xFFFFFFFF,
];

/// A phandle or an index.
fn number(rng: &mut Rng) -> u32 {
    if rng.percent(30) {
        rng.pick(&TELLING)
    } else {
        rng.word()
    }
}

/// A work area of any length somewhere in a run of bytes, of which no call may touch the others.
#[derive(Clone)]
struct Area {
    bytes: Vec<u8>,
    at: usize,
    length: usize,
}

impl Area {
    /// So many bytes, any ones behind a header with this state variable.
    fn new(rng: &mut Rng, state: u32, length: usize) -> Area {
        let at = rng.below(9);
        let mut area = Area { bytes: vec![0; at + length.max(HEADER) + 8], at, length };
        rng.fill(&mut area.bytes);
        area.put(0, state);
        (1..4).for_each(|place| area.put(place, 0));
        area
    }

    fn lent(&self) -> &[u8] {
        &self.bytes[self.at..self.at + self.length]
    }

    fn lent_mut(&mut self) -> &mut [u8] {
        &mut self.bytes[self.at..self.at + self.length]
    }

    fn put(&mut self, place: usize, word: u32) {
        let at = self.at + 4 * place;
        self.bytes[at..at + 4].copy_from_slice(&word.to_be_bytes());
    }

    fn state(&self) -> u32 {
        u32::from_be_bytes(*self.lent().first_chunk().unwrap())
    }

    /// Puts any bytes behind the header.
    fn scramble(&mut self, rng: &mut Rng) {
        rng.fill(&mut self.lent_mut()[HEADER..]);
    }
}

/// One call of update-nodes on both sides, and of the fast version in Rust.
fn update(tally: &mut Tally, scope: u32, changes: &[u32], area: &mut Area) -> i32 {
    let before = area.clone();
    let (mut library_area, mut fast_area) = (before.clone(), before.clone());
    let lent = changes.to_vec();
    let rust = update_nodes(scope, changes, area.lent_mut());
    let library = library::update_nodes(scope, &lent, library_area.lent_mut());
    let fast = update_nodes_by_blocks(scope, changes, fast_area.lent_mut());
    let call = || {
        let head = &before.lent()[..before.length.min(HEADER)];
        let list = format!("{} words of changes {changes:x?}", changes.len());
        format!("update_nodes {scope:#x} area {} {head:02x?}\n{list}", before.length)
    };
    tally.answer(Call::UpdateNodes, call, rust.into(), library.into());
    same("the work area", call, &area.bytes, &library_area.bytes);
    same("the changes that are lent to read", call, changes, &lent);
    if fast != rust {
        differ(&call(), "the fast version's answer", &rust, &fast);
    }
    same("the fast version's work area", call, &area.bytes, &fast_area.bytes);
    rust
}

/// Reads an area on both sides, and by the fast version in Rust, to a list with this room and words
/// behind that no call may touch. The words read, or the refusal.
fn read(rng: &mut Rng, tally: &mut Tally, area: &Area, room: usize) -> Result<Vec<u32>, i32> {
    let lent = area.clone();
    let mut out: Vec<u32> = (0..room + 4).map(|_| rng.word()).collect();
    let (mut library_out, mut fast_out, unwritten) = (out.clone(), out.clone(), rng.word());
    let mut given = unwritten;
    let answer = read_updates(area.lent(), &mut out[..room]);
    let library = library::read_updates(lent.lent(), &mut library_out[..room], &mut given);
    let fast = read_updates_in_place(area.lent(), &mut fast_out[..room]);
    let call = || format!("read_updates room {room}, area {:02x?}", area.lent());
    let rust = answer.err().unwrap_or(0);
    tally.answer(Call::ReadUpdates, call, rust.into(), library.into());
    same("the number of words written", call, &[answer.unwrap_or(unwritten)], &[given]);
    same("the changes", call, &out, &library_out);
    same("the area that is lent to read", call, &area.bytes, &lent.bytes);
    if fast != answer {
        differ(&call(), "the fast version's answer", &answer, &fast);
    }
    same("the fast version's changes", call, &out, &fast_out);
    answer.map(|written| {
        out.truncate(written as usize);
        out
    })
}

/// What is the same at each run, but for phandles and indexes.
pub fn every(rng: &mut Rng, tally: &mut Tally) {
    reports::every(rng, tally);
    areas::every(rng, tally);
}

/// Lists and areas that are made up.
pub fn some(rng: &mut Rng, tally: &mut Tally) {
    reports::some(rng, tally);
    areas::some(rng, tally);
}
