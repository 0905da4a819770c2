//! Readers kept by both sides, and replies to them.

use crate::library;
use crate::rng::Rng;
use crate::tally::{same, Call, Tally};
use drc::{Reader, READER_WORDS};

#[derive(Clone)]
pub struct Readers {
    pub rust: Reader,
    /// the words that the Rust version gives
    words: [u32; READER_WORDS],
    library: [u32; READER_WORDS],
    pub structure: [Vec<u8>; 2],
    pub strings: [Vec<u8>; 2],
    /// an end-node that waits, to be one reply with a begin-node behind it
    pub held: bool,
}

impl Readers {
    /// A new reader with buffers of these lengths, which hold any bytes.
    pub fn new(rng: &mut Rng, tally: &mut Tally, structure: usize, strings: usize) -> Readers {
        let mut library = [rng.word(); READER_WORDS];
        library::reader_fresh(&mut library);
        tally.answer(Call::ReaderFresh, || "reader_fresh".into(), 0, 0);
        same("the words of a fresh reader", || "reader_fresh".into(), &[0; READER_WORDS], &library);
        let mut readers = Readers {
            rust: Reader::new(),
            words: library,
            library,
            structure: [vec![0; structure], vec![]],
            strings: [vec![0; strings], vec![]],
            held: false,
        };
        rng.fill(&mut readers.structure[0]);
        rng.fill(&mut readers.strings[0]);
        readers.structure[1] = readers.structure[0].clone();
        readers.strings[1] = readers.strings[0].clone();
        readers
    }

    /// Any record.
    pub fn set(&mut self, words: [u32; READER_WORDS]) {
        self.words = words;
        self.library = words;
        self.rust = Reader::from_words(words);
    }

    pub fn read(&mut self, tally: &mut Tally, status: i32, work: &[u8]) -> i32 {
        let before = self.rust;
        let [structure, library_structure] = &mut self.structure;
        let [strings, library_strings] = &mut self.strings;
        let rust = self.rust.read(status, work, structure, strings);
        let library = library::read_reply(
            &mut self.library,
            status,
            work,
            library_structure,
            library_strings,
        );
        let call = || {
            let header = &work[..work.len().min(20)];
            let lengths = (structure.len(), strings.len());
            format!(
                "read_reply {status} work {} {header:02x?} buffers {lengths:?}\nbefore: {before:?}",
                work.len()
            )
        };
        if self.rust != before {
            self.words = self.rust.to_words();
        }
        tally.answer(Call::ReadReply, call, rust.into(), library.into());
        same("the reader's words", call, &self.words, &self.library);
        same("the structure buffer", call, structure, library_structure);
        same("the strings buffer", call, strings, library_strings);
        rust
    }

    /// A reply of a walk, an end-node and the begin-node behind it as one if `siblings`.
    pub fn follow(&mut self, tally: &mut Tally, status: i32, work: &[u8], siblings: bool) -> i32 {
        if self.held {
            self.held = false;
            if status == 2 {
                return self.read(tally, 1, work);
            }
            self.read(tally, 4, work);
        }
        if siblings && status == 4 {
            self.held = true;
            return 1;
        }
        self.read(tally, status, work)
    }
}

const STATUSES: [i32; 24] = [
    0, 1, 1, 2, 2, 2, 3, 3, 3, 3, 4, 5, 9900, 9901, 9904, 9905, 9899, 9906, 6, -1, -2, -3, -9003,
    42,
];

/// Puts a name and a value into a work area, at offsets near and over the limits.
fn reply(rng: &mut Rng, work: &mut [u8]) {
    let mut put = |word: usize, value: usize| {
        if let Some(bytes) = work.get_mut(4 * word..4 * word + 4) {
            bytes.copy_from_slice(&(value as u32).to_be_bytes());
        }
    };
    let name_at = match rng.below(10) {
        0 => rng.pick(&[0, 19, 21, 4_090, 4_094, 4_095, 4_096, 8_191, u32::MAX as usize]),
        1 => rng.between(4_040, 4_096),
        _ => 20,
    };
    let name = match rng.below(10) {
        0 => rng.pick(&[0, 30, 31, 32, 46, 47, 48, 49]),
        _ => rng.between(1, 4),
    };
    let value_at = match rng.below(10) {
        0 => rng.pick(&[0, 19, 20, 4_095, 4_096, 4_097, 8_192, u32::MAX as usize]),
        1 => rng.between(4_000, 8_200),
        _ => 20 + name + 1,
    };
    let value = match rng.below(10) {
        0 => rng.pick(&[4_096, 8_172, 8_173, 4_075, 4_076, u32::MAX as usize]),
        1 => rng.below(8_200),
        _ => rng.below(20),
    };
    put(2, name_at);
    put(3, value);
    put(4, value_at);
    let alphabet: &[u8] = if name < 3 { b"ab" } else { b"abcdefgh\0" };
    for at in name_at..name_at.saturating_add(name) {
        if let Some(byte) = work.get_mut(at) {
            *byte = rng.pick(alphabet);
        }
    }
    if let Some(byte) = work.get_mut(name_at.saturating_add(name)) {
        *byte = 0;
    }
}

fn area_length(rng: &mut Rng) -> usize {
    match rng.below(20) {
        0 => rng.pick(&[0, 1, 8, 20, 4_095, 4_097, 8_191, 8_193, 9_000]),
        1..12 => 4_096,
        _ => 8_192,
    }
}

/// Replies made up one by one, to a reader that begins fresh.
pub fn made_up(rng: &mut Rng, tally: &mut Tally) {
    let structure = rng.pick(&[0, 40, 300, 2_000, 20_000]);
    let mut readers = Readers::new(rng, tally, structure, rng_length(structure));
    let mut work = vec![b'w'; 9_000];
    for _ in 0..rng.between(1, 120) {
        let length = area_length(rng);
        reply(rng, &mut work[..length]);
        let depth = readers.rust.depth;
        let status = match rng.below(10) {
            0..2 => rng.pick(&STATUSES),
            2..4 if depth < 8 => 2,
            4 => 1,
            5 if depth > 1 => 4,
            6 if depth == 1 && rng.percent(20) => 0,
            _ => 3,
        };
        if rng.percent(1) {
            work.fill(rng.pick(&[0, b'v', 255]));
        }
        readers.read(tally, status, &work[..length]);
    }
}

fn rng_length(structure: usize) -> usize {
    structure / 8
}

/// Any reader's record, any buffers, any reply.
pub fn any_record(rng: &mut Rng, tally: &mut Tally) {
    let length = |rng: &mut Rng| match rng.below(40) {
        0 => rng.between(131_060, 131_090),
        1 => 200_000,
        _ => rng.below(400),
    };
    let (structure, strings) = (length(rng), length(rng));
    let mut readers = Readers::new(rng, tally, structure, strings);
    for side in &mut readers.strings {
        for at in (3..side.len().min(200)).step_by(7) {
            side[at] = 0;
        }
    }
    readers.strings[1] = readers.strings[0].clone();
    let mut work = vec![b'w'; 9_000];
    rng.fill(&mut work[..64]);
    let used = |rng: &mut Rng, length: usize| match rng.below(6) {
        0 => length,
        1 => (length + 1).saturating_sub(rng.below(60)),
        2 => rng.pick(&[0, 131_070, 131_072, 131_073, u32::MAX as usize]),
        _ => rng.below(length + 1),
    };
    for _ in 0..8 {
        let words = [
            used(rng, structure) as u32,
            used(rng, strings) as u32,
            rng.pick(&[0, 1, 1, 2, 2, 3, 7, 8, 8, 9, u32::MAX]),
            rng.pick(&[0, 0, 0, 1, 1, 2, 3, u32::MAX]),
        ];
        readers.set(words);
        let length = area_length(rng);
        reply(rng, &mut work[..length]);
        if rng.percent(30) && strings > 40 {
            let at = rng.below(30);
            work[20..28].copy_from_slice(&readers.strings[0][at..at + 8]);
        }
        let status = if rng.percent(5) { rng.word() as i32 } else { rng.pick(&STATUSES) };
        readers.read(tally, status, &work[..length]);
    }
}
