//! Areas that are read: those of reports with something changed, and others made of operation
//! lists, sound or not.

use super::{number, read, Area, AREA, HEADER, ROOM, WORDS};
use crate::rng::Rng;
use crate::tally::Tally;

/// Opcodes that are known, and some that are not.
const OPCODES: [u32; 9] = [0, 1, 2, 3, 4, 5, 0x7F, 0x80, 0xFF];

/// What stands behind the words of an area that matter.
#[derive(Clone, Copy)]
enum Rest {
    Any,
    Zeros,
    /// operators without operands, so that the end is missing
    Empty,
}

const RESTS: [Rest; 3] = [Rest::Any, Rest::Zeros, Rest::Empty];

/// An operator without operands, which is not the end.
fn empty(rng: &mut Rng) -> u32 {
    (rng.between(1, 255) as u32) << 24
}

/// An area of these words, as far as they fit, with any header.
fn area_of(rng: &mut Rng, words: &[u32], rest: Rest) -> Area {
    let mut area = Area::new(rng, 0, AREA);
    for place in 0..WORDS {
        let word = match (words.get(place), rest) {
            (Some(&word), _) => word,
            (None, Rest::Any) => number(rng),
            (None, Rest::Zeros) => 0,
            (None, Rest::Empty) => empty(rng),
        };
        area.put(HEADER / 4 + place, word);
    }
    if rng.percent(90) {
        rng.fill(&mut area.lent_mut()[..HEADER]);
    }
    area
}

/// Reads an area with room for all, and where it is read, with too little room and just enough.
fn read_around(rng: &mut Rng, tally: &mut Tally, area: &Area) {
    let exact = read(rng, tally, area, ROOM).map(|words| words.len()).unwrap_or(0);
    for room in [0, exact.saturating_sub(1), exact, exact + 1] {
        read(rng, tally, area, room).ok();
    }
}

// ---- Every one.

/// So many words before an operator: a list of deletes, or operators without operands.
fn lead(rng: &mut Rng, count: usize, empties: bool) -> Vec<u32> {
    let mut words: Vec<u32> = match empties {
        true => (0..count).map(|_| empty(rng)).collect(),
        false => (0..count).map(|_| number(rng)).collect(),
    };
    if let (false, Some(first)) = (empties, words.first_mut()) {
        *first = 1 << 24 | (count as u32 - 1);
    }
    words
}

/// An operator at some place with every opcode and numbers of operands next to what is left.
fn every_operator(rng: &mut Rng, tally: &mut Tally, place: usize, empties: bool) {
    let left = (WORDS - 1 - place) as u32;
    let near = [left.saturating_sub(2), left.saturating_sub(1), left, left + 1, left + 2];
    let far = [0xFF, 0x100, 0xFFFF, 0x1_0000, 0x80_0000, 0xFF_FFFE, 0xFF_FFFF];
    for opcode in OPCODES {
        for count in (0..=4).chain(near).chain(far) {
            for rest in RESTS {
                let mut words = lead(rng, place, empties);
                words.push(opcode << 24 | count);
                let area = area_of(rng, &words, rest);
                read_around(rng, tally, &area);
            }
        }
    }
}

/// Every opcode with few operands, first and behind others, with the end behind them.
fn every_opcode(rng: &mut Rng, tally: &mut Tally) {
    for (opcode, count) in (0..=255).flat_map(|opcode| (0..=3).map(move |count| (opcode, count))) {
        for place in [0, 500] {
            let mut words = lead(rng, place, false);
            words.push(opcode << 24 | count);
            words.extend((0..count).map(|_| number(rng)));
            let area = area_of(rng, &words, Rest::Zeros);
            read(rng, tally, &area, ROOM).ok();
        }
    }
}

/// Areas of every length up to past the header, and next to the right one.
fn every_length(rng: &mut Rng, tally: &mut Tally) {
    for length in (0..=40).chain(4_060..=4_120).chain([8_192, 69_632]) {
        let mut area = Area::new(rng, 0, length);
        if rng.percent(50) {
            area.lent_mut().fill(0);
        }
        read(rng, tally, &area, ROOM).ok();
    }
}

/// Areas with every number of operators without operands.
fn every_empty(rng: &mut Rng, tally: &mut Tally) {
    for count in (0..20).chain(WORDS - 3..=WORDS) {
        let mut words = lead(rng, count, true);
        words.extend([0, 1 << 24 | 1]);
        let area = area_of(rng, &words, Rest::Any);
        read_around(rng, tally, &area);
    }
}

/// Every amount of room around that of some changes, before the end and before each fault.
fn every_room(rng: &mut Rng, tally: &mut Tally) {
    let sound = [2 << 24 | 2, 5, 6, 3 << 24 | 4, 7, 8, 9, 10, 1 << 24 | 1, 11];
    for last in [0, 1 << 24 | 0xFF_FFFF, 4 << 24 | 1, 3 << 24 | 1] {
        let area = area_of(rng, &[&sound[..], &[last]].concat(), Rest::Empty);
        for room in 0..20 {
            read(rng, tally, &area, room).ok();
        }
    }
}

/// Every edge once.
pub fn every(rng: &mut Rng, tally: &mut Tally) {
    for place in [0, 1, 2, 3, 500, WORDS - 4, WORDS - 3, WORDS - 2, WORDS - 1] {
        every_operator(rng, tally, place, false);
        every_operator(rng, tally, place, true);
    }
    every_opcode(rng, tally);
    every_length(rng, tally);
    every_empty(rng, tally);
    every_room(rng, tally);
}

// ---- Some.

/// Reads an area that is sound, and has so many words of changes, with something changed.
pub fn damaged(rng: &mut Rng, tally: &mut Tally, sound: &Area, words: usize) {
    for _ in 0..2 {
        let mut area = sound.clone();
        for _ in 0..rng.below(3) {
            let few = rng.pick(&[1, 4, 20, WORDS]);
            let place = HEADER / 4 + rng.below(few);
            match rng.below(4) {
                0 => area.put(place, number(rng)),
                1 => area.put(place, empty(rng)),
                2 => area.put(place, 0),
                _ => area.lent_mut()[4 * place + rng.below(4)] ^= 1 << rng.below(8),
            }
        }
        let room = rng.pick(&[ROOM, words, words.saturating_sub(1)]);
        read(rng, tally, &area, room).ok();
    }
}

/// An operation list, mostly sound: it may be one of no operands, of a few or of many.
fn operation_list(rng: &mut Rng) -> Vec<u32> {
    let opcode = if rng.percent(98) { rng.between(1, 3) as u32 } else { rng.pick(&OPCODES) };
    let most = rng.pick(&[0, 2, 4, 20, 600]);
    let mut count = rng.below(most + 1);
    if opcode == 3 && rng.percent(98) {
        count &= !1;
    }
    let stated = if rng.percent(98) { count as u32 } else { number(rng) >> 8 };
    let mut words = vec![opcode << 24 | stated];
    words.extend((0..count).map(|_| number(rng)));
    words
}

/// An area of such lists, with the end among them or not.
fn made_up(rng: &mut Rng) -> Area {
    let mut words = vec![];
    let end = rng.pick(&[10, 100, WORDS - 100, WORDS]);
    while words.len() < end {
        words.extend(operation_list(rng));
    }
    if rng.percent(80) {
        words.push(0);
    }
    let rest = rng.pick(&RESTS);
    area_of(rng, &words, rest)
}

/// Areas that are made up, read with every sort of room.
pub fn some(rng: &mut Rng, tally: &mut Tally) {
    for _ in 0..150 {
        let area = made_up(rng);
        read_around(rng, tally, &area);
    }
}
