//! Blocks of every length at the edges, and walks that stand at every place there.

use crate::any_tables::{cell, made};
use crate::both::{walk_record, Area, Both, Record};
use crate::rng::Rng;
use crate::tally::{differ, Tally};
use drc::Reply;

const WALKER: u32 = 0x8000_0001;

const STRUCTURES: [usize; 18] = [
    0, 1, 2, 3, 4, 5, 8, 32_760, 32_764, 32_765, 32_767, 32_768, 32_769, 32_770, 32_771, 32_772,
    32_776, 65_536,
];
const STRINGS: [usize; 5] = [0, 4_095, 4_096, 4_097, 8_192];
const DEPTHS: [u32; 3] = [0, 1, 8];

/// Places at the start and at the end of a block, and at the edges of each width.
fn places(length: usize) -> Vec<u32> {
    let near = |at: u32| [-8, -4, -1, 0, 1, 2, 4, 8].map(|more| at.wrapping_add_signed(more));
    let ends = [0, length as u32, 32_768, 65_536, 1 << 31].into_iter().flat_map(near);
    let mut places: Vec<u32> = ends.chain([0xFFFF_FFFE]).collect();
    places.sort_unstable();
    places.dedup();
    places
}

/// Where the fault is in a block of no-ops, of which the last may be the end.
fn right(structure: &[u8], strings: &[u8], place: u32) -> u32 {
    let length = structure.len() as u32;
    let odd = !length.is_multiple_of(4) || !place.is_multiple_of(4);
    if odd || length > 32_768 || strings.len() > 4_096 {
        0
    } else if structure.ends_with(&[9]) && place < length {
        length - 4
    } else {
        length
    }
}

/// One step at a record and one at a table.
fn step(tally: &mut Tally, both: &mut Both, area: &mut Area, tree: (&[u8], &[u8]), walk: [u32; 2]) {
    let [place, depth] = walk;
    let mut record: Record = [WALKER, 8, 1, 0, 2, 1, place, depth, 0, 0];
    both.put([(cell(6, 0), place), (cell(7, 0), depth)]);
    let replies = [
        walk_record(tally, &mut record, (area, 4_096), tree, both),
        both.configure_connector(tally, 1, (area, 4_096), tree),
    ];
    let right = [Reply { status: -1, fault: right(tree.0, tree.1, place) }; 2];
    if replies != right {
        let lengths = (tree.0.len(), tree.1.len());
        let call = format!("a walk from place {place} and depth {depth} in {lengths:?} bytes");
        differ(&call, "the replies", &right, &replies);
    }
}

/// Every length with every place.
pub fn every(rng: &mut Rng, tally: &mut Tally) {
    let mut both = Both::any_words(made(1, &[(0, [WALKER, 8, 1, 0, 2, 1, 0, 0, 0, 0])]));
    let mut area = Area::new(rng);
    area.put_word(0, WALKER);
    area.put_word(1, 0);
    let blocks = STRUCTURES.into_iter().flat_map(|length| STRINGS.map(|names| (length, names)));
    for (length, names) in blocks {
        let strings = vec![b'n'; names];
        let mut structure = [0, 0, 0, 4].repeat(length / 4 + 1);
        structure.truncate(length);
        for last in [4, 9] {
            structure.last_mut().into_iter().for_each(|byte| *byte = last);
            let walks = |place| DEPTHS.map(|depth| [place, depth]);
            for walk in places(length).into_iter().flat_map(walks) {
                step(tally, &mut both, &mut area, (&structure, &strings), walk);
            }
        }
    }
}
