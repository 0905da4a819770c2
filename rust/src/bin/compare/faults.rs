//! Walks that can't go on: where each meets its fault, told from the blocks, and trees and records that
//! are made for each way to meet one.

mod any;
mod made;
mod reading;
mod widths;

use crate::rng::Rng;
use crate::tally::{differ, Tally, Walker};
pub use any::some;
use reading::found;

/// What a walk has met that can't go on from a place and a depth, with its fault at `at`.
pub fn count(
    tally: &mut Tally,
    walker: Walker,
    (place, depth): (u32, u32),
    tree: (&[u8], &[u8]),
    at: u32,
) {
    let Some(found) = found((place, depth), tree, at) else {
        let walk = format!("a walk from place {place} and depth {depth}");
        let call = format!("{walk}\nstructure {:02x?}\nstrings {:02x?}", tree.0, tree.1);
        differ(&call, "whether the token there is at fault", &"it is not", &at);
    };
    tally.fault(walker, found);
    tally.stood(walker, place, (tree.0.len(), tree.1.len()));
}

/// Every way and every width once.
pub fn every(rng: &mut Rng, tally: &mut Tally) {
    any::every(rng, tally);
    widths::every(rng, tally);
}
