//! Tables of many rows: made by hand, with what matters at the edges of sixteens, of 64 and of the
//! whole, and filled by calls to the last row and the last line.

mod filled;
mod lines;
mod rows;

use crate::rng::Rng;
use crate::tally::Tally;
pub use filled::some;

/// Rows, and lines of the ledger, at the edges.
pub const PLACES: [usize; 25] = [
    0, 1, 2, 14, 15, 16, 17, 30, 31, 32, 33, 62, 63, 64, 65, 127, 128, 511, 512, 1_006, 1_007,
    1_008, 1_009, 1_022, 1_023,
];

/// Counts at the edges; those over the limit read as the limit.
pub const COUNTS: [u32; 18] = [
    0,
    1,
    15,
    16,
    17,
    63,
    64,
    65,
    127,
    1_007,
    1_008,
    1_009,
    1_022,
    1_023,
    1_024,
    1_025,
    2_048,
    u32::MAX,
];

/// Every edge once.
pub fn every(rng: &mut Rng, tally: &mut Tally) {
    rows::every(rng, tally);
    lines::every(tally);
    filled::every(rng, tally);
}
