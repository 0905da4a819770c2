//! Connectors that are wanted back: each call at the edges of the words that say so, and calls on
//! two tables that differ in those words alone.

mod edges;
mod pairs;

pub use edges::every;
pub use pairs::some;

/// The column of the words for wanted back, which is the last.
const WANTED: usize = 9;
