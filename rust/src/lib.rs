//! The dynamic reconfiguration connector service in ordinary Rust, written from documents 01 and 02
//! and docs/DECISIONS.md; `words` has the layout of the library's table. It shares no code with the
//! proved library; the program `compare` runs both on the same calls.

#[cfg(test)]
mod cards;
mod fast_changes;
mod fast_memory;
#[cfg(test)]
mod faults;
mod hotplug;
mod memory;
mod names;
mod node_changes;
mod one_pass;
mod orders;
mod pool;
mod properties;
mod reader;
pub mod status;
mod table;
mod tree;
mod walk;
mod words;

pub use fast_changes::{read_updates_in_place, update_nodes_by_blocks};
pub use fast_memory::{memory_to_v1_by_runs, memory_to_v2_by_runs};
pub use hotplug::{Form, HotplugEvent};
pub use memory::{faults_to_v1, faults_to_v2, memory_to_v1, memory_to_v2, Faults};
pub use node_changes::{read_updates, update_nodes};
pub use one_pass::{check_by_eights, check_in_one_pass};
pub use properties::read_properties;
pub use reader::{Node, Reader, BUFFER_LIMIT};
pub use table::{Connector, Index, Line, Page, Resource, State, Table, Walk};
pub use table::{CONNECTORS, PARTITIONS, RESOURCES};
pub use tree::{check, compare, Token};
pub use walk::Reply;
pub use words::{decode_at, encode, update, update_walk, write_row};
pub use words::{CONNECTOR_WORDS, READER_WORDS, TABLE_WORDS};

/// The word at `at`, big-endian, or none where the bytes end before.
pub(crate) fn word(bytes: &[u8], at: usize) -> Option<u32> {
    let four = bytes.get(at..)?.first_chunk::<4>()?;
    Some(u32::from_be_bytes(*four))
}

/// Puts a big-endian word at `at`.
pub(crate) fn put_word(bytes: &mut [u8], at: usize, word: u32) {
    bytes[at..at + 4].copy_from_slice(&word.to_be_bytes());
}

/// A work area is one page, or two lent as one run.
pub(crate) const PAGE: usize = 4096;
pub(crate) const TWO_PAGES: usize = 2 * PAGE;

/// Names and values stand behind the work area's five words.
pub(crate) const HEADER: usize = 20;
