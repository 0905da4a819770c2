//! The pool: the resources that stand nowhere.

use crate::table::{kind_known, Resource, Table};

impl Table {
    fn free(&self, kind: u32) -> impl Iterator<Item = Resource> + '_ {
        self.ledger
            .iter()
            .zip(1..)
            .filter(move |(line, _)| kind_known(kind) && line.kind == kind && line.at.is_none())
            .map(|(_, number)| Resource(number))
    }

    /// How many resources of a kind are free.
    pub fn free_count(&self, kind: u32) -> u32 {
        self.free(kind).count() as u32
    }

    /// The lowest number among them.
    pub fn free_lowest(&self, kind: u32) -> Option<Resource> {
        self.free(kind).next()
    }
}
