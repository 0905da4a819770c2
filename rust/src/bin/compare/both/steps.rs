//! Steps of walks, at a lone record and at a table. Each is made with two of the library's calls: the
//! second one answers and changes the same, and says where a fault is.

use super::{guarded, rows, Area, Both, Record};
use crate::any_tables::{cell, row_cells};
use crate::faults;
use crate::library;
use crate::tally::{same, Call, Met, Tally, Walker};
use drc::{update_walk, Connector, Index, Reply, Walk};

/// A work area, and how much of it is lent.
type Lent<'a> = (&'a mut Area, usize);

/// The two blocks of a tree.
type Tree<'a> = (&'a [u8], &'a [u8]);

fn text((structure, strings): Tree) -> String {
    format!("structure {structure:02x?}\nstrings {strings:02x?}")
}

/// The second call, which has a word to write, and words around it that it may not touch.
fn placed(
    (area, length): Lent,
    call: impl Fn() -> String,
    rust: Reply,
    make: impl FnOnce(&mut [u8], &mut u32) -> i32,
) -> i32 {
    let mut given: [u32; 3] = area.any_words();
    let right = [given[0], rust.fault, given[2]];
    let library = make(&mut area.library_at[..length], &mut given[1]);
    same("the work area", &call, &area.rust, &area.library);
    same("the work area of the second call", &call, &area.rust, &area.library_at);
    same("the place of a fault", &call, &right, &given);
    library
}

/// One step of a lone record's walk, with a table to read. The words of both are any words.
pub fn walk_record(
    tally: &mut Tally,
    record: &mut Record,
    (area, length): Lent,
    tree: Tree,
    beside: &Both,
) -> Reply {
    let before = *record;
    let mut connector = Connector::from_words(before);
    let Walk { place, depth, .. } = connector.walk;
    let rust = connector.step(&beside.table, &mut area.rust[..length], tree.0, tree.1);
    if connector != Connector::from_words(before) {
        connector.put_walk(record);
    }
    let call = || {
        let walk = format!("walk_record {before:x?} work {length}");
        format!("{walk}\n{}\n{}", text(tree), rows(&beside.table))
    };
    let (mut first, mut second) = (guarded(&before), guarded(&before));
    let (ten, _) = first.split_first_chunk_mut().unwrap();
    let work = &mut area.library[..length];
    let library = library::walk_record(ten, work, tree, &beside.library);
    tally.answer(Call::WalkRecord, call, rust.status.into(), library.into());
    let (ten, _) = second.split_first_chunk_mut().unwrap();
    let library = placed((area, length), call, rust, |work, fault| {
        library::walk_record_at(ten, work, tree, &beside.library, fault)
    });
    tally.answer(Call::WalkRecordAt, call, rust.status.into(), library.into());
    same("the record", call, &guarded(record), &first);
    same("the record of the second call", call, &guarded(record), &second);
    beside.same_words("the table that is lent to read", call);
    if rust.status == -1 {
        faults::count(tally, Walker::Record, (place, depth), tree, rust.fault);
    }
    rust
}

impl Both {
    pub fn configure_connector(
        &mut self,
        tally: &mut Tally,
        partition: u32,
        (area, length): Lent,
        tree: Tree,
    ) -> Reply {
        let (word_0, word_1) = (area.word(0), area.word(1));
        let call = || {
            let words = format!("index {word_0:#x} word 1 {word_1:#x}");
            let walk = format!("configure_connector partition {partition} {words} work {length}");
            format!("{walk}\n{}", text(tree))
        };
        let work = &mut area.rust[..length];
        let rust = self.table.configure_connector(partition, work, tree.0, tree.1);
        self.accepted(tally, Met::Walked, word_0, rust.status);
        let stepped = self.stepped();
        let changed = update_walk(&mut self.words, &self.before, &self.table);
        let work = &mut area.library[..length];
        let library = library::configure_connector(&mut self.library, partition, work, tree);
        let described = self.described(call);
        tally.answer(Call::ConfigureConnector, described, rust.status.into(), library.into());
        self.put_back(stepped, call);
        let library = placed((area, length), call, rust, |work, fault| {
            library::configure_connector_at(&mut self.library, partition, work, tree, fault)
        });
        self.compare(tally, Call::ConfigureConnectorAt, call, rust.status, library);
        if rust.status == -1 {
            self.count_fault(tally, Index(word_0), tree, rust.fault);
        }
        if !changed.is_empty() {
            self.settle(changed);
        }
        rust
    }

    /// The row that the Rust version's step has changed, and its words before.
    fn stepped(&self) -> Option<(usize, Record)> {
        let mut rows = self.before.connectors().iter().zip(self.table.connectors());
        let row = rows.position(|(before, after)| before != after)?;
        Some((row, std::array::from_fn(|column| self.words[cell(column, row)])))
    }

    /// After a step that changes the table, compares all words, and makes the library's again what
    /// they were. Of a step that changes nothing, the words are compared after the second call.
    fn put_back(&mut self, stepped: Option<(usize, Record)>, call: impl Fn() -> String) {
        if let Some((row, record)) = stepped {
            self.same_words("the words of the table", self.described(call));
            row_cells(row, record).for_each(|(at, word)| self.library[at] = word);
        }
    }

    /// What the walk of the first connector with the index has met.
    fn count_fault(&self, tally: &mut Tally, index: Index, tree: Tree, at: u32) {
        let row = self.before.row_of(index) as usize;
        let Walk { place, depth, .. } = self.before.connectors()[row].walk;
        faults::count(tally, Walker::Table, (place, depth), tree, at);
    }
}
