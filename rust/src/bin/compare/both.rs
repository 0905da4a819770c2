//! A table kept by both sides: each call is made on both, and everything that can be seen is
//! compared.

mod areas;
mod steps;

use crate::library::{self, Words};
use crate::rng::Rng;
use crate::tally::{differ, same, Call, Met, Tally};
use areas::lent;
pub use areas::{Area, Buffers};
use drc::{decode_at, update, write_row, Index, Resource, Table};
use drc::{CONNECTORS, CONNECTOR_WORDS, RESOURCES, TABLE_WORDS};
pub use steps::walk_record;

/// A connector's words.
pub type Record = [u32; CONNECTOR_WORDS];

/// What a word holds that a call may write, and one that none may.
const UNWRITTEN: u32 = 0xDEAD_BEEF;

/// A connector's words, and as many behind them that no call may touch.
fn guarded(record: &Record) -> [u32; 2 * CONNECTOR_WORDS] {
    let mut words = [UNWRITTEN; 2 * CONNECTOR_WORDS];
    words[..CONNECTOR_WORDS].copy_from_slice(record);
    words
}

#[derive(Clone)]
pub struct Both {
    pub table: Table,
    /// the table as the last call left it
    before: Table,
    /// the words that the Rust version gives
    words: Box<Words>,
    library: Box<Words>,
    /// the words are any words, and are read anew where a call changes them
    any: bool,
}

fn given(index: u32) -> Option<Index> {
    (index != 0).then_some(Index(index))
}

/// A table as a person reads it, a connector's words or a resource's line in each line.
fn rows(table: &Table) -> String {
    let mut text = String::from("connectors before, index, kind, partition, parent, state, ");
    text += "resource, place, depth, page, wanted back:\n";
    for connector in table.connectors() {
        text += &format!("  {:x?}\n", connector.to_words());
    }
    text += "resources before:\n";
    for (number, line) in (1..).zip(table.ledger()) {
        text += &format!("  {number}: kind {:x} at {:x?}\n", line.kind, line.at);
    }
    text
}

impl Both {
    pub fn fresh(rng: &mut Rng, tally: &mut Tally) -> Both {
        let mut library = Box::new([rng.word(); TABLE_WORDS]);
        library::fresh(&mut library);
        tally.answer(Call::Fresh, || "fresh".into(), 0, 0);
        let words = Box::new([0; TABLE_WORDS]);
        same("the words of a fresh table", || "fresh".into(), &words[..], &library[..]);
        Both { table: Table::new(), before: Table::new(), words, library, any: false }
    }

    pub fn any_words(words: Box<Words>) -> Both {
        let (table, before) = (Table::new(), Table::new());
        let mut both = Both { table, before, library: words.clone(), words, any: true };
        both.settle([0]);
        both
    }

    /// The words of the table.
    pub fn words(&self) -> &Words {
        &self.words
    }

    /// Puts any words in these places of the table, which is one of any words then.
    pub fn put(&mut self, cells: impl IntoIterator<Item = (usize, u32)>) {
        self.any = true;
        let places: Vec<usize> =
            cells.into_iter().map(|(at, word)| self.put_word(at, word)).collect();
        self.settle(places);
    }

    fn put_word(&mut self, at: usize, word: u32) -> usize {
        self.words[at] = word;
        self.library[at] = word;
        at
    }

    /// The table is as the next call finds it, where the words at these places have changed.
    fn settle(&mut self, places: impl IntoIterator<Item = usize>) {
        if self.any {
            places.into_iter().for_each(|at| decode_at(&self.words, &mut self.table, at));
        }
        self.before.clone_from(&self.table);
    }

    /// Calls have led to the table, and filled it to its last row and line.
    fn is_full(&self) -> bool {
        let filled = (self.table.connectors().len(), self.table.ledger().len());
        !self.any && filled == (CONNECTORS, RESOURCES)
    }

    /// Counts an accepted call at a connector of a full table.
    fn accepted(&self, tally: &mut Tally, met: Met, index: u32, status: i32) {
        if status >= 0 && self.is_full() {
            tally.met(met, self.table.row_of(Index(index)) as usize);
        }
    }

    /// What comes of a call that may change the table.
    fn finish(
        &mut self,
        tally: &mut Tally,
        kind: Call,
        call: impl Fn() -> String,
        rust: i32,
        library: i32,
    ) -> i32 {
        let changed = update(&mut self.words, &self.before, &self.table);
        self.compare(tally, kind, call, rust, library);
        if !changed.is_empty() {
            self.settle(changed);
        }
        rust
    }

    /// All words are those that the Rust version gives.
    fn same_words(&self, what: &str, call: impl Fn() -> String) {
        same(what, call, &self.words[..], &self.library[..]);
    }

    /// A call, and the table before it.
    fn described<'a>(&'a self, call: impl Fn() -> String + 'a) -> impl Fn() -> String + 'a {
        move || format!("{}\n{}", call(), rows(&self.before))
    }

    /// The answers, and the words of the table.
    fn compare(
        &self,
        tally: &mut Tally,
        kind: Call,
        call: impl Fn() -> String,
        rust: i32,
        library: i32,
    ) {
        let described = self.described(call);
        tally.answer(kind, &described, rust.into(), library.into());
        self.same_words("the words of the table", described);
    }

    pub fn add_connector(
        &mut self,
        tally: &mut Tally,
        (kind, index, partition, parent): (u32, u32, u32, u32),
    ) -> i32 {
        let rust = self.table.add_connector(kind, Index(index), partition, given(parent));
        let library = library::add_connector(&mut self.library, kind, index, partition, parent);
        let call =
            || format!("add_connector {kind} {index:#x} partition {partition} parent {parent:#x}");
        let row = self.before.connectors().len();
        if rust == 0 && !self.any {
            tally.met(Met::Added, row);
            tally.met(Met::Partition, partition as usize);
        } else if self.is_full() {
            tally.met(Met::ConnectorRefused, -rust as usize);
        }
        self.finish(tally, Call::AddConnector, call, rust, library)
    }

    pub fn add_resource(&mut self, tally: &mut Tally, kind: u32) -> i32 {
        let call = || format!("add_resource kind {kind}");
        let (rust, number) = match self.table.add_resource(kind) {
            Ok(resource) => (0, resource.0),
            Err(refusal) => (refusal, 0),
        };
        let mut given = UNWRITTEN;
        let library = library::add_resource(&mut self.library, kind, &mut given);
        if given != number {
            differ(&call(), "the number", &number, &given);
        }
        if rust == 0 && !self.any {
            tally.met(Met::Numbered, number as usize - 1);
        } else if self.is_full() {
            tally.met(Met::ResourceRefused, -rust as usize);
        }
        self.finish(tally, Call::AddResource, call, rust, library)
    }

    pub fn place(&mut self, tally: &mut Tally, resource: u32, index: u32) -> i32 {
        let rust = self.table.place(Resource(resource), Index(index));
        let library = library::place(&mut self.library, resource, index);
        let call = || format!("place resource {resource} index {index:#x}");
        if rust == 0 && self.is_full() {
            tally.met(Met::PlacedLine, resource as usize - 1);
        }
        self.accepted(tally, Met::Placed, index, rust);
        self.finish(tally, Call::Place, call, rust, library)
    }

    pub fn retract(&mut self, tally: &mut Tally, index: u32) -> i32 {
        let rust = self.table.retract(Index(index));
        let library = library::retract(&mut self.library, index);
        let call = || format!("retract index {index:#x}");
        self.accepted(tally, Met::Retracted, index, rust);
        self.finish(tally, Call::Retract, call, rust, library)
    }

    /// The row is written also where the connector is wanted back already.
    pub fn want_back(&mut self, tally: &mut Tally, index: u32) -> i32 {
        let rust = self.table.want_back(Index(index));
        if rust == 0 {
            write_row(&mut self.words, &self.table, Index(index));
        }
        let library = library::want_back(&mut self.library, index);
        let call = || format!("want_back index {index:#x}");
        self.accepted(tally, Met::WantedBack, index, rust);
        self.finish(tally, Call::WantBack, call, rust, library)
    }

    /// How many are free, and the lowest of them or 0.
    pub fn pool(&self, tally: &mut Tally, kind: u32) -> (u32, u32) {
        let call = || format!("pool kind {kind}");
        let count = self.table.free_count(kind);
        let library = library::free_count(&self.library, kind);
        self.compare(tally, Call::FreeCount, call, count as i32, library as i32);
        let lowest = self.table.free_lowest(kind).map_or(0, |resource| resource.0);
        let library = library::free_lowest(&self.library, kind);
        self.compare(tally, Call::FreeLowest, call, lowest as i32, library as i32);
        if lowest > 0 && !self.any {
            tally.met(Met::LowestFree, lowest as usize - 1);
        }
        (count, lowest)
    }

    pub fn set_indicator(
        &mut self,
        tally: &mut Tally,
        (partition, token, index, value): (u32, u32, u32, u32),
    ) -> i32 {
        let rust = self.table.set_indicator(partition, token, Index(index), value);
        let library = library::set_indicator(&mut self.library, partition, token, index, value);
        let call = || {
            format!(
                "set_indicator partition {partition} token {token} index {index:#x} value {value}"
            )
        };
        self.accepted(tally, Met::Ordered, index, rust);
        self.finish(tally, Call::SetIndicator, call, rust, library)
    }

    /// The status and the value.
    pub fn get_sensor(
        &self,
        tally: &mut Tally,
        partition: u32,
        token: u32,
        index: u32,
    ) -> (i32, u32) {
        let call = || format!("get_sensor partition {partition} token {token} index {index:#x}");
        let (rust, value) = self.table.get_sensor(partition, token, Index(index));
        let mut given = UNWRITTEN;
        let library = library::get_sensor(&self.library, partition, token, index, &mut given);
        if given != value {
            differ(&call(), "the value", &value, &given);
        }
        self.compare(tally, Call::GetSensor, call, rust, library);
        (rust, value)
    }

    pub fn catalogue(&self, tally: &mut Tally, row: u32, number: u32) {
        let call = || format!("connector_at {row} resource_at {number}");
        let mut out = guarded(&[UNWRITTEN; CONNECTOR_WORDS]);
        let rust = match self.table.connectors().get(row as usize) {
            Some(connector) => (0, guarded(&connector.to_words())),
            None => (-16, out),
        };
        let (ten, _) = out.split_first_chunk_mut().unwrap();
        let library = library::connector_at(&self.library, row, ten);
        same("connector_at", call, &rust.1, &out);
        self.compare(tally, Call::ConnectorAt, call, rust.0, library);
        let mut out = [UNWRITTEN; 2];
        let library = library::resource_at(&self.library, number, &mut out);
        let rust = match self.table.ledger().get((number as usize).wrapping_sub(1)) {
            Some(line) => (0, [line.kind, line.at.map_or(0, |at| at.0)]),
            None => (-17, [UNWRITTEN; 2]),
        };
        same("resource_at", call, &rust.1, &out);
        self.compare(tally, Call::ResourceAt, call, rust.0, library);
    }

    /// Arrays into buffers with this room. Their lengths, or none where both refuse.
    pub fn write_properties(
        &self,
        rng: &mut Rng,
        tally: &mut Tally,
        partition: u32,
        (buffers, room): (&mut Buffers, [usize; 4]),
    ) -> Option<[usize; 4]> {
        buffers.fill(rng);
        let call = || format!("write_properties partition {partition} room {room:?}");
        let unwritten = [rng.word(); 4];
        let (rust, lengths) =
            match self.table.write_properties(partition, lent(&mut buffers.rust, room)) {
                Ok(lengths) => (0, lengths),
                Err(refusal) => (refusal, unwritten),
            };
        let mut given = unwritten;
        let arrays = lent(&mut buffers.library, room);
        let library = library::write_properties(&self.library, partition, arrays, &mut given);
        self.compare(tally, Call::WriteProperties, call, rust, library);
        let described = || format!("{}\n{}", call(), rows(&self.before));
        same("the lengths", described, &lengths, &given);
        for (rust, library) in buffers.rust.iter().zip(&buffers.library) {
            same("an array's buffer", described, rust, library);
        }
        (rust == 0).then_some(lengths.map(|length| length as usize))
    }

    pub fn find(&self, tally: &mut Tally, index: u32) -> i32 {
        let rust = self.table.row_of(Index(index));
        let library = library::find(&self.library, index);
        self.compare(tally, Call::Find, || format!("find {index:#x}"), rust, library);
        if rust >= 0 && !self.any {
            tally.met(Met::Found, rust as usize);
        }
        rust
    }
}
