//! Walks of trees whose nodes say to which connector they belong, beside tables that change from call
//! to call: nodes of unowned connectors are left out. Each is made at a table and, with the same
//! table to read, on a lone record.

mod cases;
mod edges;
mod random;

use crate::any_tables::any_wanted;
use crate::both::{walk_record, Area, Both, Record};
use crate::rng::Rng;
use crate::tally::{differ, Tally};
use crate::trees::Blocks;
pub use cases::{written, STYLES};
use drc::Reply;
pub use random::{any, crowd, some};

const NAME: &[u8] = b"ibm,my-drc-index";

/// The connector that walks, of partition 1; one of partition 2 that changes hands, and begins as
/// unowned; one that is owned; and an index that no connector has.
const WALKER: u32 = 0x8000_0001;
const OTHER: u32 = 0x8000_0002;
const OWNED: u32 = 0x8000_0003;
const NOBODY: u32 = 0x8000_0004;

/// Both walks: the work area of each, how much of it is lent, and the lone record.
struct Walks {
    both: Both,
    area: Area,
    record: Record,
    lone: Area,
    length: usize,
}

/// A connector's record at the start of a walk.
fn start(index: u32) -> Record {
    [index, 8, 1, 0, 2, 1, 0, 0, 0, 0]
}

impl Walks {
    fn new(rng: &mut Rng, both: Both) -> Walks {
        let (mut area, lone) = (Area::new(rng), Area::new(rng));
        area.put_word(0, WALKER);
        area.put_word(1, 0);
        let mut record = start(WALKER);
        record[9] = any_wanted(rng);
        Walks { both, area, record, lone, length: 4_096 }
    }

    /// One step of both, which give one reply. A second page is lent from the call after a 5 on.
    fn step(&mut self, tally: &mut Tally, tree: &Blocks) -> Reply {
        let before = self.record;
        let lent = (&mut self.lone, self.length);
        let reply = walk_record(tally, &mut self.record, lent, tree.lent(), &self.both);
        let lent = (&mut self.area, self.length);
        let at_table = self.both.configure_connector(tally, 1, lent, tree.lent());
        if reply != at_table {
            differ(&tree_text(tree), "the replies at a record and at a table", &reply, &at_table);
        }
        if reply.status == -1 && self.record != before {
            differ(&tree_text(tree), "a record at a -1", &before, &self.record);
        }
        if reply.status == 5 {
            self.length = 8_192;
        }
        reply
    }

    /// A step, or what happens between two.
    fn follow(&mut self, tally: &mut Tally, tree: &Blocks, sign: u8) -> Reply {
        match sign {
            b'+' => self.both.set_indicator(tally, (2, 9003, OTHER, 1)).into(),
            b'~' => {
                let released = self.both.set_indicator(tally, (2, 9003, OTHER, 0));
                (released | self.both.place(tally, 2, OTHER)).into()
            }
            _ => self.step(tally, tree),
        }
    }

    /// Steps up to the end or a refusal.
    fn finish(&mut self, tally: &mut Tally, tree: &Blocks) {
        while self.step(tally, tree).status > 0 {}
    }
}

fn tree_text(tree: &Blocks) -> String {
    format!("structure {:02x?}\nstrings {:02x?}", tree.structure, tree.strings)
}

/// The table of the cases.
fn desk(rng: &mut Rng, tally: &mut Tally) -> Both {
    let mut both = Both::fresh(rng, tally);
    for (index, partition) in [(WALKER, 1), (OTHER, 2), (OWNED, 1)] {
        both.add_connector(tally, (8, index, partition, 0));
        both.add_resource(tally, 8);
    }
    for (resource, index) in [(1, WALKER), (2, OTHER), (3, OWNED)] {
        both.place(tally, resource, index);
    }
    both.set_indicator(tally, (1, 9003, WALKER, 1));
    both.set_indicator(tally, (1, 9001, WALKER, 1));
    both.set_indicator(tally, (1, 9003, OWNED, 1));
    both
}

/// The replies to a tree, call by call, and what happens between them. The fault is at this place.
fn expect(tally: &mut Tally, mut walks: Walks, (tree, fault): (&Blocks, u32), script: &str) {
    for (at, sign) in script.bytes().enumerate() {
        let (status, fault) = match sign {
            b'+' | b'~' => (0, 0),
            b'x' => (-1, fault),
            _ => (i32::from(sign - b'0'), 0),
        };
        let (right, reply) = (Reply { status, fault }, walks.follow(tally, tree, sign));
        if reply != right {
            let call = format!("place {at} of the replies {script}\n{}", tree_text(tree));
            differ(&call, "what the reply is", &right, &reply);
        }
    }
}

/// Every edge once.
pub fn every(rng: &mut Rng, tally: &mut Tally) {
    cases::every(rng, tally);
    edges::every(rng, tally);
}
