//! Records and tables of any words, whose walk meets a fault in each way.

use super::found;
use super::made::{case, Case, OTHER};
use crate::any_tables::{any_wanted, any_words, row_cells};
use crate::both::{walk_record, Area, Both, Record};
use crate::rng::Rng;
use crate::tally::{differ, ways, Found, Tally, Walker};
use drc::{Reply, CONNECTORS};

/// The connector that walks. No other row has its index or the other's.
const WALKER: u32 = 0x8000_0777;

/// A table of any words, and the walker's row.
struct Desk {
    both: Both,
    row: usize,
    area: Area,
}

impl Desk {
    fn new(rng: &mut Rng) -> Desk {
        let mut both = Both::any_words(any_words(rng));
        let count = rng.pick(&[2, 17, 64, 1_023, 1_024, 5_000]);
        let used = count.min(CONNECTORS);
        let row = rng.below(used);
        let other = (row + rng.between(1, used - 1)) % used;
        // none of these states is one
        let state = rng.pick(&[0, 4, 0x100, 0x102, 1 << 31 | 1, u32::MAX]);
        let cells = row_cells(other, any_record(rng, OTHER, state));
        both.put(cells.chain([(0, count as u32)]));
        let mut area = Area::new(rng);
        area.put_word(0, WALKER);
        area.put_word(1, 0);
        Desk { both, row, area }
    }

    /// One step at a record beside the table, and one at the table.
    fn meet(&mut self, rng: &mut Rng, tally: &mut Tally, plan: Found) {
        let case = case(rng, plan);
        let (page, length) = rng.pick(&PAGES);
        let index = rng.word();
        let mut record = any_record(rng, index, 2);
        (record[6], record[7], record[8]) = (case.place, case.depth, page);
        let lent = (&mut self.area, length);
        let reply = walk_record(tally, &mut record, lent, case.tree.lent(), &self.both);
        expect(tally, Walker::AnyRecord, &case, plan, reply);
        record[0] = WALKER;
        self.both.put(row_cells(self.row, record));
        let lent = (&mut self.area, length);
        let reply = self.both.configure_connector(tally, record[2], lent, case.tree.lent());
        expect(tally, Walker::AnyTable, &case, plan, reply);
    }
}

/// A page and how much is lent; a word that is none reads as not asked for.
const PAGES: [(u32, usize); 7] =
    [(0, 4_096), (1, 4_096), (1, 8_192), (2, 8_192), (3, 4_096), (0x101, 4_096), (u32::MAX, 4_096)];

fn any_record(rng: &mut Rng, index: u32, state: u32) -> Record {
    let mut record: Record = std::array::from_fn(|_| rng.word());
    (record[0], record[4], record[9]) = (index, state, any_wanted(rng));
    record
}

/// The fault is where the case has it, and is met as it was planned.
fn expect(tally: &mut Tally, walker: Walker, case: &Case, plan: Found, reply: Reply) {
    let Case { tree, place, depth, at } = case;
    let right = (Reply { status: -1, fault: *at }, Some(plan));
    let is = (reply, found((*place, *depth), tree.lent(), *at));
    if is != right {
        let walk = format!("a walk from place {place} and depth {depth}, {walker:?}");
        let call =
            format!("{walk}\nstructure {:02x?}\nstrings {:02x?}", tree.structure, tree.strings);
        differ(&call, "the fault and how it is met", &right, &is);
    }
    tally.fault(walker, plan);
}

/// Every way a few times.
pub fn every(rng: &mut Rng, tally: &mut Tally) {
    for plan in ways() {
        let mut desk = Desk::new(rng);
        (0..5).for_each(|_| desk.meet(rng, tally, plan));
    }
}

/// Some ways at one table.
pub fn some(rng: &mut Rng, tally: &mut Tally) {
    let ways: Vec<Found> = ways().collect();
    let mut desk = Desk::new(rng);
    for _ in 0..30 {
        let plan = rng.pick(&ways);
        desk.meet(rng, tally, plan);
    }
}
