//! What walks that can't go on have met, and the lengths and places at which they stood.

use std::collections::BTreeMap;

/// What is wrong.
#[derive(Clone, Copy, Debug, PartialEq, Eq, PartialOrd, Ord)]
pub enum Fault {
    // no token is looked at: the one thing that is wrong with the blocks or the place, or several
    LongStructure,
    LongStrings,
    OddStructure,
    OddPlace,
    Several,
    // no token is left
    PastEnd,
    NothingLeft,
    // tokens that are none, or can't stand there
    End,
    Unknown,
    TooDeep,
    PropertyFirst,
    EndNodeFirst,
    // begin-nodes
    NodeNameCut,
    NodeNameEmpty,
    NodeNameLong,
    // properties
    LengthCut,
    OffsetCut,
    PropertyNameOutside,
    PropertyNameCut,
    PropertyNameEmpty,
    PropertyNameLong,
    ValueLong,
    ValueCut,
}

const FAULTS: [Fault; 23] = [
    Fault::LongStructure,
    Fault::LongStrings,
    Fault::OddStructure,
    Fault::OddPlace,
    Fault::Several,
    Fault::PastEnd,
    Fault::NothingLeft,
    Fault::End,
    Fault::Unknown,
    Fault::TooDeep,
    Fault::PropertyFirst,
    Fault::EndNodeFirst,
    Fault::NodeNameCut,
    Fault::NodeNameEmpty,
    Fault::NodeNameLong,
    Fault::LengthCut,
    Fault::OffsetCut,
    Fault::PropertyNameOutside,
    Fault::PropertyNameCut,
    Fault::PropertyNameEmpty,
    Fault::PropertyNameLong,
    Fault::ValueLong,
    Fault::ValueCut,
];

/// What the walk did when it met the fault.
#[derive(Clone, Copy, Debug, PartialEq, Eq, PartialOrd, Ord)]
pub enum Stage {
    /// it came to its next token
    Next,
    /// it looked ahead in a node
    Ahead,
    /// it went past a node that is left out
    Inside,
    /// it came to its next token behind such nodes
    Behind,
}

const STAGES: [Stage; 4] = [Stage::Next, Stage::Ahead, Stage::Inside, Stage::Behind];

/// Who walks: a connector of a table, a lone record, and either of them with any words.
#[derive(Clone, Copy, Debug, PartialEq, Eq, PartialOrd, Ord)]
pub enum Walker {
    Table,
    Record,
    AnyTable,
    AnyRecord,
}

const WALKERS: [Walker; 4] = [Walker::Table, Walker::Record, Walker::AnyTable, Walker::AnyRecord];

/// A fault as it is met.
#[derive(Clone, Copy, Debug, PartialEq, Eq, PartialOrd, Ord)]
pub struct Found {
    pub fault: Fault,
    pub stage: Stage,
    /// no-ops stand before it
    pub no_ops: bool,
}

impl Fault {
    /// A token is looked at, or looked for behind no-ops.
    pub fn is_at_token(self) -> bool {
        self > Fault::PastEnd
    }

    fn can_be_met(self, stage: Stage) -> bool {
        match self {
            Fault::TooDeep => matches!(stage, Stage::Next | Stage::Inside),
            // a begin-node ends the looking ahead
            Fault::NodeNameCut | Fault::NodeNameEmpty | Fault::NodeNameLong => {
                stage != Stage::Ahead
            }
            Fault::PropertyFirst | Fault::EndNodeFirst => stage == Stage::Next,
            _ => self.is_at_token() || stage == Stage::Next,
        }
    }
}

/// Every way to meet each fault.
pub fn ways() -> impl Iterator<Item = Found> {
    let faults = FAULTS.into_iter().flat_map(|fault| STAGES.map(|stage| (fault, stage)));
    let met = faults.filter(|(fault, stage)| fault.can_be_met(*stage));
    met.flat_map(|(fault, stage)| {
        let no_ops = if fault.is_at_token() { &[false, true][..] } else { &[false] };
        no_ops.iter().map(move |&no_ops| Found { fault, stage, no_ops })
    })
}

/// Lengths of blocks, and places: from the block's start, and from its end.
#[derive(Clone, Copy, Debug, PartialEq, Eq, PartialOrd, Ord)]
pub enum Width {
    Structure,
    Strings,
    Place,
    FromEnd,
}

/// Where walks must have stood that can't go on.
const WIDTHS: [(Width, &[i64]); 4] = [
    (Width::Structure, &[0, 4, 32_764, 32_768, 32_772]),
    (Width::Strings, &[0, 4_095, 4_096, 4_097]),
    (Width::Place, &[0, 0x7FFF_FFFC, 0x8000_0000, 0xFFFF_FFFC, 0xFFFF_FFFF]),
    (Width::FromEnd, &[-4, 0, 4]),
];

#[derive(Default)]
pub struct Faults {
    found: BTreeMap<(Walker, Found), u64>,
    widths: BTreeMap<(Walker, Width, i64), u64>,
}

impl Faults {
    pub fn found(&mut self, walker: Walker, found: Found) {
        *self.found.entry((walker, found)).or_default() += 1;
    }

    pub fn stood(&mut self, walker: Walker, place: u32, (structure, strings): (usize, usize)) {
        let [place, structure, strings] = [place as i64, structure as i64, strings as i64];
        let lengths = [(Width::Structure, structure), (Width::Strings, strings)];
        let places = [(Width::Place, place), (Width::FromEnd, place - structure)];
        for (width, number) in lengths.into_iter().chain(places) {
            if WIDTHS.iter().any(|(due, numbers)| *due == width && numbers.contains(&number)) {
                *self.widths.entry((walker, width, number)).or_default() += 1;
            }
        }
    }

    /// Prints how often each fault was met; whether in every way and by everyone who walks.
    fn report_found(&self) -> bool {
        for fault in FAULTS {
            print!("faults, {:20}", format!("{fault:?}"));
            for stage in STAGES.into_iter().filter(|stage| fault.can_be_met(*stage)) {
                let is = |found: &Found| found.fault == fault && found.stage == stage;
                let met = self.found.iter().filter(|((_, found), _)| is(found));
                print!(" {stage:?}: {}", met.map(|(_, count)| count).sum::<u64>());
            }
            println!();
        }
        let due = WALKERS.into_iter().flat_map(|walker| ways().map(move |found| (walker, found)));
        let missing: Vec<_> = due.filter(|due| !self.found.contains_key(due)).collect();
        missing.iter().for_each(|(walker, found)| println!("not met by {walker:?}: {found:?}"));
        missing.is_empty()
    }

    /// Prints at which lengths and places walks stood; whether at all that are due.
    fn report_widths(&self) -> bool {
        let mut complete = true;
        for (width, numbers) in WIDTHS {
            print!("faults, {:20}", format!("{width:?}"));
            for &number in numbers {
                let count = |walker| self.widths.get(&(walker, width, number)).copied();
                let counts =
                    [Walker::Table, Walker::Record].map(|walker| count(walker).unwrap_or(0));
                print!(" {number}: {}", counts[0] + counts[1]);
                complete &= !counts.contains(&0);
            }
            println!();
        }
        complete
    }

    pub fn report(&self) -> bool {
        self.report_found() & self.report_widths()
    }
}
