//! The calls made, by kind of call and answer, and the report of a difference.

mod faults;
mod lists;
mod places;

use faults::Faults;
pub use faults::{ways, Fault, Found, Stage, Walker};
pub use lists::ListEdge;
use lists::Lists;
pub use places::Met;
use places::Places;
use std::collections::BTreeMap;
use std::fmt::Debug;

#[derive(Clone, Copy, Debug, PartialEq, Eq, PartialOrd, Ord)]
pub enum Call {
    AddConnector,
    AddResource,
    Place,
    Retract,
    WantBack,
    FreeCount,
    FreeLowest,
    SetIndicator,
    GetSensor,
    ConfigureConnector,
    ConfigureConnectorAt,
    WalkRecord,
    WalkRecordAt,
    ConnectorAt,
    ResourceAt,
    Find,
    CheckTree,
    CompareTrees,
    ReadReply,
    WriteProperties,
    ReadProperties,
    WriteLegacyEvent,
    WriteModernEvent,
    ReadLegacyEvent,
    ReadModernEvent,
    UpdateNodes,
    ReadUpdates,
    MemoryToV2,
    MemoryToV1,
    Fresh,
    ReaderFresh,
}

/// Every answer that a call can give. Numbers of the pool and rows (zero, or more) are two answers here.
const ANSWERS: &[(Call, &[i64])] = &[
    (Call::AddConnector, &[0, -11, -12, -13, -14, -15]),
    (Call::AddResource, &[0, -11, -15]),
    (Call::Place, &[0, -16, -17, -18, -19, -20]),
    (Call::Retract, &[0, -16, -21, -22]),
    (Call::WantBack, &[0, -16, -21]),
    (Call::FreeCount, &[0, 1]),
    (Call::FreeLowest, &[0, 1]),
    (Call::SetIndicator, &[0, -3, -9000]),
    (Call::GetSensor, &[0, -3]),
    (Call::ConfigureConnector, &[0, 2, 3, 4, 5, -1, -3, -9003]),
    (Call::ConfigureConnectorAt, &[0, 2, 3, 4, 5, -1, -3, -9003]),
    (Call::WalkRecord, &[0, 2, 3, 4, 5, -1, -3, -9003]),
    (Call::WalkRecordAt, &[0, 2, 3, 4, 5, -1, -3, -9003]),
    (Call::ConnectorAt, &[0, -16]),
    (Call::ResourceAt, &[0, -17]),
    (Call::Find, &[0, 1, -16]),
    (Call::CheckTree, &[0, 1]),
    (Call::CompareTrees, &[0, 1, -33]),
    (Call::ReadReply, &[0, 1, 2, -31, -32]),
    (Call::WriteProperties, &[0, -32]),
    (Call::ReadProperties, &[0, -41, -42, -43, -44, -45, -46]),
    (Call::WriteLegacyEvent, &[0, -41, -42, -45, -46, -47, -50]),
    (Call::WriteModernEvent, &[0, -42, -45, -46, -47, -48, -49, -50]),
    (Call::ReadLegacyEvent, &[0, -41, -42, -43, -44, -45, -46, -47, -50]),
    (Call::ReadModernEvent, &[0, -42, -43, -44, -45, -46, -47, -48, -49, -50]),
    (Call::UpdateNodes, &[0, 1, -3]),
    (Call::ReadUpdates, &[0, -41, -42, -43, -44, -45, -46]),
    (Call::MemoryToV2, &[0, -41, -42, -43, -44, -47]),
    (Call::MemoryToV1, &[0, -41, -42, -43, -45, -46, -47]),
    (Call::Fresh, &[0]),
    (Call::ReaderFresh, &[0]),
];

/// What two names of a list, or of two lists, can have in common, and where the list stands.
#[derive(Clone, Copy, Debug, PartialEq, Eq, PartialOrd, Ord)]
pub enum Edge {
    SameOffset,
    SecondCopy,
    EndOfLonger,
    SameChild,
    RootsProperties,
    DeepProperties,
    RootsChildren,
    DeepChildren,
    FirstAndLast,
    ListOf(usize),
    OneByte,
    LastByte,
    Beginning,
    Ending,
    Unit,
    OtherNode,
    ChildAndProperty,
    Any,
}

/// Edges at which trees pass the check and others are refused.
const EDGES: [Edge; 23] = [
    Edge::SameOffset,
    Edge::SecondCopy,
    Edge::EndOfLonger,
    Edge::SameChild,
    Edge::RootsProperties,
    Edge::DeepProperties,
    Edge::RootsChildren,
    Edge::DeepChildren,
    Edge::FirstAndLast,
    Edge::ListOf(2),
    Edge::ListOf(3),
    Edge::ListOf(63),
    Edge::ListOf(64),
    Edge::ListOf(65),
    Edge::ListOf(66),
    Edge::ListOf(200),
    Edge::ListOf(2_729),
    Edge::OneByte,
    Edge::LastByte,
    Edge::Unit,
    Edge::OtherNode,
    Edge::ChildAndProperty,
    Edge::Any,
];
/// Edges at which all pass.
const PASSING_EDGES: [Edge; 3] = [Edge::ListOf(1), Edge::Beginning, Edge::Ending];

/// What came of a walk whose tree says which nodes belong to connectors.
#[derive(Clone, Copy, Debug, PartialEq, Eq, PartialOrd, Ord)]
pub enum Walked {
    /// every node was sent
    Whole,
    /// some were left out
    InPart,
    /// a damaged tree, and the walk can't go on
    Stopped,
}

const WALKED: [Walked; 3] = [Walked::Whole, Walked::InPart, Walked::Stopped];

/// What came of a call on two tables that differ in the words for wanted back alone.
#[derive(Clone, Copy, Debug, PartialEq, Eq, PartialOrd, Ord)]
pub enum Paired {
    Alike,
    /// the connector is wanted back in one of them, and its usable is refused there
    RefusedInOne,
}

const PAIRED: [Paired; 2] = [Paired::Alike, Paired::RefusedInOne];

/// What is known where a difference shows.
pub fn differ(call: &str, what: &str, rust: &dyn Debug, library: &dyn Debug) -> ! {
    println!("DIFFERENCE in {what}");
    println!("call:    {call}");
    println!("rust:    {rust:?}");
    println!("library: {library:?}");
    std::process::exit(1);
}

/// The first place where two runs of bytes or words differ.
pub fn same<T: PartialEq + Debug>(
    what: &str,
    call: impl Fn() -> String,
    rust: &[T],
    library: &[T],
) {
    if rust == library {
        return;
    }
    let at = rust.iter().zip(library).position(|(a, b)| a != b).unwrap_or(0);
    let end = (at + 16).min(rust.len());
    let what = format!("{what}, from place {at}");
    differ(&call(), &what, &&rust[at..end], &&library[at..end]);
}

#[derive(Default)]
pub struct Tally {
    counts: BTreeMap<(Call, i64), u64>,
    edges: BTreeMap<(Edge, bool), u64>,
    walked: BTreeMap<Walked, u64>,
    paired: BTreeMap<Paired, u64>,
    places: Places,
    faults: Faults,
    lists: Lists,
    calls: u64,
}

impl Tally {
    /// Counts a call on which both sides give this answer.
    pub fn answer(&mut self, kind: Call, call: impl Fn() -> String, rust: i64, library: i64) {
        if rust != library {
            differ(&call(), "the answer", &rust, &library);
        }
        let answer = match kind {
            Call::FreeCount | Call::FreeLowest | Call::Find => rust.min(1),
            _ => rust,
        };
        *self.counts.entry((kind, answer)).or_default() += 1;
        self.calls += 1;
    }

    /// Counts a tree at an edge of names, and what the check says of it.
    pub fn edge(&mut self, edge: Edge, passes: bool) {
        *self.edges.entry((edge, passes)).or_default() += 1;
    }

    /// Counts a walk that leaves nodes out, or could.
    pub fn walked(&mut self, walked: Walked) {
        *self.walked.entry(walked).or_default() += 1;
    }

    /// Counts a call on two tables that differ in the words for wanted back alone.
    pub fn paired(&mut self, paired: Paired) {
        *self.paired.entry(paired).or_default() += 1;
    }

    /// Counts what a call met at a row, a line or a number.
    pub fn met(&mut self, met: Met, place: usize) {
        self.places.met(met, place);
    }

    /// Counts a fault that a walk has met.
    pub fn fault(&mut self, walker: Walker, found: Found) {
        self.faults.found(walker, found);
    }

    /// Counts where a walk stood that can't go on, and the lengths of its blocks.
    pub fn stood(&mut self, walker: Walker, place: u32, lengths: (usize, usize)) {
        self.faults.stood(walker, place, lengths);
    }

    /// Counts what is wrong with a call on a memory list: the refusals in their order, each with the
    /// entry that shows it.
    pub fn together(&mut self, call: Call, faults: &[(i32, usize)]) {
        self.lists.together(call, faults);
    }

    /// Counts what stands in a memory list.
    pub fn list_edge(&mut self, edge: ListEdge) {
        self.lists.edge(edge);
    }

    /// Prints the calls on such tables; whether each sort occurred.
    fn report_paired(&self) -> bool {
        print!("calls on two tables that differ in what is wanted back:");
        for paired in PAIRED {
            print!(" {paired:?} {}", self.paired.get(&paired).copied().unwrap_or(0));
        }
        println!();
        PAIRED.iter().all(|paired| self.paired.contains_key(paired))
    }

    /// Prints the walks that leave nodes out, or could; whether each sort occurred.
    fn report_walked(&self) -> bool {
        print!("walks of nodes that belong to connectors:");
        for walked in WALKED {
            print!(" {walked:?} {}", self.walked.get(&walked).copied().unwrap_or(0));
        }
        println!();
        WALKED.iter().all(|walked| self.walked.contains_key(walked))
    }

    /// Prints the trees at the edges of names; whether each edge has its answers.
    fn report_edges(&self) -> bool {
        let mut complete = true;
        for edge in EDGES.into_iter().chain(PASSING_EDGES) {
            let [passed, refused] =
                [true, false].map(|passes| self.edges.get(&(edge, passes)).copied().unwrap_or(0));
            println!("names, {:20} pass: {passed} refused: {refused}", format!("{edge:?}"));
            complete &= passed > 0 && (refused > 0) == EDGES.contains(&edge);
        }
        complete
    }

    /// Prints the counts; whether every answer occurred.
    pub fn report(&self) -> bool {
        let mut complete = self.report_edges() & self.report_walked() & self.report_paired();
        complete &= self.places.report() & self.faults.report() & self.lists.report();
        for &(kind, answers) in ANSWERS {
            print!("{:20}", format!("{kind:?}"));
            for &answer in answers {
                let count = self.counts.get(&(kind, answer)).copied().unwrap_or(0);
                print!(" {answer}: {count}");
                complete &= count > 0;
            }
            println!();
        }
        let known = |(kind, answer): &(Call, i64)| {
            ANSWERS.iter().any(|(k, answers)| k == kind && answers.contains(answer))
        };
        for key in self.counts.keys().filter(|key| !known(key)) {
            println!("an answer that no list has: {key:?}");
            complete = false;
        }
        println!("calls in all: {}", self.counts.values().sum::<u64>());
        complete
    }
}
