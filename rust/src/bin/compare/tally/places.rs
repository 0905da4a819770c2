//! The rows, lines of the ledger and counts at which calls were made.

use crate::full::{COUNTS, PLACES};
use drc::{CONNECTORS, PARTITIONS, RESOURCES};
use std::collections::BTreeMap;

/// What a call met at a row, a line or a number.
#[derive(Clone, Copy, Debug, PartialEq, Eq, PartialOrd, Ord)]
pub enum Met {
    // in tables that calls have led to, the row or the line
    Added,
    Numbered,
    Found,
    LowestFree,
    // the same in full ones, where a call was accepted
    Placed,
    PlacedLine,
    Retracted,
    WantedBack,
    Ordered,
    Walked,
    // there, the refusal of a new connector or resource, without its sign
    ConnectorRefused,
    ResourceRefused,
    // a new connector's partition
    Partition,
    // in tables made by hand, the row where an index stands alone, first or second of two, or past
    // the count
    Alone,
    First,
    Second,
    PastCount,
    // the count of connectors
    RowsCounted,
    // the line of the only free resource, of the lower of two, or of one past the count
    OnlyFree,
    LowerFree,
    FreePastCount,
    // the count of resources
    LinesCounted,
}

/// Where each sort of meeting must have been.
fn due() -> Vec<(Met, Vec<usize>)> {
    let places = || PLACES.to_vec();
    let counts = || COUNTS.iter().map(|&count| count as usize).collect::<Vec<_>>();
    // the last of two is not the first place, the lower of two not the last one
    let (lower, upper) = (PLACES[..PLACES.len() - 1].to_vec(), PLACES[1..].to_vec());
    vec![
        (Met::Added, (0..CONNECTORS).collect()),
        (Met::Numbered, (0..RESOURCES).collect()),
        (Met::Found, places()),
        (Met::LowestFree, places()),
        (Met::Placed, places()),
        (Met::PlacedLine, places()),
        (Met::Retracted, places()),
        (Met::WantedBack, places()),
        (Met::Ordered, places()),
        (Met::Walked, places()),
        (Met::ConnectorRefused, vec![11, 12, 13, 14, 15]),
        (Met::ResourceRefused, vec![11, 15]),
        (Met::Partition, (1..=PARTITIONS as usize).collect()),
        (Met::Alone, places()),
        (Met::First, lower.clone()),
        (Met::Second, upper),
        (Met::PastCount, places()),
        (Met::RowsCounted, counts()),
        (Met::OnlyFree, places()),
        (Met::LowerFree, lower),
        (Met::FreePastCount, places()),
        (Met::LinesCounted, counts()),
    ]
}

#[derive(Default)]
pub struct Places(BTreeMap<(Met, usize), u64>);

impl Places {
    pub fn met(&mut self, met: Met, place: usize) {
        *self.0.entry((met, place)).or_default() += 1;
    }

    /// Prints at how many of the places that are due each was met; whether at all.
    pub fn report(&self) -> bool {
        let mut complete = true;
        for (met, places) in due() {
            let count = |place: &usize| self.0.get(&(met, *place)).copied().unwrap_or(0);
            let calls: u64 = places.iter().map(count).sum();
            let missing: Vec<_> = places.iter().filter(|place| count(place) == 0).collect();
            print!("rows and lines, {:18}", format!("{met:?}"));
            println!(" places: {} calls: {calls}", places.len() - missing.len());
            if !missing.is_empty() {
                println!("not met at {missing:?}");
                complete = false;
            }
        }
        complete
    }
}
