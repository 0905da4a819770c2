//! What was met in memory lists: two faults in one call, and what can stand at an edge.

use super::{Call, ANSWERS};
use std::cmp::Ordering;
use std::collections::BTreeMap;

#[derive(Clone, Copy, Debug, PartialEq, Eq, PartialOrd, Ord)]
pub enum ListEdge {
    // a block of an old list that is accepted, and the next: neighbours, or why they are none, the
    // only reason or several; a sum wraps if the next block is where it would be without its carry
    Neighbours,
    OtherAddress,
    OtherIndex,
    OtherAssociativity,
    OtherFlags,
    AddressWraps,
    IndexWraps,
    Several,
    // a set of a new list that is accepted, of more blocks than one: no block more would fit
    LastAddress,
    LastIndex,
    // the first set that is refused for a block too far, and the only reason: the index, the
    // address, the address because the others alone leave 64 bits
    IndexTooFar,
    AddressTooFar,
    OthersTooFar,
    // accepted lists of 1,024 blocks, and of none
    MostToV2,
    MostToV1,
    NoneToV2,
    NoneToV1,
}

const EDGES: [ListEdge; 17] = [
    ListEdge::Neighbours,
    ListEdge::OtherAddress,
    ListEdge::OtherIndex,
    ListEdge::OtherAssociativity,
    ListEdge::OtherFlags,
    ListEdge::AddressWraps,
    ListEdge::IndexWraps,
    ListEdge::Several,
    ListEdge::LastAddress,
    ListEdge::LastIndex,
    ListEdge::IndexTooFar,
    ListEdge::AddressTooFar,
    ListEdge::OthersTooFar,
    ListEdge::MostToV2,
    ListEdge::MostToV1,
    ListEdge::NoneToV2,
    ListEdge::NoneToV1,
];

/// In which order the entries stand that show two faults, where entries show them: the sum passes
/// the limit, a set has no blocks, a block is too far.
fn orders(call: Call, first: i32, other: i32) -> &'static [Ordering] {
    match (call, first, other) {
        (Call::MemoryToV1, -43, -45) | (Call::MemoryToV1, -45, -46) => {
            &[Ordering::Less, Ordering::Greater]
        }
        (Call::MemoryToV1, -43, -46) => &[Ordering::Less, Ordering::Equal, Ordering::Greater],
        _ => &[],
    }
}

#[derive(Default)]
pub struct Lists {
    together: BTreeMap<(Call, i32, i32, Ordering), u64>,
    edges: BTreeMap<ListEdge, u64>,
}

impl Lists {
    pub fn together(&mut self, call: Call, faults: &[(i32, usize)]) {
        let Some(((first, entry), others)) = faults.split_first() else { return };
        for (other, place) in others {
            let key = (call, *first, *other, entry.cmp(place));
            *self.together.entry(key).or_default() += 1;
        }
    }

    pub fn edge(&mut self, edge: ListEdge) {
        *self.edges.entry(edge).or_default() += 1;
    }

    /// Prints how often each refusal came before each other one that was due too; whether all did,
    /// with their entries in every order.
    fn report_together(&self) -> bool {
        let mut complete = true;
        for &(call, answers) in ANSWERS {
            if !matches!(call, Call::MemoryToV2 | Call::MemoryToV1) {
                continue;
            }
            let refusals: Vec<i32> = answers[1..].iter().map(|&answer| answer as i32).collect();
            for place in 1..refusals.len() {
                let (first, others) = (refusals[place - 1], &refusals[place..]);
                print!("together, {call:?} {first} before");
                for &other in others {
                    let count = |order| self.together.get(&(call, first, other, order)).copied();
                    let all = [Ordering::Less, Ordering::Equal, Ordering::Greater].map(count);
                    let due = orders(call, first, other);
                    print!(" {other}: {}", all.into_iter().flatten().sum::<u64>());
                    complete &= all != [None; 3] && due.iter().all(|&order| count(order).is_some());
                }
                println!();
            }
        }
        complete
    }

    /// Prints what stood in lists; whether everything did.
    fn report_edges(&self) -> bool {
        print!("memory lists:");
        for edge in EDGES {
            print!(" {edge:?} {}", self.edges.get(&edge).copied().unwrap_or(0));
        }
        println!();
        EDGES.iter().all(|edge| self.edges.contains_key(edge))
    }

    pub fn report(&self) -> bool {
        self.report_together() & self.report_edges()
    }
}
