//! What a walk has met that can't go on, told from the blocks, its place and depth, and where the fault
//! is said to be.

use crate::tally::{Fault, Found, Stage};

const MY_INDEX: &[u8] = b"ibm,my-drc-index\0";
const NESTING: u32 = 8;
const BEGIN_NODE: u32 = 1;
const END_NODE: u32 = 2;
const PROPERTY: u32 = 3;
const NO_OP: u32 = 4;
const END: u32 = 9;

type Tree<'a> = (&'a [u8], &'a [u8]);

fn word(bytes: &[u8], at: usize) -> Option<u32> {
    let four = bytes.get(at..at + 4)?;
    Some(u32::from_be_bytes(four.try_into().unwrap()))
}

/// What is wrong before a token is looked at.
fn refused((structure, strings): Tree, place: u32) -> Option<Fault> {
    let faults = [
        (structure.len() > 32_768, Fault::LongStructure),
        (strings.len() > 4_096, Fault::LongStrings),
        (!structure.len().is_multiple_of(4), Fault::OddStructure),
        (!place.is_multiple_of(4), Fault::OddPlace),
    ];
    let mut wrong = faults.into_iter().filter_map(|(wrong, fault)| wrong.then_some(fault));
    let first = wrong.next()?;
    Some(if wrong.next().is_some() { Fault::Several } else { first })
}

/// The length of the name at the start of the bytes, or that it is cut, empty or too long.
fn name(bytes: &[u8], limit: usize, [cut, empty, long]: [Fault; 3]) -> Result<usize, Fault> {
    match bytes.iter().take(limit + 1).position(|&byte| byte == 0) {
        Some(0) => Err(empty),
        Some(length) => Ok(length),
        None => Err(if bytes.len() > limit { long } else { cut }),
    }
}

fn past_property((structure, strings): Tree, at: usize) -> Result<usize, Fault> {
    let length = word(structure, at + 4).ok_or(Fault::LengthCut)? as usize;
    let offset = word(structure, at + 8).ok_or(Fault::OffsetCut)? as usize;
    let bytes = strings.get(offset..).filter(|bytes| !bytes.is_empty());
    let faults = [Fault::PropertyNameCut, Fault::PropertyNameEmpty, Fault::PropertyNameLong];
    let name = name(bytes.ok_or(Fault::PropertyNameOutside)?, 31, faults)?;
    if 20 + name + 1 + length > 8_192 {
        return Err(Fault::ValueLong);
    }
    let end = at + 12 + length;
    if end > structure.len() {
        return Err(Fault::ValueCut);
    }
    Ok(end.next_multiple_of(4))
}

/// The place past the token at a place, or what is wrong with the token.
fn past(tree: Tree, at: usize) -> Result<usize, Fault> {
    match word(tree.0, at).ok_or(Fault::NothingLeft)? {
        BEGIN_NODE => {
            let faults = [Fault::NodeNameCut, Fault::NodeNameEmpty, Fault::NodeNameLong];
            let name = name(&tree.0[at + 4..], 47, faults)?;
            Ok((at + 4 + name + 1).next_multiple_of(4))
        }
        END_NODE => Ok(at + 4),
        PROPERTY => past_property(tree, at),
        END => Err(Fault::End),
        _ => Err(Fault::Unknown),
    }
}

/// The property at a place, which is sound, says to which connector its node belongs.
fn decides((structure, strings): Tree, at: usize) -> bool {
    let offset = word(structure, at + 8).unwrap() as usize;
    word(structure, at + 4) == Some(4) && strings[offset..].starts_with(MY_INDEX)
}

/// A step of a walk, which goes past tokens that get no reply.
struct Step<'a> {
    tree: Tree<'a>,
    depth: u32,
    /// the nodes that are open
    open: u32,
    /// a node that is open here alone is being looked at
    ahead: bool,
    behind: bool,
}

impl Step<'_> {
    fn stage(&self) -> Stage {
        match (self.open > self.depth, self.ahead) {
            (true, true) => Stage::Ahead,
            (true, false) => Stage::Inside,
            (false, _) if self.behind => Stage::Behind,
            (false, _) => Stage::Next,
        }
    }

    /// Goes past a token that has no fault, if a step does; where it ends.
    fn go_past(&mut self, at: usize) -> Option<usize> {
        let end = past(self.tree, at).ok()?;
        match (word(self.tree.0, at)?, self.stage()) {
            (BEGIN_NODE, Stage::Next | Stage::Behind) if (1..NESTING).contains(&self.depth) => {
                (self.open, self.ahead) = (self.open + 1, true);
            }
            (PROPERTY, Stage::Ahead) => self.ahead = !decides(self.tree, at),
            (BEGIN_NODE, Stage::Inside) if self.open < NESTING => self.open += 1,
            (PROPERTY, Stage::Inside) => {}
            (END_NODE, Stage::Inside) => (self.open, self.behind) = (self.open - 1, true),
            _ => return None,
        }
        Some(end)
    }

    /// What is wrong with the token at a place.
    fn fault(&self, at: usize) -> Option<Fault> {
        let fault = past(self.tree, at).err();
        match (word(self.tree.0, at), self.stage()) {
            (Some(BEGIN_NODE), Stage::Ahead) => None,
            (Some(BEGIN_NODE), _) if self.open >= NESTING => fault.or(Some(Fault::TooDeep)),
            (Some(END_NODE), _) if self.open == 0 => Some(Fault::EndNodeFirst),
            (Some(PROPERTY), _) if self.open == 0 => fault.or(Some(Fault::PropertyFirst)),
            _ => fault,
        }
    }
}

fn past_no_ops(structure: &[u8], mut at: usize) -> usize {
    while word(structure, at) == Some(NO_OP) {
        at += 4;
    }
    at
}

/// None if nothing is at fault there, or if a step does not come there.
pub fn found((place, depth): (u32, u32), tree: Tree, at: u32) -> Option<Found> {
    let (structure, at) = (tree.0, at as usize);
    if let Some(fault) = refused(tree, place) {
        return (at == 0).then_some(Found { fault, stage: Stage::Next, no_ops: false });
    }
    if place as usize > structure.len() {
        let found = Found { fault: Fault::PastEnd, stage: Stage::Next, no_ops: false };
        return (at == structure.len()).then_some(found);
    }
    let mut step = Step { tree, depth, open: depth, ahead: false, behind: false };
    let mut end = place as usize;
    loop {
        let token = past_no_ops(structure, end);
        if token == at {
            let (fault, stage) = (step.fault(at)?, step.stage());
            return Some(Found { fault, stage, no_ops: token > end });
        }
        end = step.go_past(token)?;
    }
}
