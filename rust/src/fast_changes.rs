//! Reports of changed nodes once more, written for speed and with no memory of their own: more
//! yardsticks for the benchmarks, held to the library as the first version is. Changes are counted
//! block by block, so that those of a kind are gone over only from where a report goes on.

use crate::node_changes::{CHANGES, CHANGE_WORDS, HEADER, MIGRATION, ROOM};
use crate::{status, PAGE};

type Change = [u32; CHANGE_WORDS];
type Word = [u8; 4];

const ADD: u32 = 3;
const KINDS: usize = 3;
const BLOCK: usize = 64;

/// How many changes of each kind each block has.
type Counts = [[u32; KINDS]; CHANGES / BLOCK];

/// None if some change is of another kind.
fn count(list: &[Change]) -> Option<Counts> {
    let mut counts = [[0; KINDS]; CHANGES / BLOCK];
    for (counts, block) in counts.iter_mut().zip(list.chunks(BLOCK)) {
        let (mut deletes, mut updates, mut adds) = (0, 0, 0);
        for &[kind, ..] in block {
            deletes += u32::from(kind == 1);
            updates += u32::from(kind == 2);
            adds += u32::from(kind == ADD);
        }
        if deletes + updates + adds != block.len() as u32 {
            return None;
        }
        *counts = [deletes, updates, adds];
    }
    Some(counts)
}

/// The list from past so many changes of a kind on, of which there are more.
fn past<'a>(list: &'a [Change], counts: &Counts, kind: u32, mut over: usize) -> &'a [Change] {
    let mut at = 0;
    for count in counts.iter().map(|counts| counts[kind as usize - 1] as usize) {
        if count > over {
            break;
        }
        over -= count;
        at += BLOCK;
    }
    while over > 0 {
        over -= usize::from(list[at][0] == kind);
        at += 1;
    }
    &list[at..]
}

/// Fills `out` with the operands of changes of a kind, of which there are enough. Every change is
/// written, and the next one over it unless it is of the kind.
fn pack<const OPERANDS: usize>(list: &[Change], kind: u32, out: &mut [Word]) {
    let (out, _) = out.as_chunks_mut::<OPERANDS>();
    let mut at = 0;
    for change in list {
        let Some(place) = out.get_mut(at) else { return };
        *place = std::array::from_fn(|i| change[1 + i].to_be_bytes());
        at += usize::from(change[0] == kind);
    }
}

/// Writes the operation lists and their end, past so many changes. How many are reported then.
fn fill(list: &[Change], counts: &Counts, before: usize, words: &mut [Word]) -> usize {
    let (mut over, mut used, mut reported) = (before, 0, before);
    for kind in 1..=ADD {
        let operands = if kind == ADD { 2 } else { 1 };
        let all = counts.iter().map(|counts| counts[kind as usize - 1] as usize).sum();
        let left = all - over.min(all);
        let now = left.min((ROOM - used).saturating_sub(1) / operands);
        if now > 0 {
            let (operator, out) = words[used..].split_first_mut().unwrap();
            *operator = (kind << 24 | (now * operands) as u32).to_be_bytes();
            let (list, out) = (past(list, counts, kind, over), &mut out[..now * operands]);
            match kind {
                ADD => pack::<2>(list, kind, out),
                _ => pack::<1>(list, kind, out),
            }
            used += 1 + now * operands;
            reported += now;
        }
        if now < left {
            break;
        }
        over -= over.min(all);
    }
    words[used] = [0; 4];
    reported
}

fn report(scope: u32, changes: &[u32], work: &mut [u8]) -> Option<i32> {
    let (list, []) = changes.as_chunks() else { return None };
    let work: &mut [u8; PAGE] = work.try_into().ok()?;
    let (words, _) = work.as_chunks_mut();
    let ([state, zeros @ ..], words) = words.split_first_chunk_mut::<{ HEADER / 4 }>()?;
    let before = u32::from_be_bytes(*state) as usize;
    let fits = before <= list.len() && list.len() <= CHANGES;
    if scope != MIGRATION || !fits || zeros.as_flattened() != [0; HEADER - 4] {
        return None;
    }
    let reported = fill(list, &count(list)?, before, words);
    let (next, status) =
        if reported < list.len() { (reported, status::MORE) } else { (0, status::OK) };
    *state = (next as u32).to_be_bytes();
    Some(status)
}

/// One call of update-nodes: the answers of `update_nodes`.
pub fn update_nodes_by_blocks(scope: u32, changes: &[u32], work: &mut [u8]) -> i32 {
    report(scope, changes, work).unwrap_or(status::BAD_ARGUMENT)
}

/// The opcode and the operands of the next operation list, none at the end, or the refusal.
fn next_list<'a>(left: &mut &'a [Word]) -> Result<Option<(u32, &'a [Word])>, i32> {
    let (operator, behind) = left.split_first().ok_or(status::NO_TERMINATOR)?;
    let operator = u32::from_be_bytes(*operator);
    if operator == 0 {
        return Ok(None);
    }
    let count = operator & 0x00FF_FFFF;
    let (operands, behind) = behind.split_at_checked(count as usize).ok_or(status::PAST_AREA)?;
    *left = behind;
    match operator >> 24 {
        _ if count == 0 => {}
        1 | 2 => {}
        ADD if count.is_multiple_of(2) => {}
        ADD => return Err(status::ODD_ADD),
        _ => return Err(status::UNKNOWN_OPCODE),
    }
    Ok(Some((operator >> 24, operands)))
}

/// How many changes an area has, or the refusal.
fn measure(mut words: &[Word]) -> Result<usize, i32> {
    let mut changes = 0;
    while let Some((opcode, operands)) = next_list(&mut words)? {
        changes += if opcode == ADD { operands.len() / 2 } else { operands.len() };
    }
    Ok(changes)
}

/// Reads an area: the answers of `read_updates`.
pub fn read_updates_in_place(work: &[u8], out: &mut [u32]) -> Result<u32, i32> {
    let work: &[u8; PAGE] = work.try_into().map_err(|_| status::WRONG_AREA)?;
    let (mut words, _) = work[HEADER..].as_chunks();
    let written = CHANGE_WORDS * measure(words)?;
    let out = out.get_mut(..written).ok_or(status::OUT_SHORT)?;
    let (mut out, _) = out.as_chunks_mut::<CHANGE_WORDS>();
    while let Some((opcode, operands)) = next_list(&mut words)? {
        let pairs = operands.as_chunks::<2>().0.iter();
        let changes = if opcode == ADD { pairs.len() } else { operands.len() };
        let (now, behind) = out.split_at_mut(changes);
        if opcode == ADD {
            now.iter_mut().zip(pairs).for_each(|(change, pair)| {
                *change = [ADD, u32::from_be_bytes(pair[0]), u32::from_be_bytes(pair[1])];
            });
        } else {
            now.iter_mut().zip(operands).for_each(|(change, &phandle)| {
                *change = [opcode, u32::from_be_bytes(phandle), 0];
            });
        }
        out = behind;
    }
    Ok(written as u32)
}
