//! The nodes that a migration changed, reported to a guest over as many calls as it takes, and an
//! area of such a report read. It is of big-endian words: the state variable, three that are zero,
//! operation lists, and one zero for the end. An operation list is an operator, which is an opcode
//! in the first byte and the number of operands in the others, and its operands: a phandle for a
//! node that was deleted or updated, for one that was added its parent's phandle and an index.

use crate::{put_word, status, word, PAGE};

/// The only scope that is served.
pub(crate) const MIGRATION: u32 = 1;

/// A change is lent and read as its kind, its phandle and its index.
pub(crate) const CHANGE_WORDS: usize = 3;
pub(crate) const CHANGES: usize = 4_096;

/// The operation lists stand behind the state variable and the words of zero.
pub(crate) const HEADER: usize = 16;
/// How many words of operation lists fit before the zero for the end.
pub(crate) const ROOM: usize = (PAGE - HEADER) / 4 - 1;

/// What happened to a node, in the order of the reports; the opcodes.
#[derive(Clone, Copy, PartialEq, Eq, PartialOrd, Ord)]
enum Kind {
    Delete = 1,
    Update = 2,
    Add = 3,
}

impl Kind {
    fn from_word(word: u32) -> Option<Kind> {
        match word {
            1 => Some(Kind::Delete),
            2 => Some(Kind::Update),
            3 => Some(Kind::Add),
            _ => None,
        }
    }

    /// How many operands a change has.
    fn operands(self) -> usize {
        match self {
            Kind::Delete | Kind::Update => 1,
            Kind::Add => 2,
        }
    }
}

/// A change; its index is 0 unless it is an add.
#[derive(Clone, Copy)]
struct Change {
    kind: Kind,
    phandle: u32,
    index: u32,
}

impl Change {
    fn new(kind: Kind, phandle: u32, index: u32) -> Change {
        Change { kind, phandle, index: if kind == Kind::Add { index } else { 0 } }
    }

    /// The change of a list's words; none if they are too few, or of another kind.
    fn from_words(words: &[u32]) -> Option<Change> {
        let &[kind, phandle, index] = words else { return None };
        Some(Change::new(Kind::from_word(kind)?, phandle, index))
    }

    /// The change of an operator's operands.
    fn from_operands(kind: Kind, operands: &[u32]) -> Change {
        Change::new(kind, operands[0], operands.get(1).copied().unwrap_or(0))
    }

    fn operands(self) -> impl Iterator<Item = u32> {
        [self.phandle, self.index].into_iter().take(self.kind.operands())
    }

    fn to_words(self) -> [u32; CHANGE_WORDS] {
        [self.kind as u32, self.phandle, self.index]
    }
}

/// A list's changes in the order of the reports; none if it has a fault.
fn in_order(words: &[u32]) -> Option<Vec<Change>> {
    let mut changes: Vec<Change> =
        words.chunks(CHANGE_WORDS).map(Change::from_words).collect::<Option<_>>()?;
    // a stable sort: those of a kind stay as they were
    changes.sort_by_key(|change| change.kind);
    (changes.len() <= CHANGES).then_some(changes)
}

/// The operation lists of changes that are in order, one for each kind among them.
fn operation_lists(changes: &[Change]) -> Vec<u32> {
    let mut words = vec![];
    for same in changes.chunk_by(|one, next| one.kind == next.kind) {
        let kind = same[0].kind;
        words.push((kind as u32) << 24 | (same.len() * kind.operands()) as u32);
        words.extend(same.iter().flat_map(|change| change.operands()));
    }
    words
}

/// How many of the changes fit one area, each whole, with the operator of each kind.
fn fitting(changes: &[Change]) -> usize {
    let (mut used, mut last) = (0, None);
    let fits = |change: &&Change| {
        used += change.kind.operands() + usize::from(last != Some(change.kind));
        last = Some(change.kind);
        used <= ROOM
    };
    changes.iter().take_while(fits).count()
}

/// Reports changes, from as many on as the state variable says. The status, or none if the call is
/// refused.
fn report(scope: u32, words: &[u32], work: &mut [u8]) -> Option<i32> {
    let changes = in_order(words)?;
    if scope != MIGRATION || work.len() != PAGE || work[4..HEADER].iter().any(|&byte| byte != 0) {
        return None;
    }
    let before = word(work, 0)? as usize;
    let left = changes.get(before..)?;
    let (now, later) = left.split_at(fitting(left));
    let (state, status) = match later.len() {
        0 => (0, status::OK),
        _ => (before + now.len(), status::MORE),
    };
    put_word(work, 0, state as u32);
    for (place, word) in operation_lists(now).into_iter().chain([0]).enumerate() {
        put_word(work, HEADER + 4 * place, word);
    }
    Some(status)
}

/// One call of update-nodes, with a list of changes of three words each. A refusal leaves the area
/// as it is.
pub fn update_nodes(scope: u32, changes: &[u32], work: &mut [u8]) -> i32 {
    report(scope, changes, work).unwrap_or(status::BAD_ARGUMENT)
}

/// The changes of an operation list, or the refusal. An operator without operands has none,
/// whatever its opcode.
fn changes_of(opcode: u32, operands: &[u32]) -> Result<Vec<Change>, i32> {
    if operands.is_empty() {
        return Ok(vec![]);
    }
    let kind = Kind::from_word(opcode).ok_or(status::UNKNOWN_OPCODE)?;
    if !operands.len().is_multiple_of(kind.operands()) {
        return Err(status::ODD_ADD);
    }
    let changes = operands.chunks(kind.operands());
    Ok(changes.map(|operands| Change::from_operands(kind, operands)).collect())
}

/// The changes of an area, or the refusal.
fn changes_in(work: &[u8]) -> Result<Vec<Change>, i32> {
    if work.len() != PAGE {
        return Err(status::WRONG_AREA);
    }
    let words: Vec<u32> = (HEADER..PAGE).step_by(4).filter_map(|at| word(work, at)).collect();
    let (mut left, mut changes) = (&words[..], vec![]);
    loop {
        let (&operator, behind) = left.split_first().ok_or(status::NO_TERMINATOR)?;
        if operator == 0 {
            return Ok(changes);
        }
        let count = (operator & 0x00FF_FFFF) as usize;
        let (operands, behind) = behind.split_at_checked(count).ok_or(status::PAST_AREA)?;
        changes.extend(changes_of(operator >> 24, operands)?);
        left = behind;
    }
}

/// Reads an area and puts three words for each change into `out`. How many words these are, or the
/// refusal, which leaves `out` as it is.
pub fn read_updates(work: &[u8], out: &mut [u32]) -> Result<u32, i32> {
    let words: Vec<u32> = changes_in(work)?.into_iter().flat_map(Change::to_words).collect();
    out.get_mut(..words.len()).ok_or(status::OUT_SHORT)?.copy_from_slice(&words);
    Ok(words.len() as u32)
}

#[cfg(test)]
mod tests {
    use super::*;

    const DELETE: u32 = 0x0100_0000;
    const UPDATE: u32 = 0x0200_0000;
    const ADD: u32 = 0x0300_0000;
    const OTHER: u8 = 0xEE;

    /// So many changes of a kind, with phandles from `from` on and indexes above.
    fn changes(kind: u32, from: u32, count: u32) -> Vec<u32> {
        (from..from + count).flat_map(|phandle| [kind, phandle, 0x8000_0000 | phandle]).collect()
    }

    /// An area with this state variable, to call with.
    fn area(state: u32) -> Vec<u8> {
        let mut work = vec![OTHER; PAGE];
        work[..HEADER].fill(0);
        put_word(&mut work, 0, state);
        work
    }

    /// An area of these words, and no zero behind them.
    fn area_of(words: &[u32]) -> Vec<u8> {
        let mut work = area(0);
        for (place, &word) in words.iter().enumerate() {
            put_word(&mut work, HEADER + 4 * place, word);
        }
        work
    }

    /// A call's status, the state variable, and the words behind the header; those that the call
    /// does not write are left out.
    fn called(changes: &[u32], state: u32) -> (i32, u32, Vec<u32>) {
        let mut work = area(state);
        let status = update_nodes(1, changes, &mut work);
        assert!(work[4..HEADER].iter().all(|&byte| byte == 0));
        let words = (0..PAGE / 4).map(|place| word(&work, 4 * place).unwrap());
        let mut words: Vec<u32> = words.collect();
        while words.last() == Some(&u32::from_be_bytes([OTHER; 4])) {
            words.pop();
        }
        (status, words[0], words.split_off(4))
    }

    fn read(work: &[u8]) -> Result<Vec<u32>, i32> {
        let mut out = vec![7; 3 * PAGE];
        match read_updates(work, &mut out) {
            Ok(written) => {
                assert!(out.split_off(written as usize).iter().all(|&word| word == 7));
                Ok(out)
            }
            Err(refusal) => {
                assert_eq!(out, vec![7; 3 * PAGE]);
                Err(refusal)
            }
        }
    }

    /// What is read of changes that are in order.
    fn as_read(changes: &[u32]) -> Vec<u32> {
        let read = |c: &[u32]| [c[0], c[1], if c[0] == 3 { c[2] } else { 0 }];
        changes.chunks(3).flat_map(read).collect()
    }

    /// All that is read, from call to call, with other bytes behind the header each time; how many
    /// calls there are.
    fn whole(changes: &[u32]) -> (Vec<u32>, usize) {
        let (mut work, mut all) = (area(0), vec![]);
        for call in 1.. {
            let status = update_nodes(1, changes, &mut work);
            all.extend(read(&work).unwrap());
            if status == 0 {
                return (all, call);
            }
            assert_eq!((status, word(&work, 0)), (1, Some(all.len() as u32 / 3)));
            work[HEADER..].fill(call as u8);
        }
        unreachable!()
    }

    #[test]
    fn nothing_and_one_of_each() {
        assert_eq!(called(&[], 0), (0, 0, vec![0]));
        let list = [3, 30, 31, 2, 20, 21, 1, 10, 11];
        let words = vec![DELETE | 1, 10, UPDATE | 1, 20, ADD | 2, 30, 31, 0];
        assert_eq!(called(&list, 0), (0, 0, words.clone()));
        assert_eq!(called(&list, 1), (0, 0, words[2..].to_vec()));
        assert_eq!(called(&list, 2), (0, 0, words[4..].to_vec()));
        assert_eq!(called(&list, 3), (0, 0, vec![0]));
        assert_eq!(whole(&list), (vec![1, 10, 0, 2, 20, 0, 3, 30, 31], 1));
    }

    #[test]
    fn a_full_area() {
        let (status, state, words) = called(&changes(1, 1, 1_018), 0);
        assert_eq!((status, state, words.len()), (0, 0, 1_020));
        assert_eq!((words[0], words[1], words[1_018], words[1_019]), (0x0100_03FA, 1, 1_018, 0));
        let (status, state, again) = called(&changes(1, 1, 1_019), 0);
        assert_eq!((status, state, again), (1, 1_018, words));
        let (status, state, words) = called(&changes(1, 1, 1_019), 1_018);
        assert_eq!((status, state, words), (0, 0, vec![DELETE | 1, 1_019, 0]));
    }

    #[test]
    fn an_add_is_not_split() {
        let (status, state, words) = called(&changes(3, 1, 4_096), 0);
        assert_eq!((status, state, words.len()), (1, 509, 1_020));
        assert_eq!((words[0], words[1_018], words[1_019]), (ADD | 1_018, 0x8000_01FD, 0));
        // behind two deletes one word is left over
        let (status, state, words) = called(&[changes(3, 1, 509), changes(1, 1, 2)].concat(), 0);
        assert_eq!((status, state, words.len()), (1, 509, 1_019));
        assert_eq!((words[3], words[1_018]), (ADD | 1_014, 0));
    }

    /// Behind so many deletes, a change of another kind fits with its operator or not at all.
    #[test]
    fn no_operator_without_operands() {
        for (kind, deletes, fits) in [
            (2, 1_016, true),
            (2, 1_017, false),
            (2, 1_018, false),
            (3, 1_015, true),
            (3, 1_016, false),
            (3, 1_017, false),
        ] {
            let list = [vec![kind, 5, 6], changes(1, 1, deletes)].concat();
            let (status, state, words) = called(&list, 0);
            assert_eq!((status, state), if fits { (0, 0) } else { (1, deletes) });
            let last = &words[1 + deletes as usize..];
            match (fits, kind) {
                (false, _) => assert_eq!(last, [0]),
                (true, 2) => assert_eq!(last, [UPDATE | 1, 5, 0]),
                (true, _) => assert_eq!(last, [ADD | 2, 5, 6, 0]),
            }
        }
    }

    #[test]
    fn calls_in_all() {
        for (kind, count, calls) in [
            (1, 1_018, 1),
            (1, 1_019, 2),
            (1, 4_096, 5),
            (2, 4_096, 5),
            (3, 509, 1),
            (3, 510, 2),
            (3, 4_096, 9),
        ] {
            let list = changes(kind, 1, count);
            assert_eq!(whole(&list), (as_read(&list), calls));
        }
        let kinds = [1, 2, 3].map(|kind| changes(kind, 1_000 * kind, 1_000));
        let turns: Vec<u32> = (0..1_000)
            .flat_map(|i| [2, 0, 1].map(|kind: usize| &kinds[kind][3 * i..3 * i + 3]))
            .flatten()
            .copied()
            .collect();
        assert_eq!(whole(&turns), (as_read(&kinds.concat()), 4));
    }

    /// A refused call leaves the area as it is.
    fn refused(scope: u32, changes: &[u32], mut work: Vec<u8>) {
        let before = work.clone();
        assert_eq!((update_nodes(scope, changes, &mut work), work), (-3, before));
    }

    #[test]
    fn refusals() {
        let list = changes(2, 1, 3);
        for scope in [0, 2, 3, 0x101, 1 << 31, u32::MAX] {
            refused(scope, &list, area(0));
        }
        for length in (0..40).chain([4_092, 4_095, 4_097, 4_100, 8_192]) {
            let mut work = area(0);
            work.resize(length, 0);
            refused(1, &list, work);
        }
        for more in [1, 2] {
            refused(1, &changes(2, 1, 4)[..9 + more], area(0));
        }
        refused(1, &changes(2, 1, 4_097), area(0));
        for kind in [0, 4, 5, 0x101, 1 << 24, u32::MAX] {
            refused(1, &[list.clone(), vec![kind, 1, 1]].concat(), area(0));
        }
        for state in [4, 5, 1 << 31, u32::MAX] {
            refused(1, &list, area(state));
        }
        for at in 4..16 {
            let mut work = area(0);
            work[at] = 1;
            refused(1, &list, work);
        }
    }

    #[test]
    fn the_reader() {
        let read_words = |words: &[u32]| read(&area_of(words));
        assert_eq!(read_words(&[0]), Ok(vec![]));
        let words = [UPDATE | 2, 5, 0, DELETE | 1, 6, 0];
        assert_eq!(read_words(&words), Ok(vec![2, 5, 0, 2, 0, 0, 1, 6, 0]));
        // an operator without operands is passed over, whatever its opcode
        let empty = (1..=255).map(|opcode| opcode << 24);
        let words: Vec<u32> = empty.chain([ADD | 2, 7, 8, ADD, 0]).collect();
        assert_eq!(read_words(&words), Ok(vec![3, 7, 8]));
        for (words, refusal) in [
            (vec![DELETE | 1_020, 0], -42),
            (vec![DELETE | 0xFF_FFFF, 0], -42),
            (vec![u32::MAX, 0], -42),
            (vec![1, 5, 0], -43),
            (vec![0x0400_0001, 5, 0], -43),
            (vec![ADD | 1, 5, 0], -44),
            (vec![ADD | 3, 5, 6, 7, 0], -44),
            (vec![ADD | 1, 5, 1, 5, 0], -44),
            (vec![DELETE | 1_019], -45),
            (vec![DELETE; 1_020], -45),
            (vec![ADD | 1_019], -44),
            (vec![ADD | 1_021], -42),
            (vec![0x0400_03FB], -43),
        ] {
            assert_eq!(read_words(&words), Err(refusal));
        }
        for length in [0, 16, 4_095, 4_097] {
            assert_eq!(read(&vec![0; length]), Err(-41));
        }
    }

    #[test]
    fn room() {
        let work = area_of(&[DELETE | 2, 5, 6, ADD | 2, 7, 8, 0]);
        for room in 0..12 {
            let mut out = vec![7; room];
            let answer = read_updates(&work, &mut out);
            assert_eq!(answer, if room < 9 { Err(-46) } else { Ok(9) });
            assert_eq!(out.contains(&5), room >= 9);
        }
        let mut work = area_of(&[DELETE | 2, 5, 6]);
        put_word(&mut work, HEADER + 12, ADD | 1);
        assert_eq!(read_updates(&work, &mut []), Err(-44));
        // neither the state variable nor the bytes behind it are looked at
        let mut work = area_of(&[DELETE | 1, 5, 0]);
        work[..HEADER].fill(OTHER);
        assert_eq!(read(&work), Ok(vec![1, 5, 0]));
    }
}
