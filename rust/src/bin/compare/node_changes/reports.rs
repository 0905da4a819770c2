//! Reports of lists of changes: whole runs of calls, each area of which is read, single calls from
//! every state, and calls with every fault.

use super::{areas, number, read, update, Area, Change, AREA, ROOM};
use crate::rng::Rng;
use crate::tally::{differ, Tally};

const KINDS: [u32; 3] = [1, 2, 3];
const MOST: usize = 4_096;

/// How many deletes or updates fill an area, how many adds do, and lists that end next to that.
const SIZES: [usize; 21] = [
    0, 1, 2, 3, 63, 64, 65, 508, 509, 510, 1_017, 1_018, 1_019, 1_020, 1_527, 1_528, 2_036, 2_037,
    3_000, 4_095, MOST,
];

/// Numbers that are no kind, some of them with the same low bytes as one.
const NO_KINDS: [u32; 16] = [
    0, 4, 5, 0x7F, 0x80, 0xFF, 0x101, 0x102, 0x103, 0x10001, 0x10003, 0x1000000, 0x3000000,
    0x80000001, 0xFFFFFFFE, 0xFFFFFFFF,
];

// ---- Lists.

/// Changes of these kinds.
fn list(rng: &mut Rng, kinds: impl IntoIterator<Item = u32>) -> Vec<Change> {
    kinds.into_iter().map(|kind| [kind, number(rng), number(rng)]).collect()
}

/// So many of each kind, in any order.
fn shuffled(rng: &mut Rng, counts: [usize; 3]) -> Vec<Change> {
    let of = |(kind, count)| std::iter::repeat_n(kind, count);
    let mut kinds: Vec<u32> = KINDS.into_iter().zip(counts).flat_map(of).collect();
    for last in (1..kinds.len()).rev() {
        kinds.swap(last, rng.below(last + 1));
    }
    list(rng, kinds)
}

/// So many changes of any kinds, of which some may be rare or missing.
fn mixed(rng: &mut Rng, count: usize) -> Vec<Change> {
    let weights = KINDS.map(|_| rng.pick(&[0, 1, 1, 5, 200]));
    let all: usize = weights.iter().sum();
    let ends = [weights[0], weights[0] + weights[1]];
    let mut kinds = vec![];
    for _ in 0..count {
        let drawn = rng.below(all);
        kinds.push(1 + ends.into_iter().filter(|&end| drawn >= end).count() as u32);
    }
    list(rng, kinds)
}

/// Lists of so many changes: of one kind, one kind after another, in turns, mixed, and of one kind
/// with another one at the start, in the middle and at the end.
fn lists(rng: &mut Rng, count: usize) -> Vec<Vec<Change>> {
    let mut lists = vec![];
    for kind in KINDS {
        lists.push(list(rng, vec![kind; count]));
        for at in [0, count / 2, count.saturating_sub(1)] {
            let mut kinds = vec![kind; count];
            if let Some(other) = kinds.get_mut(at) {
                *other = rng.pick(&KINDS);
            }
            lists.push(list(rng, kinds));
        }
    }
    for order in [[1, 2, 3], [3, 2, 1], [2, 3, 1]] {
        lists.push(list(rng, (0..count).map(|i| order[3 * i / count])));
        lists.push(list(rng, (0..count).map(|i| order[i % 3])));
    }
    (0..3).for_each(|_| lists.push(mixed(rng, count)));
    lists
}

/// The changes as they are to be read: deletes, updates, adds, with indexes for these alone.
fn in_order(list: &[Change]) -> Vec<Change> {
    let of = |kind| list.iter().filter(move |change| change[0] == kind);
    let read =
        |&[kind, phandle, index]: &Change| [kind, phandle, if kind == 3 { index } else { 0 }];
    KINDS.into_iter().flat_map(of).map(read).collect()
}

// ---- Runs of calls.

/// Calls from a state on, with the variable passed on, until nothing is left. Each area is read,
/// and all that is read is what was left to report, in order.
fn run(rng: &mut Rng, tally: &mut Tally, list: &[Change], from: usize) {
    let (mut all, mut area): (Vec<u32>, _) = (vec![], Area::new(rng, from as u32, AREA));
    let mut status = 1;
    while status == 1 {
        status = update(tally, 1, list.as_flattened(), &mut area);
        let before = all.len();
        all.extend(read(rng, tally, &area, ROOM).unwrap_or_default());
        let reported = from + all.len() / 3;
        let right = if reported < list.len() { (1, reported as u32) } else { (0, 0) };
        if (status, area.state()) != right || status == 1 && all.len() == before {
            differ("a run of calls", "status and state", &right, &(status, area.state()));
        }
        areas::damaged(rng, tally, &area, all.len() - before);
        if rng.percent(80) {
            area.scramble(rng);
        }
    }
    let right = in_order(list).split_off(from).concat();
    if all != right {
        differ("a run of calls", "what is read of all areas", &right, &all);
    }
}

/// States next to where one kind ends and another begins, next to the list's end, and far past it.
fn states(list: &[Change]) -> Vec<u32> {
    let of = |kind| list.iter().filter(|change| change[0] == kind).count() as u32;
    let (all, deletes, updates) = (list.len() as u32, of(1), of(2));
    let mut states = vec![0, deletes / 2, deletes + updates / 2, all - of(3) / 2];
    for edge in [0, deletes, deletes + updates, all] {
        states.extend([edge.saturating_sub(1), edge, edge + 1]);
    }
    for bit in 12..32 {
        states.push(1 << bit);
        states.push(1 << bit | all.saturating_sub(1));
    }
    states.extend([all.swap_bytes(), u32::MAX - 1, u32::MAX]);
    states
}

/// One call, which is to be refused or not.
fn call(tally: &mut Tally, scope: u32, words: &[u32], area: &mut Area, refused: bool) {
    let status = update(tally, scope, words, area);
    if (status == -3) != refused {
        let call = format!("update_nodes {scope:#x}, {} words, {:?}", words.len(), &area.lent());
        differ(&call, "whether the call is refused", &refused, &status);
    }
}

/// A call from each such state.
fn every_state(rng: &mut Rng, tally: &mut Tally, list: &[Change]) {
    for state in states(list) {
        let mut area = Area::new(rng, state, AREA);
        call(tally, 1, list.as_flattened(), &mut area, state as usize > list.len());
    }
}

/// Every list of up to six changes, and a longer one, from every state.
fn every_list(rng: &mut Rng, tally: &mut Tally) {
    let mut all = vec![vec![]];
    for count in 0..6 {
        let longer = |kinds: &Vec<u32>| KINDS.map(|kind| [&kinds[..], &[kind]].concat());
        let longest = all.iter().filter(|kinds| kinds.len() == count);
        all.extend(longest.flat_map(longer).collect::<Vec<_>>());
    }
    all.push((0..1_600).map(|i| 3 - i % 3).collect());
    for kinds in all {
        let list = list(rng, kinds);
        for state in 0..=list.len() + 1 {
            let mut area = Area::new(rng, state as u32, AREA);
            call(tally, 1, list.as_flattened(), &mut area, state > list.len());
        }
    }
}

/// Lists at which an area is full, or has a word or two left, when the kind changes.
fn every_fill(rng: &mut Rng, tally: &mut Tally) {
    let few = [0, 1, 2, 3];
    let mut all = vec![];
    for (one, other) in few.into_iter().flat_map(|one| few.map(|other| (one, other))) {
        all.extend((1_012..=1_019).map(|deletes| [deletes, one, other]));
        all.extend((1_012..=1_019).map(|updates| [one, updates, other]));
        all.extend((505..=511).map(|adds| [one, other, adds]));
        let both = |deletes| [deletes, 1_014 + one - deletes, other];
        all.extend((0..=1_008).step_by(8).map(both));
    }
    for counts in all {
        let list = shuffled(rng, counts);
        run(rng, tally, &list, 0);
    }
}

// ---- Faults.

/// Scopes next to the right one, with the same low bytes, and negative ones.
fn every_scope(rng: &mut Rng, tally: &mut Tally, list: &[Change]) {
    let bits = (0..32).flat_map(|bit| [1 << bit, 1 << bit | 1, !(1 << bit), !(1 << bit) & !1]);
    for scope in (0..=5).chain(bits).chain([u32::MAX]) {
        let mut area = Area::new(rng, 0, AREA);
        call(tally, scope, list.as_flattened(), &mut area, scope != 1);
    }
}

/// Areas of every length up to past the header, next to the right one, and with the same low bytes.
fn every_length(rng: &mut Rng, tally: &mut Tally, list: &[Change]) {
    let far = [2_048, 8_191, 8_192, 12_288, 65_536, 69_632];
    for length in (0..=40).chain(4_060..=4_120).chain(far) {
        let mut area = Area::new(rng, 0, length);
        call(tally, 1, list.as_flattened(), &mut area, length != AREA);
    }
}

/// Each bit of the twelve bytes.
fn every_zero(rng: &mut Rng, tally: &mut Tally, list: &[Change]) {
    for (at, bit) in (4..16).flat_map(|at| (0..8).map(move |bit| (at, bit))) {
        let mut area = Area::new(rng, 0, AREA);
        area.lent_mut()[at] = 1 << bit;
        call(tally, 1, list.as_flattened(), &mut area, true);
    }
}

/// A change of no kind at each place of a short list, or at some places of a long one, whether it
/// would be reported by this call or not.
fn every_kind(rng: &mut Rng, tally: &mut Tally, list: &[Change]) {
    let some = [0, 1, 62, 63, 64, 65, 1_017, 1_018, 1_019, 2_000, 4_000, 4_094, 4_095];
    let places = |at: &usize| list.len() < 20 || some.contains(at);
    for at in (0..list.len()).filter(places) {
        for kind in NO_KINDS {
            let mut faulty = list.to_vec();
            faulty[at][0] = kind;
            let state = rng.pick(&[0, list.len() / 2, at, list.len()]);
            let mut area = Area::new(rng, state as u32, AREA);
            call(tally, 1, faulty.as_flattened(), &mut area, true);
        }
    }
}

/// Lists of every number of words around whole changes, up to past the limit.
fn every_count(rng: &mut Rng, tally: &mut Tally) {
    let long = mixed(rng, 70_000);
    let most = 3 * MOST;
    let near = (most - 7)..=(most + 7);
    for words in (0..=20).chain(3_050..=3_061).chain(near).chain([24_576, 65_536, 3 * 65_537]) {
        let mut area = Area::new(rng, 0, AREA);
        let refused = words % 3 != 0 || words > most;
        call(tally, 1, &long.as_flattened()[..words], &mut area, refused);
    }
}

/// Every edge once.
pub fn every(rng: &mut Rng, tally: &mut Tally) {
    for count in SIZES {
        for list in lists(rng, count) {
            run(rng, tally, &list, 0);
            every_state(rng, tally, &list);
        }
    }
    every_list(rng, tally);
    every_fill(rng, tally);
    every_count(rng, tally);
    for count in [0, 1, 9, 1_018, MOST] {
        let list = mixed(rng, count);
        every_scope(rng, tally, &list);
        every_length(rng, tally, &list);
        every_zero(rng, tally, &list);
        every_kind(rng, tally, &list);
    }
}

// ---- Some.

/// Any number of changes.
fn any_count(rng: &mut Rng) -> usize {
    match rng.below(4) {
        0 => rng.pick(&SIZES),
        1 => rng.below(20),
        2 => rng.below(1_100),
        _ => rng.below(MOST + 1),
    }
}

/// A call in which up to two things are as they should not be.
fn faulty(rng: &mut Rng, tally: &mut Tally, list: &[Change]) {
    let (mut scope, mut words) = (1, list.as_flattened().to_vec());
    let state = rng.below(list.len() + 1) as u32;
    let length = if rng.percent(10) { rng.pick(&[0, 16, 4_092, 4_100]) } else { AREA };
    let mut area = Area::new(rng, state, length);
    for _ in 0..rng.below(3) {
        let at = rng.below(list.len());
        match rng.below(5) {
            0 => scope = rng.pick(&[0, 2, 3, 0x101, 1 << 31, u32::MAX]),
            1 if 3 * at < words.len() => words[3 * at] = rng.pick(&NO_KINDS),
            2 => words.truncate(3 * at + rng.below(3)),
            3 => area.put(rng.between(1, 3), 1 << rng.below(32)),
            4 => area.put(0, list.len() as u32 + rng.between(1, 3) as u32),
            _ => {}
        }
    }
    update(tally, scope, &words, &mut area);
}

/// Runs over lists of every sort, from the start or not.
pub fn some(rng: &mut Rng, tally: &mut Tally) {
    for _ in 0..40 {
        let count = any_count(rng);
        let list = mixed(rng, count);
        let from = if rng.percent(50) { 0 } else { rng.below(count + 1) };
        run(rng, tally, &list, from);
        (0..8).for_each(|_| faulty(rng, tally, &list));
    }
}
