//! What document 02's Ticket 11 says of a walk that can't go on, on the Rust version alone: the place
//! of the token at fault. Each step is made at a lone record and at a table.

use crate::{Connector, Index, Page, Reply, State, Table, Walk};

const WALKER: Index = Index(0x8000_0001);
/// A connector that is Unusable.
const OTHER: u32 = 0x8000_0002;

/// The name that decides, an ordinary one, an empty one, and one that is too long and has no end.
const STRINGS: &[u8] = b"ibm,my-drc-index\0reg\0\0nnnnnnnnnnnnnnnnnnnnnnnnnnnnnnnn";
const REG: u32 = 17;
const EMPTY: u32 = 21;
const TOO_LONG: u32 = 22;
const UNENDED: u32 = 40;
const OUTSIDE: u32 = 54;

const R: [u32; 2] = [1, 0x7200_0000];
const UNOWNED: [u32; 4] = [3, 4, 0, OTHER];

fn blocks(words: &[&[u32]]) -> Vec<u8> {
    words.concat().iter().flat_map(|word| word.to_be_bytes()).collect()
}

fn walker(state: State, walk: Walk) -> Connector {
    let (index, kind, partition) = (WALKER, 8, 1);
    Connector { index, kind, partition, parent: None, state, resource: None, walk, wanted: false }
}

/// One step, and what it leaves: the connector and the work area.
fn step(before: Connector, lent: usize, tree: (&[u8], &[u8])) -> (Reply, Connector, Vec<u8>) {
    let other = Connector { index: Index(OTHER), ..walker(State::Unusable, Walk::default()) };
    let mut table = Table { connectors: vec![before, other], ledger: vec![] };
    let mut work = vec![0xEE; lent];
    work[..8].copy_from_slice(&blocks(&[&[WALKER.0, 0]]));
    let (mut connector, mut lone_work) = (before, work.clone());
    let reply = connector.step(&table, &mut lone_work, tree.0, tree.1);
    assert_eq!(table.configure_connector(1, &mut work, tree.0, tree.1), reply);
    assert_eq!((table.connectors[0], &work), (connector, &lone_work));
    (reply, connector, work)
}

/// Where the fault is that a walk meets from a place and a depth on, with one page lent. Nothing
/// changes.
fn fault_in(tree: (&[u8], &[u8]), place: u32, depth: u32) -> u32 {
    let before = walker(State::Unisolated, Walk { place, depth, page: Page::None });
    let (reply, connector, work) = step(before, 4_096, tree);
    assert_eq!((reply.status, connector), (-1, before));
    assert!(work[8..].iter().all(|&byte| byte == 0xEE));
    reply.fault
}

fn fault(words: &[&[u32]], place: u32, depth: u32) -> u32 {
    fault_in((&blocks(words), STRINGS), place, depth)
}

/// The reply to a step at depth 1 with one page lent.
fn reply(words: &[&[u32]]) -> Reply {
    let before = walker(State::Unisolated, Walk { place: 0, depth: 1, page: Page::None });
    step(before, 4_096, (&blocks(words), STRINGS)).0
}

#[test]
fn nothing_but_no_ops_is_left() {
    for depth in [0, 1, 7, 8, u32::MAX] {
        assert_eq!(fault(&[], 0, depth), 0);
        assert_eq!(fault(&[&R], 8, depth), 8);
        assert_eq!(fault(&[&R, &[4]], 8, depth), 12);
        assert_eq!(fault(&[&R, &[4, 4, 4]], 8, depth), 20);
        assert_eq!(fault(&[&R, &[4, 4, 4]], 16, depth), 20);
        for place in [12, 16, 20, 0x7FFF_FFFC, 0x8000_0000, 0xFFFF_FFFC] {
            assert_eq!(fault(&[&R], place, depth), 8);
            assert_eq!(fault(&[], place, depth), 0);
        }
    }
    let no_ops = 4_u32.to_be_bytes().repeat(8_192);
    assert_eq!(fault_in((&no_ops, &[b'n'; 4_096]), 0, 1), 32_768);
    assert_eq!(fault_in((&no_ops[4..], &[0; 4_096]), 4, 1), 32_764);
}

#[test]
fn no_token_is_looked_at() {
    for place in [1, 2, 3, 5, 9, 10, 11, 0xFFFF_FFFD, 0xFFFF_FFFF] {
        assert_eq!(fault(&[&[4], &[5]], place, 1), 0);
    }
    for cut in 1..4 {
        let odd = &blocks(&[&[4, 5]])[..8 - cut];
        assert_eq!(fault_in((odd, STRINGS), 0, 1), 0);
        assert_eq!(fault_in((odd, STRINGS), 4, 1), 0);
    }
    let no_ops = 4_u32.to_be_bytes().repeat(8_193);
    assert_eq!(fault_in((&no_ops, STRINGS), 0, 1), 0);
    assert_eq!(fault_in((&no_ops, STRINGS), 32_772, 1), 0);
    assert_eq!(fault_in((&blocks(&[&[4, 5]]), &[0; 4_097]), 0, 1), 0);
    assert_eq!(fault_in((&blocks(&[&[4, 5]]), &[0; 4_096]), 0, 1), 4);
}

#[test]
fn cut_short() {
    // a begin-node without its name, and with four and 44 bytes of it
    assert_eq!(fault(&[&[1]], 0, 0), 0);
    assert_eq!(fault(&[&R, &[1]], 8, 1), 8);
    assert_eq!(fault(&[&R, &[1, 0x6161_6161]], 8, 1), 8);
    assert_eq!(fault(&[&R, &[4, 4, 1], &[0x6161_6161; 11]], 8, 7), 16);
    // a property without its length, without its name's offset, and with a value that is cut
    assert_eq!(fault(&[&R, &[3]], 8, 1), 8);
    assert_eq!(fault(&[&R, &[3, 0]], 8, 1), 8);
    assert_eq!(fault(&[&R, &[3, 1, REG]], 8, 1), 8);
    assert_eq!(fault(&[&R, &[4, 3, 5, REG, 0]], 8, 1), 12);
    assert_eq!(fault(&[&R, &[4, 3, 8_000, REG, 0, 2]], 8, 9), 12);
    assert_eq!(fault(&[&R, &[4, 3, u32::MAX, REG, 0, 2]], 8, 1), 12);
}

#[test]
fn tokens_that_are_none_or_not_allowed() {
    for word in [9, 0, 5, 8, 10, 0x100, 0x0100_0000, 0x8000_0004, u32::MAX] {
        for depth in [0, 1, 7, 8, u32::MAX] {
            assert_eq!(fault(&[&[word], &R], 0, depth), 0);
            assert_eq!(fault(&[&[4, 4, word, 4]], 0, depth), 8);
            assert_eq!(fault(&[&R, &[4, 4, word]], 12, depth), 16);
        }
    }
    for depth in [8, 9, 1 << 31, u32::MAX] {
        assert_eq!(fault(&[&[4], &R, &UNOWNED, &[2]], 0, depth), 4);
    }
    // at depth 0 all but a begin-node
    assert_eq!(fault(&[&[2]], 0, 0), 0);
    assert_eq!(fault(&[&[4, 4, 2], &R], 4, 0), 8);
    assert_eq!(fault(&[&[4], &UNOWNED, &R], 0, 0), 4);
}

#[test]
fn names_and_values_outside_their_limits() {
    assert_eq!(fault(&[&[4, 1, 0x0061_6161], &[2]], 0, 0), 4);
    let long = [0x6161_6161; 12];
    assert_eq!(fault(&[&[4, 1], &long, &[0, 2]], 0, 3), 4);
    for name in [EMPTY, TOO_LONG, UNENDED, OUTSIDE, 1 << 31, u32::MAX] {
        assert_eq!(fault(&[&[4, 4, 3, 4, name, 0, 2]], 0, 1), 8);
    }
    let value = [0; 2_043];
    assert_eq!(fault(&[&[4, 3, 8_169, REG], &value, &[2]], 0, 1), 4);
    assert_eq!(reply(&[&[4, 3, 8_168, REG], &value, &[2]]), Reply { status: 5, fault: 0 });
}

/// The faults that are met alike where a node is looked at and where one is gone past: what comes of
/// the words, and how many no-ops stand before the fault.
const FAULTS: [(&[u32], u32); 14] = [
    (&[], 0),
    (&[4], 1),
    (&[4, 4], 2),
    (&[9, 2, 2], 0),
    (&[4, 9], 1),
    (&[5, 2, 2], 0),
    (&[4, 4, 0, 2, 2], 2),
    (&[3], 0),
    (&[4, 3, 4], 1),
    (&[3, 4, REG], 0),
    (&[3, 0, EMPTY, 2, 2], 0),
    (&[3, 0, TOO_LONG, 2, 2], 0),
    (&[3, 0, OUTSIDE, 2, 2], 0),
    (&[3, 8_169, REG, 2, 2], 0),
];

const REGULAR: [u32; 4] = [3, 4, REG, OTHER];
const OWNED: [u32; 4] = [3, 4, 0, WALKER.0];
const ODD: [u32; 4] = [3, 3, 0, OTHER];

#[test]
fn a_fault_while_looking_ahead() {
    for (words, no_ops) in FAULTS {
        assert_eq!(fault(&[&R, words], 0, 1), 8 + 4 * no_ops);
        assert_eq!(fault(&[&[4, 4], &R, &REGULAR, &ODD, words], 4, 7), 48 + 4 * no_ops);
        // looking ahead has ended: nothing is met
        for ends in [&OWNED, &R[..], &[1], &[4, 1, 0], &[2]] {
            assert_eq!(reply(&[&R, ends, words]), Reply { status: 2, fault: 0 });
            assert_eq!(reply(&[&R, &REGULAR, ends, words]), Reply { status: 2, fault: 0 });
        }
    }
}

#[test]
fn a_fault_while_going_past_a_node() {
    for (words, no_ops) in FAULTS {
        assert_eq!(fault(&[&R, &UNOWNED, words], 0, 1), 24 + 4 * no_ops);
        assert_eq!(fault(&[&[4], &R, &UNOWNED, &R, words], 0, 6), 36 + 4 * no_ops);
        assert_eq!(fault(&[&R, &UNOWNED, &R, &[2, 4], words], 0, 6), 40 + 4 * no_ops);
        // behind it
        assert_eq!(fault(&[&R, &UNOWNED, &[2], words], 0, 7), 28 + 4 * no_ops);
        assert_eq!(fault(&[&R, &UNOWNED, &[2], &R, words], 0, 7), 36 + 4 * no_ops);
    }
    // begin-nodes, which do not end it
    for name in [&[][..], &[0], &[0x6161_6161], &[0x6161_6161; 12]] {
        assert_eq!(fault(&[&R, &UNOWNED, &[4, 1], name], 0, 1), 28);
        assert_eq!(fault(&[&R, &UNOWNED, &[2, 4, 1], name], 0, 1), 32);
    }
    // the ninth of the nodes that are open
    assert_eq!(fault(&[&R, &UNOWNED, &R, &R, &[2, 2, 2]], 0, 6), 32);
    assert_eq!(fault(&[&R, &UNOWNED, &[4], &R, &[2, 2]], 0, 7), 28);
    assert_eq!(reply(&[&R, &UNOWNED, &R, &[2, 2], &REGULAR]), Reply { status: 3, fault: 0 });
}

#[test]
fn other_statuses() {
    let of = |state, page| walker(state, Walk { place: 8, depth: 1, page });
    let damaged = blocks(&[&R, &[5]]);
    let sent = blocks(&[&R, &[3, 4_073, REG], &[0; 1_019]]);
    let cases = [
        (of(State::Available, Page::None), 4_096, &damaged, -9003),
        (of(State::Configured, Page::None), 4_096, &damaged, -9003),
        (of(State::Unisolated, Page::None), 8_192, &damaged, -3),
        (of(State::Unisolated, Page::Taken), 4_096, &damaged, -3),
        (of(State::Unisolated, Page::None), 4_095, &damaged, -3),
        (of(State::Unisolated, Page::None), 4_096, &sent, 5),
        (of(State::Unisolated, Page::Asked), 8_192, &sent, 3),
    ];
    for (connector, lent, structure, status) in cases {
        let reply = step(connector, lent, (structure, STRINGS)).0;
        assert_eq!(reply, Reply { status, fault: 0 });
    }
    for (words, status) in [(&R[..], 2), (&REGULAR, 3), (&[2], 0)] {
        assert_eq!(reply(&[&[4], words, &[2, 9]]), Reply { status, fault: 0 });
    }
    let below = walker(State::Unisolated, Walk { place: 0, depth: 2, page: Page::None });
    let parent = step(below, 4_096, (&blocks(&[&[2]]), STRINGS)).0;
    assert_eq!(parent, Reply { status: 4, fault: 0 });
}
