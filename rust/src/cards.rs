//! Document 01's walk and desk cards, on the Rust version alone.

use crate::{check, Index, Reader, Resource, State, Table, Walk};

const MEM_1: Index = Index(0x8000_0001);
const MEM_2: Index = Index(0x8000_0002);
const PHB: Index = Index(0x2000_0001);
const SLOT: Index = Index(0x3000_0001);

const STRINGS: &[u8] = b"reg\0";

fn blocks(words: &[u32]) -> Vec<u8> {
    words.iter().flat_map(|word| word.to_be_bytes()).collect()
}

/// The tree that is written out: mem@1 and, below it, c.
fn written_out() -> Vec<u8> {
    blocks(&[1, 0x6D65_6D40, 0x3100_0000, 3, 4, 0, 16, 1, 0x6300_0000, 2, 2, 9])
}

/// The connectors of the cards, with a resource at the first memory, the bridge and the slot.
fn desk() -> Table {
    let mut table = Table::new();
    assert_eq!(table.add_connector(8, MEM_1, 1, None), 0);
    assert_eq!(table.add_connector(2, PHB, 1, None), 0);
    assert_eq!(table.add_connector(3, SLOT, 1, Some(PHB)), 0);
    assert_eq!(table.add_connector(8, MEM_2, 2, None), 0);
    for (kind, index) in [(8, MEM_1), (2, PHB), (3, SLOT)] {
        let resource = table.add_resource(kind).unwrap();
        assert_eq!(table.place(resource, index), 0);
    }
    table
}

fn usable(table: &mut Table, index: Index) -> i32 {
    table.set_indicator(1, 9003, index, 1)
}

fn unusable(table: &mut Table, index: Index) -> i32 {
    table.set_indicator(1, 9003, index, 0)
}

fn isolate(table: &mut Table, index: Index) -> i32 {
    table.set_indicator(1, 9001, index, 0)
}

fn unisolate(table: &mut Table, index: Index) -> i32 {
    table.set_indicator(1, 9001, index, 1)
}

fn area(index: Index) -> Vec<u8> {
    let mut work = vec![0; 4_096];
    work[..4].copy_from_slice(&index.0.to_be_bytes());
    work
}

fn configure(table: &mut Table, index: Index) -> i32 {
    table.configure_connector(1, &mut area(index), &written_out(), STRINGS).status
}

#[test]
fn the_walk_written_out() {
    let mut table = desk();
    assert_eq!((usable(&mut table, MEM_1), unisolate(&mut table, MEM_1)), (0, 0));
    let (structure, mut work, mut reader) = (written_out(), area(MEM_1), Reader::new());
    let (mut copy, mut names) = (vec![0xEE; 48], vec![0xEE; 4]);
    for (reply, answer) in [(2, 1), (3, 1), (2, 1), (4, 1), (0, 0)] {
        assert_eq!(table.configure_connector(1, &mut work, &structure, STRINGS).status, reply);
        if reply == 3 {
            assert_eq!(work[8..20], blocks(&[20, 4, 24]));
        }
        assert_eq!(reader.read(reply, &work, &mut copy, &mut names), answer);
    }
    assert_eq!((copy, &names[..]), (structure, STRINGS));
}

#[test]
fn empty_and_untaken() {
    let mut table = desk();
    assert_eq!(table.get_sensor(2, 9003, MEM_2), (0, 2));
    assert_eq!(table.set_indicator(2, 9003, MEM_2, 1), -3);
    assert_eq!(table.get_sensor(1, 9003, MEM_1), (0, 2));
    assert_eq!(unusable(&mut table, MEM_1), 0);
    assert_eq!(table.ledger()[0].at, Some(MEM_1));
}

#[test]
fn orders() {
    let mut table = desk();
    assert_eq!(usable(&mut table, MEM_1), 0);
    assert_eq!(table.get_sensor(1, 9003, MEM_1), (0, 1));
    assert_eq!(table.set_indicator(2, 9001, MEM_1, 1), -3);
    assert_eq!(configure(&mut table, MEM_1), -9003);
    assert_eq!(unisolate(&mut table, MEM_1), 0);
    assert_eq!(unusable(&mut table, MEM_1), -3);
    assert_eq!(configure(&mut table, MEM_1), 2);
    let walk = table.connectors()[0].walk;
    assert_ne!(walk, Walk::default());
    assert_eq!(unisolate(&mut table, MEM_1), 0);
    assert_eq!(table.connectors()[0].walk, walk);
    for reply in [3, 2, 4, 0, -9003] {
        assert_eq!(configure(&mut table, MEM_1), reply);
    }
}

#[test]
fn bridge_and_slot() {
    let mut table = desk();
    assert_eq!((usable(&mut table, PHB), unisolate(&mut table, PHB)), (0, 0));
    assert_eq!(usable(&mut table, SLOT), -3);
    for reply in [2, 3, 2, 4, 0] {
        assert_eq!(configure(&mut table, PHB), reply);
    }
    assert_eq!(usable(&mut table, SLOT), 0);
    assert_eq!(isolate(&mut table, PHB), -9000);
    assert_eq!(unusable(&mut table, SLOT), 0);
    assert_eq!(isolate(&mut table, PHB), 0);
}

#[test]
fn released_and_placed_elsewhere() {
    let mut table = desk();
    assert_eq!((usable(&mut table, MEM_1), unusable(&mut table, MEM_1)), (0, 0));
    assert_eq!((table.free_count(8), table.free_lowest(8)), (1, Some(Resource(1))));
    assert_eq!(table.place(Resource(1), MEM_2), 0);
    assert_eq!(unusable(&mut table, MEM_1), 0);
    assert_eq!(table.connectors()[3].resource, Some(Resource(1)));
    assert_eq!(table.connectors()[3].state, State::Unusable);
}

#[test]
fn limits_of_the_table() {
    const NEXT: Index = Index(8 << 28 | 1_025);
    let mut table = Table::new();
    for number in 1..=1_024 {
        assert_eq!(table.add_connector(8, Index(8 << 28 | number), 33, None), -13);
        assert_eq!(table.add_connector(8, Index(8 << 28 | number), 32, None), 0);
        assert_eq!(table.add_resource(1), Ok(Resource(number)));
    }
    assert_eq!(table.add_connector(1, NEXT, 33, Some(MEM_1)), -11);
    assert_eq!(table.add_connector(8, MEM_1, 33, Some(MEM_1)), -12);
    assert_eq!(table.add_connector(8, NEXT, 33, Some(MEM_1)), -13);
    assert_eq!(table.add_connector(8, NEXT, 32, Some(MEM_1)), -14);
    assert_eq!(table.add_connector(8, NEXT, 32, None), -15);
    assert_eq!((table.add_resource(4), table.add_resource(1)), (Err(-11), Err(-15)));
    assert_eq!((table.connectors().len(), table.ledger().len()), (1_024, 1_024));
    assert_eq!((table.free_count(1), table.free_count(8)), (1_024, 0));
}

/// A chain of nodes, the innermost with one property.
fn tree(depth: usize, node_name: usize, name: usize, value: usize) -> (Vec<u8>, Vec<u8>) {
    let mut structure = Vec::new();
    let pad = |bytes: &mut Vec<u8>| bytes.resize(bytes.len().next_multiple_of(4), 0);
    for _ in 0..depth {
        structure.extend(blocks(&[1]));
        structure.extend(vec![b'n'; node_name]);
        structure.push(0);
        pad(&mut structure);
    }
    structure.extend(blocks(&[3, value as u32, 0]));
    structure.extend(vec![7; value]);
    pad(&mut structure);
    structure.extend(blocks(&vec![2; depth]));
    structure.extend(blocks(&[9]));
    (structure, [vec![b'p'; name], vec![0]].concat())
}

#[test]
fn limits_of_a_tree() {
    let passes = |depth, node_name, name, value| {
        let (structure, strings) = tree(depth, node_name, name, value);
        check(&structure, &strings)
    };
    assert!(passes(8, 1, 3, 4) && !passes(9, 1, 3, 4));
    assert!(passes(1, 47, 3, 4) && !passes(1, 48, 3, 4) && !passes(1, 0, 3, 4));
    assert!(passes(1, 1, 31, 4) && !passes(1, 1, 32, 4) && !passes(1, 1, 0, 4));
    assert!(passes(1, 1, 3, 8_168) && !passes(1, 1, 3, 8_169));
}

/// A root with two properties and two children, as document 02's Ticket 4 looks at them.
#[test]
fn names_of_a_node() {
    const C: u32 = 0x6300_0000;
    const C_AT_1: u32 = 0x6340_3100;
    let passes = |[one, other]: [u32; 2], [first, second]: [u32; 2]| {
        let properties = [3, 0, one, 3, 0, other];
        let tree = [&[1, C], &properties[..], &[1, first, 2, 1, second, 2, 2, 9]].concat();
        check(&blocks(&tree), b"c\0my-reg\0reg\0")
    };
    assert!(passes([0, 2], [C, C_AT_1]));
    assert!(passes([2, 5], [C, C_AT_1]));
    assert!(!passes([2, 2], [C, C_AT_1]));
    assert!(!passes([5, 9], [C, C_AT_1]));
    assert!(!passes([2, 9], [C, C]));
}

#[test]
fn a_second_page() {
    // the length of the value, and the reply to each length of the work area
    let fits = (4_072, &[(4_096, 2), (4_096, 3), (4_096, 0)][..]);
    let passes = (4_073, &[(4_096, 2), (4_096, 5), (8_192, 3), (4_096, -3), (8_192, 0)][..]);
    for (value, replies) in [fits, passes] {
        let mut table = desk();
        assert_eq!((usable(&mut table, MEM_1), unisolate(&mut table, MEM_1)), (0, 0));
        let (structure, strings) = tree(1, 1, 3, value);
        let mut work = area(MEM_1);
        for &(length, reply) in replies {
            work.resize(length, 0);
            let status = table.configure_connector(1, &mut work, &structure, &strings).status;
            assert_eq!(status, reply);
        }
    }
}

/// A root with one child for each index, as document 02's Ticket 5 looks at them. The names are a, b
/// and so on.
fn children(indexes: &[Index]) -> Vec<u8> {
    let child = |(name, index): (u32, &Index)| [1, name << 24, 3, 4, 0, index.0, 2];
    let below = ('a' as u32..).zip(indexes).flat_map(child);
    blocks(&[1, 0x7200_0000].into_iter().chain(below).chain([2, 9]).collect::<Vec<_>>())
}

/// The bridge is walked. Each call has its reply and, if it is a begin-node, the node's name.
#[test]
fn nodes_of_unowned_connectors() {
    const NOBODY: Index = Index(0x3000_0009);
    const MY_INDEX: &[u8] = b"ibm,my-drc-index\0";
    let mut table = desk();
    assert_eq!((usable(&mut table, PHB), unisolate(&mut table, PHB)), (0, 0));
    let structure = children(&[MEM_2, PHB, SLOT, NOBODY, MEM_1, MEM_2, MEM_1]);
    let mut work = area(PHB);
    let mut step = |table: &mut Table| {
        let reply = table.configure_connector(1, &mut work, &structure, MY_INDEX).status;
        (reply, if reply == 2 { work[20] } else { 0 })
    };
    let mut replies = |table: &mut Table, right: &[(i32, u8)]| {
        for reply in right {
            assert_eq!(step(table), *reply);
        }
    };
    replies(&mut table, &[(2, b'r'), (2, b'b'), (3, 0), (4, 0), (2, b'd')]);
    assert_eq!(usable(&mut table, MEM_1), 0);
    replies(&mut table, &[(3, 0), (4, 0), (2, b'e')]);
    assert_eq!(unusable(&mut table, MEM_1), 0);
    replies(&mut table, &[(3, 0), (4, 0), (0, 0), (-9003, 0)]);
}

/// The child of a root is left out by its first index of four bytes, before a child of its own, and
/// a fault there changes nothing.
#[test]
fn looking_ahead() {
    const STRINGS: &[u8] = b"ibm,my-drc-index\0reg\0";
    const OWN: [u32; 4] = [3, 4, 0, MEM_2.0];
    let replies = |child: &[u32], right: &[i32]| {
        let mut table = desk();
        assert_eq!((usable(&mut table, MEM_1), unisolate(&mut table, MEM_1)), (0, 0));
        let structure = blocks(&[&[1, 0x7200_0000, 1, 0x6100_0000], child].concat());
        for reply in right {
            let before = table.clone();
            let answer = table.configure_connector(1, &mut area(MEM_1), &structure, STRINGS).status;
            assert_eq!(answer, *reply);
            assert!(answer != -1 || table == before);
        }
    };
    let ends = [2, 2];
    let of = |length| [3, length, 0, MEM_2.0, 0];
    replies(&[&OWN[..], &ends].concat(), &[2, 0]);
    replies(&[&of(3)[..4], &ends].concat(), &[2, 2, 3, 4, 0]);
    replies(&[&of(5), &ends[..]].concat(), &[2, 2, 3, 4, 0]);
    replies(&[&of(5), &OWN[..], &ends].concat(), &[2, 0]);
    replies(&[&[3, 0, 17, 4], &OWN[..], &[1, 0x6200_0000, 2], &ends].concat(), &[2, 0]);
    replies(&[&[1, 0x6200_0000, 2], &OWN[..], &ends].concat(), &[2, 2, 2, 4, 3, 4, 0]);
    replies(&[1], &[2, 2, -1]);
    replies(&[&OWN[..], &[1]].concat(), &[2, -1, -1]);
    replies(&[3, 0, 17, 9], &[2, -1]);
    replies(&[&OWN[..], &[5]].concat(), &[2, -1]);
}

/// What document 02's Ticket 6 says of a request to return, on a connector that is Unusable.
#[test]
fn wanted_back_before_it_is_taken() {
    let mut table = desk();
    assert_eq!(table.want_back(Index(0x8000_0009)), -16);
    assert_eq!(table.want_back(MEM_2), -21);
    assert!(table.connectors().iter().all(|connector| !connector.wanted));
    assert_eq!((table.want_back(MEM_1), table.want_back(MEM_1)), (0, 0));
    assert_eq!((usable(&mut table, MEM_1), unisolate(&mut table, MEM_1)), (-3, -3));
    assert_eq!((unusable(&mut table, MEM_1), isolate(&mut table, MEM_1)), (0, 0));
    assert_eq!(table.get_sensor(1, 9003, MEM_1), (0, 2));
    assert!(table.connectors()[0].wanted && table.connectors()[0].resource.is_some());
    assert_eq!((table.retract(MEM_1), table.want_back(MEM_1)), (0, -21));
    assert!(!table.connectors()[0].wanted);
    assert_eq!((table.place(Resource(1), MEM_1), usable(&mut table, MEM_1)), (0, 0));
}

/// The same on one that is taken: nothing but its release ends the request.
#[test]
fn wanted_back_while_it_is_used() {
    let mut table = desk();
    assert_eq!((usable(&mut table, MEM_1), table.want_back(MEM_1)), (0, 0));
    assert_eq!((usable(&mut table, MEM_1), unisolate(&mut table, MEM_1)), (0, 0));
    assert_eq!((table.want_back(MEM_1), usable(&mut table, MEM_1)), (0, 0));
    for reply in [2, 3, 2, 4, 0] {
        assert_eq!(configure(&mut table, MEM_1), reply);
    }
    assert_eq!((table.want_back(MEM_1), usable(&mut table, MEM_1)), (0, 0));
    assert_eq!((table.retract(MEM_1), isolate(&mut table, MEM_1)), (-22, 0));
    assert!(table.connectors()[0].wanted);
    assert_eq!((unusable(&mut table, MEM_1), table.connectors()[0].wanted), (0, false));
    assert_eq!((table.place(Resource(1), MEM_1), usable(&mut table, MEM_1)), (0, 0));
}
