//! The table and the reader's record in words, as the C interface keeps them.

use crate::reader::{Node, Reader};
use crate::table::{
    Connector, Index, Line, Page, Resource, State, Table, Walk, CONNECTORS, RESOURCES,
};

/// Index, kind, partition, parent, state, resource; the walk's place, depth and page; wanted back.
pub const CONNECTOR_WORDS: usize = 10;
/// Two counts, the ledger's two columns, and a connector's.
pub const TABLE_WORDS: usize = 2 + 2 * RESOURCES + CONNECTOR_WORDS * CONNECTORS;
pub const READER_WORDS: usize = 4;

/// Of a connector's words, those that a step of its walk writes: state, place, depth and page.
const WALK_COLUMNS: [usize; 4] = [4, 6, 7, 8];

const LEDGER: usize = 2;
const ROWS: usize = LEDGER + 2 * RESOURCES;

impl State {
    fn from_word(word: u32) -> State {
        match word {
            1 => State::Available,
            2 => State::Unisolated,
            3 => State::Configured,
            _ => State::Unusable,
        }
    }
}

impl Page {
    fn from_word(word: u32) -> Page {
        match word {
            1 => Page::Asked,
            2 => Page::Taken,
            _ => Page::None,
        }
    }
}

impl Connector {
    pub fn from_words(words: [u32; CONNECTOR_WORDS]) -> Connector {
        let [index, kind, partition, parent, state, resource, place, depth, page, wanted] = words;
        Connector {
            index: Index(index),
            kind,
            partition,
            parent: (parent != 0).then_some(Index(parent)),
            state: State::from_word(state),
            resource: (resource != 0).then_some(Resource(resource)),
            walk: Walk { place, depth, page: Page::from_word(page) },
            wanted: wanted == 1,
        }
    }

    pub fn to_words(&self) -> [u32; CONNECTOR_WORDS] {
        [
            self.index.0,
            self.kind,
            self.partition,
            self.parent.map_or(0, |parent| parent.0),
            self.state as u32,
            self.resource.map_or(0, |resource| resource.0),
            self.walk.place,
            self.walk.depth,
            self.walk.page as u32,
            self.wanted as u32,
        ]
    }

    /// Stores in the words of a record what a step of its walk writes.
    pub fn put_walk(&self, record: &mut [u32; CONNECTOR_WORDS]) {
        let words = self.to_words();
        WALK_COLUMNS.iter().for_each(|&column| record[column] = words[column]);
    }
}

fn line_from_words(kind: u32, at: u32) -> Line {
    Line { kind, at: (at != 0).then_some(Index(at)) }
}

fn line_words(line: &Line) -> [u32; 2] {
    [line.kind, line.at.map_or(0, |at| at.0)]
}

fn row(words: &[u32; TABLE_WORDS], i: usize) -> [u32; CONNECTOR_WORDS] {
    std::array::from_fn(|column| words[ROWS + column * CONNECTORS + i])
}

fn put_row(words: &mut [u32; TABLE_WORDS], i: usize, row: [u32; CONNECTOR_WORDS]) {
    for (column, word) in row.into_iter().enumerate() {
        words[ROWS + column * CONNECTORS + i] = word;
    }
}

fn connector(words: &[u32; TABLE_WORDS], i: usize) -> Connector {
    Connector::from_words(row(words, i))
}

fn line(words: &[u32; TABLE_WORDS], j: usize) -> Line {
    line_from_words(words[LEDGER + j], words[LEDGER + RESOURCES + j])
}

/// Makes the table as long as the counts say. A count over the limit reads as the limit.
fn decode_counts(words: &[u32; TABLE_WORDS], table: &mut Table) {
    let connectors = (words[0] as usize).min(CONNECTORS);
    let resources = (words[1] as usize).min(RESOURCES);
    table.connectors.truncate(connectors);
    table.connectors.extend((table.connectors.len()..connectors).map(|i| connector(words, i)));
    table.ledger.truncate(resources);
    table.ledger.extend((table.ledger.len()..resources).map(|j| line(words, j)));
}

/// Reads what the word at this place belongs to: the counts, with the rows and lines that they add, or
/// a row or a line that is used.
pub fn decode_at(words: &[u32; TABLE_WORDS], table: &mut Table, at: usize) {
    if at < LEDGER {
        decode_counts(words, table);
    } else if at < ROWS {
        let j = (at - LEDGER) % RESOURCES;
        if let Some(old) = table.ledger.get_mut(j) {
            *old = line(words, j);
        }
    } else {
        let i = (at - ROWS) % CONNECTORS;
        if let Some(old) = table.connectors.get_mut(i) {
            *old = connector(words, i);
        }
    }
}

/// Stores in the words the whole row of the first connector with the index.
pub fn write_row(words: &mut [u32; TABLE_WORDS], table: &Table, index: Index) {
    if let Some(i) = table.row(index) {
        put_row(words, i, table.connectors[i].to_words());
    }
}

/// The elements that are new or differ from those before, with their places.
fn changed<'a, T: PartialEq>(
    before: &'a [T],
    after: &'a [T],
) -> impl Iterator<Item = (usize, &'a T)> {
    after.iter().enumerate().filter(|(place, element)| before.get(*place) != Some(element))
}

/// Stores in the words what differs between two tables after a step of a walk. A place in each row
/// that does.
pub fn update_walk(words: &mut [u32; TABLE_WORDS], before: &Table, after: &Table) -> Vec<usize> {
    let mut places = vec![];
    for (i, connector) in changed(&before.connectors, &after.connectors) {
        let mut stepped = row(words, i);
        connector.put_walk(&mut stepped);
        put_row(words, i, stepped);
        places.push(ROWS + i);
    }
    places
}

/// Stores in the words what differs between two tables: the rows and lines that changed, whole, and
/// the counts that grew. A place in each row and line that differs.
pub fn update(words: &mut [u32; TABLE_WORDS], before: &Table, after: &Table) -> Vec<usize> {
    let mut places = vec![];
    for (i, connector) in changed(&before.connectors, &after.connectors) {
        put_row(words, i, connector.to_words());
        places.push(ROWS + i);
    }
    for (j, line) in changed(&before.ledger, &after.ledger) {
        for (column, word) in line_words(line).into_iter().enumerate() {
            words[LEDGER + column * RESOURCES + j] = word;
        }
        places.push(LEDGER + j);
    }
    if after.connectors.len() != before.connectors.len() {
        words[0] = after.connectors.len() as u32;
    }
    if after.ledger.len() != before.ledger.len() {
        words[1] = after.ledger.len() as u32;
    }
    places
}

/// The words of a table whose unused rows and lines are zero.
pub fn encode(table: &Table) -> [u32; TABLE_WORDS] {
    let mut words = [0; TABLE_WORDS];
    update(&mut words, &Table::new(), table);
    words
}

impl Reader {
    /// The two used lengths, the depth, the node.
    pub fn from_words(words: [u32; READER_WORDS]) -> Reader {
        let [structure_used, strings_used, depth, node] = words;
        let node = match node {
            0 => Node::Childless,
            1 => Node::HasChild,
            _ => Node::Finished,
        };
        Reader { structure_used, strings_used, depth, node }
    }

    pub fn to_words(&self) -> [u32; READER_WORDS] {
        [self.structure_used, self.strings_used, self.depth, self.node as u32]
    }
}
