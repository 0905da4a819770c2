//! A walk, call by call. Nodes that belong to an unowned connector are left out. A walk that can't go
//! on says at which token.

use crate::table::{Connector, Index, Page, State, Table, Walk};
use crate::tree::{blocks_fit, Cursor, Fault, Token, NESTING};
use crate::{put_word, status, word, HEADER, PAGE, TWO_PAGES};

/// The property that says to which connector a node belongs.
const MY_INDEX: &[u8] = b"ibm,my-drc-index";

/// What a walk's call answers.
#[derive(Clone, Copy, Debug, PartialEq, Eq)]
pub struct Reply {
    pub status: i32,
    /// with -1 the offset in the structure block of the token at fault, or the block's length if
    /// only no-ops are left; 0 where no token was looked at, and with any other status
    pub fault: u32,
}

impl From<i32> for Reply {
    fn from(status: i32) -> Reply {
        Reply { status, fault: 0 }
    }
}

impl From<Fault> for Reply {
    fn from(fault: Fault) -> Reply {
        Reply { status: status::BAD_TREE, fault: fault.0 as u32 }
    }
}

impl Table {
    pub fn configure_connector(
        &mut self,
        partition: u32,
        work: &mut [u8],
        structure: &[u8],
        strings: &[u8],
    ) -> Reply {
        if work.len() != PAGE && work.len() != TWO_PAGES {
            return status::BAD_ARGUMENT.into();
        }
        let (Some(index), Some(0)) = (word(work, 0), word(work, 4)) else {
            return status::BAD_ARGUMENT.into();
        };
        let Some(row) = self.own_row(partition, Index(index)) else {
            return status::BAD_ARGUMENT.into();
        };
        let Connector { mut state, mut walk, .. } = self.connectors[row];
        let reply = walk.step(&mut state, self, work, (structure, strings));
        let connector = &mut self.connectors[row];
        (connector.state, connector.walk) = (state, walk);
        reply
    }
}

impl Connector {
    /// One step of the walk. The table says which connectors are unowned. Words 0 and 1 of the work
    /// area are the caller's to look at.
    pub fn step(
        &mut self,
        table: &Table,
        work: &mut [u8],
        structure: &[u8],
        strings: &[u8],
    ) -> Reply {
        self.walk.step(&mut self.state, table, work, (structure, strings))
    }
}

impl Walk {
    /// One step, of a connector in this state.
    fn step(
        &mut self,
        state: &mut State,
        table: &Table,
        work: &mut [u8],
        (structure, strings): (&[u8], &[u8]),
    ) -> Reply {
        let two_pages = match work.len() {
            PAGE => false,
            TWO_PAGES => true,
            _ => return status::BAD_ARGUMENT.into(),
        };
        if *state != State::Unisolated {
            return status::NOT_UNISOLATED.into();
        }
        match self.page {
            Page::None if two_pages => return status::BAD_ARGUMENT.into(),
            Page::Taken if !two_pages => return status::BAD_ARGUMENT.into(),
            _ => {}
        }
        let place = self.place as usize;
        if !blocks_fit(structure, strings) || !place.is_multiple_of(4) {
            return status::BAD_TREE.into();
        }
        let mut cursor = Cursor::new(structure, strings, place);
        let (at, token) = match next_owned(&mut cursor, self.depth, table) {
            Ok(placed) => placed,
            Err(fault) => return fault.into(),
        };
        let Some(status) = answer(token, &mut self.depth, work) else {
            return Fault(at).into();
        };
        self.note(status, state, cursor.at, two_pages);
        status.into()
    }

    /// What a status leaves of the walk and the state, with the cursor past its token.
    fn note(&mut self, status: i32, state: &mut State, past: usize, two_pages: bool) {
        match status {
            status::NEEDS_PAGE => self.page = Page::Asked,
            status::CONFIGURED => {
                *state = State::Configured;
                *self = Walk::default();
            }
            _ => {
                self.place = past as u32;
                self.page = if two_pages { Page::Taken } else { Page::None };
            }
        }
    }
}

/// The next token and its place. A node below the root that belongs to an unowned connector is gone
/// past with all below it.
fn next_owned<'a>(
    cursor: &mut Cursor<'a>,
    depth: u32,
    table: &Table,
) -> Result<(usize, Token<'a>), Fault> {
    loop {
        let (at, token) = cursor.next_placed()?;
        let looked_at = matches!(token, Token::BeginNode { .. }) && (1..NESTING).contains(&depth);
        if !looked_at || !named_index(*cursor)?.is_some_and(|index| table.is_unowned(index)) {
            return Ok((at, token));
        }
        cursor.at = past_node(*cursor, depth + 1)?;
    }
}

/// Of the node whose begin-node ends here, the index of the connector to which it belongs: the first
/// one of four bytes before the next begin-node, which is not looked at, or end-node.
fn named_index(mut cursor: Cursor) -> Result<Option<Index>, Fault> {
    while !cursor.at_begin_node() {
        match cursor.next_placed()? {
            (_, Token::Property { name, value }) if name == MY_INDEX && value.len() == 4 => {
                return Ok(word(value, 0).map(Index));
            }
            (_, Token::Property { .. }) => {}
            (_, Token::EndNode) => break,
            (at, Token::BeginNode { .. } | Token::End) => return Err(Fault(at)),
        }
    }
    Ok(None)
}

/// The place past the end-node of the innermost of so many open nodes.
fn past_node(mut cursor: Cursor, nodes: u32) -> Result<usize, Fault> {
    let mut open = nodes;
    while open >= nodes {
        match cursor.next_placed()? {
            (_, Token::BeginNode { .. }) if open < NESTING => open += 1,
            (_, Token::Property { .. }) => {}
            (_, Token::EndNode) => open -= 1,
            (at, Token::BeginNode { .. } | Token::End) => return Err(Fault(at)),
        }
    }
    Ok(cursor.at)
}

/// The status for a token at a depth, with what goes into the work area; none if it can't stand there.
fn answer(token: Token, depth: &mut u32, work: &mut [u8]) -> Option<i32> {
    match token {
        Token::BeginNode { name } if *depth < NESTING => {
            *depth += 1;
            put_word(work, 8, HEADER as u32);
            put_name(work, name);
            Some(status::NEXT_CHILD)
        }
        Token::Property { name, value } if *depth > 0 => Some(put_property(work, name, value)),
        Token::EndNode if *depth > 0 => {
            *depth -= 1;
            Some(if *depth == 0 { status::CONFIGURED } else { status::PARENT })
        }
        _ => None,
    }
}

fn put_property(work: &mut [u8], name: &[u8], value: &[u8]) -> i32 {
    let value_at = HEADER + name.len() + 1;
    if value_at + value.len() > work.len() {
        return status::NEEDS_PAGE;
    }
    put_word(work, 8, HEADER as u32);
    put_word(work, 12, value.len() as u32);
    put_word(work, 16, value_at as u32);
    put_name(work, name);
    work[value_at..value_at + value.len()].copy_from_slice(value);
    status::NEXT_PROPERTY
}

/// The name and its NUL, behind the header.
fn put_name(work: &mut [u8], name: &[u8]) {
    work[HEADER..HEADER + name.len()].copy_from_slice(name);
    work[HEADER + name.len()] = 0;
}
