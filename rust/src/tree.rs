//! Device trees: the tokens of a structure block, the check, and the comparison of two trees.

use crate::{status, word, HEADER, TWO_PAGES};
use std::collections::HashSet;

pub(crate) const BEGIN_NODE: u32 = 1;
pub(crate) const END_NODE: u32 = 2;
pub(crate) const PROPERTY: u32 = 3;
pub(crate) const NO_OP: u32 = 4;
pub(crate) const END: u32 = 9;

const STRUCTURE_LIMIT: usize = 32_768;
const STRINGS_LIMIT: usize = 4_096;
pub(crate) const NESTING: u32 = 8;
pub(crate) const NODE_NAME_LIMIT: usize = 47;
pub(crate) const PROPERTY_NAME_LIMIT: usize = 31;

/// A token of a structure block. Names are without their NUL.
#[derive(Clone, Copy, Debug, PartialEq, Eq)]
pub enum Token<'a> {
    BeginNode { name: &'a [u8] },
    EndNode,
    Property { name: &'a [u8], value: &'a [u8] },
    End,
}

/// The place of a token that is at fault, or the block's length where only no-ops are left.
#[derive(Clone, Copy, Debug, PartialEq, Eq)]
pub(crate) struct Fault(pub(crate) usize);

/// The name at the start of the bytes, of 1 to `limit` bytes and a NUL.
pub(crate) fn name_at(bytes: &[u8], limit: usize) -> Option<&[u8]> {
    let length = bytes.iter().take(limit + 1).position(|&b| b == 0)?;
    (length > 0).then(|| &bytes[..length])
}

/// The two blocks may be read: within their limits, the structure block whole words.
pub(crate) fn blocks_fit(structure: &[u8], strings: &[u8]) -> bool {
    structure.len() <= STRUCTURE_LIMIT
        && structure.len().is_multiple_of(4)
        && strings.len() <= STRINGS_LIMIT
}

/// The two blocks, and a place in the structure block.
#[derive(Clone, Copy)]
pub(crate) struct Cursor<'a> {
    structure: &'a [u8],
    strings: &'a [u8],
    pub(crate) at: usize,
}

impl<'a> Cursor<'a> {
    pub(crate) fn new(structure: &'a [u8], strings: &'a [u8], at: usize) -> Cursor<'a> {
        Cursor { structure, strings, at }
    }

    fn skip_no_ops(&mut self) {
        while word(self.structure, self.at) == Some(NO_OP) {
            self.at += 4;
        }
    }

    /// Whether the next token past no-ops is a begin-node, whole or not.
    pub(crate) fn at_begin_node(&mut self) -> bool {
        self.skip_no_ops();
        word(self.structure, self.at) == Some(BEGIN_NODE)
    }

    /// The next token past no-ops, if it is whole and within its limits. Padding is not read.
    pub(crate) fn next(&mut self) -> Option<Token<'a>> {
        self.skip_no_ops();
        self.token()
    }

    /// The same with its place; without a token, where the fault is.
    pub(crate) fn next_placed(&mut self) -> Result<(usize, Token<'a>), Fault> {
        self.skip_no_ops();
        let at = self.at.min(self.structure.len());
        self.token().map(|token| (at, token)).ok_or(Fault(at))
    }

    fn token(&mut self) -> Option<Token<'a>> {
        let kind = word(self.structure, self.at)?;
        let body = self.at + 4;
        match kind {
            BEGIN_NODE => {
                let name = name_at(&self.structure[body..], NODE_NAME_LIMIT)?;
                self.at = padded(body + name.len() + 1);
                Some(Token::BeginNode { name })
            }
            END_NODE => {
                self.at = body;
                Some(Token::EndNode)
            }
            PROPERTY => {
                let length = word(self.structure, body)? as usize;
                let offset = word(self.structure, body + 4)? as usize;
                let name = name_at(self.strings.get(offset..)?, PROPERTY_NAME_LIMIT)?;
                if length > TWO_PAGES - HEADER - (name.len() + 1) {
                    return None;
                }
                let value = self.structure.get(body + 8..body + 8 + length)?;
                self.at = padded(body + 8 + length);
                Some(Token::Property { name, value })
            }
            END => {
                self.at = body;
                Some(Token::End)
            }
            _ => None,
        }
    }

    /// The next token, if the bytes that pad it are zero too.
    fn next_padded(&mut self) -> Option<Token<'a>> {
        let token = self.next()?;
        let pad = match token {
            Token::BeginNode { name } => padding(name.len() + 1),
            Token::Property { value, .. } => padding(value.len()),
            Token::EndNode | Token::End => 0,
        };
        let padding = self.structure.get(self.at - pad..self.at)?;
        padding.iter().all(|&b| b == 0).then_some(token)
    }

    /// What follows the begin-node of a node, up to its end-node. `nesting` more nodes may stand
    /// below one another. No two properties and no two children have one name.
    fn check_node(&mut self, nesting: u32) -> Option<()> {
        let (mut properties, mut children) = (HashSet::new(), HashSet::new());
        loop {
            match self.next_padded()? {
                Token::BeginNode { name } if children.insert(name) => {
                    self.check_node(nesting.checked_sub(1)?)?;
                }
                Token::Property { name, .. } if children.is_empty() && properties.insert(name) => {}
                Token::EndNode => return Some(()),
                Token::BeginNode { .. } | Token::Property { .. } | Token::End => return None,
            }
        }
    }

    fn check_tree(&mut self) -> Option<()> {
        match self.next_padded()? {
            Token::BeginNode { .. } => self.check_node(NESTING - 1)?,
            _ => return None,
        }
        (self.next_padded()? == Token::End && self.at == self.structure.len()).then_some(())
    }

    /// What follows a node's begin-node, as a tree. The check has passed.
    fn read_node(&mut self, name: &'a [u8]) -> Option<Node<'a>> {
        let mut node = Node { name, properties: Vec::new(), children: Vec::new() };
        loop {
            match self.next()? {
                Token::BeginNode { name } => node.children.push(self.read_node(name)?),
                Token::Property { name, value } => node.properties.push((name, value)),
                Token::EndNode => return Some(node),
                Token::End => return None,
            }
        }
    }
}

fn padding(length: usize) -> usize {
    length.wrapping_neg() % 4
}

fn padded(length: usize) -> usize {
    length + padding(length)
}

/// Whether a tree may be lent.
pub fn check(structure: &[u8], strings: &[u8]) -> bool {
    blocks_fit(structure, strings) && Cursor::new(structure, strings, 0).check_tree().is_some()
}

/// What a tree means: no-ops and the arrangement of the strings block are left out.
#[derive(PartialEq, Eq)]
struct Node<'a> {
    name: &'a [u8],
    properties: Vec<(&'a [u8], &'a [u8])>,
    children: Vec<Node<'a>>,
}

fn root<'a>(structure: &'a [u8], strings: &'a [u8]) -> Option<Node<'a>> {
    if !check(structure, strings) {
        return None;
    }
    let mut cursor = Cursor::new(structure, strings, 0);
    match cursor.next()? {
        Token::BeginNode { name } => cursor.read_node(name),
        _ => None,
    }
}

/// Whether two trees are the same.
pub fn compare(first: (&[u8], &[u8]), second: (&[u8], &[u8])) -> i32 {
    match (root(first.0, first.1), root(second.0, second.1)) {
        (Some(a), Some(b)) if a == b => status::SAME,
        (Some(_), Some(_)) => status::DIFFERENT,
        _ => status::FAILS_CHECK,
    }
}
