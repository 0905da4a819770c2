//! The guest's reader: replies of a walk in, a structure and a strings block out.

use crate::tree::{name_at, NESTING, NODE_NAME_LIMIT, PROPERTY_NAME_LIMIT};
use crate::{status, word, HEADER, PAGE, TWO_PAGES};

/// A reader uses at most the first bytes of each buffer.
pub const BUFFER_LIMIT: usize = 131_072;

const BEGIN_NODE: [u8; 4] = [0, 0, 0, 1];
const END_NODE: [u8; 4] = [0, 0, 0, 2];
const PROPERTY: [u8; 4] = [0, 0, 0, 3];
const END: [u8; 4] = [0, 0, 0, 9];

/// The node that is open.
#[derive(Clone, Copy, Debug, Default, PartialEq, Eq)]
pub enum Node {
    #[default]
    Childless,
    HasChild,
    Finished,
}

/// A reader's record: how much of its buffers is used, and where it is in the tree.
#[derive(Clone, Copy, Debug, Default, PartialEq, Eq)]
pub struct Reader {
    pub structure_used: u32,
    pub strings_used: u32,
    pub depth: u32,
    pub node: Node,
}

/// A reply that makes sense.
enum Reply<'a> {
    Wait,
    Child { name: &'a [u8] },
    Sibling { name: &'a [u8] },
    Property { name: &'a [u8], value: &'a [u8] },
    Up,
    Done,
}

/// The name at the offset in a word of the work area. Its NUL is in the first page.
fn name(work: &[u8], limit: usize) -> Option<&[u8]> {
    let offset = word(work, 8)? as usize;
    (offset >= HEADER).then_some(())?;
    name_at(work[..PAGE].get(offset..)?, limit)
}

fn value(work: &[u8]) -> Option<&[u8]> {
    let length = word(work, 12)? as usize;
    let offset = word(work, 16)? as usize;
    (offset >= HEADER).then_some(())?;
    work.get(offset..offset + length)
}

impl Reply<'_> {
    /// How many bytes its tokens take.
    fn size(&self) -> usize {
        match self {
            Reply::Wait => 0,
            Reply::Child { name } => 4 + padded(name.len() + 1),
            Reply::Sibling { name } => 8 + padded(name.len() + 1),
            Reply::Property { value, .. } => 12 + padded(value.len()),
            Reply::Up => 4,
            Reply::Done => 8,
        }
    }
}

fn padded(length: usize) -> usize {
    length.next_multiple_of(4)
}

/// A buffer, as much of it as a reader may use, and how much is used.
struct Block<'a> {
    bytes: &'a mut [u8],
    used: usize,
}

impl<'a> Block<'a> {
    /// None where the used length passes the buffer.
    fn new(buffer: &'a mut [u8], used: u32) -> Option<Block<'a>> {
        let limit = buffer.len().min(BUFFER_LIMIT);
        let used = used as usize;
        (used <= limit).then_some(Block { bytes: &mut buffer[..limit], used })
    }

    fn room(&self) -> usize {
        self.bytes.len() - self.used
    }

    fn put(&mut self, bytes: &[u8]) {
        self.bytes[self.used..self.used + bytes.len()].copy_from_slice(bytes);
        self.used += bytes.len();
    }

    /// The bytes, and zeros up to a multiple of four.
    fn put_padded(&mut self, bytes: &[u8]) {
        self.put(bytes);
        self.put(&[0; 3][..padded(bytes.len()) - bytes.len()]);
    }

    /// A name with its NUL, and zeros up to a multiple of four.
    fn put_name(&mut self, name: &[u8]) {
        self.put(name);
        self.put(&[0; 4][..padded(name.len() + 1) - name.len()]);
    }

    /// A name with its NUL, and its offset.
    fn append(&mut self, name: &[u8]) -> usize {
        let at = self.used;
        self.put(name);
        self.put(&[0]);
        at
    }

    /// Where a name and its NUL stand already: at 0, or just after a NUL.
    fn find(&self, name: &[u8]) -> Option<usize> {
        let used = &self.bytes[..self.used];
        let is_start = |at: usize| at == 0 || used[at - 1] == 0;
        let stands = |at: usize| {
            used[at..].strip_prefix(name).is_some_and(|behind| behind.first() == Some(&0))
        };
        (0..used.len()).find(|&at| is_start(at) && stands(at))
    }
}

impl Reader {
    pub fn new() -> Reader {
        Reader::default()
    }

    /// What a reply says, if it makes sense here.
    fn sense<'w>(&self, status: i32, work: &'w [u8]) -> Option<Reply<'w>> {
        if self.node == Node::Finished || (work.len() != PAGE && work.len() != TWO_PAGES) {
            return None;
        }
        match (status, self.depth) {
            (status::NEXT_CHILD, 0..NESTING) => {
                Some(Reply::Child { name: name(work, NODE_NAME_LIMIT)? })
            }
            (status::NEXT_SIBLING, 2..=NESTING) => {
                Some(Reply::Sibling { name: name(work, NODE_NAME_LIMIT)? })
            }
            (status::NEXT_PROPERTY, 1..=NESTING) if self.node == Node::Childless => {
                Some(Reply::Property {
                    name: name(work, PROPERTY_NAME_LIMIT)?,
                    value: value(work)?,
                })
            }
            (status::PARENT, 2..=NESTING) => Some(Reply::Up),
            (status::CONFIGURED, 1) => Some(Reply::Done),
            (status::NEEDS_PAGE | 9900..=9905, 0..=NESTING) => Some(Reply::Wait),
            _ => None,
        }
    }

    /// Takes one reply of the walk.
    pub fn read(
        &mut self,
        status: i32,
        work: &[u8],
        structure: &mut [u8],
        strings: &mut [u8],
    ) -> i32 {
        let (Some(mut tokens), Some(mut names)) =
            (Block::new(structure, self.structure_used), Block::new(strings, self.strings_used))
        else {
            return status::SENSELESS;
        };
        let Some(reply) = self.sense(status, work) else {
            return status::SENSELESS;
        };
        if let Reply::Wait = reply {
            return status::WAITING;
        }
        let known = match reply {
            Reply::Property { name, .. } => names.find(name),
            _ => None,
        };
        let new_name = match reply {
            Reply::Property { name, .. } if known.is_none() => name.len() + 1,
            _ => 0,
        };
        if reply.size() > tokens.room() || new_name > names.room() {
            return status::NO_ROOM;
        }
        self.take(&reply, known, &mut tokens, &mut names);
        self.structure_used = tokens.used as u32;
        self.strings_used = names.used as u32;
        match self.node {
            Node::Finished => status::FINISHED,
            Node::Childless | Node::HasChild => status::TAKEN,
        }
    }

    /// Writes a reply for which there is room.
    fn take(&mut self, reply: &Reply, known: Option<usize>, tokens: &mut Block, names: &mut Block) {
        match *reply {
            Reply::Wait => {}
            Reply::Child { name } => {
                tokens.put(&BEGIN_NODE);
                tokens.put_name(name);
                self.depth += 1;
                self.node = Node::Childless;
            }
            Reply::Sibling { name } => {
                tokens.put(&END_NODE);
                tokens.put(&BEGIN_NODE);
                tokens.put_name(name);
                self.node = Node::Childless;
            }
            Reply::Property { name, value } => {
                let at = known.unwrap_or_else(|| names.append(name));
                tokens.put(&PROPERTY);
                tokens.put(&(value.len() as u32).to_be_bytes());
                tokens.put(&(at as u32).to_be_bytes());
                tokens.put_padded(value);
            }
            Reply::Up => {
                tokens.put(&END_NODE);
                self.depth -= 1;
                self.node = Node::HasChild;
            }
            Reply::Done => {
                tokens.put(&END_NODE);
                tokens.put(&END);
                self.depth = 0;
                self.node = Node::Finished;
            }
        }
    }
}
