//! The status numbers of documents 01 and 02.

pub const OK: i32 = 0;

// The platform's calls.
pub const BAD_KIND: i32 = -11;
pub const INDEX_IN_USE: i32 = -12;
pub const BAD_PARTITION: i32 = -13;
pub const BAD_PARENT: i32 = -14;
pub const FULL: i32 = -15;
pub const NO_CONNECTOR: i32 = -16;
pub const NO_RESOURCE: i32 = -17;
pub const KINDS_DIFFER: i32 = -18;
pub const NOT_IN_POOL: i32 = -19;
pub const HOLDS_ONE: i32 = -20;
pub const HOLDS_NOTHING: i32 = -21;
pub const NOT_UNUSABLE: i32 = -22;

// The partition's calls.
pub const BAD_ARGUMENT: i32 = -3;
pub const SLOT_IN_USE: i32 = -9000;
pub const NOT_UNISOLATED: i32 = -9003;

// A walk's replies.
pub const BAD_TREE: i32 = -1;
pub const CONFIGURED: i32 = 0;
pub const NEXT_SIBLING: i32 = 1;
pub const NEXT_CHILD: i32 = 2;
pub const NEXT_PROPERTY: i32 = 3;
pub const PARENT: i32 = 4;
pub const NEEDS_PAGE: i32 = 5;

// The reader's answers.
pub const FINISHED: i32 = 0;
pub const TAKEN: i32 = 1;
pub const WAITING: i32 = 2;
pub const SENSELESS: i32 = -31;
pub const NO_ROOM: i32 = -32;

// The comparison's answers.
pub const DIFFERENT: i32 = 0;
pub const SAME: i32 = 1;
pub const FAILS_CHECK: i32 = -33;

// The answers about array properties; a buffer that is too short for one is NO_ROOM.
pub const CUT_SHORT: i32 = -41;
pub const COUNTS_DIFFER: i32 = -42;
pub const UNENDED: i32 = -43;
pub const UNKNOWN_TYPE: i32 = -44;
pub const LEFT_OVER: i32 = -45;
pub const OUT_SHORT: i32 = -46;

// The answers about hot-plug sections.
pub const LEGACY_OF_20: i32 = -41;
pub const WRONG_LENGTH: i32 = -42;
pub const WRONG_ID: i32 = -43;
pub const WRONG_VERSION: i32 = -44;
pub const NO_IDENTIFIER: i32 = -45;
pub const BAD_TYPE: i32 = -46;
pub const BAD_ACTION: i32 = -47;
pub const EMPTY_RANGE: i32 = -48;
pub const RANGE_TOO_FAR: i32 = -49;
pub const NOT_ZERO: i32 = -50;

// The answers about changed nodes; a report that is refused is BAD_ARGUMENT, and a list that is too
// short for what is read OUT_SHORT.
pub const MORE: i32 = 1;
pub const WRONG_AREA: i32 = -41;
pub const PAST_AREA: i32 = -42;
pub const UNKNOWN_OPCODE: i32 = -43;
pub const ODD_ADD: i32 = -44;
pub const NO_TERMINATOR: i32 = -45;

// The answers about memory lists; another length than the count says is WRONG_LENGTH.
pub const NO_BLOCK_SIZE: i32 = -41;
pub const TOO_MANY_BLOCKS: i32 = -43;
pub const RESERVED_NOT_ZERO: i32 = -44;
pub const EMPTY_SET: i32 = -45;
pub const BLOCK_TOO_FAR: i32 = -46;
pub const LIST_SHORT: i32 = -47;
