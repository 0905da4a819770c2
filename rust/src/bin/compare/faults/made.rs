//! Trees with a fault that a walk meets in a given way.

use crate::rng::Rng;
use crate::tally::{Fault, Found, Stage};
use crate::trees::Blocks;

/// Whose nodes are left out.
pub const OTHER: u32 = 0x8000_0778;

/// Names that stand in every strings block: the one that decides, a short one, whose NUL is an empty
/// name, and one that is too long with its first byte. A name without a NUL stands behind them.
const NAMES: &[u8] = b"ibm,my-drc-index\0reg\0nnnnnnnnnnnnnnnnnnnnnnnnnnnnnnnn\0";
const DECIDING: u32 = 0;
const REG: u32 = 17;
const EMPTY: u32 = 20;
const TOO_LONG: u32 = 21;
const LONGEST: u32 = 22;
const CUT: u32 = NAMES.len() as u32;

const STRUCTURE: usize = 32_768;
const STRINGS: usize = 4_096;
/// Of a property with the short name.
const LONGEST_VALUE: u32 = 8_168;

/// A walk that meets a fault: where it stands, and where the fault is.
pub struct Case {
    pub tree: Blocks,
    pub place: u32,
    pub depth: u32,
    pub at: u32,
}

/// The tokens from a walk's place on.
struct Maker<'a> {
    rng: &'a mut Rng,
    out: Blocks,
    /// where the names begin
    names: u32,
}

impl Maker<'_> {
    fn new(rng: &mut Rng) -> Maker<'_> {
        let cut = rng.between(1, 31);
        let before = rng.pick(&[0, 0, 0, 1, 7, 100, STRINGS - NAMES.len() - cut]);
        let strings = [&vec![b'z'; before], NAMES, &vec![b'c'; cut]].concat();
        Maker { rng, out: Blocks { strings, structure: vec![] }, names: before as u32 }
    }

    // ---- What is sound.

    fn word(&mut self, word: u32) {
        self.out.put_word(word);
    }

    fn some_no_ops(&mut self) {
        (0..self.rng.below(4).saturating_sub(1)).for_each(|_| self.word(4));
    }

    /// So many bytes that are not zero.
    fn letters(&mut self, count: usize) {
        let letter = self.rng.pick(&[1, b'a', b'@', 0x80, 0xFF]);
        self.out.structure.resize(self.out.structure.len() + count, letter);
    }

    /// Up to a multiple of four.
    fn pad(&mut self) {
        let padding = self.rng.pick(&[0, 1, 0xFF]);
        let structure = &mut self.out.structure;
        structure.resize(structure.len().next_multiple_of(4), padding);
    }

    fn begin(&mut self) {
        let length = self.rng.pick(&[1, 2, 3, 4, 5, 46, 47]);
        self.word(1);
        self.letters(length);
        self.out.structure.push(0);
        self.pad();
    }

    fn header(&mut self, length: u32, name: u32) {
        [3, length, self.names + name].into_iter().for_each(|word| self.word(word));
    }

    fn property(&mut self, name: u32, value: &[u8]) {
        self.header(value.len() as u32, name);
        self.out.structure.extend(value);
        self.pad();
    }

    /// A property that does not decide.
    fn plain(&mut self) {
        let index = OTHER.to_be_bytes();
        match self.rng.below(5) {
            0 => self.property(DECIDING, &index[..3]),
            1 => self.property(DECIDING, &[index, index].concat()),
            2 => self.property(LONGEST, &index),
            3 => self.property(REG, &[9; 61]),
            _ => self.property(REG, &index),
        }
    }

    fn some_plain(&mut self) {
        for _ in 0..self.rng.below(4).saturating_sub(1) {
            self.some_no_ops();
            self.plain();
        }
    }

    fn open(&mut self) {
        self.some_no_ops();
        self.begin();
        self.some_plain();
    }

    /// Opens a node that is left out.
    fn open_left_out(&mut self) {
        self.open();
        self.some_no_ops();
        self.property(DECIDING, &OTHER.to_be_bytes());
        self.some_plain();
    }

    fn end(&mut self) {
        self.some_no_ops();
        self.word(2);
    }

    /// Whole nodes, of which so many may stand in one another.
    fn some_nodes(&mut self, room: usize) {
        for _ in 0..self.rng.below(3) {
            let deep = self.rng.below(room + 1);
            (0..deep).for_each(|_| self.open());
            (0..deep).for_each(|_| self.end());
        }
    }

    // ---- What a walk goes past before it meets the fault.

    fn before(&mut self, found: Found, depth: u32) {
        if found.stage == Stage::Next {
            return;
        }
        // below a node that is left out
        let room = 7 - depth as usize;
        let least = if found.stage == Stage::Behind { 1 } else { 0 };
        for _ in 0..least + self.rng.below(3).saturating_sub(1) {
            self.open_left_out();
            self.some_nodes(room);
            self.end();
        }
        match found.stage {
            Stage::Next | Stage::Behind => {}
            Stage::Ahead => self.open(),
            Stage::Inside => self.inside(found.fault, room),
        }
    }

    /// A node that is left out, up to a place in it or in one below.
    fn inside(&mut self, fault: Fault, room: usize) {
        self.open_left_out();
        self.some_nodes(room);
        let deep = if fault == Fault::TooDeep { room } else { self.rng.below(room + 1) };
        (0..deep).for_each(|_| self.open());
    }

    // ---- The fault.

    /// The token at fault, and any words behind it where it is not the block's end that cuts it.
    fn fault(&mut self, fault: Fault) {
        match fault {
            Fault::End => self.word(9),
            Fault::Unknown => {
                let near = [0, 5, 8, 10, 0x101, 0x1_0004, 1 << 24, 9 << 24, 1 << 31 | 2, u32::MAX];
                let word = self.rng.pick(&near);
                self.word(word);
            }
            Fault::TooDeep => self.begin(),
            Fault::EndNodeFirst => self.word(2),
            Fault::PropertyFirst => self.plain(),
            Fault::NodeNameCut | Fault::NodeNameEmpty | Fault::NodeNameLong => {
                self.bad_begin(fault)
            }
            _ => self.bad_property(fault),
        }
        let cut = [Fault::NothingLeft, Fault::NodeNameCut, Fault::LengthCut, Fault::OffsetCut];
        if fault != Fault::ValueCut && !cut.contains(&fault) {
            for _ in 0..self.rng.below(6) {
                let any = self.rng.word();
                let word = self.rng.pick(&[1, 2, 3, 4, 9, 0x6100_0000, any]);
                self.word(word);
            }
        }
    }

    fn bad_begin(&mut self, fault: Fault) {
        let words = self.rng.below(12);
        self.word(1);
        match fault {
            Fault::NodeNameCut => self.letters(4 * words),
            Fault::NodeNameLong => self.letters(48 + 4 * words),
            _ => self.word(words as u32),
        }
    }

    fn bad_property(&mut self, fault: Fault) {
        let any = self.rng.pick(&[0, 4, LONGEST_VALUE, u32::MAX]);
        let past = self.out.strings.len() as u32;
        let outside = self.rng.pick(&[past, past + 1, 1 << 31, u32::MAX]);
        let long = self.rng.pick(&[LONGEST_VALUE + 1, 8_192, 32_768, 1 << 31, u32::MAX]);
        let length = self.rng.pick(&[1, 4, 5, 100, LONGEST_VALUE]);
        match fault {
            Fault::LengthCut => self.word(3),
            Fault::OffsetCut => [3, any].into_iter().for_each(|word| self.word(word)),
            Fault::PropertyNameOutside => {
                [3, any, outside].into_iter().for_each(|word| self.word(word));
            }
            Fault::PropertyNameCut => self.header(any, CUT),
            Fault::PropertyNameEmpty => self.header(any, EMPTY),
            Fault::PropertyNameLong => self.header(any, TOO_LONG),
            Fault::ValueLong => self.header(long, REG),
            Fault::ValueCut => {
                let words = self.rng.below(length.div_ceil(4) as usize);
                self.header(length, REG);
                self.letters(4 * words);
            }
            _ => {}
        }
    }
}

fn depth(rng: &mut Rng, found: Found) -> u32 {
    match (found.stage, found.fault) {
        (Stage::Next, Fault::TooDeep) => rng.pick(&[8, 9, 10, 255, 256, 1 << 31, u32::MAX]),
        (Stage::Next, Fault::PropertyFirst | Fault::EndNodeFirst) => 0,
        (Stage::Next, _) => rng.pick(&[0, 1, 2, 7, 8, 9, 1 << 31, u32::MAX]),
        _ => rng.between(1, 7) as u32,
    }
}

/// Such a walk, where a token is looked at or looked for. Any words stand before its place, by chance
/// as many as fit.
fn at_token(rng: &mut Rng, found: Found) -> Case {
    let depth = depth(rng, found);
    let mut maker = Maker::new(rng);
    maker.before(found, depth);
    if found.no_ops {
        (0..maker.rng.between(1, 3)).for_each(|_| maker.word(4));
    }
    let at = maker.out.structure.len();
    maker.fault(found.fault);
    let mut tree = maker.out;
    let before = rng.pick(&[0, 0, 4, 40, STRUCTURE - tree.structure.len()]);
    let mut structure = vec![0; before];
    rng.fill(&mut structure);
    structure.append(&mut tree.structure);
    tree.structure = structure;
    Case { tree, place: before as u32, depth, at: (before + at) as u32 }
}

/// Makes a walk one that looks at no token.
fn spoil(rng: &mut Rng, case: &mut Case, fault: Fault) {
    let structure = &mut case.tree.structure;
    match fault {
        Fault::LongStructure => structure.resize(STRUCTURE + 4 * rng.between(1, 3), 4),
        Fault::LongStrings => case.tree.strings.resize(STRINGS + rng.between(1, 3), 0),
        Fault::OddStructure => structure.truncate(structure.len() - rng.between(1, 3)),
        _ => case.place += rng.between(1, 3) as u32,
    }
}

const SPOILING: [Fault; 4] =
    [Fault::LongStructure, Fault::LongStrings, Fault::OddStructure, Fault::OddPlace];

/// A walk that meets a fault in a given way.
pub fn case(rng: &mut Rng, found: Found) -> Case {
    if found.fault.is_at_token() {
        return at_token(rng, found);
    }
    let token = Found { fault: Fault::End, no_ops: rng.percent(50), ..found };
    let mut case = at_token(rng, token);
    let end = case.tree.structure.len() as u32;
    let first = rng.below(3);
    match found.fault {
        Fault::PastEnd => {
            case.place = rng.pick(&[end + 4, end + 8, 0x7FFF_FFFC, 1 << 31, 0xFFFF_FFFC]);
            case.at = end;
            return case;
        }
        Fault::Several => {
            let second = rng.between(first + 1, 3);
            spoil(rng, &mut case, SPOILING[first]);
            spoil(rng, &mut case, SPOILING[second]);
        }
        fault => spoil(rng, &mut case, fault),
    }
    case.at = 0;
    case
}
