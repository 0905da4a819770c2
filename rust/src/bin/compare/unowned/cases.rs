//! Trees as text, with the replies that they get.

use super::{desk, expect, Walks, NOBODY, OTHER, OWNED, WALKER};
use crate::rng::Rng;
use crate::tally::Tally;
use crate::trees::Blocks;

/// Names, and a run of 32 letters: with the first one too long for a name, without it not.
pub const STRINGS: &[u8] = b"ibm,my-drc-index\0reg\0nnnnnnnnnnnnnnnnnnnnnnnnnnnnnnnn\0";
const REG: u32 = 17;
const TOO_LONG: u32 = 21;
const LONG: u32 = 22;
const EMPTY: u32 = 16;

/// How a tree is written: no-ops before each token, and the bytes of padding.
#[derive(Clone, Copy)]
pub struct Style {
    no_ops: usize,
    padding: u8,
}

pub const STYLES: [Style; 4] = [
    Style { no_ops: 0, padding: 0 },
    Style { no_ops: 1, padding: 0xFF },
    Style { no_ops: 3, padding: 1 },
    Style { no_ops: 0, padding: 2 },
];

/// Blocks that are written token by token.
pub struct Writer {
    pub out: Blocks,
    style: Style,
    /// where the next token begins, past the no-ops before it, when a mark is written
    mark: u32,
}

impl Writer {
    pub fn new(strings: &[u8], style: Style) -> Writer {
        Writer { out: Blocks { structure: vec![], strings: strings.to_vec() }, style, mark: 0 }
    }

    pub fn word(&mut self, word: u32) {
        (0..self.style.no_ops).for_each(|_| self.out.put_word(4));
        self.out.put_word(word);
    }

    fn bytes(&mut self, bytes: &[u8]) {
        let structure = &mut self.out.structure;
        structure.extend(bytes);
        structure.resize(structure.len().next_multiple_of(4), self.style.padding);
    }

    pub fn begin(&mut self, name: &[u8]) {
        self.word(1);
        self.bytes(&[name, b"\0"].concat());
    }

    pub fn property(&mut self, offset: u32, value: &[u8]) {
        self.word(3);
        self.out.put_word(value.len() as u32);
        self.out.put_word(offset);
        self.bytes(value);
    }

    /// The property that decides.
    fn index(&mut self, index: u32) {
        self.property(0, &index.to_be_bytes());
    }

    /// The bytes of the other connector's index, over and over, so many of them.
    fn other(&mut self, offset: u32, length: usize) {
        let value = OTHER.to_be_bytes().repeat(length / 4 + 1);
        self.property(offset, &value[..length]);
    }

    /// A property whose value ends past the block.
    fn past_the_block(&mut self) {
        self.word(3);
        self.out.put_word(8_000);
        self.out.put_word(REG);
    }

    fn mark(&mut self, at_end: bool) {
        let no_ops = if at_end { 0 } else { self.style.no_ops };
        self.mark = (self.out.structure.len() + 4 * no_ops) as u32;
    }

    fn sign(&mut self, sign: u8) {
        match sign {
            b')' => self.word(2),
            b'-' => self.word(4),
            b'.' => self.word(9),
            b'?' => self.word(5),
            b'{' => self.word(1),
            b'[' => self.begin(b""),
            b']' => self.begin(&[b'n'; 48]),
            b'w' => self.index(WALKER),
            b'u' => self.index(OTHER),
            b'o' => self.index(OWNED),
            b'n' => self.index(NOBODY),
            b'0'..=b'8' => self.other(0, usize::from(sign - b'0')),
            b'x' => self.other(REG, 4),
            b'l' => self.other(LONG, 4),
            b'L' => self.other(TOO_LONG, 4),
            b'"' => self.other(EMPTY, 4),
            b'!' => self.other(STRINGS.len() as u32, 4),
            b'B' => self.other(REG, 5_000),
            b'%' => self.other(REG, 8_168),
            b'$' => self.other(REG, 8_169),
            b'^' => self.past_the_block(),
            _ => panic!("no token is written {}", char::from(sign)),
        }
    }
}

/// The blocks of a tree as text. A bracket opens a node of one letter, or closes it. Of the index
/// properties u is the other connector's, o an owned one's, n nobody's, w the walker's; a digit is
/// one of so many bytes. Of the others x has the other connector's index, l a long name, B needs two
/// pages, % is as long as may be. A dash is a no-op. What stands for a fault: . the end, ? no token,
/// { a begin-node's word, [ and ] ones with a name that is empty or too long, and properties with
/// L a name that is too long, " an empty one, ! one outside its block, $ a value that is too long,
/// ^ one outside its block. A # marks the token behind it, or the end; its place is 0 without one.
pub fn marked(text: &str, style: Style) -> (Blocks, u32) {
    let mut writer = Writer::new(STRINGS, style);
    let mut signs = text.bytes();
    while let Some(sign) = signs.next() {
        match sign {
            b'(' => writer.begin(&[signs.next().unwrap()]),
            b'#' => writer.mark(signs.len() == 0),
            _ => writer.sign(sign),
        }
    }
    (writer.out, writer.mark)
}

/// The blocks alone.
pub fn written(text: &str, style: Style) -> Blocks {
    marked(text, style).0
}

/// A tree, and the replies to its walk, x for -1, with the fault at the mark; at a plus the other
/// connector becomes usable, at a tilde it is released.
type Case = (&'static str, &'static str);

const CASES: [Case; 72] = [
    // who owns the connector
    ("(r(au))", "20"),
    ("(r(au))", "+22340"),
    ("(r(ao))", "22340"),
    ("(r(an))", "22340"),
    ("(r(aw))", "22340"),
    ("(r(ax))", "22340"),
    ("(r(al))", "22340"),
    ("(r(a))", "2240"),
    // the length of the value
    ("(r(a0))", "22340"),
    ("(r(a1))", "22340"),
    ("(r(a3))", "22340"),
    ("(r(a4))", "20"),
    ("(r(a5))", "22340"),
    ("(r(a8))", "22340"),
    ("(r(a3u))", "20"),
    ("(r(a5u))", "20"),
    ("(r(a0358u)(bo))", "22340"),
    ("(r(a3o)(b5u)(c8n))", "2233423340"),
    // the first counts
    ("(r(auo))", "20"),
    ("(r(aun))", "20"),
    ("(r(aou))", "223340"),
    ("(r(anu))", "223340"),
    ("(r(au3)(bo5))", "223340"),
    // among other properties
    ("(r(axlxu))", "20"),
    ("(r(auxlx))", "20"),
    ("(r(axox))", "2233340"),
    ("(r(a%u))", "20"),
    ("(r(au%))", "20"),
    ("(r(aoB))", "2235340"),
    // the root's own
    ("(ru)", "230"),
    ("(ru(ax))", "232340"),
    ("(ru(au)x)", "2330"),
    // one in another
    ("(r(ao(bu)))", "22340"),
    ("(r(ao(bu)(cx)))", "22323440"),
    ("(r(au(bo)))", "20"),
    ("(r(au(bo(cu)x)x)(dx))", "22340"),
    ("(r(au(b)(c(d)))(ex(fu(g))))", "22340"),
    // a property behind a child is not looked at
    ("(r(a(b)u))", "2224340"),
    ("(r(ax(b)u))", "22324340"),
    ("(r(a(bu)u))", "22340"),
    ("(r(au(b)u))", "20"),
    // up to the parent's end
    ("(r(au)(bu)(cu))", "20"),
    ("(r(a(bu)(cu))x)", "22430"),
    ("(r(a(b(cu)(du))(eu))(fu))", "222440"),
    ("(r(au)(bx)(cu)(dx)(eu))", "22342340"),
    ("(r(au)x(bu)x)", "2330"),
    // no-ops
    ("-(r-(a-u-)-)", "20"),
    ("(r--(a--x--u--(b--)--)--(c--)--)--", "2240"),
    // 5 leaves the place before what is left out
    ("(r(au)B)", "2530"),
    ("(r(au)(bu)B)", "2530"),
    ("(r(au)B)", "25+23430"),
    ("(r(au)(bx)B)", "2234530"),
    ("(rB(au)(bx)(cu))", "2532340"),
    ("(rB(au)#?", "253xx"),
    ("(rB(au)(bu#", "253xx"),
    // in mid-walk
    ("(r(au)(bu))", "2+234~0"),
    ("(r(au(bu)))", "2+2~340"),
    ("(r(au(bu)x)(cu))", "2+23~340"),
    ("(r(au)(bx)(cu))", "22+342340"),
    ("(r(au)B)", "2+2~34530"),
    ("(r(au#?", "2xx+23xx~xx"),
    ("(r(a(bu#?", "22x+23x"),
    // the nesting
    ("(r(au(b(c(d(e(f(g))))))))", "20"),
    ("(r(au(b(c(d(e(f(g)(h)(i))))))))", "20"),
    ("(r(au(b(c(d(e(f(g#(h)))))))))", "2x"),
    ("(r(a(b(c(d(e(fu(g))))))))", "222222444440"),
    ("(r(a(b(c(d(e(fu(g#(h)))))))))", "222222x"),
    ("(r(a(b(c(d(e(f(gu))))))))", "22222224444440"),
    ("(r(a(b(c(d(e(f(gu#(h)))))))))", "2222222x"),
    ("(r(a(b(c(d(e(f(g#(h)))))))))", "22222222x"),
    ("(r(a(b(c(d(e(f(go#(hu)))))))))", "222222223x"),
    ("(r(a(b(c(d(e(f(g#(hu)))))))))", "22222222x"),
];

/// Faults, at the place of a sign in trees that go on behind it or end there. A begin-node at fault
/// ends the looking ahead.
const FAULTS: &str = ".?L\"!$^";
const BEGIN_FAULTS: &str = "{[]";
const AT_FAULT: [(&str, &str, &str); 16] = [
    ("(r#", "2x", "2x"),
    ("(r(a#", "2x", "22x"),
    ("(r(ax#", "2x", "223x"),
    ("(r(a35#", "2x", "2233x"),
    ("(r(ao#", "223x", "223x"),
    ("(r(an#", "223x", "223x"),
    ("(r(a(b#", "22x", "222x"),
    ("(r(a(b)#", "2224x", "2224x"),
    ("(r(au#", "2x", "2x"),
    ("(r(aux#", "2x", "2x"),
    ("(r(au(b#", "2x", "2x"),
    ("(r(au(b)#", "2x", "2x"),
    ("(r(au(b)x#", "2x", "2x"),
    ("(r(au)#", "2x", "2x"),
    ("(r(au)(b#", "2x", "22x"),
    ("(r(au)(bu#", "2x", "2x"),
];

fn case(rng: &mut Rng, tally: &mut Tally, text: &str, script: &str) {
    for style in STYLES {
        let both = desk(rng, tally);
        let (tree, fault) = marked(text, style);
        expect(tally, Walks::new(rng, both), (&tree, fault), script);
    }
}

/// Every case once.
pub fn every(rng: &mut Rng, tally: &mut Tally) {
    for (text, script) in CASES {
        case(rng, tally, text, script);
        // a walk reads nothing behind its root
        if script.ends_with('0') {
            case(rng, tally, &format!("{text}."), script);
            case(rng, tally, &format!("{text}?"), script);
        }
    }
    for (text, script, at_begin) in AT_FAULT {
        let faults = FAULTS.chars().map(|fault| (fault, script));
        for (fault, script) in faults.chain(BEGIN_FAULTS.chars().map(|fault| (fault, at_begin))) {
            for rest in ["", ")))).", "x)))).", "(c))))."] {
                let text = text.replace('#', &format!("#{fault}{rest}"));
                case(rng, tally, &text, script);
            }
        }
    }
}
