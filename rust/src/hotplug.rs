//! The hot-plug event section, which tells a guest to add or to remove connectors, written and read.
//! It is of big-endian words, four in the legacy form and five in the modern one: the id and the
//! length in bytes; the version, a byte; type, action and identifier, a byte each; then what the
//! identifier says of count and index. What is not used is zero.

use crate::{put_word, status, word};

const ID: u32 = 0x4850;
const VERSION: u32 = 1;

// What names the connectors: an index, a count, or a count from an index on.
const BY_INDEX: u32 = 2;
const BY_COUNT: u32 = 3;
const BY_RANGE: u32 = 4;

/// The form of a section.
#[derive(Clone, Copy, Debug, PartialEq, Eq)]
pub enum Form {
    Legacy,
    Modern,
}

impl Form {
    pub fn from_word(word: u32) -> Form {
        match word {
            0 => Form::Legacy,
            _ => Form::Modern,
        }
    }

    /// How many bytes a section has.
    pub fn length(self) -> usize {
        match self {
            Form::Legacy => 16,
            Form::Modern => 20,
        }
    }

    /// Refuses another number of lent bytes than the section has.
    fn check_length(self, lent: usize) -> Result<(), i32> {
        match (self, lent) {
            (Form::Legacy, 16) | (Form::Modern, 20) => Ok(()),
            (Form::Legacy, 20) => Err(status::LEGACY_OF_20),
            _ => Err(status::WRONG_LENGTH),
        }
    }
}

/// What a section says. It may be of any words; the writer refuses what no section can say.
#[derive(Clone, Copy, Debug, PartialEq, Eq)]
pub struct HotplugEvent {
    pub event_type: u32,
    pub action: u32,
    pub identifier: u32,
    pub count: u32,
    pub index: u32,
}

impl HotplugEvent {
    pub fn from_words(words: [u32; 5]) -> HotplugEvent {
        let [event_type, action, identifier, count, index] = words;
        HotplugEvent { event_type, action, identifier, count, index }
    }

    pub fn to_words(&self) -> [u32; 5] {
        [self.event_type, self.action, self.identifier, self.count, self.index]
    }

    /// What reader and writer both refuse after a wrong identifier.
    fn check(&self) -> Result<(), i32> {
        if !(1..=5).contains(&self.event_type) {
            return Err(status::BAD_TYPE);
        }
        if !(1..=2).contains(&self.action) {
            return Err(status::BAD_ACTION);
        }
        if self.identifier == BY_RANGE {
            let others = self.count.checked_sub(1).ok_or(status::EMPTY_RANGE)?;
            self.index.checked_add(others).ok_or(status::RANGE_TOO_FAR)?;
        }
        Ok(())
    }

    /// Writes the event's section over all bytes of `out`.
    pub fn write(&self, form: Form, out: &mut [u8]) -> Result<(), i32> {
        form.check_length(out.len())?;
        let (fourth, fifth, unused) = match (self.identifier, form) {
            (BY_INDEX, _) => (self.index, 0, self.count),
            (BY_COUNT, _) => (self.count, 0, self.index),
            (BY_RANGE, Form::Modern) => (self.count, self.index, 0),
            _ => return Err(status::NO_IDENTIFIER),
        };
        self.check()?;
        if unused != 0 {
            return Err(status::NOT_ZERO);
        }
        put_word(out, 0, ID << 16 | form.length() as u32);
        put_word(out, 4, VERSION << 24);
        put_word(out, 8, self.event_type << 24 | self.action << 16 | self.identifier << 8);
        put_word(out, 12, fourth);
        if form == Form::Modern {
            put_word(out, 16, fifth);
        }
        Ok(())
    }

    /// The event of a section.
    pub fn read(form: Form, section: &[u8]) -> Result<HotplugEvent, i32> {
        form.check_length(section.len())?;
        // the fifth word of a legacy section is 0
        let word = |at| word(section, at).unwrap_or(0);
        let [first, second, third, fourth, fifth] = [0, 4, 8, 12, 16].map(word);
        if first & 0xFFFF != form.length() as u32 {
            return Err(status::WRONG_LENGTH);
        }
        if first >> 16 != ID {
            return Err(status::WRONG_ID);
        }
        if second >> 24 != VERSION {
            return Err(status::WRONG_VERSION);
        }
        let [event_type, action, identifier, unused_byte] = third.to_be_bytes().map(u32::from);
        let (count, index, unused_word) = match (identifier, form) {
            (BY_INDEX, _) => (0, fourth, fifth),
            (BY_COUNT, _) => (fourth, 0, fifth),
            (BY_RANGE, Form::Modern) => (fourth, fifth, 0),
            _ => return Err(status::NO_IDENTIFIER),
        };
        let event = HotplugEvent { event_type, action, identifier, count, index };
        event.check()?;
        if second << 8 | unused_byte | unused_word != 0 {
            return Err(status::NOT_ZERO);
        }
        Ok(event)
    }
}

#[cfg(test)]
mod tests {
    use super::*;
    use Form::{Legacy, Modern};

    const MEM_1: u32 = 0x8000_0001;

    /// Adding memory by its index, by count, and by count from an index on.
    const INDEX: [u32; 5] = [2, 1, 2, 0, MEM_1];
    const COUNT: [u32; 5] = [2, 1, 3, 7, 0];
    const RANGE: [u32; 5] = [2, 1, 4, 3, MEM_1];

    fn bytes(words: &[u32]) -> Vec<u8> {
        words.iter().flat_map(|word| word.to_be_bytes()).collect()
    }

    /// The answer to an event written to so many bytes, which a refusal leaves as they were.
    fn write_to(form: Form, event: [u32; 5], lent: usize) -> Result<Vec<u8>, i32> {
        let mut out = vec![0xEE; lent];
        match HotplugEvent::from_words(event).write(form, &mut out) {
            Ok(()) => Ok(out),
            Err(refusal) => {
                assert_eq!(out, vec![0xEE; lent]);
                Err(refusal)
            }
        }
    }

    fn write(form: Form, event: [u32; 5]) -> Result<Vec<u8>, i32> {
        write_to(form, event, form.length())
    }

    fn read(form: Form, section: &[u8]) -> Result<[u32; 5], i32> {
        HotplugEvent::read(form, section).map(|event| event.to_words())
    }

    /// An event with one word changed.
    fn with(mut event: [u32; 5], place: usize, word: u32) -> [u32; 5] {
        event[place] = word;
        event
    }

    /// The answer to an event's section with one byte changed.
    fn read_with(form: Form, event: [u32; 5], place: usize, byte: u8) -> Result<[u32; 5], i32> {
        let mut section = write(form, event).unwrap();
        section[place] = byte;
        read(form, &section)
    }

    #[test]
    fn sections() {
        let head = |length: u32| [0x4850_0000 | length, 0x0100_0000];
        let legacy = |rest: [u32; 2]| bytes(&[head(16), rest].concat());
        let modern = |rest: [u32; 3]| bytes(&[&head(20)[..], &rest].concat());
        for (form, event, section) in [
            (Legacy, INDEX, legacy([0x0201_0200, MEM_1])),
            (Legacy, COUNT, legacy([0x0201_0300, 7])),
            (Legacy, [5, 2, 3, 0, 0], legacy([0x0502_0300, 0])),
            (Modern, INDEX, modern([0x0201_0200, MEM_1, 0])),
            (Modern, COUNT, modern([0x0201_0300, 7, 0])),
            (Modern, RANGE, modern([0x0201_0400, 3, MEM_1])),
            (Modern, [1, 2, 2, 0, 0], modern([0x0102_0200, 0, 0])),
        ] {
            assert_eq!(write(form, event).as_ref(), Ok(&section));
            assert_eq!(read(form, &section), Ok(event));
        }
    }

    #[test]
    fn forms() {
        assert_eq!(Form::from_word(0), Legacy);
        for word in [1, 2, 0x100, 1 << 31, u32::MAX] {
            assert_eq!(Form::from_word(word), Modern);
        }
    }

    #[test]
    fn lengths_lent() {
        for lent in (0..40).filter(|&lent| lent != 16) {
            let refusal = if lent == 20 { -41 } else { -42 };
            assert_eq!(write_to(Legacy, INDEX, lent), Err(refusal));
            assert_eq!(read(Legacy, &vec![0; lent]), Err(refusal));
        }
        for lent in (0..40).filter(|&lent| lent != 20) {
            assert_eq!(write_to(Modern, RANGE, lent), Err(-42));
            assert_eq!(read(Modern, &vec![0; lent]), Err(-42));
        }
    }

    #[test]
    fn length_id_and_version() {
        for (form, length) in [(Legacy, 16), (Modern, 20)] {
            for byte in (0..=255).filter(|&byte| byte != length) {
                assert_eq!(read_with(form, INDEX, 3, byte), Err(-42));
            }
            assert_eq!(read_with(form, INDEX, 2, 1), Err(-42));
            assert_eq!(read_with(form, INDEX, 0, 0x49), Err(-43));
            assert_eq!(read_with(form, INDEX, 1, 0x51), Err(-43));
            for version in [0, 2, 255] {
                assert_eq!(read_with(form, INDEX, 4, version), Err(-44));
            }
        }
    }

    #[test]
    fn identifiers_types_and_actions() {
        for byte in 0..=255 {
            let word = u32::from(byte);
            for (form, known) in [(Legacy, 2..=3), (Modern, 2..=4)] {
                let wrong = !known.contains(&byte);
                assert_eq!(write(form, with(INDEX, 2, word)) == Err(-45), wrong);
                assert_eq!(read_with(form, INDEX, 10, byte) == Err(-45), wrong);
                let wrong = !(1..=5).contains(&byte);
                assert_eq!(write(form, with(INDEX, 0, word)) == Err(-46), wrong);
                assert_eq!(read_with(form, INDEX, 8, byte) == Err(-46), wrong);
                let wrong = !(1..=2).contains(&byte);
                assert_eq!(write(form, with(INDEX, 1, word)) == Err(-47), wrong);
                assert_eq!(read_with(form, INDEX, 9, byte) == Err(-47), wrong);
            }
        }
        for (place, refusal) in [(0, -46), (1, -47), (2, -45)] {
            for high in [0x100, 0x1_0000, 1 << 31] {
                let event = with(RANGE, place, RANGE[place] | high);
                assert_eq!(write(Modern, event), Err(refusal));
            }
        }
    }

    #[test]
    fn ranges() {
        for (count, index, refusal) in [
            (0, 0, Some(-48)),
            (0, u32::MAX, Some(-48)),
            (1, u32::MAX, None),
            (2, u32::MAX, Some(-49)),
            (2, u32::MAX - 1, None),
            (u32::MAX, 0, None),
            (u32::MAX, 1, None),
            (u32::MAX, 2, Some(-49)),
            (1 << 31, 1 << 31, None),
            (1 << 31, 1 << 31 | 1, Some(-49)),
            (u32::MAX, u32::MAX, Some(-49)),
        ] {
            let event = [2, 1, 4, count, index];
            let section = bytes(&[0x4850_0014, 0x0100_0000, 0x0201_0400, count, index]);
            match refusal {
                None => {
                    assert_eq!(write(Modern, event).as_ref(), Ok(&section));
                    assert_eq!(read(Modern, &section), Ok(event));
                }
                Some(refusal) => {
                    assert_eq!(write(Modern, event), Err(refusal));
                    assert_eq!(read(Modern, &section), Err(refusal));
                }
            }
        }
    }

    #[test]
    fn not_used() {
        for form in [Legacy, Modern] {
            for high in [1, 0x100, 1 << 31] {
                assert_eq!(write(form, with(INDEX, 3, high)), Err(-50));
                assert_eq!(write(form, with(COUNT, 4, high)), Err(-50));
            }
            for place in [5, 6, 7, 11] {
                assert_eq!(read_with(form, INDEX, place, 1), Err(-50));
                assert_eq!(read_with(form, COUNT, place, 0x80), Err(-50));
            }
        }
        for place in 16..20 {
            assert_eq!(read_with(Modern, INDEX, place, 1), Err(-50));
            assert_eq!(read_with(Modern, COUNT, place, 0x80), Err(-50));
        }
        for place in [5, 6, 7, 11] {
            assert_eq!(read_with(Modern, RANGE, place, 1), Err(-50));
        }
    }

    /// A section has all that is refused, and loses one after the other.
    #[test]
    fn the_readers_order() {
        let mut section = vec![0xFF; 20];
        section[12..16].fill(0);
        assert_eq!(read(Legacy, &section), Err(-41));
        assert_eq!(read(Modern, &section), Err(-42));
        for (place, right, refusal) in [
            (2, &[0, 20][..], -43),
            (0, &[0x48, 0x50], -44),
            (4, &[1], -45),
            (10, &[4], -46),
            (8, &[5], -47),
            (9, &[2], -48),
            (15, &[2], -49),
            (19, &[0xFE], -50),
            (11, &[0], -50),
        ] {
            section[place..place + right.len()].copy_from_slice(right);
            assert_eq!(read(Modern, &section), Err(refusal));
        }
        section[5..8].fill(0);
        assert_eq!(read(Modern, &section), Ok([5, 2, 4, 2, u32::MAX - 1]));
    }

    #[test]
    fn the_writers_order() {
        let wrong = [9, 9, 9, 0, u32::MAX];
        assert_eq!(write_to(Legacy, wrong, 20), Err(-41));
        assert_eq!(write_to(Modern, wrong, 16), Err(-42));
        for (event, refusal) in [
            (wrong, -45),
            ([9, 9, 4, 0, u32::MAX], -46),
            ([5, 9, 4, 0, u32::MAX], -47),
            ([5, 2, 4, 0, u32::MAX], -48),
            ([5, 2, 4, 2, u32::MAX], -49),
            ([9, 9, 2, 1, 0], -46),
            ([5, 9, 3, 0, 1], -47),
            ([5, 2, 3, 0, 1], -50),
        ] {
            assert_eq!(write(Modern, event), Err(refusal));
        }
    }
}
