//! The four array properties of a partition's connectors, written from the table, and read: names,
//! indexes, domains and types, in this order. Each is a big-endian count and that many entries.

use crate::status;
use crate::table::{kind_known, Connector, Table, CPU, MEM, PHB, SLOT};
use std::mem::take;

/// The bits of an index below its kind.
const LOW_BITS: u32 = 0x0FFF_FFFF;

/// "00" to "99".
const PAIRS: [[u8; 2]; 100] = {
    let mut pairs = [[0; 2]; 100];
    let mut number = 0;
    while number < 100 {
        pairs[number] = [b'0' + number as u8 / 10, b'0' + number as u8 % 10];
        number += 1;
    }
    pairs
};

/// How many digits the decimal of a number has.
fn digits(number: u32) -> usize {
    (number | 1).ilog10() as usize + 1
}

/// Puts bytes at the front of what is left of a buffer.
fn put<const N: usize>(left: &mut &mut [u8], bytes: &[u8; N]) {
    let (front, behind) = take(left).split_at_mut(N);
    front.copy_from_slice(bytes);
    *left = behind;
}

/// Puts a number's decimal and a NUL, two digits at a time.
fn put_decimal(left: &mut &mut [u8], mut number: u32) {
    let (front, behind) = take(left).split_at_mut(digits(number));
    let mut pairs = front.rchunks_exact_mut(2);
    for pair in &mut pairs {
        pair.copy_from_slice(&PAIRS[(number % 100) as usize]);
        number /= 100;
    }
    if let [first] = pairs.into_remainder() {
        *first = b'0' + number as u8;
    }
    *left = behind;
    put(left, &[0]);
}

impl Table {
    /// A partition's connectors of the known kinds, in the order they were added.
    fn listed(&self, partition: u32) -> impl Iterator<Item = &Connector> {
        self.connectors.iter().filter(move |c| c.partition == partition && kind_known(c.kind))
    }

    /// The count and the lengths of a partition's arrays.
    fn measure(&self, partition: u32) -> (u32, [usize; 4]) {
        let (mut count, mut slots, mut decimals) = (0, 0, 0);
        for connector in self.listed(partition) {
            count += 1;
            slots += usize::from(connector.kind == SLOT);
            decimals += digits(connector.index.0 & LOW_BITS);
        }
        // a slot's name has three bytes less before its decimal, and its type one more
        let words = 4 + 4 * count;
        (count as u32, [words + count + decimals - 3 * slots, words, words, words + slots])
    }

    /// Writes a partition's arrays. Their lengths, or the refusal.
    pub fn write_properties(
        &self,
        partition: u32,
        buffers: [&mut [u8]; 4],
    ) -> Result<[u32; 4], i32> {
        let (count, lengths) = self.measure(partition);
        if buffers.iter().zip(lengths).any(|(buffer, length)| buffer.len() < length) {
            return Err(status::NO_ROOM);
        }
        let [mut names, mut indexes, mut domains, mut types] = buffers;
        for array in [&mut names, &mut indexes, &mut domains, &mut types] {
            put(array, &count.to_be_bytes());
        }
        domains[..4 * count as usize].fill(0xFF);
        for connector in self.listed(partition) {
            let index = connector.index.0;
            match connector.kind {
                CPU => (put(&mut names, b"CPU "), put(&mut types, b"CPU\0")),
                PHB => (put(&mut names, b"PHB "), put(&mut types, b"PHB\0")),
                SLOT => (put(&mut names, b"C"), put(&mut types, b"SLOT\0")),
                _ => (put(&mut names, b"MEM "), put(&mut types, b"MEM\0")),
            };
            put_decimal(&mut names, index & LOW_BITS);
            put(&mut indexes, &index.to_be_bytes());
        }
        Ok(lengths.map(|length| length as u32))
    }
}

const CPU_TYPE: u32 = u32::from_be_bytes(*b"CPU\0");
const PHB_TYPE: u32 = u32::from_be_bytes(*b"PHB\0");
const SLOT_TYPE: u32 = u32::from_be_bytes(*b"SLOT");
const MEM_TYPE: u32 = u32::from_be_bytes(*b"MEM\0");

/// The kinds of the types in a run of strings, up to one that is not known.
struct Kinds<'a>(&'a [u8]);

impl Iterator for Kinds<'_> {
    type Item = u32;

    fn next(&mut self) -> Option<u32> {
        let (front, behind) = self.0.split_first_chunk()?;
        let (kind, behind) = match (u32::from_be_bytes(*front), behind) {
            (CPU_TYPE, _) => (CPU, behind),
            (PHB_TYPE, _) => (PHB, behind),
            (MEM_TYPE, _) => (MEM, behind),
            (SLOT_TYPE, [0, behind @ ..]) => (SLOT, behind),
            _ => return None,
        };
        self.0 = behind;
        Some(kind)
    }
}

/// How many NULs there are; a byte has room for the number in one chunk.
fn nuls(bytes: &[u8]) -> usize {
    let in_chunk = |chunk: &[u8]| chunk.iter().map(|&byte| u8::from(byte == 0)).sum::<u8>();
    bytes.chunks(128).map(|chunk| usize::from(in_chunk(chunk))).sum()
}

/// An array's count, and its entries.
fn array(bytes: &[u8]) -> Option<(usize, &[u8])> {
    let (count, entries) = bytes.split_first_chunk()?;
    Some((u32::from_be_bytes(*count) as usize, entries))
}

/// Reads four arrays and writes index, kind and domain of each connector. The number of bytes
/// written, or the refusal.
pub fn read_properties(arrays: [&[u8]; 4], out: &mut [u8]) -> Result<usize, i32> {
    let [Some(names), Some(indexes), Some(domains), Some(types)] = arrays.map(array) else {
        return Err(status::CUT_SHORT);
    };
    if [indexes, domains].iter().any(|(count, words)| words.len() / 4 < *count) {
        return Err(status::CUT_SHORT);
    }
    let count = names.0;
    if [indexes, domains, types].iter().any(|array| array.0 != count) {
        return Err(status::COUNTS_DIFFER);
    }
    let [names, indexes, domains, types] = [names.1, indexes.1, domains.1, types.1];
    let ended = nuls(names);
    if ended < count {
        return Err(status::UNENDED);
    }
    let mut kinds = Kinds(types);
    if kinds.by_ref().take(count).count() < count {
        return Err(if nuls(types) < count { status::UNENDED } else { status::UNKNOWN_TYPE });
    }
    let names_left = ended > count || names.last().is_some_and(|&byte| byte != 0);
    let words_left = indexes.len() > 4 * count || domains.len() > 4 * count;
    if names_left || words_left || !kinds.0.is_empty() {
        return Err(status::LEFT_OVER);
    }
    let written = 12 * count;
    let out = out.get_mut(..written).ok_or(status::OUT_SHORT)?;
    let words = indexes.chunks_exact(4).zip(domains.chunks_exact(4));
    for ((entry, (index, domain)), kind) in out.chunks_exact_mut(12).zip(words).zip(Kinds(types)) {
        entry[..4].copy_from_slice(index);
        entry[4..8].copy_from_slice(&kind.to_be_bytes());
        entry[8..].copy_from_slice(domain);
    }
    Ok(written)
}

#[cfg(test)]
mod tests {
    use super::*;
    use crate::Index;

    type Arrays = [Vec<u8>; 4];

    /// Connectors of partition 1, their kinds the top four bits of their indexes.
    fn table(indexes: &[u32]) -> Table {
        let mut table = Table::new();
        for &index in indexes {
            assert_eq!(table.add_connector(index >> 28, Index(index), 1, None), 0);
        }
        table
    }

    fn write(table: &Table, partition: u32, buffers: &mut Arrays) -> Result<[u32; 4], i32> {
        table.write_properties(partition, buffers.each_mut().map(|buffer| &mut buffer[..]))
    }

    /// The arrays of a partition. The bytes past them stay.
    fn written(table: &Table, partition: u32) -> Arrays {
        let mut buffers = [1000, 300, 300, 400].map(|length| vec![0xEE; length]);
        let lengths = write(table, partition, &mut buffers).unwrap();
        for (buffer, length) in buffers.iter_mut().zip(lengths) {
            assert!(buffer[length as usize..].iter().all(|&byte| byte == 0xEE));
            buffer.truncate(length as usize);
        }
        buffers
    }

    fn words(words: &[u32]) -> Vec<u8> {
        words.iter().flat_map(|word| word.to_be_bytes()).collect()
    }

    fn strings(strings: &[&str]) -> Vec<u8> {
        let mut array = words(&[strings.len() as u32]);
        strings.iter().for_each(|string| array.extend(format!("{string}\0").bytes()));
        array
    }

    fn read(arrays: &Arrays, out: &mut [u8]) -> Result<usize, i32> {
        read_properties(arrays.each_ref().map(|array| &array[..]), out)
    }

    /// The refusal of the arrays, which leaves a list of this length as it was.
    fn refused_with(arrays: &Arrays, room: usize) -> i32 {
        let mut out = vec![0xEE; room];
        let refusal = read(arrays, &mut out).unwrap_err();
        assert_eq!(out, vec![0xEE; room]);
        refusal
    }

    fn refused(arrays: &Arrays) -> i32 {
        refused_with(arrays, 1000)
    }

    const MEM_1: u32 = 0x8000_0001;
    const SLOT_1: u32 = 0x3000_0001;

    /// A memory, a slot and a processor.
    fn three() -> Arrays {
        written(&table(&[MEM_1, SLOT_1, 0x1000_0002]), 1)
    }

    #[test]
    fn the_arrays_written_out() {
        let [names, indexes, domains, types] = three();
        assert_eq!(names, strings(&["MEM 1", "C1", "CPU 2"]));
        assert_eq!(indexes, words(&[3, MEM_1, SLOT_1, 0x1000_0002]));
        assert_eq!(domains, words(&[3, u32::MAX, u32::MAX, u32::MAX]));
        assert_eq!(types, strings(&["MEM", "SLOT", "CPU"]));
    }

    #[test]
    fn decimals() {
        let tens = (0..9).flat_map(|power| [10_u32.pow(power) - 1, 10_u32.pow(power)]);
        for number in tens.chain([268_435_455]) {
            for (kind, name) in [(1, "CPU "), (2, "PHB "), (3, "C"), (8, "MEM ")] {
                let [names, ..] = written(&table(&[kind << 28 | number]), 1);
                assert_eq!(names, strings(&[&format!("{name}{number}")]));
            }
        }
    }

    #[test]
    fn own_connectors_in_order() {
        let mut table = Table::new();
        for (index, partition) in [(0x8000_0009, 2), (MEM_1, 1), (0x8000_0003, 2)] {
            assert_eq!(table.add_connector(8, Index(index), partition, None), 0);
        }
        assert_eq!(written(&table, 2)[1], words(&[2, 0x8000_0009, 0x8000_0003]));
        for partition in [0, 3, 32, 33, u32::MAX] {
            assert_eq!(written(&table, partition), [(); 4].map(|_| vec![0; 4]));
        }
    }

    #[test]
    fn unknown_kinds_left_out() {
        let mut table = table(&[MEM_1, SLOT_1]);
        table.connectors[0].kind = 4;
        assert_eq!(written(&table, 1)[0], strings(&["C1"]));
        table.connectors[1].kind = 0;
        assert_eq!(written(&table, 1), [(); 4].map(|_| vec![0; 4]));
    }

    #[test]
    fn a_short_buffer() {
        let (table, arrays) = (table(&[MEM_1, SLOT_1]), written(&table(&[MEM_1, SLOT_1]), 1));
        for short in 0..4 {
            let mut buffers = arrays.each_ref().map(|array| vec![0xEE; array.len()]);
            buffers[short].pop();
            let before = buffers.clone();
            assert_eq!(write(&table, 1, &mut buffers), Err(-32));
            assert_eq!(buffers, before);
        }
    }

    #[test]
    fn read_back() {
        let mut out = [0xEE; 40];
        assert_eq!(read(&three(), &mut out), Ok(36));
        let (mem, slot) = ([MEM_1, 8, u32::MAX], [SLOT_1, 3, u32::MAX]);
        assert_eq!(out[..36], words(&[mem, slot, [0x1000_0002, 1, u32::MAX]].concat()));
        assert_eq!(out[36..], [0xEE; 4]);
        assert_eq!(read(&[(); 4].map(|_| vec![0; 4]), &mut []), Ok(0));
    }

    #[test]
    fn cut_short() {
        for array in 0..4 {
            for length in 0..4 {
                let mut arrays = three();
                arrays[array].truncate(length);
                assert_eq!(refused(&arrays), -41);
            }
        }
        for (array, length) in [(1, 12), (1, 15), (2, 4), (2, 13)] {
            let mut arrays = three();
            arrays[array].truncate(length);
            assert_eq!(refused(&arrays), -41);
        }
    }

    #[test]
    fn counts() {
        for array in 0..4 {
            for count in [0, 2, 4, u32::MAX] {
                let mut arrays = three();
                arrays[array][..4].copy_from_slice(&count.to_be_bytes());
                let too_few = (array == 1 || array == 2) && count > 3;
                assert_eq!(refused(&arrays), if too_few { -41 } else { -42 });
            }
        }
        let mut arrays = three();
        arrays.iter_mut().for_each(|array| array[..4].fill(0xFF));
        assert_eq!(refused(&arrays), -41);
        arrays[1] = words(&[0]);
        arrays[2] = words(&[0]);
        assert_eq!(refused(&arrays), -42);
    }

    #[test]
    fn strings_and_types() {
        for (array, length) in [(0, 4), (0, 9), (3, 4), (3, 12), (3, 16)] {
            let mut arrays = three();
            arrays[array].truncate(length);
            assert_eq!(refused(&arrays), -43);
        }
        for wrong in ["", "C", "CP", "CPUU", "cpu", "SLO", "SLOTT", "Mem", "PHB ", "28"] {
            let mut arrays = three();
            arrays[3] = strings(&["MEM", wrong, "CPU"]);
            assert_eq!(refused(&arrays), -44);
        }
        let mut arrays = three();
        arrays[0] = strings(&["", "any name", "\u{7F}"]);
        assert_eq!(read(&arrays, &mut [0; 36]), Ok(36));
    }

    #[test]
    fn bytes_left_and_room() {
        for array in 0..4 {
            for more in [&b"\0"[..], b"MEM\0", b"x"] {
                let mut arrays = three();
                arrays[array].extend(more);
                assert_eq!(refused(&arrays), -45);
            }
        }
        for room in [0, 11, 12, 35] {
            assert_eq!(refused_with(&three(), room), -46);
        }
    }

    /// The arrays have all that is refused, and lose one after the other.
    #[test]
    fn refusals_in_order() {
        let [names, indexes, domains, types] = three().map(|array| [array, vec![b'x']].concat());
        let mut arrays = [names, indexes, domains[..15].to_vec(), types[..9].to_vec()];
        arrays[0][3] = 2;
        arrays[3][4] = b'm';
        assert_eq!(refused_with(&arrays, 35), -41);
        arrays[2] = domains;
        assert_eq!(refused_with(&arrays, 35), -42);
        arrays[0][3] = 3;
        assert_eq!(refused_with(&arrays, 35), -43);
        arrays[3] = types;
        arrays[3][4] = b'm';
        assert_eq!(refused_with(&arrays, 35), -44);
        arrays[3][4] = b'M';
        assert_eq!(refused_with(&arrays, 35), -45);
        arrays.iter_mut().for_each(|array| drop(array.pop()));
        assert_eq!(refused_with(&arrays, 35), -46);
        assert_eq!(read(&arrays, &mut [0; 36]), Ok(36));
    }

    /// The arrays of a host bridge as it stands in a real tree.
    #[test]
    fn a_host_bridge() {
        let numbers = 65_675..65_675 + 256;
        let mut arrays = [(); 4].map(|_| words(&[256]));
        for number in numbers {
            arrays[0].extend(format!("C{number}\0").bytes());
            arrays[1].extend((0x4000_0000_u32 | number).to_be_bytes());
            arrays[2].extend([0xFF; 4]);
            arrays[3].extend(b"28\0");
        }
        assert_eq!(refused_with(&arrays, 12 * 256), -44);
    }
}
