//! The library's search for a NUL and its test of padding, beside the plain byte loops.

use crate::bench;
use std::hint::black_box;
use std::iter::repeat;

mod c {
    #[link(name = "timed_names", kind = "static")]
    extern "C" {
        pub fn timed_name_length(s: *const u8, len: usize, at: usize, limit: usize) -> usize;
        pub fn timed_plain_length(s: *const u8, len: usize, at: usize, limit: usize) -> usize;
        pub fn timed_zero_at(s: *const u8, len: usize, at: usize, n: usize) -> bool;
        pub fn timed_plain_zero(s: *const u8, len: usize, at: usize, n: usize) -> bool;
    }
}

/// Names or paddings in a block.
const COUNT: usize = 1_000;
/// Calls of a turn, and the turns after which their order begins anew.
const CALLS: usize = 5_000;
const TURNS: usize = 10;

// Each call lends a slice with its length.

fn name_length(s: &[u8], at: usize, limit: usize) -> usize {
    unsafe { c::timed_name_length(s.as_ptr(), s.len(), at, limit) }
}

fn plain_length(s: &[u8], at: usize, limit: usize) -> usize {
    unsafe { c::timed_plain_length(s.as_ptr(), s.len(), at, limit) }
}

fn zero_at(s: &[u8], at: usize, n: usize) -> bool {
    unsafe { c::timed_zero_at(s.as_ptr(), s.len(), at, n) }
}

fn plain_zero(s: &[u8], at: usize, n: usize) -> bool {
    unsafe { c::timed_plain_zero(s.as_ptr(), s.len(), at, n) }
}

#[inline(never)]
fn position(s: &[u8], at: usize, limit: usize) -> usize {
    let bytes = &s[at..];
    bytes.iter().take(limit).position(|&b| b == 0).unwrap_or(bytes.len().min(limit))
}

/// Numbers below `n` in a fixed order.
pub fn scattered(n: u32) -> impl Iterator<Item = usize> {
    let next = |x: &u32| Some(x.wrapping_mul(1_664_525).wrapping_add(1_013_904_223));
    std::iter::successors(Some(12_345), next).map(move |x| ((x >> 16) % n) as usize)
}

/// Runs of bytes in a block, each with its place and length, in the order of the calls.
struct Runs {
    block: Vec<u8>,
    runs: Vec<(u32, u32)>,
}

impl Runs {
    /// Names of these lengths, each with its NUL.
    fn names(lengths: impl Iterator<Item = usize>) -> Runs {
        let (mut block, mut runs) = (vec![], vec![]);
        for length in lengths.take(COUNT) {
            runs.push((block.len() as u32, length as u32));
            block.resize(block.len() + length, b'n');
            block.push(0);
        }
        Runs { block, runs: runs.repeat(CALLS / COUNT) }
    }

    /// Zeros of these lengths, each before a multiple of four; no other byte is zero.
    fn paddings(lengths: impl Iterator<Item = usize>) -> Runs {
        let (mut block, mut runs) = (vec![0xA5; 12 + 4 * COUNT], vec![]);
        for (end, length) in (12..).step_by(4).zip(lengths).take(COUNT) {
            runs.push(((end - length) as u32, length as u32));
            block[end - length..end].fill(0);
        }
        Runs { block, runs: runs.repeat(CALLS / COUNT) }
    }

    /// In a fixed order that begins anew only after many turns.
    fn scattered(mut self) -> Runs {
        let order = scattered(COUNT as u32).take(TURNS * CALLS);
        self.runs = order.map(|i| self.runs[i]).collect();
        self
    }

    /// A side of the benchmark: each call of a turn has to hold of the block and a run.
    fn side<'a>(
        &'a self,
        holds: impl Fn(&[u8], usize, usize) -> bool + 'a,
    ) -> impl FnMut() -> usize + 'a {
        let mut turns = self.runs.chunks(CALLS).cycle();
        move || {
            let (block, turn) = (black_box(&self.block[..]), turns.next().unwrap());
            let holds = |&&(at, length): &&(u32, u32)| holds(block, at as usize, length as usize);
            assert_eq!(turn.iter().filter(holds).count(), turn.len());
            turn.len()
        }
    }
}

fn find(name: &str, names: &Runs, limit: usize) {
    let ours = names.side(|s, at, length| name_length(s, at, limit) == length);
    let plain = names.side(|s, at, length| plain_length(s, at, limit) == length);
    bench(name, ours, plain);
}

fn look(name: &str, paddings: &Runs) {
    bench(name, paddings.side(zero_at), paddings.side(plain_zero));
}

fn header(what: &str, other: &str) {
    println!("{what:52} {:>14} {other:>14} {:>7}", "ours", "ratio");
}

pub fn all() {
    header("names per second", "plain loop");
    let long = Runs::names(repeat(47));
    find("1,000 names of 47 bytes", &long, 48);
    for length in [1, 3, 7, 8, 16, 31] {
        let plural = if length == 1 { "" } else { "s" };
        find(&format!("names of {length} byte{plural}"), &Runs::names(repeat(length)), 32);
    }
    let mixed = Runs::names(scattered(31).map(|n| n + 1)).scattered();
    find("names of 1 to 31 bytes in a scattered order", &mixed, 32);
    header("names per second", "Rust");
    let ours = long.side(|s, at, length| name_length(s, at, 48) == length);
    let rust = long.side(|s, at, length| position(s, at, 48) == length);
    bench("1,000 names of 47 bytes, take and position", ours, rust);
    header("paddings per second", "plain loop");
    let mixed = Runs::paddings(scattered(4)).scattered();
    look("paddings of 0 to 3 bytes in a scattered order", &mixed);
    look("paddings of 2 bytes", &Runs::paddings(repeat(2)));
}
