//! Walks from their start to their end, with a reader behind, and walks of lone records.

use crate::any_tables::{any_wanted, any_words};
use crate::both::{walk_record, Area, Both};
use crate::readers::Readers;
use crate::rng::Rng;
use crate::tally::{differ, Tally};
use crate::trees::{check_tree, compare_trees, Blocks};

const MEM: u32 = 0x8000_0001;

/// A connector with a resource, Unisolated.
fn unisolated(rng: &mut Rng, tally: &mut Tally) -> Both {
    let mut both = Both::fresh(rng, tally);
    both.add_connector(tally, (8, MEM, 1, 0));
    both.add_resource(tally, 8);
    both.place(tally, 1, MEM);
    both.set_indicator(tally, (1, 9003, MEM, 1));
    both.set_indicator(tally, (1, 9001, MEM, 1));
    both
}

/// A whole walk: the reader's tree is the one that was lent, if that one passes the check. The
/// reader's last answer.
pub fn rebuilt(rng: &mut Rng, tally: &mut Tally, tree: &Blocks) -> i32 {
    let mut both = unisolated(rng, tally);
    let mut area = Area::new(rng);
    // room for a name at each property
    let names = 32 * (tree.structure.len() / 12).min(tree.strings.len());
    let mut readers = Readers::new(rng, tally, tree.structure.len(), names);
    let siblings = rng.percent(50);
    area.put_word(0, MEM);
    area.put_word(1, 0);
    let (mut length, mut answer) = (4_096, 1);
    while answer > 0 {
        let status = both.configure_connector(tally, 1, (&mut area, length), tree.lent()).status;
        if status == 5 {
            length = 8_192;
        }
        answer = readers.follow(tally, status, &area.rust[..length], siblings);
    }
    let sound = check_tree(tally, tree);
    if answer == 0 && readers.rust.strings_used <= 4_096 {
        let structure = &readers.structure[0][..readers.rust.structure_used as usize];
        let strings = &readers.strings[0][..readers.rust.strings_used as usize];
        let same = compare_trees(tally, tree.lent(), (structure, strings));
        if sound && same != 1 {
            differ("a whole walk", "the tree that the reader built", &1, &same);
        }
    } else if sound && answer < 0 {
        differ("a whole walk", "the reader's last answer", &0, &answer);
    }
    answer
}

/// The walk of a lone record, from its start or from any words, beside a table of any words.
pub fn lone_record(rng: &mut Rng, tally: &mut Tally, forest: &[Blocks]) {
    let mut area = Area::new(rng);
    let mut table = Both::any_words(any_words(rng));
    let tree = &forest[rng.below(forest.len())];
    let mut record = [MEM, 8, 1, 0, 2, 1, 0, 0, 0, any_wanted(rng)];
    if rng.percent(50) {
        record = std::array::from_fn(|_| any_word(rng));
        record[4] = rng.pick(&[2, 2, 2, 2, 2, 0, 1, 3, 4]);
        record[6] = rng.below(tree.structure.len() + 9) as u32 & rng.pick(&[!3, !3, !3, !0]);
    }
    for _ in 0..rng.pick(&[1, 20, 2_000]) {
        let length = match (rng.below(100), record[8]) {
            (0, _) => rng.below(9_000),
            (1..5, _) => rng.pick(&[4_096, 8_192]),
            (_, 1 | 2) => 8_192,
            _ => 4_096,
        };
        if rng.percent(5) {
            table = Both::any_words(any_words(rng));
        }
        let lent = (&mut area, length);
        let status = walk_record(tally, &mut record, lent, tree.lent(), &table).status;
        if status <= 0 && rng.percent(80) {
            break;
        }
    }
}

fn any_word(rng: &mut Rng) -> u32 {
    if rng.percent(10) {
        rng.word()
    } else {
        rng.below(10) as u32
    }
}
