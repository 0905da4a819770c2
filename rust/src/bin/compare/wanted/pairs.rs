//! Calls on two tables that differ in the words for wanted back alone. A partition gets the same
//! answers and work areas from both, and the tables differ in those words alone again; but its own
//! Unusable connector that is wanted back in one of them can be made usable at most in the other.

use super::WANTED;
use crate::any_tables::{any_index, any_number, any_wanted, any_words, cell};
use crate::both::{walk_record, Area, Both, Buffers, Record};
use crate::library::Words;
use crate::rng::Rng;
use crate::tally::{differ, same, Paired, Tally};
use crate::trees::Blocks;
use crate::unowned;
use drc::{Connector, State, CONNECTORS};

struct Side {
    both: Both,
    area: Area,
}

struct Pair {
    sides: [Side; 2],
}

/// A call, and who makes it at which connector.
#[derive(Clone, Copy, Debug)]
struct Request {
    call: Call,
    partition: u32,
    index: u32,
}

#[derive(Clone, Copy, Debug)]
enum Call {
    Order { token: u32, value: u32 },
    Sense { token: u32 },
    Step { length: usize },
    Place { resource: u32 },
    Retract,
    WantBack,
}

/// The words with others for wanted back, some of them or all.
fn parted(rng: &mut Rng, words: &Words) -> Box<Words> {
    let mut words = Box::new(*words);
    let share = rng.pick(&[10, 50, 100]);
    for row in 0..CONNECTORS {
        if rng.percent(share) {
            words[cell(WANTED, row)] = any_wanted(rng);
        }
    }
    words
}

/// The words but those for wanted back.
fn seen(words: &Words) -> &[u32] {
    &words[..cell(WANTED, 0)]
}

impl Side {
    fn find(&self, index: u32) -> Option<&Connector> {
        self.both.table.connectors().iter().find(|connector| connector.index.0 == index)
    }

    /// The answer, and the value that is sensed or the place of a fault.
    fn make(&mut self, tally: &mut Tally, request: Request, tree: &Blocks) -> (i32, u32) {
        let Request { call, partition, index } = request;
        let answer = match call {
            Call::Sense { token } => return self.both.get_sensor(tally, partition, token, index),
            Call::Order { token, value } => {
                self.both.set_indicator(tally, (partition, token, index, value))
            }
            Call::Step { length } => {
                let lent = (&mut self.area, length);
                let reply = self.both.configure_connector(tally, partition, lent, tree.lent());
                return (reply.status, reply.fault);
            }
            Call::Place { resource } => self.both.place(tally, resource, index),
            Call::Retract => self.both.retract(tally, index),
            Call::WantBack => self.both.want_back(tally, index),
        };
        (answer, 0)
    }
}

impl Pair {
    fn new(rng: &mut Rng, words: Box<Words>) -> Pair {
        let area = Area::new(rng);
        let other = parted(rng, &words);
        let side = |words| Side { both: Both::any_words(words), area: area.clone() };
        Pair { sides: [side(words), side(other)] }
    }

    /// The side on which the partition's own connector is Unusable and wanted back, if it is so on
    /// one alone.
    fn wanted_in_one(&self, request: Request) -> Option<usize> {
        let offered = |connector: &&Connector| {
            connector.partition == request.partition && connector.state == State::Unusable
        };
        let found = self.sides.each_ref().map(|side| side.find(request.index).filter(offered));
        let [one, other] = found.map(|connector| connector.is_some_and(|c| c.wanted));
        (one != other).then_some(usize::from(other))
    }

    /// Makes a call on both sides.
    fn call(&mut self, rng: &mut Rng, tally: &mut Tally, request: Request, tree: &Blocks) {
        let usable = matches!(request.call, Call::Order { token: 9003, value: 1 });
        let refusing = self.wanted_in_one(request).filter(|_| usable);
        for side in &mut self.sides {
            side.area.put_word(0, request.index);
            side.area.put_word(1, 0);
        }
        let before = refusing.map(|side| Box::new(*self.sides[side].both.words()));
        let answers = self.sides.each_mut().map(|side| side.make(tally, request, tree));
        match refusing.zip(before) {
            Some((side, before)) => {
                let call = || format!("{request:?}, wanted back");
                same("the answer", call, &[-3], &[answers[side].0]);
                same("the table", call, &before[..], self.sides[side].both.words());
                tally.paired(Paired::RefusedInOne);
                let again = Box::new(*self.sides[rng.below(2)].both.words());
                *self = Pair::new(rng, again);
            }
            None => {
                self.alike(request, answers);
                tally.paired(Paired::Alike);
            }
        }
    }

    fn alike(&self, request: Request, [one, other]: [(i32, u32); 2]) {
        let call = || format!("{request:?} on two tables that differ in what is wanted back");
        if one != other {
            differ(&call(), "the answers", &one, &other);
        }
        let [one, other] = &self.sides;
        same("the work areas", call, &one.area.rust, &other.area.rust);
        same("the tables", call, seen(one.both.words()), seen(other.both.words()));
    }

    /// The arrays that a partition boots with.
    fn boot(&mut self, rng: &mut Rng, tally: &mut Tally, partition: u32) {
        let mut drawn = [rng.clone(), rng.clone()].into_iter();
        let told = self.sides.each_mut().map(|side| {
            let (mut rng, mut buffers) = (drawn.next().unwrap(), Buffers::new(&side.both.table));
            let room = buffers.room();
            let lent = (&mut buffers, room);
            let lengths = side.both.write_properties(&mut rng, tally, partition, lent);
            (lengths, buffers.rust)
        });
        rng.next();
        if told[0] != told[1] {
            differ("write_properties on such tables", "the arrays", &told[0], &told[1]);
        }
    }
}

/// The first connector with the index of some row, with its partition, or any.
fn aim(rng: &mut Rng, pair: &Pair) -> (u32, u32) {
    let side = &pair.sides[0];
    let connectors = side.both.table.connectors();
    let row = connectors.get(rng.below(connectors.len()));
    match row.and_then(|connector| side.find(connector.index.0)) {
        Some(connector) if rng.percent(95) => (connector.partition, connector.index.0),
        _ => (rng.below(4) as u32, any_index(rng)),
    }
}

fn request(rng: &mut Rng, pair: &Pair) -> Request {
    let (partition, index) = aim(rng, pair);
    let call = match rng.below(20) {
        0..5 => Call::Order { token: 9003, value: 1 },
        5..11 => Call::Order { token: rng.pick(&[9001, 9003]), value: rng.below(2) as u32 },
        11 => Call::Order { token: rng.pick(&[9001, 9002, 9003, 0]), value: rng.below(4) as u32 },
        12 => Call::Sense { token: rng.pick(&[9003, 9003, 9001]) },
        13..17 => Call::Step { length: rng.pick(&[4_096, 4_096, 4_096, 8_192, 4_095]) },
        17 => Call::Place { resource: any_number(rng) },
        18 => Call::Retract,
        _ => Call::WantBack,
    };
    Request { call, partition, index }
}

/// A walk of two lone records that differ in the word for wanted back alone, beside such tables.
fn lone(rng: &mut Rng, tally: &mut Tally, tree: &Blocks) {
    let words = any_words(rng);
    let tables = [parted(rng, &words), words].map(Both::any_words);
    let area = Area::new(rng);
    let mut areas = [area.clone(), area];
    let mut records: [Record; 2] = [[0x8000_0001, 8, 1, 0, 2, 1, 0, 0, 0, 0]; 2];
    records.iter_mut().for_each(|record| record[WANTED] = any_wanted(rng));
    let words = records.map(|record| record[WANTED]);
    for _ in 0..rng.pick(&[1, 10, 100]) {
        let length = if records[0][8] == 0 { 4_096 } else { 8_192 };
        let [one, other] = [0, 1].map(|side| {
            let lent = (&mut areas[side], length);
            walk_record(tally, &mut records[side], lent, tree.lent(), &tables[side])
        });
        if one != other {
            differ("a step of two records", "the replies", &one, &other);
        }
        let call = || "a step of two records".to_string();
        same("the records", call, &records[0][..WANTED], &records[1][..WANTED]);
        same("the words", call, &words, &records.map(|record| record[WANTED]));
        same("the work areas", call, &areas[0].rust, &areas[1].rust);
        if one.status <= 0 {
            break;
        }
    }
}

/// Some pairs of tables, of any words and of such as calls have led to.
pub fn some(rng: &mut Rng, tally: &mut Tally, forest: &[Blocks]) {
    for round in 0..12 {
        let words = if round % 2 == 0 {
            any_words(rng)
        } else {
            Box::new(*unowned::crowd(rng, tally).words())
        };
        let mut pair = Pair::new(rng, words);
        for _ in 0..60 {
            let request = request(rng, &pair);
            let tree = rng.below(forest.len());
            pair.call(rng, tally, request, &forest[tree]);
        }
        let partition = rng.below(5) as u32;
        pair.boot(rng, tally, partition);
        let tree = rng.below(forest.len());
        lone(rng, tally, &forest[tree]);
    }
}
