//! Random records, each with a table: proper ones, and what becomes of them when a clause is broken or bytes change.

use crate::generate::draft::TableDraft;
use crate::generate::make::{random_table, Size};
use crate::generate::random::Random;
use crate::judge::aims::{aimed, spoiled_twice};
use crate::judge::probe::Kind;
use crate::judge::{tables, Case, EDGES};
use crate::record::{Pair, Place, Record, PLACES, SIZE};
use crate::table::{Table, GREATEST};
use std::collections::BTreeSet;

/// The making of records that break one clause.
pub const ONE_CLAUSE: &str = "one clause";

/// Each making, with the numbers that it must reach.
pub const WANTED: [(&str, &[u8]); 9] = [
    ("proper", &[0]),
    (ONE_CLAUSE, &[8]),
    ("two clauses", &[8]),
    ("one byte", &[0, 8]),
    ("two bytes", &[0, 8]),
    ("wild", &[8]),
    ("other table", &[0, 1, 2, 3, 4, 5, 6, 7, 8]),
    (EDGES, &[0, 8]),
    ("orders", &[1, 2, 3, 4, 5, 6, 7, 8]),
];

/// A record with a valid table, for which it is proper at first.
#[derive(Clone)]
pub struct Held {
    pub record: Record,
    pub bytes: Vec<u8>,
    pub table: Table,
}

impl Held {
    pub fn load(&self) -> Vec<u8> {
        [self.record.bytes(), self.bytes.clone()].concat()
    }
}

pub fn make(random: &mut Random) -> Case {
    let held = held(random);
    let mut load = held.load();
    let making = match random.from(0, 15) {
        0..=3 => "proper",
        4..=7 => return aimed(random),
        8 => {
            load = spoiled_twice(random, held).load();
            "two clauses"
        }
        9..=11 => {
            change_byte(random, &mut load);
            "one byte"
        }
        12 | 13 => {
            tables::change_two(random, &mut load, change_byte);
            "two bytes"
        }
        14 => {
            load = wild(random, held).load();
            "wild"
        }
        _ => {
            load.truncate(SIZE);
            load.extend(tables::make(random).load);
            "other table"
        }
    };
    Case::plain(Kind::Record, making, load)
}

/// A valid table with its horizon, and a proper record.
pub fn held(random: &mut Random) -> Held {
    let bytes = table(random).bytes();
    let table = Table::read(&bytes).expect("a valid table");
    Held {
        record: proper_record(random, &table),
        bytes,
        table,
    }
}

pub fn table(random: &mut Random) -> TableDraft {
    let top = match random.from(0, 7) {
        0 => 0,
        1 => random.from(1, 8),
        2 => random.from(62, 66),
        3 | 4 => random.from(9, 300),
        5 => GREATEST,
        _ => random.sized(300, GREATEST),
    } as u32;
    let states = random.from(1, 16) as u8;
    let size = Size {
        states: random.pick(&[1, 2, 15, 16, states, states, states]),
        letters: random.from(1, 3) as u8,
        lines: random.pick(&[0, 1, 1, 1, 2, 2, 3, 64]),
        top,
    };
    let mut table = random_table(random, &size);
    if let Some(line) = table.lines.last_mut() {
        // the horizon is as large as is meant
        (line.least, line.greatest) = (0, top);
    }
    table
}

pub fn proper_record(random: &mut Random, table: &Table) -> Record {
    let most = (table.horizon + 1).min(PLACES as u64);
    let any = random.from(0, most);
    let count = random.pick(&[0, 1, most, most, any, any, any, any]);
    let any = random.from(count.max(1), 64);
    let room = random.pick(&[count.max(1), 64, any]);
    filled(random, table, room as u8, count)
}

/// A proper record in this room, with so many stretches.
pub fn filled(random: &mut Random, table: &Table, room: u8, count: u64) -> Record {
    let mut record = Record::empty(room);
    record.count = count as u8;
    let firsts = firsts(random, table.horizon, count);
    for (at, &first) in firsts.iter().enumerate() {
        let next = firsts.get(at + 1).copied().unwrap_or(table.horizon + 1);
        let any = random.from(first, next - 1);
        let last = random.pick(&[first, any, next - 1, next - 1]);
        record.places[at] = Place {
            first: first as u32,
            last: last as u32,
            pair: Pair::default(),
        };
        record.places[at].pair = pair_after(random, table, &record.places[..=at]);
    }
    record.above = match random.one_in(3) {
        true => Pair::default(),
        false => pair(random, table),
    };
    record
}

/// So many ages, rising: somewhere close together, or all over 0 to H.
fn firsts(random: &mut Random, horizon: u64, count: u64) -> Vec<u64> {
    let width = random.pick(&[count, 2 * count, 4 * count, horizon]);
    let width = width.min(horizon);
    let low = random.from(0, horizon - width);
    let low = random.pick(&[0, low, horizon - width]);
    let mut ages = BTreeSet::new();
    while (ages.len() as u64) < count {
        ages.insert(random.from(low, low + width));
    }
    ages.into_iter().collect()
}

/// A pair for the last of these stretches: another than its neighbour's where they touch, often the same where not.
fn pair_after(random: &mut Random, table: &Table, stretches: &[Place]) -> Pair {
    let (before, this) = match stretches {
        [.., before, this] => (before, this),
        _ => return pair(random, table),
    };
    if before.last + 1 < this.first && random.one_in(2) {
        return before.pair;
    }
    loop {
        let pair = pair(random, table);
        if pair != before.pair {
            return pair;
        }
    }
}

/// Some possible states, one at least, and some of them sure.
fn pair(random: &mut Random, table: &Table) -> Pair {
    let states = table.states as u8;
    let one = 1 << random.from(0, u64::from(states) - 1);
    let many = one | random.states(states, 2);
    let possible = random.pick(&[one, table.all(), many]);
    let some = possible & random.states(states, 2);
    Pair {
        sure: random.pick(&[0, possible, some]),
        possible,
    }
}

/// A byte of the record changes, most often one of its first places.
fn change_byte(random: &mut Random, load: &mut [u8]) {
    let used = u64::from(load[1].min(64));
    let at = match random.from(0, 7) {
        0 => random.from(0, 1),
        1 => random.from(SIZE as u64 - 4, SIZE as u64 - 1),
        2 => random.from(2, SIZE as u64 - 1),
        _ => random.from(2, (2 + 12 * used + 12).min(SIZE as u64 - 1)),
    } as usize;
    load[at] = tables::other_byte(random, load[at], &[0, 1, 64, 65, 255]);
}

/// All zeros, a count beyond the places, or bytes of any kind.
fn wild(random: &mut Random, mut held: Held) -> Held {
    match random.from(0, 3) {
        0 => held.record = Record::empty(0),
        1 => held.record.count = random.from(65, 255) as u8,
        2 => {
            let bytes: Vec<u8> = (0..SIZE).map(|_| random.from(0, 255) as u8).collect();
            held.record = Record::read(bytes[..].try_into().expect("SIZE bytes"));
            held.record.room = random.from(1, 64) as u8;
            held.record.count = random.from(0, 64) as u8;
        }
        _ => {
            let from = random.from(0, 63) as usize;
            held.record.places[from..].fill(Place::default());
        }
    }
    held
}
