//! Random sequences of calls, each handed the record that the one before it handed back.

use crate::calls::needed;
use crate::generate::draft::{line, TableDraft, KEEPS, RESETS};
use crate::generate::make::{crowded_small, random_table, Size, LONGEST_SPAN};
use crate::generate::random::Random;
use crate::judge::aims::aimed;
use crate::judge::probe::{handed, parted, Kind, QUESTIONS, STEPS};
use crate::judge::reached::Label;
use crate::judge::records::{self, filled, proper_record};
use crate::judge::sequence::Sequence;
use crate::judge::{tables, Case};
use crate::record::{Record, PLACES};
use crate::session::Symbol;
use crate::spells::Spells;
use crate::table::{Table, GREATEST};
use std::collections::BTreeSet;

/// Each call, with the numbers that it must reach: all that it can give.
pub const WANTED: [(&str, &[u8]); 7] = [
    ("start", &[0, 1, 2, 3, 4, 5, 6, 7, 8]),
    ("letter", &[0, 1, 2, 3, 4, 5, 6, 7, 8, 9, 11]),
    ("span", &[0, 1, 2, 3, 4, 5, 6, 7, 8, 10]),
    ("gap", &[0, 1, 2, 3, 4, 5, 6, 7, 8]),
    ("verdict", &[0, 1, 2, 3, 4, 5, 6, 7, 8]),
    ("settled", &[0, 1, 2, 3, 4, 5, 6, 7, 8]),
    ("count", &[0, 1, 2, 3, 4, 5, 6, 7, 8]),
];

/// A call that is taken with a table that did not lead to its record.
const OTHER_TABLE: &str = "a table from elsewhere";
/// A call on a record that breaks one clause.
const IMPROPER: &str = "a record that is not proper";

/// What must be reached: both of these at every call that is handed a record.
pub fn labels() -> Vec<Label> {
    let calls = WANTED.iter().map(|wanted| wanted.0).skip(1);
    calls
        .flat_map(|call| [OTHER_TABLE, IMPROPER].map(|label| (call, label.to_string())))
        .collect()
}

pub fn make(random: &mut Random) -> Vec<Case> {
    match random.from(0, 15) {
        0..=3 => going_on(random, started),
        4 => going_on(random, crowded),
        5..=9 => going_on(random, from_elsewhere),
        10..=14 => going_on(random, fitted),
        _ => improper(random),
    }
}

/// A valid table: of any size, or with few letters, so that lines are met often.
fn table(random: &mut Random) -> Vec<u8> {
    match random.one_in(3) {
        true => tables::valid(random).bytes(),
        false => records::table(random).bytes(),
    }
}

/// Small rooms, so that letters are soon refused, and all the others.
fn room(random: &mut Random) -> u8 {
    match random.from(0, 11) {
        0 => random.pick(&[0, 65, 255]),
        1..=5 => random.from(1, 3) as u8,
        6..=8 => random.from(1, 64) as u8,
        _ => 64,
    }
}

fn started(random: &mut Random) -> Sequence {
    let table = match random.one_in(6) {
        true => tables::make(random).load,
        false => table(random),
    };
    Sequence::start(room(random), table)
}

/// A start in a small room that letters fill and pass.
fn crowded(random: &mut Random) -> Sequence {
    let room = random.from(1, 3) as u8;
    let draft = crowded_small(random, room);
    let mut sequence = Sequence::start(room, draft.table.bytes());
    for symbol in draft.entries {
        sequence.take(symbol);
    }
    sequence
}

/// A proper record that no start made.
fn from_elsewhere(random: &mut Random) -> Sequence {
    let bytes = table(random);
    let table = Table::read(&bytes).expect("a valid table");
    Sequence::of(proper_record(random, &table), bytes)
}

/// A letter in a room that is just enough for it, or one short of that.
fn fitted(random: &mut Random) -> Sequence {
    let mut sequence = match random.one_in(2) {
        true => wide(random),
        false => from_elsewhere(random),
    };
    let table = Table::read(&sequence.table).expect("a valid table");
    let letter = good_letter(random, &table);
    let enough = needed::<Spells>(&sequence.record, letter, &sequence.table);
    let room = enough.expect("a proper record") as u64 + random.from(0, 1);
    let least = sequence.record.count.max(1).into();
    sequence.record.room = room.saturating_sub(1).clamp(least, PLACES as u64) as u8;
    sequence.take(Symbol::Letter(letter));
    sequence
}

/// Up to 64 stretches, and a table as large as there can be.
fn wide(random: &mut Random) -> Sequence {
    let bytes = all_bounds_apart(random).bytes();
    let table = Table::read(&bytes).expect("a valid table");
    let count = random.pick(&[1, 2, 4, 8, 16, 32, 64]);
    Sequence::of(filled(random, &table, 64, count), bytes)
}

/// 16 states and 64 lines of one letter, whose bounds cut the ages into as many pieces as there can be.
fn all_bounds_apart(random: &mut Random) -> TableDraft {
    let top = random.sized(128, GREATEST + 1);
    let mut cuts = BTreeSet::new();
    while cuts.len() < 128 {
        cuts.insert(random.from(1, top) as u32);
    }
    let mut cuts: Vec<u32> = cuts.into_iter().collect();
    let mut lines = Vec::new();
    while let Some(after) = cuts.pop() {
        let near = random.from(0, 7).min(cuts.len() as u64 - 1) as usize;
        let least = cuts.remove(cuts.len() - 1 - near);
        let state = |random: &mut Random| random.from(0, 15) as u8;
        let flags = if random.one_in(8) { RESETS } else { KEEPS };
        let (from, to) = (state(random), state(random));
        lines.push(line(from, 0, to, flags, least, after - 1));
    }
    TableDraft {
        version: 1,
        length: None,
        states: 16,
        letters: random.pick(&[1, 32]),
        initial: random.states(16, 2),
        standing: random.states(16, 3),
        accepting: random.states(16, 8),
        lines,
    }
}

/// Some calls on a record that breaks one clause and stays as it is.
fn improper(random: &mut Random) -> Vec<Case> {
    let load = aimed(random).load;
    let (record, table) = parted(&load);
    let mut sequence = Sequence::of(record.clone(), table.to_vec());
    for _ in 0..random.from(1, 3) {
        let kind = random.pick(&STEPS);
        turn(random, &mut sequence, kind);
        sequence.state(IMPROPER, &handed((8, record.clone())));
        let question = random.pick(&QUESTIONS);
        sequence.ask(question);
        sequence.state(IMPROPER, &[8, 0]);
    }
    sequence.cases
}

/// The sequence with calls more, now and then with another table.
fn going_on(random: &mut Random, begin: fn(&mut Random) -> Sequence) -> Vec<Case> {
    let mut sequence = begin(random);
    // of a start that was refused there is little to see
    let turns = match sequence.record.room {
        0 => 1,
        _ => random.from(2, 6),
    };
    for _ in 0..turns {
        let kept = sequence.table.clone();
        let exchanged = random.one_in(10);
        let for_good = exchanged && exchange(random, &mut sequence.table);
        let from = sequence.cases.len();
        match random.from(0, 9) {
            0..=4 => turn(random, &mut sequence, Kind::Letter),
            5..=7 => turn(random, &mut sequence, Kind::Span),
            8 => turn(random, &mut sequence, Kind::Gap),
            _ => sequence.ask_all(),
        }
        if random.one_in(3) {
            sequence.ask_all();
        }
        for case in &mut sequence.cases[from..] {
            if exchanged && case.number() == 0 {
                case.label = OTHER_TABLE.to_string();
            }
        }
        if !for_good {
            sequence.table = kept;
        }
    }
    sequence.cases
}

/// Another table, and whether it stays: a valid one may, with as many states and the same horizon or with its own.
fn exchange(random: &mut Random, bytes: &mut Vec<u8>) -> bool {
    match random.from(0, 3) {
        0 => {
            *bytes = tables::make(random).load;
            false
        }
        1 if bytes.len() >= 12 => {
            tables::change_byte(random, bytes);
            false
        }
        2 => {
            *bytes = table(random);
            true
        }
        _ => {
            if let Ok(table) = Table::read(bytes) {
                *bytes = redrawn(random, &table);
            }
            true
        }
    }
}

/// A table of the same size and horizon.
fn redrawn(random: &mut Random, table: &Table) -> Vec<u8> {
    let size = Size {
        states: table.states as u8,
        letters: table.letters,
        lines: table.lines.len() as u64,
        top: table.horizon as u32,
    };
    let mut draft = random_table(random, &size);
    if let Some(line) = draft.lines.last_mut() {
        (line.least, line.greatest) = (0, size.top);
    }
    draft.bytes()
}

/// A letter, a span or a gap, fit for what the sequence has come to.
fn turn(random: &mut Random, sequence: &mut Sequence, kind: Kind) {
    let table = Table::read(&sequence.table).ok();
    sequence.take(match kind {
        Kind::Letter => Symbol::Letter(letter(random, table.as_ref())),
        Kind::Span => {
            let horizon = table.map_or(0, |table| table.horizon);
            Symbol::Span(span(random, &sequence.record, horizon))
        }
        _ => Symbol::Gap,
    });
}

fn letter(random: &mut Random, table: Option<&Table>) -> u8 {
    match table {
        Some(table) if !random.one_in(16) => good_letter(random, table),
        _ => {
            let m = table.map_or(32, |table| table.letters);
            let any = random.from(u64::from(m), 255) as u8;
            random.pick(&[m, m + 1, 255, any])
        }
    }
}

/// A letter of the table, most often one that a line bears.
fn good_letter(random: &mut Random, table: &Table) -> u8 {
    let any = random.from(0, u64::from(table.letters) - 1) as u8;
    match table.lines.len() as u64 {
        0 => any,
        _ if random.one_in(8) => any,
        lines => table.lines[random.from(0, lines - 1) as usize].letter,
    }
}

fn span(random: &mut Random, record: &Record, horizon: u64) -> u32 {
    let any = match random.from(0, 9) {
        0 => return random.pick(&[0, LONGEST_SPAN + 1, u32::MAX]),
        1 => random.pick(&[LONGEST_SPAN - 1, LONGEST_SPAN]).into(),
        2 | 3 => random.from(1, 8),
        4 => random.from(1, horizon + 1),
        5 => horizon + random.from(0, 2),
        _ => to_horizon(random, record, horizon),
    };
    any.max(1) as u32
}

/// A span that brings an end of a stretch to H, or just past it.
fn to_horizon(random: &mut Random, record: &Record, horizon: u64) -> u64 {
    let ends: Vec<u32> = (record.stretches().iter())
        .flat_map(|stretch| [stretch.first, stretch.last])
        .collect();
    let age = match ends[..] {
        [] => 0,
        _ => random.pick(&ends).into(),
    };
    horizon.saturating_sub(age) + random.from(0, 1)
}
