//! Sessions with one fault, or with two, and the number that document 01 gives each: read off the order of its
//! checks, not asked of any watch.

use crate::generate::draft::{line, Draft, TableDraft, KEEPS, NONE, RESETS};
use crate::generate::make::{crowded_small, LONGEST_SPAN};
use crate::generate::random::Random;
use crate::session::{Symbol, LONGEST};
use crate::table::GREATEST;

/// A session, and the refusals that must stand in its answers: ordinal and number.
pub struct Faulty {
    pub draft: Draft,
    pub refusals: Vec<(usize, u8)>,
}

/// Each number alone.
pub const SINGLES: usize = 12;

/// Number `1 + number mod 12` alone.
pub fn single(random: &mut Random, number: usize) -> Faulty {
    let fault = (number % SINGLES) as u8 + 1;
    let mut draft = match fault {
        9..=11 => last_refused(random, fault),
        _ => sound(random),
    };
    let ordinal = match fault {
        // a table that the input cuts off has no other fault beside it
        1 | 4 if random.one_in(2) => {
            let whole = draft.table.bytes().len() as u64;
            let left = match fault {
                1 => random.from(0, 11),
                _ => random.from(12, whole - 1),
            };
            draft.cut = Some(2 + left as usize);
            0
        }
        1..=8 => {
            spoil_start(random, &mut draft, fault);
            0
        }
        9..=11 => {
            draft.entries.push(Symbol::Span(1));
            draft.entries.len() - 1
        }
        _ if random.one_in(2) => {
            spoil_frame(random, &mut draft);
            0
        }
        _ => {
            draft.tail = unreadable(random);
            draft.entries.len() + 1
        }
    };
    Faulty {
        draft,
        refusals: vec![(ordinal, fault)],
    }
}

/// Each pair of numbers, and 7 in a line before 6.
pub const PAIRS: usize = 66 + 1;

/// The `number`-th pair of faults, counted round.
pub fn pair(random: &mut Random, number: usize) -> Faulty {
    let number = number % PAIRS;
    if number == 66 {
        return two_lines(random, 7, 6);
    }
    let (mut a, mut rest) = (1, number);
    while rest >= 12 - a {
        rest -= 12 - a;
        a += 1;
    }
    let (a, b) = (a as u8, (a + 1 + rest) as u8);
    match (a, b) {
        (6, 7) if random.one_in(2) => two_lines(random, 6, 7),
        (6, 7) => one_line(random),
        (1, 2..=8) => {
            // last, since 4 states a length too
            let mut draft = sound(random);
            spoil_start(random, &mut draft, b);
            spoil_start(random, &mut draft, 1);
            at_start(draft, 1)
        }
        (3, 5) => {
            // no mask has a bit for state 17: m is out of its range here
            let mut draft = sound(random);
            draft.table.letters = random.pick(&[0, 33, 255]);
            spoil_start(random, &mut draft, 5);
            at_start(draft, 3)
        }
        (2..=8, 2..=8) => {
            let mut draft = sound(random);
            spoil_start(random, &mut draft, a);
            spoil_start(random, &mut draft, b);
            at_start(draft, a)
        }
        (1..=8, 12) => {
            let mut draft = sound(random);
            spoil_start(random, &mut draft, a);
            if random.one_in(2) {
                spoil_frame(random, &mut draft);
                return at_start(draft, 12);
            }
            draft.entries.clear();
            draft.tail = unreadable(random);
            at_start(draft, a)
        }
        (1..=8, _) => {
            // a start that is refused ends the session before the other fault
            let mut draft = last_refused(random, b);
            spoil_start(random, &mut draft, a);
            at_start(draft, a)
        }
        _ => at_entry(random, a, b),
    }
}

/// A session in which nothing is refused: two lines, spans and letters of its own.
fn sound(random: &mut Random) -> Draft {
    let states = random.from(2, 15) as u8;
    let letters = random.from(2, 31) as u8;
    let age = random.from(1, 40) as u32;
    let table = TableDraft {
        version: 1,
        length: None,
        states,
        letters,
        initial: 1,
        standing: random.states(states, 3),
        accepting: random.states(states, 2),
        lines: vec![
            line(0, 0, 1, RESETS, 0, NONE),
            line(1, 1, 1, KEEPS, age, age),
        ],
    };
    let entries = (0..random.from(1, 5))
        .map(|_| random.pick(&[Symbol::Letter(1), Symbol::Span(age), Symbol::Gap]))
        .collect();
    Draft::new(64, table, entries)
}

/// A session whose last entry, and no other, is refused with this number, 9 to 11.
fn last_refused(random: &mut Random, number: u8) -> Draft {
    if number == 11 {
        let room = random.from(1, 6) as u8;
        return crowded_small(random, room);
    }
    let mut draft = sound(random);
    draft.entries.push(match number {
        9 => bad_letter(random),
        _ => bad_span(random),
    });
    draft
}

/// The draft with one of the faults that a start answers with this number, 1 to 8.
fn spoil_start(random: &mut Random, draft: &mut Draft, number: u8) {
    let table = &mut draft.table;
    let whole = 12 + 12 * table.lines.len() as u64;
    match number {
        1 => table.length = Some(random.from(0, 11) as u16),
        4 if random.one_in(2) => table.length = Some(random.from(12, whole - 1) as u16),
        4 => table.length = Some(random.from(whole + 1, 65_535) as u16),
        8 => draft.room = random.pick(&[0, 65, 255]),
        _ => spoil_table(random, table, number),
    }
}

/// The table with one of the faults of this number: 2, 3, 5, or in its last line 6 or 7.
pub fn spoil_table(random: &mut Random, table: &mut TableDraft, number: u8) {
    let last = table.lines.len().saturating_sub(1);
    match number {
        2 => table.version = random.pick(&[0, 2, 255]),
        3 => match random.from(0, 2) {
            0 => table.states = random.pick(&[0, 17, 255]),
            1 => table.letters = random.pick(&[0, 33, 255]),
            _ => table.lines.resize(65, line(0, 0, 1, KEEPS, 0, NONE)),
        },
        5 => {
            // n is below 16 here, so that there is a bit too many
            let bit = 1 << random.from(u64::from(table.states.min(15)), 15);
            match random.from(0, 2) {
                0 => table.initial |= bit,
                1 => table.standing |= bit,
                _ => table.accepting |= bit,
            }
        }
        6 => spoil_line_6(random, table, last),
        _ => spoil_line_7(random, table, last),
    }
}

pub fn spoil_line_6(random: &mut Random, table: &mut TableDraft, at: usize) {
    let line = &mut table.lines[at];
    match random.from(0, 3) {
        0 => line.from = random.pick(&[table.states, 255]),
        1 => line.to = random.pick(&[table.states, 255]),
        2 => line.letter = random.pick(&[table.letters, 255]),
        _ => line.flags = random.pick(&[2, 3, 255]),
    }
}

pub fn spoil_line_7(random: &mut Random, table: &mut TableDraft, at: usize) {
    let line = &mut table.lines[at];
    let over = GREATEST as u32 + 1;
    match random.from(0, 2) {
        0 => {
            line.least = random.pick(&[over, u32::MAX]);
            line.greatest = NONE;
        }
        1 => line.greatest = random.pick(&[over, NONE - 1]),
        _ => {
            line.least = random.from(1, GREATEST) as u32;
            line.greatest = line.least - 1;
        }
    }
}

/// Two faulty lines: the first bad line decides.
fn two_lines(random: &mut Random, before: u8, after: u8) -> Faulty {
    let mut draft = sound(random);
    for (at, number) in [(0, before), (1, after)] {
        match number {
            6 => spoil_line_6(random, &mut draft.table, at),
            _ => spoil_line_7(random, &mut draft.table, at),
        }
    }
    at_start(draft, before)
}

/// One line with both faults: 6 before 7 within a line.
fn one_line(random: &mut Random) -> Faulty {
    let mut draft = sound(random);
    spoil_line_6(random, &mut draft.table, 1);
    spoil_line_7(random, &mut draft.table, 1);
    at_start(draft, 6)
}

/// The draft with its frame spoiled: its version byte, or its size.
fn spoil_frame(random: &mut Random, draft: &mut Draft) {
    match random.from(0, 2) {
        0 => draft.version = random.pick(&[0, 2, 255]),
        1 => draft.cut = Some(random.from(0, 1) as usize),
        _ => draft.tail = vec![1; LONGEST],
    }
}

fn bad_letter(random: &mut Random) -> Symbol {
    Symbol::Letter(random.pick(&[32, 33, 255]))
}

fn bad_span(random: &mut Random) -> Symbol {
    Symbol::Span(random.pick(&[0, LONGEST_SPAN + 1, u32::MAX]))
}

/// Bytes that are no entry: cut short, of an unknown kind, or with a length that is not its kind's.
fn unreadable(random: &mut Random) -> Vec<u8> {
    let no_entries: [&[u8]; 14] = [
        &[2, 1],
        &[2],
        &[5, 2, 0, 0, 0],
        &[5],
        &[1],
        &[0],
        &[0, 3],
        &[2, 4, 0],
        &[2, 0, 0],
        &[5, 4, 0, 0, 0, 1],
        &[1, 1, 0],
        &[3, 1, 0, 0],
        &[2, 3, 0],
        &[4, 2, 0, 0, 1],
    ];
    random.pick(&no_entries).to_vec()
}

/// The start is refused, and nothing follows.
fn at_start(draft: Draft, number: u8) -> Faulty {
    Faulty {
        draft,
        refusals: vec![(0, number)],
    }
}

/// A pair of faults of entries, 9 to 12.
fn at_entry(random: &mut Random, a: u8, b: u8) -> Faulty {
    let mut draft = match (a, b) {
        (9, 10) => last_refused(random, 9),
        (_, 11) | (11, _) => last_refused(random, 11),
        _ => sound(random),
    };
    let last = draft.entries.len();
    let refusals = match (a, b) {
        // one after the other, and the session goes on
        (9, 10) => {
            draft.entries.push(bad_span(random));
            vec![(last, 9), (last + 1, 10)]
        }
        // a bad letter where there is no room, a bad span where there is no room
        (9, 11) => {
            draft.entries.push(bad_letter(random));
            vec![(last, 11), (last + 1, 9)]
        }
        (10, 11) => {
            draft.entries.push(bad_span(random));
            vec![(last, 11), (last + 1, 10)]
        }
        // a bad letter, a bad span, a letter without room, each in an entry that cannot be read
        (9, 12) => {
            draft.tail = random.pick(&[[1, 1, 255], [3, 1, 255]]).to_vec();
            vec![(last + 1, 12)]
        }
        (10, 12) => {
            draft.tail = random.pick(&[[5, 2, 0, 0, 0], [4, 2, 0, 0, 0]]).to_vec();
            vec![(last + 1, 12)]
        }
        _ => {
            draft.entries.pop();
            draft.tail = vec![3, 1, 0];
            vec![(last, 12)]
        }
    };
    Faulty { draft, refusals }
}
