//! Tables at both sides of each edge of document 01, and tables with two faults, each with the number that the
//! document gives: read off its words, not asked of any program.

use crate::generate::draft::{line, LineDraft, TableDraft, KEEPS, NONE, RESETS};
use crate::generate::faults::{spoil_line_6, spoil_line_7, spoil_table};
use crate::generate::random::Random;
use crate::judge::probe::{Kind, LONGEST};
use crate::judge::{Case, EDGES};
use crate::table::GREATEST;

const YEAR: u32 = GREATEST as u32;

/// An edge, the number and what is done to a head.
type Head = (&'static str, u8, fn(&mut TableDraft));

/// Below, n is 1 to 15 and all lines are from state 0 to state 0 with letter 0.
const HEADS: [Head; 33] = [
    ("version", 2, |t| t.version = 0),
    ("version", 0, |t| t.version = 1),
    ("version", 2, |t| t.version = 2),
    ("version", 2, |t| t.version = 255),
    ("least n", 3, |t| t.states = 0),
    ("least n", 0, |t| t.states = 1),
    ("greatest n", 0, |t| t.states = 16),
    ("greatest n", 3, |t| t.states = 17),
    ("greatest n", 3, |t| t.states = 255),
    ("least m", 3, |t| t.letters = 0),
    ("least m", 0, |t| t.letters = 1),
    ("greatest m", 0, |t| t.letters = 32),
    ("greatest m", 3, |t| t.letters = 33),
    ("greatest m", 3, |t| t.letters = 255),
    ("greatest e", 0, |t| t.lines.clear()),
    ("greatest e", 0, |t| repeat_last(t, 64)),
    ("greatest e", 3, |t| repeat_last(t, 65)),
    ("greatest e", 3, |t| repeat_last(t, 255)),
    ("initial", 0, |t| t.initial = 0),
    ("initial", 0, |t| t.initial = 1 << (t.states - 1)),
    ("initial", 5, |t| t.initial = 1 << t.states),
    ("initial", 0, |t| (t.states, t.initial) = (16, 0xFFFF)),
    ("initial", 5, |t| (t.states, t.initial) = (15, 0x8000)),
    ("standing", 0, |t| t.standing = 0),
    ("standing", 0, |t| t.standing = 1 << (t.states - 1)),
    ("standing", 5, |t| t.standing = 1 << t.states),
    ("standing", 0, |t| (t.states, t.standing) = (16, 0xFFFF)),
    ("standing", 5, |t| (t.states, t.standing) = (15, 0x8000)),
    ("accepting", 0, |t| t.accepting = 0),
    ("accepting", 0, |t| t.accepting = 1 << (t.states - 1)),
    ("accepting", 5, |t| t.accepting = 1 << t.states),
    ("accepting", 0, |t| (t.states, t.accepting) = (16, 0xFFFF)),
    ("accepting", 5, |t| (t.states, t.accepting) = (15, 0x8000)),
];

fn repeat_last(table: &mut TableDraft, lines: usize) {
    let last = table.lines[table.lines.len() - 1].clone();
    table.lines.resize(lines, last);
}

/// An edge, the number and what is done to a line, given n and m.
type InLine = (&'static str, u8, fn(&mut LineDraft, u8, u8));

const LINES: [InLine; 33] = [
    ("from", 0, |l, n, _| l.from = n - 1),
    ("from", 6, |l, n, _| l.from = n),
    ("from", 6, |l, _, _| l.from = 255),
    ("to", 0, |l, n, _| l.to = n - 1),
    ("to", 6, |l, n, _| l.to = n),
    ("to", 6, |l, _, _| l.to = 255),
    ("letter", 0, |l, _, m| l.letter = m - 1),
    ("letter", 6, |l, _, m| l.letter = m),
    ("letter", 6, |l, _, _| l.letter = 255),
    ("flags", 0, |l, _, _| l.flags = 0),
    ("flags", 0, |l, _, _| l.flags = 1),
    ("flags", 6, |l, _, _| l.flags = 2),
    ("flags", 6, |l, _, _| l.flags = 3),
    ("flags", 6, |l, _, _| l.flags = 129),
    ("L of a year", 0, |l, _, _| ages(l, YEAR, YEAR)),
    ("L of a year", 0, |l, _, _| ages(l, YEAR, NONE)),
    ("L of a year", 7, |l, _, _| ages(l, YEAR + 1, NONE)),
    ("L of a year", 7, |l, _, _| ages(l, YEAR + 1, YEAR + 1)),
    ("L of a year", 7, |l, _, _| ages(l, NONE, NONE)),
    ("U of a year", 0, |l, _, _| ages(l, 0, YEAR)),
    ("U of a year", 7, |l, _, _| ages(l, 0, YEAR + 1)),
    ("no U", 7, |l, _, _| ages(l, 0, NONE - 1)),
    ("no U", 0, |l, _, _| ages(l, 0, NONE)),
    ("U at least L", 0, |l, _, _| ages(l, 0, 0)),
    ("U at least L", 7, |l, _, _| ages(l, 1, 0)),
    ("U at least L", 0, |l, _, _| ages(l, 70_000, 70_000)),
    ("U at least L", 7, |l, _, _| ages(l, 70_000, 69_999)),
    ("U at least L", 0, |l, _, _| ages(l, 255, 256)),
    ("U at least L", 7, |l, _, _| ages(l, 256, 255)),
    ("U at least L", 0, |l, _, _| ages(l, 65_535, 65_536)),
    ("U at least L", 7, |l, _, _| ages(l, 65_536, 65_535)),
    ("U at least L", 0, |l, _, _| ages(l, YEAR - 1, YEAR)),
    ("U at least L", 7, |l, _, _| ages(l, YEAR, YEAR - 1)),
];

fn ages(line: &mut LineDraft, least: u32, greatest: u32) {
    (line.least, line.greatest) = (least, greatest);
}

fn row(making: &'static str, label: impl Into<String>, answer: &[u8], table: Vec<u8>) -> Case {
    Case::plain(Kind::Table, making, table).stated(label, answer)
}

/// A valid table that stays one whatever n and m are: all is at state 0 and letter 0.
fn base(random: &mut Random, lines: u64) -> TableDraft {
    let lines = (0..lines).map(|_| {
        let age = random.sized(1, GREATEST) as u32;
        let flags = random.pick(&[KEEPS, RESETS]);
        line(
            0,
            0,
            0,
            flags,
            random.pick(&[0, age]),
            random.pick(&[age, NONE]),
        )
    });
    let lines = lines.collect();
    TableDraft {
        version: 1,
        length: None,
        states: random.from(1, 15) as u8,
        letters: random.from(1, 32) as u8,
        initial: random.states(1, 2),
        standing: random.states(1, 2),
        accepting: random.states(1, 2),
        lines,
    }
}

pub fn rows(random: &mut Random) -> Vec<Case> {
    let mut rows = Vec::new();
    for lines in [1, 2, 3, 4, 9, 63, 64] {
        for (edge, number, change) in HEADS {
            let mut table = base(random, lines);
            change(&mut table);
            rows.push(row(EDGES, edge, &[number], table.bytes()));
        }
        for (place, at) in places(lines as usize) {
            for (edge, number, change) in LINES {
                let mut table = base(random, lines);
                let (n, m) = (table.states, table.letters);
                change(&mut table.lines[at], n, m);
                let label = format!("{edge}, {place} line");
                rows.push(row(EDGES, label, &[number], table.bytes()));
            }
        }
    }
    for lines in [0, 1, 2, 63, 64] {
        lengths(&base(random, lines).bytes(), &mut rows);
    }
    for _ in 0..20 {
        orders(random, &mut rows);
    }
    horizons(&mut rows);
    rows
}

fn places(lines: usize) -> Vec<(&'static str, usize)> {
    match lines {
        1 => vec![("the only", 0)],
        2 => vec![("the first", 0), ("the last", 1)],
        _ => vec![
            ("the first", 0),
            ("a middle", lines / 2),
            ("the last", lines - 1),
        ],
    }
}

/// Lengths of a valid table: as stated, as the slice has it, and by the number of its lines.
fn lengths(valid: &[u8], rows: &mut Vec<Case>) {
    let whole = valid.len();
    let mut add = |label: &str, stated: usize, slice: usize, number: u8| {
        let mut bytes = valid.to_vec();
        bytes[1..3].copy_from_slice(&(stated as u16).to_be_bytes());
        bytes.resize(slice, 0);
        rows.push(row(EDGES, label, &[number], bytes));
    };
    let in_order = "the stated length is 12 + 12e";
    add(in_order, whole, whole, 0);
    for stated in [0, whole - 1, whole + 1, whole + 12, whole + 256, 65_535] {
        add(in_order, stated, whole, 4);
    }
    for both in [whole + 1, whole + 12, whole + 256] {
        add(in_order, both, both, 4);
    }
    let as_stated = "the slice is as long as stated";
    add(as_stated, whole, whole, 0);
    for slice in [whole + 1, whole + 12, whole + 256, whole + 65_536, LONGEST] {
        add(as_stated, whole, slice, 4);
    }
    if whole > 12 {
        for left in [12, whole - 1, whole - 12] {
            add(as_stated, whole, left, 4);
            add(in_order, left, left, 4);
        }
    } else {
        add("12 bytes", 12, 12, 0);
    }
    for left in [0, 1, 2, 3, 10, 11] {
        add("12 bytes", whole, left, 1);
        add("12 bytes", left, left, 1);
    }
    let lines = (whole / 12 - 1) as u8;
    for e in [lines, lines + 1, lines.saturating_sub(1)] {
        let number = match e {
            65 => 3,
            e if e == lines => 0,
            _ => 4,
        };
        let mut bytes = valid.to_vec();
        bytes[11] = e;
        rows.push(row(EDGES, "e counts the lines", &[number], bytes));
    }
}

/// Two faults of different numbers: the checks run in order, lines in table order, 6 before 7 within a line.
fn orders(random: &mut Random, rows: &mut Vec<Case>) {
    for a in 1..=7 {
        for b in a + 1..=7 {
            let lines = random.from(1, 5);
            let mut table = base(random, lines);
            if (a, b) == (3, 5) {
                // no mask has a bit for state 17: m is out of its range here
                table.letters = random.pick(&[0, 33, 255]);
                spoil_table(random, &mut table, 5);
            } else {
                for number in [a, b] {
                    if ![1, 4].contains(&number) {
                        spoil_table(random, &mut table, number);
                    }
                }
            }
            let mut bytes = table.bytes();
            if [a, b].contains(&4) {
                let more = random.pick(&[1, 12, 65_536]);
                bytes.resize(bytes.len() + more, 0);
            }
            if a == 1 {
                bytes.truncate(11);
            }
            rows.push(row("orders", format!("{a} before {b}"), &[a], bytes));
        }
    }
    for lines in [2, 3, 64] {
        for (before, after) in [(6, 7), (7, 6)] {
            let second = random.from(1, lines - 1);
            let first = random.from(0, second - 1);
            let mut table = base(random, lines);
            for (number, at) in [(before, first), (after, second)] {
                match number {
                    6 => spoil_line_6(random, &mut table, at as usize),
                    _ => spoil_line_7(random, &mut table, at as usize),
                }
            }
            let label = format!("a line with {before}, then one with {after}");
            rows.push(row("orders", label, &[before], table.bytes()));
        }
        let at = random.from(0, lines - 1) as usize;
        let mut table = base(random, lines);
        spoil_line_6(random, &mut table, at);
        spoil_line_7(random, &mut table, at);
        rows.push(row("orders", "6 and 7 in a line", &[6], table.bytes()));
    }
}

/// The largest L or finite U in any line, 0 if there are no lines.
fn horizons(rows: &mut Vec<Case>) {
    let mut add = |label: &str, horizon: u32, ages: &[(u32, u32)]| {
        let mut table = base(&mut Random::new(0, label, 0), 0);
        table.lines = (ages.iter())
            .map(|&(least, greatest)| line(0, 0, 0, KEEPS, least, greatest))
            .collect();
        let answer = [&[0][..], &horizon.to_be_bytes()].concat();
        rows.push(row("horizons", label, &answer, table.bytes()));
    };
    add("no lines", 0, &[]);
    add("no age", 0, &[(0, NONE)]);
    add("age 0", 0, &[(0, 0)]);
    add("L alone", 7, &[(7, NONE)]);
    add("U alone", 7, &[(0, 7)]);
    add("L above every U, first", 9, &[(9, NONE), (0, 5)]);
    add("L above every U, last", 9, &[(0, 5), (9, NONE)]);
    add("U above every L, first", 9, &[(0, 9), (5, NONE)]);
    add("U above every L, last", 9, &[(5, NONE), (0, 9)]);
    add("L of a year", YEAR, &[(YEAR, NONE)]);
    add("U of a year", YEAR, &[(0, YEAR)]);
    for number in [255, 256, 65_535, 65_536, 16_777_215, 16_777_216] {
        add(
            "the order of bytes",
            number,
            &[(0, number), (1, number - 1)],
        );
    }
    for at in [0, 31, 63] {
        let mut ages = [(1, 2); 64];
        ages[at] = (0, 1_000);
        add("one of 64 lines", 1_000, &ages);
    }
}
