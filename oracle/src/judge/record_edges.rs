//! Records at both sides of each edge of document 01, each with the number that the document gives: read off its
//! words, not asked of any program.

use crate::generate::draft::{line, TableDraft, KEEPS, NONE};
use crate::generate::faults::spoil_table;
use crate::generate::random::Random;
use crate::judge::probe::Kind;
use crate::judge::{Case, EDGES};
use crate::record::{Pair, Place, Record, PLACES};
use crate::table::GREATEST;

/// Below, n is 3 and the horizon is what is given.
const N: u8 = 3;

/// One line, which keeps state 0 at ages 0 to H.
pub fn table(n: u8, horizon: u32) -> TableDraft {
    TableDraft {
        version: 1,
        length: None,
        states: n,
        letters: 1,
        initial: 1,
        standing: 0,
        accepting: 1,
        lines: vec![line(0, 0, 0, KEEPS, 0, horizon)],
    }
}

pub fn pair(sure: u16, possible: u16) -> Pair {
    Pair { sure, possible }
}

fn stretch(first: u32, last: u32) -> Place {
    Place {
        first,
        last,
        pair: pair(1, 3),
    }
}

/// So many stretches of two ages, one age apart and all with the same pair; the last ends at H, which comes with them.
fn apart(count: u8) -> (Record, u32) {
    let mut record = Record::empty(64);
    record.count = count;
    for (place, at) in record.places.iter_mut().zip(0..u32::from(count)) {
        *place = stretch(3 * at, 3 * at + 1);
    }
    (record, (3 * u32::from(count)).saturating_sub(2))
}

fn row(label: impl Into<String>, number: u8, record: &Record, table: &TableDraft) -> Case {
    let load = [record.bytes(), table.bytes()].concat();
    Case::plain(Kind::Record, EDGES, load).stated(label, &[number])
}

/// An edge, the number and what is done to a stretch.
type OfPlace = (&'static str, u8, fn(&mut Place));

const OF_PLACE: [OfPlace; 20] = [
    ("possible non-empty", 8, |p| p.pair = pair(0, 0)),
    ("possible non-empty", 8, |p| p.pair = pair(1, 0)),
    ("possible non-empty", 0, |p| p.pair = pair(0, 1)),
    ("sure part of possible", 0, |p| p.pair = pair(0, 3)),
    ("sure part of possible", 0, |p| p.pair = pair(3, 3)),
    ("sure part of possible", 8, |p| p.pair = pair(4, 3)),
    ("sure part of possible", 8, |p| p.pair = pair(7, 3)),
    ("sure part of possible", 8, |p| p.pair = pair(1, 2)),
    ("state in possible", 0, |p| p.pair = pair(0, 1 << (N - 1))),
    ("state in possible", 8, |p| p.pair = pair(0, 1 << N)),
    ("state in possible", 8, |p| p.pair = pair(1, 1 | 1 << N)),
    ("state in possible", 8, |p| p.pair = pair(0, 0x8001)),
    ("state in sure", 0, |p| p.pair = pair(4, 4)),
    ("state in sure", 8, |p| p.pair = pair(8, 8)),
    ("state in sure", 8, |p| p.pair = pair(0x8001, 0x8001)),
    ("state in sure", 8, |p| p.pair = pair(8, 1)),
    ("first at most last", 0, |p| p.first = p.last),
    ("first at most last", 0, |p| p.last = p.first),
    ("first at most last", 8, |p| p.first = p.last + 1),
    ("first at most last", 8, |p| {
        (p.first, p.last) = (p.last, p.first)
    }),
];

/// An edge, the number and what is done to two stretches, one after the other.
type OfTwo = (&'static str, u8, fn(&mut Place, &mut Place));

const OF_TWO: [OfTwo; 14] = [
    ("touching differ", 8, |a, _| a.last += 1),
    ("touching differ", 8, |_, b| b.first -= 1),
    ("touching differ", 0, |_, _| ()),
    ("touching differ", 0, |a, _| longer(a, 1, pair(0, 3))),
    ("touching differ", 0, |a, _| longer(a, 1, pair(1, 7))),
    ("touching differ", 0, |a, _| longer(a, 1, pair(1, 1))),
    ("disjoint", 0, |a, _| longer(a, 1, pair(0, 3))),
    ("disjoint", 8, |a, _| longer(a, 2, pair(0, 3))),
    ("disjoint", 8, |a, _| a.last += 2),
    ("disjoint", 8, |a, b| a.last = b.last),
    ("disjoint", 8, |a, b| *b = *a),
    ("rising order", 0, |_, _| ()),
    ("rising order", 8, |a, b| std::mem::swap(a, b)),
    ("rising order", 8, |a, b| b.first = a.first),
];

fn longer(place: &mut Place, ages: u32, pair: Pair) {
    place.last += ages;
    place.pair = pair;
}

/// An edge, the number and what is done to an unused place.
const OF_UNUSED: [OfPlace; 13] = [
    ("unused zero", 0, |p| *p = Place::default()),
    ("unused zero", 8, |p| p.first = 1),
    ("unused zero", 8, |p| p.first = 1 << 31),
    ("unused zero", 8, |p| p.last = 1),
    ("unused zero", 8, |p| p.last = 1 << 31),
    ("unused zero", 8, |p| p.last = 256),
    ("unused zero", 8, |p| p.pair = pair(1, 0)),
    ("unused zero", 8, |p| p.pair = pair(0x8000, 0)),
    ("unused zero", 8, |p| p.pair = pair(0, 1)),
    ("unused zero", 8, |p| p.pair = pair(0, 0x8000)),
    ("unused zero", 8, |p| p.pair = pair(1, 1)),
    ("unused zero", 8, |p| *p = stretch(0, 0)),
    ("unused zero", 8, |p| *p = stretch(200, 200)),
];

pub fn rows(random: &mut Random) -> Vec<Case> {
    let mut rows = Vec::new();
    for count in [1, 2, 3, 8, 63, 64] {
        places(count, &mut rows);
    }
    for count in [0, 1, 2, 8, 61, 62, 63] {
        unused(count, &mut rows);
    }
    for count in [0, 1, 2, 40, 63, 64] {
        rooms(count, &mut rows);
    }
    horizons(&mut rows);
    states(&mut rows);
    above(&mut rows);
    for _ in 0..20 {
        orders(random, &mut rows);
    }
    rows
}

fn place_name(at: usize, count: usize) -> &'static str {
    match at {
        0 => "first place",
        63 => "place 63",
        _ if at + 1 == count => "last place used",
        _ => "a middle place",
    }
}

/// What is said of each stretch, and of each two: at the first, a middle and the last place.
fn places(count: u8, rows: &mut Vec<Case>) {
    let (record, horizon) = apart(count);
    let (table, count) = (table(N, horizon), usize::from(count));
    let mut spots = vec![0, count / 2, count - 1];
    spots.dedup();
    for at in spots {
        for (edge, number, change) in OF_PLACE {
            let mut record = record.clone();
            change(&mut record.places[at]);
            let label = format!("{edge}, {}", place_name(at, count));
            rows.push(row(label, number, &record, &table));
        }
        for (edge, number, change) in OF_TWO {
            if at == 0 {
                continue;
            }
            let mut record = record.clone();
            let (before, from) = record.places.split_at_mut(at);
            change(&mut before[at - 1], &mut from[0]);
            let label = format!("{edge}, {} and before", place_name(at, count));
            rows.push(row(label, number, &record, &table));
        }
    }
    for (last, number) in [(horizon, 0), (horizon + 1, 8), (u32::MAX, 8)] {
        let mut record = record.clone();
        record.places[count - 1].last = last;
        rows.push(row("within 0 to H, last", number, &record, &table));
        record.places[count - 1].first = last;
        rows.push(row("within 0 to H, both", number, &record, &table));
    }
}

/// What is said of the places beyond the count.
fn unused(count: u8, rows: &mut Vec<Case>) {
    let (record, horizon) = apart(count);
    for at in [usize::from(count), PLACES - 1] {
        for (edge, number, change) in OF_UNUSED {
            let mut record = record.clone();
            change(&mut record.places[at]);
            let place = if at < PLACES - 1 { "first" } else { "last" };
            let label = format!("{edge}, {place}");
            rows.push(row(label, number, &record, &table(N, horizon)));
        }
    }
    let counts = [count, count + 1, 64, count.saturating_sub(1)];
    for held in counts {
        let number = if held == count { 0 } else { 8 };
        let mut record = record.clone();
        record.count = held;
        let label = "count of the stretches";
        rows.push(row(label, number, &record, &table(N, horizon)));
    }
}

/// Room and count.
fn rooms(count: u8, rows: &mut Vec<Case>) {
    let (record, horizon) = apart(count);
    let mut add = |label: &str, room: u8, count: u8, number: u8| {
        let mut record = record.clone();
        (record.room, record.count) = (room, count);
        rows.push(row(label, number, &record, &table(N, horizon)));
    };
    add("least room", 0, count, 8);
    add("least room", count.max(1), count, 0);
    add("greatest room", 64, count, 0);
    for room in [65, 128, 255] {
        add("greatest room", room, count, 8);
    }
    add("count at most room", count.max(1), count, 0);
    if count > 1 {
        add("count at most room", count - 1, count, 8);
        add("count at most room", 1, count, 8);
    }
    if count == 64 {
        for (room, count) in [(64, 65), (64, 255), (65, 65), (255, 255), (63, 64)] {
            add("count at most 64", room, count, 8);
        }
        add("count at most 64", 64, 64, 0);
    }
}

/// One stretch at horizons of 0, of a year, and of a table without ages.
fn horizons(rows: &mut Vec<Case>) {
    let year = GREATEST as u32;
    let mut no_lines = table(N, 0);
    no_lines.lines.clear();
    let mut by_least = table(N, NONE);
    by_least.lines[0].least = year;
    let tables = [
        ("no lines", no_lines, 0),
        ("H = 0", table(N, 0), 0),
        ("no U", table(N, NONE), 0),
        ("H = 1", table(N, 1), 1),
        ("H = 255", table(N, 255), 255),
        ("H of a year", table(N, year), year),
        ("H of a year, an L", by_least, year),
    ];
    for (name, table, horizon) in tables {
        for (first, last, number) in [
            (0, horizon, 0),
            (horizon, horizon, 0),
            (0, horizon + 1, 8),
            (horizon, horizon + 1, 8),
            (horizon + 1, horizon + 1, 8),
            (horizon + 1, horizon, 8),
            (0, u32::MAX, 8),
        ] {
            let mut record = Record::empty(1);
            (record.count, record.places[0]) = (1, stretch(first, last));
            rows.push(row(
                format!("within 0 to H, {name}"),
                number,
                &record,
                &table,
            ));
        }
    }
}

/// The greatest state, at the least n and the greatest.
fn states(rows: &mut Vec<Case>) {
    for (n, state, number) in [(1, 0, 0), (1, 1, 8), (15, 14, 0), (15, 15, 8), (16, 15, 0)] {
        for sure in [0, 1 << state] {
            let mut record = apart(1).0;
            record.places[0].pair = pair(sure, 1 << state);
            rows.push(row("least and greatest n", number, &record, &table(n, 1)));
            let mut record = apart(0).0;
            record.above = pair(sure, 1 << state);
            rows.push(row(
                "least and greatest n, above H",
                number,
                &record,
                &table(n, 1),
            ));
        }
    }
}

/// The pair above H, where the possible set may be empty.
fn above(rows: &mut Vec<Case>) {
    let part = "above H: sure part of possible";
    let known = "above H: no state n or above";
    for count in [0, 1, 64] {
        for (label, sure, possible, number) in [
            (part, 0, 0, 0),
            (part, 0, 7, 0),
            (part, 7, 7, 0),
            (part, 1, 0, 8),
            (part, 4, 3, 8),
            (part, 7, 3, 8),
            (known, 0, 4, 0),
            (known, 4, 4, 0),
            (known, 0, 8, 8),
            (known, 8, 8, 8),
            (known, 1, 0x8001, 8),
        ] {
            let (mut record, horizon) = apart(count);
            record.above = pair(sure, possible);
            rows.push(row(label, number, &record, &table(N, horizon)));
        }
    }
}

/// A table's number comes before 8, and a table in order leaves it to the record.
fn orders(random: &mut Random, rows: &mut Vec<Case>) {
    let (proper, horizon) = apart(5);
    let mut overlapping = proper.clone();
    overlapping.places[2].last += 2;
    for number in 1..=8 {
        for record in [&proper, &overlapping, &Record::empty(0)] {
            let table = faulty(random, table(N, horizon), number);
            let (label, answer) = match number {
                8 if *record == proper => ("a table in order".to_string(), 0),
                8 => ("a table in order".to_string(), 8),
                _ => (format!("{number} before 8"), number),
            };
            let load = [record.bytes(), table].concat();
            rows.push(Case::plain(Kind::Record, "orders", load).stated(label, &[answer]));
        }
    }
}

/// The bytes of the table, which has lines and less than 16 states, with a fault of this number; 8: with none.
pub fn faulty(random: &mut Random, mut table: TableDraft, number: u8) -> Vec<u8> {
    if ![1, 4, 8].contains(&number) {
        spoil_table(random, &mut table, number);
    }
    let mut bytes = table.bytes();
    let whole = bytes.len();
    match number {
        1 => bytes.truncate(random.from(0, 11) as usize),
        4 => bytes.resize(
            random.pick(&[12, whole - 1, whole + 1, whole + 12, whole + 65_536]),
            0,
        ),
        _ => {}
    }
    bytes
}
