//! Calls at the edges of document 01, each with the record that the document gives: worked out from its words, not
//! asked of any program.

use crate::generate::draft::{line, TableDraft, KEEPS, NONE};
use crate::generate::make::LONGEST_SPAN;
use crate::generate::random::Random;
use crate::judge::probe::{handed, parted, QUESTIONS};
use crate::judge::record_edges::{faulty, pair, table};
use crate::judge::sequence::Sequence;
use crate::judge::stated::{lines_of, record, refused, stretch, taken, ALL};
use crate::judge::widest::{self, comb, combed, teeth};
use crate::judge::{aims, Case};
use crate::record::{Place, Record};
use crate::session::Symbol::{Gap, Letter, Span};
use crate::table::GREATEST;

const YEAR: u32 = GREATEST as u32;

pub fn rows(random: &mut Random) -> Vec<Vec<Case>> {
    let mut rows = widest::rows();
    above(&mut rows);
    spans(&mut rows);
    gaps(&mut rows);
    starts(&mut rows);
    letters(&mut rows);
    for number in 1..=8 {
        orders(random, number, &mut rows);
    }
    improper(random, &mut rows);
    rows
}

/// What is above H lives on there by lines without upper bound, and by no others.
fn above(rows: &mut Vec<Vec<Case>>) {
    let table = lines_of(vec![
        line(0, 0, 3, KEEPS, 3, NONE),
        line(1, 0, 4, KEEPS, 0, 3),
        line(2, 0, 5, KEEPS, 0, NONE),
    ]);
    for (sure, after) in [
        (0, 0),
        (0b001, 0b001_000),
        (0b110, 0b100_000),
        (0b111, 0b101_000),
    ] {
        let mut from = record(1, &[]);
        from.above = pair(sure, 0b111);
        let mut to = record(1, &[]);
        to.above = pair(after, 0b101_000);
        let label = "lines without upper bound above H";
        rows.push(taken(label, &from, Letter(0), &table, &to));
    }
}

/// The record after a span, stretch by stretch: later as it is, cut at H, or past H.
fn later(record: &Record, seconds: u32, horizon: u32) -> Record {
    let mut after = Record::empty(record.room);
    after.above = record.above;
    for stretch in record.stretches() {
        let (first, last) = (stretch.first + seconds, stretch.last + seconds);
        if last > horizon {
            after.above.sure |= stretch.pair.sure;
            after.above.possible |= stretch.pair.possible;
        }
        if first <= horizon {
            after.places[usize::from(after.count)] = Place {
                first,
                last: last.min(horizon),
                pair: stretch.pair,
            };
            after.count += 1;
        }
    }
    after
}

fn spans(rows: &mut Vec<Vec<Case>>) {
    let mut add = |label: &str, from: &Record, horizon: u32, all: &[u32]| {
        for &seconds in all {
            let to = later(from, seconds, horizon);
            let table = table(16, horizon);
            rows.push(taken(label, from, Span(seconds), &table, &to));
        }
    };
    let mut one = record(1, &[stretch(2, 6, 1, 3)]);
    add("one stretch", &one, 10, &[1, 3, 4, 5, 6, 8, 9, 10, 11]);
    one.above = pair(4, 6);
    add("above others", &one, 10, &[1, 4, 5, 8, 9, LONGEST_SPAN]);
    let many = teeth(64, 64);
    add("of 64 some", &many, 254, &[1, 2, 3, 41, 42, 43, 251, 252]);
    add("of 64 the last", &many, 254, &[253]);
    add("all of 64", &many, 254, &[254, 255, LONGEST_SPAN]);
    let far = &[YEAR - 1, YEAR, YEAR + 1, LONGEST_SPAN - 1, LONGEST_SPAN];
    for (first, last) in [(0, 0), (0, YEAR), (1, YEAR), (YEAR, YEAR)] {
        let year = record(1, &[stretch(first, last, 0x8000, ALL)]);
        add("over a year", &year, YEAR, far);
    }
    let mut empty = record(64, &[]);
    add("nothing held", &empty, 0, &[1, LONGEST_SPAN]);
    empty.above = pair(1, ALL);
    add("nothing held but above H", &empty, 0, &[1, LONGEST_SPAN]);
    for seconds in [0, LONGEST_SPAN + 1, u32::MAX] {
        let bytes = table(16, 254).bytes();
        rows.push(refused("no span", &many, Span(seconds), &bytes, 10));
    }
}

/// A gap forgets everything but the room, and one after it changes nothing.
fn gaps(rows: &mut Vec<Vec<Case>>) {
    for (n, all) in [(1, 1), (3, 7), (16, ALL)] {
        for (horizon, accepting) in [(0, 1), (254, 1), (254, 0), (YEAR, 1)] {
            let mut table = table(n, horizon);
            table.accepting = accepting;
            let mut to = record(64, &[stretch(0, horizon, 0, all)]);
            to.above = pair(0, all);
            let mut sequence = Sequence::of(record(64, &[]), table.bytes());
            if n == 16 && horizon == 254 {
                sequence.record = teeth(64, 64);
            }
            for label in ["a gap", "a gap after a gap"] {
                sequence.take(Gap);
                sequence.state(label, &handed((0, to.clone())));
                let verdict = if accepting == 0 { 2 } else { 3 };
                for (kind, byte) in QUESTIONS.into_iter().zip([verdict, 0, 1]) {
                    sequence.ask(kind);
                    sequence.state(label, &[0, byte]);
                }
            }
            rows.push(sequence.cases);
        }
    }
}

/// The initial states at age 0, in rooms 1 to 64; all zeros in others.
fn starts(rows: &mut Vec<Vec<Case>>) {
    for initial in [0, 1, 1 << 15, ALL] {
        let table = TableDraft { initial, ..comb() };
        for room in [1, 2, 63, 64] {
            let stretches = [stretch(0, 0, initial, initial)];
            let held = &stretches[usize::from(initial == 0)..];
            let mut sequence = Sequence::start(room, table.bytes());
            sequence.state("room", &handed((0, record(room, held))));
            let verdict = if initial & 1 == 1 { 1 } else { 2 };
            for (kind, byte) in QUESTIONS.into_iter().zip([verdict, 1, held.len() as u8]) {
                sequence.ask(kind);
                sequence.state("after a start", &[0, byte]);
            }
            rows.push(sequence.cases);
        }
        for room in [0, 65, 66, 128, 255] {
            let mut sequence = Sequence::start(room, table.bytes());
            sequence.state("no room", &handed((8, Record::empty(0))));
            sequence.take(Letter(0));
            sequence.state("all zeros", &handed((8, Record::empty(0))));
            rows.push(sequence.cases);
        }
    }
}

/// The last letter of m is taken, and the next is not, also where there would be no room for it.
fn letters(rows: &mut Vec<Vec<Case>>) {
    for m in [1, 2, 32] {
        let mut table = comb();
        table.letters = m;
        for line in &mut table.lines {
            line.letter = m - 1;
        }
        let from = teeth(7, 7);
        let to = record(7, &combed(7));
        rows.push(taken("letter m - 1", &from, Letter(m - 1), &table, &to));
        table.standing = 1;
        for letter in [m, m + 1, 255] {
            let bytes = table.bytes();
            rows.push(refused("letter m", &from, Letter(letter), &bytes, 9));
        }
    }
}

/// A table's number comes before 8, and 8 comes before 9 and 10.
fn orders(random: &mut Random, number: u8, rows: &mut Vec<Vec<Case>>) {
    let label = match number {
        8 => "8 before others".to_string(),
        _ => format!("{number} before 8"),
    };
    let overlapping = record(4, &[stretch(0, 3, 1, 1), stretch(2, 4, 1, 3)]);
    let bytes = faulty(random, table(3, 9), number);
    for from in [Record::empty(0), overlapping] {
        for symbol in [Letter(0), Letter(1), Letter(255), Span(1), Span(0), Gap] {
            rows.push(refused(&label, &from, symbol, &bytes, number));
        }
        let mut sequence = Sequence::of(from, bytes.clone());
        for kind in QUESTIONS {
            sequence.ask(kind);
            sequence.state(label.as_str(), &[number, 0]);
        }
        rows.push(sequence.cases);
    }
    for room in [0, 65] {
        let mut sequence = Sequence::start(room, bytes.clone());
        sequence.state(label.as_str(), &handed((number, Record::empty(0))));
        rows.push(sequence.cases);
    }
}

/// Each call on records that break one clause, at each place where it can be broken.
fn improper(random: &mut Random, rows: &mut Vec<Vec<Case>>) {
    for case in aims::each(random) {
        let (from, table) = parted(&case.load);
        let mut sequence = Sequence::of(from.clone(), table.to_vec());
        for symbol in [Letter(0), Span(1), Gap] {
            sequence.take(symbol);
            sequence.state(case.label.as_str(), &handed((8, from.clone())));
        }
        for kind in QUESTIONS {
            sequence.ask(kind);
            sequence.state(case.label.as_str(), &[8, 0]);
        }
        rows.push(sequence.cases);
    }
}
