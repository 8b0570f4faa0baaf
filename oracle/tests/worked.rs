//! The worked session of document 01, its room 1 line, and where the repository shows them.

mod common;

use common::printed;
use oracle::ages::Ages;
use oracle::calls::{ask, start, step};
use oracle::generate::draft::{board, board_entries, Draft};
use oracle::record::{Pair, Place, Record};
use oracle::session::Symbol;
use oracle::spells::Spells;
use oracle::watch::{lines, Answer, Configurations};
use std::fs;

/// The session as document 01 prints it.
const SESSION: &str = "
01 04
01 00 24 02 02 00 01 00 01 00 02 02
00 00 01 01 00 00 00 00 FF FF FF FF
01 01 01 00 00 00 00 00 00 00 00 05
02 01 00   05 02 00 00 00 05   02 01 01
05 02 00 00 00 01   02 01 01   01 03
02 01 01   05 02 00 00 00 02   02 01 00
05 02 00 00 00 00   02 01 02
";

/// Its output, as document 01 prints it.
const OUTPUT: &str = "\
0 no settled 1
1 yes settled 1
2 yes settled 1
3 yes settled 2
4 yes settled 1
5 no settled 1
6 unsure open 1
7 unsure open 2
8 unsure open 2
9 yes settled 1
10 refused 10
11 refused 9
";

fn bytes(hex: &str) -> Vec<u8> {
    hex.lines()
        .flat_map(|line| line.split('#').next().unwrap().split_whitespace())
        .map(|digits| u8::from_str_radix(digits, 16).unwrap())
        .collect()
}

fn shown(path: &str) -> String {
    fs::read_to_string(format!("{}/../{path}", env!("CARGO_MANIFEST_DIR"))).unwrap()
}

#[test]
fn its_twelve_lines() {
    assert_eq!(printed(&bytes(SESSION)), OUTPUT);
}

#[test]
fn the_draft_is_the_same_session() {
    let draft = Draft::new(4, board(), board_entries());
    assert_eq!(draft.bytes(), bytes(SESSION));
}

/// The lines of the session by calls alone, each handed the record before it, and these records.
fn by_calls<S: Configurations>(room: u8, entries: &[Symbol]) -> (String, Vec<Record>) {
    let table = board().bytes();
    let (number, mut record) = start::<S>(room, &table);
    assert_eq!(number, 0);
    let (mut answers, mut records) = (vec![ask::<S>(&record, &table)], vec![record.clone()]);
    for &entry in entries {
        let (number, after) = step::<S>(&record, entry, &table);
        answers.push(match number {
            0 => ask::<S>(&after, &table),
            _ => Answer::Refused(number),
        });
        records.push(after.clone());
        record = after;
    }
    (lines(&answers), records)
}

#[test]
fn its_twelve_lines_call_by_call() {
    for by_calls in [by_calls::<Spells>, by_calls::<Ages>] {
        assert_eq!(by_calls(4, &board_entries()).0, OUTPUT);
    }
}

/// First and last age, sure and possible set of each stretch; then the pair above H.
type Held = (&'static [(u32, u32, u16, u16)], u16, u16);

/// The record after the start and after each entry, worked out by hand: state 0 is 1, state 1 is 2.
const RECORDS: [Held; 12] = [
    (&[(0, 0, 1, 1)], 0, 0),
    (&[(0, 0, 3, 3)], 0, 0),
    (&[(5, 5, 3, 3)], 0, 0),
    (&[(0, 0, 1, 1), (5, 5, 2, 2)], 0, 0),
    (&[(1, 1, 1, 1)], 2, 2),
    (&[(0, 0, 1, 1)], 0, 0),
    (&[(0, 5, 0, 3)], 0, 3),
    (&[(0, 0, 1, 3), (1, 5, 0, 2)], 0, 0),
    (&[(2, 2, 1, 3), (3, 5, 0, 2)], 0, 2),
    (&[(0, 0, 3, 3)], 0, 0),
    (&[(0, 0, 3, 3)], 0, 0),
    (&[(0, 0, 3, 3)], 0, 0),
];

#[test]
fn its_records_call_by_call() {
    let worked = |(stretches, sure, possible): &Held| {
        let mut record = Record::empty(4);
        record.count = stretches.len() as u8;
        for (place, &(first, last, sure, possible)) in record.places.iter_mut().zip(*stretches) {
            let pair = Pair { sure, possible };
            *place = Place { first, last, pair };
        }
        (record.above.sure, record.above.possible) = (*sure, *possible);
        record
    };
    let worked: Vec<Record> = RECORDS.iter().map(worked).collect();
    for by_calls in [by_calls::<Spells>, by_calls::<Ages>] {
        assert_eq!(by_calls(4, &board_entries()).1, worked);
    }
}

#[test]
fn the_room_1_line_call_by_call() {
    for by_calls in [by_calls::<Spells>, by_calls::<Ages>] {
        let (lines, records) = by_calls(1, &board_entries()[..3]);
        assert!(lines.ends_with("\n3 refused 11\n"), "{lines}");
        assert_eq!(records[3], records[2]);
    }
}

#[test]
fn the_example_is_this_session() {
    assert_eq!(bytes(&shown("examples/board.hex")), bytes(SESSION));
    assert_eq!(shown("examples/board.lines"), OUTPUT);
}

/// These lines were first printed here and then gone through by hand, entry by entry; the definitions of the library give
/// them too.
#[test]
fn the_pump_and_its_lines() {
    let pump = bytes(&shown("examples/pump.hex"));
    assert_eq!(printed(&pump), shown("examples/pump.lines"));
}

/// The lines beside each example, which show every verdict.
#[test]
fn the_examples_and_their_lines() {
    let folder = format!("{}/../examples", env!("CARGO_MANIFEST_DIR"));
    let names = fs::read_dir(folder).unwrap();
    let names = names.map(|entry| entry.unwrap().file_name().into_string().unwrap());
    let sessions: Vec<String> = names.filter(|name| name.ends_with(".hex")).collect();
    assert!(!sessions.is_empty());
    for name in sessions {
        let lines = shown(&format!("examples/{}", name.replace(".hex", ".lines")));
        assert_eq!(printed(&bytes(&shown(&format!("examples/{name}")))), lines);
        for verdict in [" yes ", " no ", " unsure "] {
            assert!(lines.contains(verdict), "{name}:{verdict}");
        }
    }
}

/// With room 2 its eighth entry, which needs three stretches, is refused, and the session goes on.
#[test]
fn the_pump_in_room_2() {
    let mut pump = bytes(&shown("examples/pump.hex"));
    pump[1] = 2;
    let lines = printed(&pump);
    let lines: Vec<&str> = lines.lines().skip(7).take(4).collect();
    assert_eq!(
        lines,
        [
            "7 yes settled 2",
            "8 refused 11",
            "9 yes settled 2",
            "10 yes settled 1",
        ]
    );
}

#[test]
fn the_readme_shows_this_session() {
    let readme = shown("README.md");
    let session = SESSION.trim();
    assert!(readme.contains(session), "the README has another session");
    assert!(readme.contains(OUTPUT), "the README has other lines");
}
