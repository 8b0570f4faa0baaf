//! What a proper record is: each clause of document 01's sentence on both sides, and the sentence as a whole held to
//! what a stretch is.

mod common;

use common::only_case;
use oracle::generate::draft::{line, plain, TableDraft, KEEPS, NONE};
use oracle::judge::probe::parted;
use oracle::judge::records::ONE_CLAUSE;
use oracle::judge::Part;
use oracle::record::Clause::{self, *};
use oracle::record::{broken, proper, Pair, Place, Record, CLAUSES, PLACES, SIZE};
use oracle::table::Table;
use std::collections::BTreeSet;

fn table(n: u8, horizon: u32) -> Table {
    let draft = TableDraft {
        states: n,
        lines: vec![line(0, 0, 0, KEEPS, 0, horizon)],
        ..plain()
    };
    Table::read(&draft.bytes()).unwrap()
}

/// First and last age, sure and possible set.
type Stretch = (u32, u32, u16, u16);

fn pair(sure: u16, possible: u16) -> Pair {
    Pair { sure, possible }
}

fn place((first, last, sure, possible): Stretch) -> Place {
    let pair = pair(sure, possible);
    Place { first, last, pair }
}

fn record(room: u8, stretches: &[Stretch]) -> Record {
    let mut record = Record::empty(room);
    record.count = stretches.len() as u8;
    for (at, &stretch) in stretches.iter().enumerate() {
        record.places[at] = place(stretch);
    }
    record
}

/// The clauses that these stretches break: n is 3, the horizon is 20, the room is 8.
fn breaks(stretches: &[Stretch]) -> Vec<Clause> {
    broken(&record(8, stretches), &table(3, 20))
}

fn in_order() -> [Clause; 0] {
    []
}

#[test]
fn bytes_of_a_record() {
    let mut held = record(
        7,
        &[(1, 2, 3, 4), (0x0506_0708, 0x090A_0B0C, 0x0D0E, 0x0F10)],
    );
    held.above = pair(0x1112, 0x1314);
    held.places[63] = place((0x1516_1718, 0, 0, 0x191A));
    let bytes = held.bytes();
    assert_eq!(bytes.len(), 774);
    assert_eq!(bytes[..6], [7, 2, 0, 0, 0, 1]);
    assert_eq!(bytes[6..14], [0, 0, 0, 2, 0, 3, 0, 4]);
    assert_eq!(bytes[14..22], [5, 6, 7, 8, 9, 10, 11, 12]);
    assert_eq!(bytes[22..26], [13, 14, 15, 16]);
    assert!(bytes[26..758].iter().all(|&byte| byte == 0));
    assert_eq!(bytes[758..762], [0x15, 0x16, 0x17, 0x18]);
    assert_eq!(bytes[768..], [0x19, 0x1A, 0x11, 0x12, 0x13, 0x14]);
    let bytes: [u8; SIZE] = bytes.try_into().unwrap();
    assert_eq!(Record::read(&bytes), held);
}

#[test]
fn room_and_count() {
    let of = |room, count: u8| {
        let mut held = record(room, &[]);
        for at in 0..count.min(64) {
            held.places[usize::from(at)] = place((2 * u32::from(at), 2 * u32::from(at), 0, 1));
        }
        held.count = count;
        broken(&held, &table(3, 200))
    };
    assert_eq!(of(0, 0), [Room]);
    assert_eq!(of(0, 1), [Room, Count]);
    assert_eq!(of(1, 0), in_order());
    assert_eq!(of(1, 1), in_order());
    assert_eq!(of(1, 2), [Count]);
    assert_eq!(of(63, 63), in_order());
    assert_eq!(of(63, 64), [Count]);
    assert_eq!(of(64, 64), in_order());
    assert_eq!(of(64, 65), [Count]);
    assert_eq!(of(64, 255), [Count]);
    assert_eq!(of(65, 64), [Room]);
    assert_eq!(of(65, 65), [Room]);
    assert_eq!(of(255, 255), [Room]);
}

#[test]
fn rising_and_disjoint() {
    assert_eq!(breaks(&[(0, 1, 1, 1), (3, 4, 1, 1)]), in_order());
    assert_eq!(breaks(&[(3, 4, 1, 1), (0, 1, 1, 1)]), [Rising]);
    assert_eq!(breaks(&[(0, 3, 0, 1), (3, 4, 1, 1)]), [Disjoint]);
    assert_eq!(breaks(&[(0, 2, 0, 1), (3, 4, 1, 1)]), in_order());
    assert_eq!(breaks(&[(0, 9, 0, 1), (3, 4, 1, 1)]), [Disjoint]);
    assert_eq!(breaks(&[(3, 4, 1, 1), (3, 4, 1, 1)]), [Rising, Disjoint]);
    let not_neighbours = [(5, 6, 1, 1), (8, 9, 1, 1), (2, 3, 1, 1)];
    assert_eq!(breaks(&not_neighbours), [Rising]);
    let over_two = [(0, 9, 0, 1), (3, 4, 1, 1), (6, 7, 1, 1)];
    assert_eq!(breaks(&over_two), [Disjoint]);
}

#[test]
fn within_the_horizon() {
    assert_eq!(breaks(&[(0, 20, 1, 1)]), in_order());
    assert_eq!(breaks(&[(20, 20, 1, 1)]), in_order());
    assert_eq!(breaks(&[(0, 21, 1, 1)]), [Within]);
    assert_eq!(breaks(&[(21, 21, 1, 1)]), [Within]);
    assert_eq!(breaks(&[(0, u32::MAX, 1, 1)]), [Within]);
    for (horizon, greatest) in [(0, 0), (NONE, 0), (31_622_400, 31_622_400)] {
        let of = |last| broken(&record(1, &[(0, last, 1, 1)]), &table(1, horizon));
        assert_eq!(of(greatest), in_order());
        assert_eq!(of(greatest + 1), [Within]);
    }
}

#[test]
fn first_at_most_last() {
    assert_eq!(breaks(&[(7, 7, 1, 1)]), in_order());
    assert_eq!(breaks(&[(8, 7, 1, 1)]), [Ends]);
    assert_eq!(breaks(&[(20, 0, 1, 1)]), [Ends]);
    assert_eq!(breaks(&[(2, 3, 1, 1), (9, 8, 1, 1)]), [Ends]);
}

#[test]
fn pairs_of_stretches() {
    assert_eq!(breaks(&[(7, 7, 0, 1)]), in_order());
    assert_eq!(breaks(&[(7, 7, 0, 0)]), [NonEmpty]);
    assert_eq!(breaks(&[(7, 7, 1, 0)]), [NonEmpty, Part]);
    assert_eq!(breaks(&[(7, 7, 7, 7)]), in_order());
    assert_eq!(breaks(&[(7, 7, 4, 3)]), [Part]);
    assert_eq!(breaks(&[(7, 7, 0, 4)]), in_order());
    assert_eq!(breaks(&[(7, 7, 0, 8)]), [States]);
    assert_eq!(breaks(&[(7, 7, 8, 8)]), [States]);
    assert_eq!(breaks(&[(7, 7, 8, 1)]), [Part, States]);
    assert_eq!(breaks(&[(1, 2, 1, 1), (7, 7, 0, 0x8000)]), [States]);
    let widest = record(1, &[(0, 0, 0x8000, 0xFFFF)]);
    assert!(proper(&widest, &table(16, 0)));
}

#[test]
fn touching_neighbours() {
    assert_eq!(breaks(&[(0, 2, 1, 3), (3, 4, 1, 3)]), [Touching]);
    assert_eq!(breaks(&[(0, 2, 1, 3), (3, 4, 0, 3)]), in_order());
    assert_eq!(breaks(&[(0, 2, 1, 3), (3, 4, 1, 7)]), in_order());
    assert_eq!(breaks(&[(0, 2, 1, 3), (4, 4, 1, 3)]), in_order());
    let later = [(0, 2, 1, 3), (3, 4, 0, 3), (5, 5, 0, 3)];
    assert_eq!(breaks(&later), [Touching]);
    // the same pair again, with another between
    let between = [(0, 2, 1, 3), (3, 4, 0, 3), (5, 5, 1, 3)];
    assert_eq!(breaks(&between), in_order());
}

#[test]
fn the_pair_above() {
    let of = |sure, possible| {
        let mut held = record(8, &[(0, 20, 1, 1)]);
        held.above = pair(sure, possible);
        broken(&held, &table(3, 20))
    };
    assert_eq!(of(0, 0), in_order());
    // it is no stretch, and does not touch one
    assert_eq!(of(1, 1), in_order());
    assert_eq!(of(4, 7), in_order());
    assert_eq!(of(4, 3), [AbovePart]);
    assert_eq!(of(1, 0), [AbovePart]);
    assert_eq!(of(0, 8), [AboveStates]);
    assert_eq!(of(8, 8), [AboveStates]);
    assert_eq!(of(8, 0), [AbovePart, AboveStates]);
}

#[test]
fn unused_places() {
    let of = |at: usize, stretch| {
        let mut held = record(8, &[(0, 0, 1, 1), (2, 2, 1, 1)]);
        held.places[at] = place(stretch);
        broken(&held, &table(3, 20))
    };
    for at in [2, 30, 63] {
        assert_eq!(of(at, (0, 0, 0, 0)), in_order());
        assert_eq!(of(at, (1, 0, 0, 0)), [Unused]);
        assert_eq!(of(at, (0, 1, 0, 0)), [Unused]);
        assert_eq!(of(at, (0, 0, 1, 0)), [Unused]);
        assert_eq!(of(at, (0, 0, 0, 1)), [Unused]);
        assert_eq!(of(at, (4, 4, 1, 1)), [Unused]);
    }
    assert!(!proper(&Record::empty(0), &table(3, 20)));
    assert!(proper(&Record::empty(1), &table(3, 20)));
}

/// The places that the longest runs of consecutive ages with the same pair and a non-empty possible set take.
fn runs(record: &Record, table: &Table) -> Vec<Place> {
    let mut runs: Vec<Place> = Vec::new();
    for age in 0..=table.horizon as u32 {
        let holds = |stretch: &&Place| (stretch.first..=stretch.last).contains(&age);
        let pair = match record.stretches().iter().find(holds) {
            Some(stretch) if stretch.pair.possible != 0 => stretch.pair,
            _ => continue,
        };
        match runs.last_mut() {
            Some(run) if run.last + 1 == age && run.pair == pair => run.last = age,
            _ => runs.push(place((age, age, pair.sure, pair.possible))),
        }
    }
    runs
}

/// The record holds the stretches of its own pairs, and nothing else.
fn holds_its_runs(record: &Record, table: &Table) -> bool {
    let runs = runs(record, table);
    let states = u16::MAX >> (16 - table.states);
    let in_order = |pair: Pair| pair.sure | pair.possible | states == states;
    let pairs = || record.places.iter().map(|place| place.pair);
    let all = || pairs().chain([record.above]);
    let rest = [Place::default(); PLACES];
    (1..=64).contains(&record.room)
        && record.count <= record.room
        && usize::from(record.count) == runs.len()
        && record.places[..runs.len()] == runs[..]
        && record.places[runs.len()..] == rest[runs.len()..]
        && all().all(|pair| pair.sure | pair.possible == pair.possible && in_order(pair))
}

#[test]
fn a_proper_record_holds_the_stretches_of_its_pairs() {
    let part = Part::records(5);
    let mut of_each = [0, 0];
    for number in 0..30_000 {
        let load = only_case(&part, number).load;
        let (record, table) = parted(&load);
        match Table::read(table) {
            Ok(table) if table.horizon <= 300 => {
                let proper = proper(&record, &table);
                assert_eq!(proper, holds_its_runs(&record, &table), "case {number}");
                of_each[usize::from(proper)] += 1;
            }
            _ => {}
        }
    }
    assert!(of_each.iter().all(|&times| times > 3_000), "{of_each:?}");
}

#[test]
fn each_clause_is_broken_alone() {
    let part = Part::records(2);
    let mut alone = Vec::new();
    for case in (0..4_000).map(|number| only_case(&part, number)) {
        if case.making == ONE_CLAUSE {
            let (record, table) = parted(&case.load);
            match broken(&record, &Table::read(table).unwrap())[..] {
                [clause] => {
                    assert!(case.label.starts_with(clause.name()), "{}", case.label);
                    alone.push(clause);
                }
                ref clauses => panic!("{} breaks {clauses:?}", case.label),
            }
        }
    }
    let never: Vec<_> = (CLAUSES.iter())
        .filter(|clause| !alone.contains(clause))
        .collect();
    assert!(never.is_empty(), "{never:?}");
}

#[test]
fn proper_records_are_of_all_sorts() {
    let part = Part::records(1);
    let mut seen: BTreeSet<String> = BTreeSet::new();
    for case in (0..30_000).map(|number| only_case(&part, number)) {
        if case.making != "proper" {
            continue;
        }
        let (record, table) = parted(&case.load);
        let horizon = Table::read(table).unwrap().horizon;
        seen.insert(format!("room {}", record.room));
        seen.insert(format!("count {}", record.count));
        seen.insert(format!("H {horizon}"));
        for two in record.stretches().windows(2) {
            let touching = two[0].last + 1 == two[1].first;
            let same = two[0].pair == two[1].pair;
            seen.insert(format!("touching {touching}, same {same}"));
        }
        if let Some(last) = record.stretches().last() {
            seen.insert(format!("at H {}", u64::from(last.last) == horizon));
        }
    }
    let sorts = [
        "touching true, same false",
        "touching false, same true",
        "touching false, same false",
        "at H true",
        "at H false",
    ];
    let sorts = (sorts.iter().map(|sort| sort.to_string()))
        .chain([0, 1, 64, 300, 31_622_400].map(|horizon| format!("H {horizon}")))
        .chain((1..=64).map(|room| format!("room {room}")))
        .chain((0..=64).map(|count| format!("count {count}")));
    let never: Vec<String> = sorts.filter(|sort| !seen.contains(sort)).collect();
    assert!(never.is_empty(), "{never:?}");
    assert!(!seen.contains("touching true, same true"));
}
