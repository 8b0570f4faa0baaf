//! The calls: the same by both forms, whatever stands for the ages above H, and as document 01 says what a record is.

use oracle::ages::Ages;
use oracle::calls::{ask, needed, rows, start, step};
use oracle::judge::marks::pieces;
use oracle::judge::probe::{handed, parted, parted_step, said, Kind, STEPS};
use oracle::judge::{Case, Part};
use oracle::record::{proper, Pair, Record};
use oracle::session::Symbol::{self, Letter};
use oracle::spells::Spells;
use oracle::table::Table;
use oracle::watch::{Configurations, Row, Watch};

/// The table of a case.
fn table_of(case: &Case) -> &[u8] {
    match case.kind {
        Kind::Start => &case.load[1..],
        Kind::Letter | Kind::Span | Kind::Gap => parted_step(case.kind, &case.load).2,
        _ => parted(&case.load).1,
    }
}

fn horizon(case: &Case) -> u64 {
    Table::read(table_of(case)).map_or(0, |table| table.horizon)
}

/// The calls of so many sequences whose horizon is at most this.
fn calls(seed: u64, sequences: usize, most: u64) -> Vec<Case> {
    let part = Part::calls(seed);
    let all = (0..sequences).flat_map(|number| part.sequence(number));
    all.filter(|case| horizon(case) <= most).collect()
}

/// What a form answers.
fn answer<S: Configurations>(case: &Case) -> Vec<u8> {
    let table = table_of(case);
    match case.kind {
        Kind::Start => handed(start::<S>(case.load[0], table)),
        Kind::Letter | Kind::Span | Kind::Gap => {
            let (record, symbol, _) = parted_step(case.kind, &case.load);
            handed(step::<S>(&record, symbol, table))
        }
        kind => said(kind, ask::<S>(&parted(&case.load).0, table)),
    }
}

#[test]
fn both_forms_answer_alike() {
    let calls = calls(11, 4_000, 400);
    assert!(calls.len() > 15_000, "{}", calls.len());
    for case in &calls {
        assert_eq!(answer::<Ages>(case), case.answer, "{:?}", case.kind);
    }
}

#[test]
fn both_forms_answer_alike_over_a_year() {
    let part = Part::calls(12);
    let all = (0..4_000).flat_map(|number| part.sequence(number));
    let year: Vec<Case> = (all.filter(|case| horizon(case) == 31_622_400))
        .filter(|case| case.number() == 0)
        .take(6)
        .collect();
    assert_eq!(year.len(), 6);
    for case in &year {
        assert_eq!(answer::<Ages>(case), case.answer, "{:?}", case.kind);
    }
}

#[test]
fn each_call_is_handed_the_record_that_the_one_before_handed_back() {
    let part = Part::calls(16);
    let (mut sequences, mut handed_on) = (0, 0);
    for number in 0..2_000 {
        let mut before: Option<Record> = None;
        for case in part.sequence(number) {
            if let Some(before) = &before {
                assert_ne!(case.kind, Kind::Start, "sequence {number}");
                assert_eq!(parted(&case.load).0, *before, "sequence {number}");
                handed_on += 1;
            }
            if case.kind == Kind::Start || STEPS.contains(&case.kind) {
                before = Some(parted(&case.answer[1..]).0);
            }
        }
        sequences += 1;
    }
    assert!(handed_on > 5 * sequences, "{handed_on}");
}

/// The watch of a record whose states above H are held at these ages alone, counted from H.
fn with_ages_above(record: &Record, table: &Table, above: &[u64]) -> Watch<Spells> {
    let set = |side: fn(&Pair) -> u16| {
        let mut rows: Vec<Row> = rows(record, table, side);
        let (states, _) = rows.pop().expect("the row above H");
        let ages = above.iter().map(|more| table.horizon + more);
        rows.extend(ages.map(|age| (states, age..=age)));
        Spells::at_ages(table, &rows)
    };
    Watch {
        room: record.room.into(),
        sure: set(|pair| pair.sure),
        possible: set(|pair| pair.possible),
        table: table.clone(),
    }
}

#[test]
fn it_does_not_matter_which_ages_above_h_are_held() {
    let mut looked = 0;
    for case in calls(13, 2_000, 31_622_400) {
        if !STEPS.contains(&case.kind) {
            continue;
        }
        let (record, symbol, table) = parted_step(case.kind, &case.load);
        let table = match Table::read(table) {
            Ok(table) if proper(&record, &table) && record.above.possible != 0 => table,
            _ => continue,
        };
        for above in [&[1][..], &[2], &[7, 5_000_000_000]] {
            let mut watch = with_ages_above(&record, &table, above);
            let answer = match watch.take(symbol) {
                Ok(()) => handed((0, watch.record())),
                Err(number) => handed((number, record.clone())),
            };
            assert_eq!(answer, case.answer, "{symbol:?}");
        }
        looked += 1;
    }
    assert!(looked > 2_000, "{looked}");
}

#[test]
fn a_proper_record_is_that_of_its_two_sets() {
    let mut looked = 0;
    for case in calls(15, 2_000, 31_622_400) {
        if case.kind == Kind::Start {
            continue;
        }
        let record = parted(&case.load).0;
        if let Ok(watch) = Watch::<Spells>::of(&record, table_of(&case)) {
            assert_eq!(watch.record(), record);
            looked += 1;
        }
    }
    assert!(looked > 10_000, "{looked}");
}

#[test]
fn a_record_handed_back_is_proper_or_the_one_handed_in() {
    let mut of_each = [0, 0];
    for case in calls(14, 2_000, 31_622_400) {
        if !STEPS.contains(&case.kind) {
            continue;
        }
        let (record, symbol, table) = parted_step(case.kind, &case.load);
        let after = parted(&case.answer[1..]).0;
        match case.number() {
            0 => {
                let table = Table::read(table).unwrap();
                assert!(proper(&after, &table), "{symbol:?}");
                assert_eq!(after.room, record.room);
            }
            _ => assert_eq!(after, record, "{symbol:?}"),
        }
        of_each[usize::from(case.number() == 0)] += 1;
    }
    assert!(of_each.iter().all(|&times| times > 500), "{of_each:?}");
}

/// The only letter with this label: its record, its letter and its table.
fn labelled(label: &str) -> (Record, u8, Vec<u8>) {
    let part = Part::calls(1);
    let all = (0..600).flat_map(|number| part.sequence(number));
    let found: Vec<Case> = all
        .filter(|case| case.kind == Kind::Letter && case.label == label)
        .collect();
    assert_eq!(found.len(), 1, "{label}");
    match parted_step(Kind::Letter, &found[0].load) {
        (record, Letter(letter), table) => (record, letter, table.to_vec()),
        other => panic!("{other:?}"),
    }
}

#[test]
fn the_widest_letters_are_as_wide_as_they_say() {
    for (label, count) in [
        ("a comb, room 64", 64),
        ("a comb and age 0, room 64", 65),
        ("190 needed", 190),
        ("64 join to one", 1),
        ("64 and age 0 join to one", 1),
        ("age 0 joins age 1, room 64", 64),
        ("age 0 differs from age 1, room 64", 65),
    ] {
        let (record, letter, bytes) = labelled(label);
        let table = Table::read(&bytes).unwrap();
        assert_eq!((record.room, record.count), (64, 64), "{label}");
        assert_eq!((table.states, table.on(letter).count()), (16, 64));
        assert_eq!(pieces(&table), 129, "{label}");
        assert_eq!(needed::<Spells>(&record, letter, &bytes), Ok(count));
        assert_eq!(needed::<Ages>(&record, letter, &bytes), Ok(count));
    }
}

#[test]
fn pieces_of_ages() {
    let of = |bounds: &[(u32, u32)]| {
        use oracle::generate::draft::{line, plain, TableDraft, KEEPS};
        let lines = bounds.iter().map(|&(l, u)| line(0, 0, 0, KEEPS, l, u));
        let draft = TableDraft {
            lines: lines.collect(),
            ..plain()
        };
        pieces(&Table::read(&draft.bytes()).unwrap())
    };
    assert_eq!(of(&[]), 1);
    assert_eq!(of(&[(0, u32::MAX)]), 1);
    assert_eq!(of(&[(0, 0)]), 2);
    assert_eq!(of(&[(3, 5)]), 3);
    assert_eq!(of(&[(3, 5), (6, 6)]), 4);
    assert_eq!(of(&[(3, 5), (3, u32::MAX)]), 3);
}

/// Whatever the room, a letter is refused with 11 exactly if the stretches that it needs exceed it.
#[test]
fn eleven_exactly_where_the_room_is_too_small() {
    for count in [1, 5, 64] {
        let (mut record, letter, bytes) = labelled(&format!("a comb, room {count}"));
        for room in count..=64 {
            record.room = room;
            let (number, after) = step::<Spells>(&record, Symbol::Letter(letter), &bytes);
            assert_eq!((number, after.count, after.room), (0, count, room));
        }
        let (mut record, letter, bytes) = labelled(&format!("a comb and age 0, room {count}"));
        for room in count..=64 {
            record.room = room;
            let (number, after) = step::<Spells>(&record, Symbol::Letter(letter), &bytes);
            match room == count {
                true => assert_eq!((number, &after), (11, &record)),
                false => assert_eq!((number, after.count), (0, count + 1)),
            }
        }
    }
}
