//! The judgement refuses programs that lie at their calls, each in one thing and right in everything else.

mod common;

use common::judged;
use oracle::calls::{needed, rows};
use oracle::judge::probe::{answer, handed, parted, parted_step, Kind, QUESTIONS, STEPS};
use oracle::judge::Part;
use oracle::record::{Pair, Place, Record};
use oracle::session::Symbol;
use oracle::spells::Spells;
use oracle::table::Table;
use oracle::watch::{Configurations, Watch};

/// Those with a label, and some more.
const SEQUENCES: usize = 1_000;

/// Why a program is refused whose answers to one kind of call are these.
fn refused(of: Kind, lie: impl Fn(&[u8]) -> Vec<u8> + Sync) -> String {
    let lies = |kind: Kind, load: &[u8]| match kind == of {
        true => lie(load),
        false => answer(kind, load),
    };
    let failure = judged(&Part::calls(1), SEQUENCES, lies);
    let why = failure.err().expect("a lie").why;
    assert!(why.contains("calls, seed 1, sequence "), "{why}");
    assert!(why.contains(", the first of "), "{why}");
    why
}

/// The number and the record of the right answer.
fn right(kind: Kind, load: &[u8]) -> (u8, Record) {
    let answer = answer(kind, load);
    (answer[0], parted(&answer[1..]).0)
}

/// Why a program is refused that changes the record of each call of this kind that it takes, given the one handed in.
fn refused_record(of: Kind, change: impl Fn(&mut Record, &Record) + Sync) -> String {
    refused(of, |load| {
        let (number, mut after) = right(of, load);
        if number == 0 {
            change(&mut after, &parted_step(of, load).0);
        }
        handed((number, after))
    })
}

/// Why a program is refused that steps another watch than the record's at a call of this kind.
fn refused_watch(of: Kind, mistake: impl Fn(&mut Watch<Spells>, &Record) + Sync) -> String {
    refused(of, |load| {
        let (record, symbol, table) = parted_step(of, load);
        let mut watch = match Watch::<Spells>::of(&record, table) {
            Ok(watch) => watch,
            Err(number) => return handed((number, record)),
        };
        mistake(&mut watch, &record);
        match watch.take(symbol) {
            Ok(()) => handed((0, watch.record())),
            Err(number) => handed((number, record)),
        }
    })
}

#[test]
fn what_differs_is_told() {
    let why = refused_record(Kind::Letter, |after, _| {
        after.places[2].last += u32::from(after.count > 2);
    });
    let (head, hex) = why.split_once('\n').unwrap();
    let (place, what) = head.split_once("): ").unwrap();
    // the comb in room 3 is the first letter that leads to three stretches
    assert_eq!(
        place,
        "calls, seed 1, sequence 6, call 1 (letter: a comb, room 3; 1555 bytes"
    );
    let (expected, rest) = what.split_once(", answered ").unwrap();
    let place_2 = "with place 2: 10 to 10, sure 0008, possible 0008";
    assert_eq!(expected, format!("expected 0 {place_2}"));
    let lie = "0 with place 2: 10 to 11, sure 0008, possible 0008, the first of ";
    assert!(rest.starts_with(lie), "{rest}");
    // the record: room, count, the first stretch
    assert!(
        hex.starts_with("03 03 00 00 00 01 00 00 00 03 FF FF FF FF"),
        "{hex}"
    );
}

#[test]
fn the_place_in_a_sequence_is_told() {
    let why = refused(Kind::Count, |load| match answer(Kind::Count, load)[..] {
        [0, count] => vec![0, count + 1],
        _ => answer(Kind::Count, load),
    });
    let place = "calls, seed 1, sequence 0, call 4 (count: a comb, room 1; ";
    assert!(why.starts_with(place), "{why}");
    let what = ": expected 0 with count 1, answered 0 with count 2, ";
    assert!(why.contains(what), "{why}");
}

#[test]
fn letters_always_refused() {
    let why = refused(Kind::Letter, |load| match right(Kind::Letter, load) {
        (0, _) => handed((11, parted_step(Kind::Letter, load).0)),
        other => handed(other),
    });
    assert!(why.contains(", answered 11 with "), "{why}");
}

#[test]
fn one_verdict_for_all() {
    for (byte, word) in [(1, "yes"), (2, "no"), (3, "unsure")] {
        let why = refused(Kind::Verdict, |load| match answer(Kind::Verdict, load)[0] {
            0 => vec![0, byte],
            number => vec![number, 0],
        });
        let answered = format!("answered 0 with {word}, ");
        assert!(why.contains(&answered), "{why}");
    }
}

#[test]
fn always_settled_or_always_open() {
    for byte in [0, 1] {
        refused(Kind::Settled, |load| match answer(Kind::Settled, load)[0] {
            0 => vec![0, byte],
            number => vec![number, 0],
        });
    }
}

#[test]
fn a_refused_question_says_nothing_else() {
    for kind in QUESTIONS {
        refused(kind, |load| match answer(kind, load)[..] {
            [number, 0] if number != 0 => vec![number, 1],
            _ => answer(kind, load),
        });
    }
}

#[test]
fn a_record_handed_back_untouched() {
    for kind in STEPS {
        refused_record(kind, |after, before| *after = before.clone());
        // from the second symbol on
        refused_record(kind, |after, before| {
            let newborn = before.count == 1 && before.places[0].last == 0;
            if !newborn || before.above != Pair::default() {
                *after = before.clone();
            }
        });
    }
}

#[test]
fn a_count_made_up() {
    for kind in STEPS {
        let why = refused_record(kind, |after, _| after.count = after.room);
        assert!(why.contains(" with count "), "{why}");
    }
    refused(Kind::Count, |load| match answer(Kind::Count, load)[0] {
        0 => vec![0, load[0]],
        number => vec![number, 0],
    });
}

#[test]
fn resets_that_do_not_reach_age_0() {
    refused_watch(Kind::Letter, |watch, _| {
        watch.table.lines.retain(|line| !line.resets);
    });
    refused_watch(Kind::Letter, |watch, _| {
        for line in &mut watch.table.lines {
            line.resets = false;
        }
    });
}

/// The sets of the record without its pair above H, and without its last stretch.
fn without(watch: &mut Watch<Spells>, record: &Record, last: bool) {
    let mut less = record.clone();
    match (last, less.count) {
        (true, 0) => {}
        (true, count) => less.count = count - 1,
        (false, _) => less.above = Pair::default(),
    }
    watch.sure = Spells::at_ages(&watch.table, &rows(&less, &watch.table, |p| p.sure));
    watch.possible = Spells::at_ages(&watch.table, &rows(&less, &watch.table, |p| p.possible));
}

#[test]
fn above_h_and_the_last_stretch_take_letters_too() {
    refused_watch(Kind::Letter, |watch, record| without(watch, record, false));
    refused_watch(Kind::Letter, |watch, record| without(watch, record, true));
    refused_watch(Kind::Span, |watch, record| without(watch, record, false));
}

#[test]
fn standing_states_that_step_before_the_letter() {
    refused_watch(Kind::Letter, |watch, record| {
        let table = &watch.table;
        let set = |side| {
            let mut rows = rows(record, table, side);
            rows.push((table.standing, 0..=0));
            Spells::at_ages(table, &rows)
        };
        let (sure, possible) = (set(|pair| pair.sure), set(|pair| pair.possible));
        (watch.sure, watch.possible) = (sure, possible);
        watch.table.standing = 0;
    });
}

#[test]
fn standing_states_that_do_not_join() {
    refused_watch(Kind::Letter, |watch, _| watch.table.standing = 0);
}

/// The record of a span, its seconds and its horizon.
fn span_of(load: &[u8]) -> Option<(Record, u64, u64)> {
    match parted_step(Kind::Span, load) {
        (record, Symbol::Span(seconds), table) => {
            let table = Table::read(table).ok()?;
            Some((record, seconds.into(), table.horizon))
        }
        _ => None,
    }
}

#[test]
fn a_stretch_dropped_at_h() {
    // one that is cut there
    let why = refused(Kind::Span, |load| {
        let (number, mut after) = right(Kind::Span, load);
        if let (0, Some((record, seconds, horizon))) = (number, span_of(load)) {
            let cut = |stretch: &Place| {
                u64::from(stretch.first) + seconds <= horizon
                    && u64::from(stretch.last) + seconds > horizon
            };
            if record.stretches().iter().any(cut) {
                after.count -= 1;
                after.places[usize::from(after.count)] = Place::default();
            }
        }
        handed((number, after))
    });
    assert!(why.contains("(span: one stretch; "), "{why}");
    // those that pass it, above H
    let why = refused_record(Kind::Span, |after, before| after.above = before.above);
    assert!(why.contains(" with above H: "), "{why}");
}

#[test]
fn a_stretch_not_cut_at_h() {
    refused(Kind::Span, |load| {
        let (number, mut after) = right(Kind::Span, load);
        if let (0, Some((record, seconds, _))) = (number, span_of(load)) {
            if let Some(last) = usize::from(after.count).checked_sub(1) {
                let end = u64::from(record.places[last].last) + seconds;
                after.places[last].last = end as u32;
            }
        }
        handed((number, after))
    });
}

/// The first stretch with an age 0 and an age 1 in two.
fn parted_at_1(record: &Record) -> Option<Vec<Place>> {
    let (first, rest) = record.stretches().split_first()?;
    if first.first != 0 || first.last == 0 {
        return None;
    }
    let (mut newborn, mut older) = (*first, *first);
    (newborn.last, older.first) = (0, 1);
    Some([&[newborn, older], rest].concat())
}

#[test]
fn touching_equal_stretches_left_apart() {
    let why = refused(Kind::Letter, |load| {
        let (number, mut after) = right(Kind::Letter, load);
        match parted_at_1(&after) {
            Some(parted) if number == 0 => {
                if parted.len() > usize::from(after.room) {
                    return handed((11, parted_step(Kind::Letter, load).0));
                }
                after.count += 1;
                after.places[..parted.len()].copy_from_slice(&parted);
                handed((0, after))
            }
            _ => handed((number, after)),
        }
    });
    assert!(why.contains(" join"), "{why}");
    // and where only 11 comes too early
    let why = refused(Kind::Letter, |load| {
        let (number, after) = right(Kind::Letter, load);
        let apart = parted_at_1(&after).map_or(0, |parted| parted.len());
        match number == 0 && apart > usize::from(after.room) {
            true => handed((11, parted_step(Kind::Letter, load).0)),
            false => handed((number, after)),
        }
    });
    assert!(why.contains(", answered 11 with "), "{why}");
}

#[test]
fn eleven_one_too_early_or_one_too_late() {
    refused(Kind::Letter, |load| match right(Kind::Letter, load) {
        (0, after) if after.count == after.room => handed((11, parted_step(Kind::Letter, load).0)),
        other => handed(other),
    });
    refused(Kind::Letter, |load| match right(Kind::Letter, load) {
        (11, before) if enough(load) == usize::from(before.room) + 1 => {
            handed((0, saved(load, &before)))
        }
        other => handed(other),
    });
}

/// How many stretches a letter that is refused for room needs.
fn enough(load: &[u8]) -> usize {
    match parted_step(Kind::Letter, load) {
        (record, Symbol::Letter(letter), table) => {
            needed::<Spells>(&record, letter, table).unwrap()
        }
        _ => 0,
    }
}

/// The record after a letter that is refused for room, as far as there are places.
fn saved(load: &[u8], before: &Record) -> Record {
    let (_, symbol, table) = parted_step(Kind::Letter, load);
    let mut watch = Watch::<Spells>::of(before, table).unwrap();
    if let Symbol::Letter(letter) = symbol {
        (watch.sure, watch.possible) = watch.after_letter(letter);
    }
    let mut stretches = Spells::stretches(&watch.sure, &watch.possible, &watch.table);
    stretches.truncate(64);
    let mut after = Record::empty(before.room);
    after.count = stretches.len() as u8;
    after.places[..stretches.len()].copy_from_slice(&stretches);
    after
}

#[test]
fn the_sets_of_a_refused_letter_saved() {
    let why = refused(Kind::Letter, |load| match right(Kind::Letter, load) {
        (11, before) => handed((11, saved(load, &before))),
        other => handed(other),
    });
    assert!(
        why.contains("expected 11 with count 1, answered 11 with count 2, "),
        "{why}"
    );
}

#[test]
fn another_record_after_a_refusal() {
    for kind in STEPS {
        refused(kind, |load| match right(kind, load) {
            (0, after) => handed((0, after)),
            (number, _) => handed((number, Record::empty(0))),
        });
        // what is not proper is mended
        refused(kind, |load| match right(kind, load) {
            (8, mut before) => {
                before.count = before.count.min(before.room);
                handed((8, before))
            }
            other => handed(other),
        });
    }
}

#[test]
fn a_gap_taken_as_a_restart() {
    let why = refused(Kind::Gap, |load| match right(Kind::Gap, load) {
        (0, after) => {
            let (_, _, table) = parted_step(Kind::Gap, load);
            let begin = [&[after.room], table].concat();
            answer(Kind::Start, &begin)
        }
        other => handed(other),
    });
    assert!(why.contains("(gap"), "{why}");
    // the ages above H are not forgotten, the sure set is kept
    refused_record(Kind::Gap, |after, before| after.above = before.above);
    refused_record(Kind::Gap, |after, _| {
        after.above.sure = after.above.possible
    });
}

#[test]
fn the_sure_set_stepped_as_the_possible_one() {
    for kind in [Kind::Letter, Kind::Span] {
        refused_watch(kind, |watch, _| watch.sure = watch.possible.clone());
    }
    refused_watch(Kind::Letter, |watch, _| {
        watch.sure = Spells::newborn(&watch.table, 0);
    });
}

#[test]
fn a_refused_start_that_keeps_its_room() {
    let why = refused(Kind::Start, |load| match right(Kind::Start, load) {
        (0, after) => handed((0, after)),
        (number, _) => handed((number, Record::empty(load[0]))),
    });
    assert!(
        why.contains("expected 8 with room 0, answered 8 with room "),
        "{why}"
    );
}

#[test]
fn a_start_in_another_room_or_state() {
    refused(Kind::Start, |load| match right(Kind::Start, load) {
        (0, mut after) => {
            after.room = 64;
            handed((0, after))
        }
        other => handed(other),
    });
    refused(Kind::Start, |load| match right(Kind::Start, load) {
        (0, mut after) => {
            after.places[0].pair.sure = 0;
            handed((0, after))
        }
        other => handed(other),
    });
}

#[test]
fn an_unused_place_left_as_it_was() {
    for kind in STEPS {
        let why = refused_record(kind, |after, before| {
            let used = after.stretches().len();
            after.places[used..].copy_from_slice(&before.places[used..]);
        });
        assert!(
            why.contains(" to 0, sure 0000, possible 0000, answered "),
            "{why}"
        );
    }
}

#[test]
fn the_order_of_checks() {
    // 9 and 10 before 8
    for kind in [Kind::Letter, Kind::Span] {
        let why = refused(kind, |load| {
            let (record, symbol, table) = parted_step(kind, load);
            match (symbol, Table::read(table)) {
                (Symbol::Letter(letter), Ok(table)) if letter >= table.letters => {
                    handed((9, record))
                }
                (Symbol::Span(0), Ok(_)) => handed((10, record)),
                _ => answer(kind, load),
            }
        });
        assert!(why.contains("8 before others; "), "{why}");
    }
    // 8 before 1 to 7
    let why = refused(Kind::Gap, |load| match right(Kind::Gap, load) {
        (1..=7, record) if record.room == 0 => handed((8, record)),
        other => handed(other),
    });
    assert!(why.contains("1 before 8; "), "{why}");
}

#[test]
fn each_number_of_each_call_counts() {
    let numbers = (1..=8).flat_map(|number| STEPS.map(|kind| (kind, number)));
    let own = [(Kind::Letter, 9), (Kind::Letter, 11), (Kind::Span, 10)];
    for (of, number) in numbers.chain(own) {
        refused(of, |load| match right(of, load) {
            (answered, record) if answered == number => handed((0, record)),
            other => handed(other),
        });
    }
}
