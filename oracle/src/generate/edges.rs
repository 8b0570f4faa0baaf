//! Both sides of each edge of document 01, as far as a session can show it, each with its lines, worked out by hand. A record of
//! one's own cannot be handed to a session, so that "a bad letter with a bad record is 8" is not among them.

use crate::generate::draft::{
    board, board_entries, line, plain, Draft, TableDraft, KEEPS, NONE, RESETS,
};
use crate::session::Symbol::{self, Gap, Letter, Span};

/// A session that lies at an edge, and all that it must print.
pub struct Edge {
    pub name: String,
    pub bytes: Vec<u8>,
    pub lines: String,
}

/// How many there are.
pub const COUNT: usize = 130;

/// All of them; those of one function are named after it.
pub fn edges() -> Vec<Edge> {
    let mut edges = Vec::new();
    for (name, sides) in EDGES {
        for (at, (bytes, lines)) in sides().into_iter().enumerate() {
            let name = format!("{name}, {}", at + 1);
            edges.push(Edge { name, bytes, lines });
        }
    }
    edges
}

/// A session and its lines.
type Side = (Vec<u8>, String);
type Sides = fn() -> Vec<Side>;

/// The functions, with their names.
macro_rules! named {
    ($($name:ident),* $(,)?) => {
        &[$((stringify!($name), $name as Sides)),*]
    };
}

const EDGES: &[(&str, Sides)] = named![
    states,
    letters,
    lines,
    the_last_state_and_the_last_letter_take_part,
    all_64_lines_take_part,
    without_lines_the_horizon_is_0,
    a_year_is_a_horizon,
    stated_length,
    masks,
    parts_of_a_line,
    ages_of_a_line,
    the_first_bad_line_decides,
    rooms,
    the_worked_session_in_room_1,
    spans_and_letters,
    an_11_byte_table_is_1_whatever_its_version,
    a_gap_after_a_gap_changes_nothing,
    no_span_between_two_letters_they_act_at_the_same_age,
    no_span_between_two_letters_age_0_is_held_already,
    nothing_accepts_even_after_a_gap,
    age_0_joins_age_1_before_the_count,
    a_stretch_ends_where_the_sure_set_changes,
    settled_looks_above_the_horizon,
    a_letter_that_no_line_bears_is_accepted,
    the_frame_comes_first,
    the_longest_session,
    a_table_that_the_input_cuts_off,
    entries_cut_short,
    entries_of_no_kind_or_of_another_length,
    a_refused_entry_uses_its_ordinal_and_leaves_the_stream,
];

// ---- how they are made

fn bytes(bytes: &[u8], lines: &[&str]) -> Side {
    let text = lines.iter().map(|line| format!("{line}\n")).collect();
    (bytes.to_vec(), text)
}

fn session(room: u8, table: TableDraft, entries: Vec<Symbol>, lines: &[&str]) -> Side {
    bytes(&Draft::new(room, table, entries).bytes(), lines)
}

/// The start of a table, or its refusal.
fn start(table: TableDraft, line: &str) -> Side {
    session(64, table, vec![], &[line])
}

fn changed(table: TableDraft, change: impl Fn(&mut TableDraft)) -> TableDraft {
    let mut changed = table;
    change(&mut changed);
    changed
}

fn started(change: impl Fn(&mut TableDraft), line: &str) -> Side {
    start(changed(plain(), change), line)
}

// ---- the table

fn states() -> Vec<Side> {
    vec![
        started(|t| t.states = 0, "0 refused 3"),
        started(|t| t.states = 1, "0 yes settled 1"),
        started(|t| t.states = 16, "0 yes settled 1"),
        started(|t| t.states = 17, "0 refused 3"),
    ]
}

fn letters() -> Vec<Side> {
    vec![
        started(|t| t.letters = 0, "0 refused 3"),
        started(|t| t.letters = 32, "0 yes settled 1"),
        started(|t| t.letters = 33, "0 refused 3"),
    ]
}

fn lines() -> Vec<Side> {
    let of = |e: usize| move |t: &mut TableDraft| t.lines = vec![t.lines[0].clone(); e];
    vec![
        started(of(0), "0 yes settled 1"),
        started(of(64), "0 yes settled 1"),
        started(of(65), "0 refused 3"),
    ]
}

fn the_last_state_and_the_last_letter_take_part() -> Vec<Side> {
    let table = TableDraft {
        states: 16,
        letters: 32,
        initial: 0x4000,
        accepting: 0x8000,
        lines: vec![line(14, 31, 15, KEEPS, 0, NONE)],
        ..plain()
    };
    let entries = vec![Letter(31), Letter(32)];
    let lines = ["0 no settled 1", "1 yes settled 1", "2 refused 9"];
    vec![session(64, table, entries, &lines)]
}

fn all_64_lines_take_part() -> Vec<Side> {
    // the last line alone leads to the accepting state
    let mut lines = vec![line(0, 0, 0, KEEPS, 0, NONE); 63];
    lines.push(line(0, 0, 1, KEEPS, 0, NONE));
    let table = TableDraft {
        states: 2,
        accepting: 2,
        lines,
        ..plain()
    };
    let lines = ["0 no settled 1", "1 yes settled 1"];
    vec![session(64, table, vec![Letter(0)], &lines)]
}

fn without_lines_the_horizon_is_0() -> Vec<Side> {
    let table = changed(plain(), |t| t.lines.clear());
    let entries = vec![Span(1), Letter(0)];
    let lines = ["0 yes settled 1", "1 yes settled 0", "2 no settled 0"];
    vec![session(64, table, entries, &lines)]
}

fn a_year_is_a_horizon() -> Vec<Side> {
    // at age 31,622,400 the line still holds, one second later it does not
    let table = TableDraft {
        lines: vec![line(0, 0, 0, KEEPS, 31_622_400, 31_622_400)],
        ..plain()
    };
    let after = |seconds, lines: [&str; 2]| {
        let entries = vec![Span(seconds), Letter(0)];
        let lines = ["0 yes settled 1", lines[0], lines[1]];
        session(64, table.clone(), entries, &lines)
    };
    vec![
        after(31_622_399, ["1 yes settled 1", "2 no settled 0"]),
        after(31_622_400, ["1 yes settled 1", "2 yes settled 1"]),
        after(31_622_401, ["1 yes settled 0", "2 no settled 0"]),
    ]
}

fn stated_length() -> Vec<Side> {
    vec![
        started(|t| t.length = Some(24), "0 yes settled 1"),
        started(|t| t.length = Some(23), "0 refused 4"),
        started(|t| t.length = Some(25), "0 refused 4"),
        started(|t| t.length = Some(12), "0 refused 4"),
        started(|t| t.length = Some(11), "0 refused 1"),
        started(|t| t.length = Some(0), "0 refused 1"),
        started(|t| t.length = Some(65_535), "0 refused 4"),
    ]
}

fn masks() -> Vec<Side> {
    let two = || changed(plain(), |t| t.states = 2);
    let empty = |t: &mut TableDraft| (t.initial, t.standing, t.accepting) = (0, 0, 0);
    vec![
        start(changed(two(), |t| t.initial = 3), "0 yes settled 1"),
        start(changed(two(), |t| t.initial = 4), "0 refused 5"),
        start(changed(two(), |t| t.standing = 4), "0 refused 5"),
        start(changed(two(), |t| t.accepting = 4), "0 refused 5"),
        start(changed(two(), |t| t.initial = 0x8000), "0 refused 5"),
        start(changed(two(), empty), "0 no settled 0"),
    ]
}

fn parts_of_a_line() -> Vec<Side> {
    vec![
        started(|t| t.lines[0].from = 1, "0 refused 6"),
        started(|t| t.lines[0].to = 1, "0 refused 6"),
        started(|t| t.lines[0].letter = 1, "0 refused 6"),
        started(|t| t.lines[0].flags = 1, "0 yes settled 1"),
        started(|t| t.lines[0].flags = 2, "0 refused 6"),
    ]
}

fn ages_of_a_line() -> Vec<Side> {
    let of = |least, greatest, said| {
        let change =
            |t: &mut TableDraft| (t.lines[0].least, t.lines[0].greatest) = (least, greatest);
        started(change, said)
    };
    vec![
        of(31_622_400, 31_622_400, "0 yes settled 1"),
        of(31_622_400, NONE, "0 yes settled 1"),
        of(31_622_401, NONE, "0 refused 7"),
        of(0, 31_622_401, "0 refused 7"),
        of(0, NONE - 1, "0 refused 7"),
        of(7, 7, "0 yes settled 1"),
        of(7, 6, "0 refused 7"),
        of(NONE, NONE, "0 refused 7"),
    ]
}

fn the_first_bad_line_decides() -> Vec<Side> {
    let of = |first: (u8, u32), second: (u8, u32), said| {
        let lines = [first, second].map(|(from, least)| line(from, 0, 0, KEEPS, least, NONE));
        started(|t| t.lines = lines.to_vec(), said)
    };
    let late = 31_622_401;
    vec![
        of((0, 0), (1, 0), "0 refused 6"),
        of((1, late), (0, 0), "0 refused 6"),
        of((0, late), (1, 0), "0 refused 7"),
        of((1, 0), (0, late), "0 refused 6"),
    ]
}

fn an_11_byte_table_is_1_whatever_its_version() -> Vec<Side> {
    let table = |version| [1, 64, version, 0, 11, 1, 1, 0, 1, 0, 0, 0, 1];
    // with entries behind it, too
    let and_a_letter = |version| [&table(version)[..], &[2, 1, 0]].concat();
    vec![
        bytes(&table(1), &["0 refused 1"]),
        bytes(&table(2), &["0 refused 1"]),
        bytes(&and_a_letter(1), &["0 refused 1"]),
        bytes(&and_a_letter(2), &["0 refused 1"]),
        started(|t| t.version = 2, "0 refused 2"),
        started(|t| t.version = 0, "0 refused 2"),
    ]
}

// ---- the room

fn rooms() -> Vec<Side> {
    let of = |room, said| session(room, plain(), vec![], &[said]);
    // the table is looked at before the room
    let no_letters = changed(plain(), |t| t.letters = 0);
    vec![
        of(0, "0 refused 8"),
        of(1, "0 yes settled 1"),
        of(64, "0 yes settled 1"),
        of(65, "0 refused 8"),
        session(0, no_letters, vec![], &["0 refused 3"]),
    ]
}

fn the_worked_session_in_room_1() -> Vec<Side> {
    let lines = [
        "0 no settled 1",
        "1 yes settled 1",
        "2 yes settled 1",
        "3 refused 11",
        "4 yes settled 0",
        "5 no settled 1",
        "6 unsure open 1",
        "7 refused 11",
        "8 unsure open 1",
        "9 unsure open 1",
        "10 refused 10",
        "11 refused 9",
    ];
    vec![session(1, board(), board_entries(), &lines)]
}

/// One state, which stands, and which letter 0 keeps up to age 3.
fn standing_to_3() -> TableDraft {
    TableDraft {
        standing: 1,
        lines: vec![line(0, 0, 0, KEEPS, 0, 3)],
        ..plain()
    }
}

fn age_0_joins_age_1_before_the_count() -> Vec<Side> {
    // ages 0 and 1 come to hold state 0 from different sides: one stretch, so that room 1 is enough
    let after = |seconds, said| {
        let entries = vec![Span(seconds), Letter(0)];
        let lines = ["0 yes settled 1", "1 yes settled 1", said];
        session(1, standing_to_3(), entries, &lines)
    };
    vec![after(1, "2 yes settled 1"), after(2, "2 refused 11")]
}

fn a_stretch_ends_where_the_sure_set_changes() -> Vec<Side> {
    // after the gap state 0 may have any age from 0 to 3, and is sure to have age 0
    let of = |room, said| {
        let lines = ["0 yes settled 1", "1 unsure open 1", said];
        session(room, standing_to_3(), vec![Gap, Letter(0)], &lines)
    };
    vec![of(2, "2 yes open 2"), of(1, "2 refused 11")]
}

// ---- letters, spans and gaps

fn spans_and_letters() -> Vec<Side> {
    let of = |symbol, said| session(64, plain(), vec![symbol], &["0 yes settled 1", said]);
    vec![
        of(Span(0), "1 refused 10"),
        of(Span(1), "1 yes settled 0"),
        of(Span(2_147_483_647), "1 yes settled 0"),
        of(Span(2_147_483_648), "1 refused 10"),
        of(Letter(0), "1 yes settled 1"),
        of(Letter(1), "1 refused 9"),
    ]
}

fn a_gap_after_a_gap_changes_nothing() -> Vec<Side> {
    let then = [Letter(1), Span(2), Letter(0)];
    let once = [
        "0 no settled 1",
        "1 unsure open 1",
        "2 unsure open 2",
        "3 unsure open 2",
        "4 yes settled 1",
    ];
    let twice = [
        "0 no settled 1",
        "1 unsure open 1",
        "2 unsure open 1",
        "3 unsure open 2",
        "4 unsure open 2",
        "5 yes settled 1",
    ];
    vec![
        session(4, board(), [&[Gap], &then[..]].concat(), &once),
        session(4, board(), [&[Gap, Gap], &then[..]].concat(), &twice),
    ]
}

fn no_span_between_two_letters_they_act_at_the_same_age() -> Vec<Side> {
    // each line holds at age 3 alone
    let table = TableDraft {
        states: 3,
        letters: 2,
        accepting: 4,
        lines: vec![line(0, 0, 1, KEEPS, 3, 3), line(1, 1, 2, KEEPS, 3, 3)],
        ..plain()
    };
    let lines = [
        "0 no settled 1",
        "1 no settled 1",
        "2 no settled 1",
        "3 yes settled 1",
    ];
    vec![session(
        64,
        table,
        vec![Span(3), Letter(0), Letter(1)],
        &lines,
    )]
}

fn no_span_between_two_letters_age_0_is_held_already() -> Vec<Side> {
    // the second letter acts at age 0, where state 1 stands already
    let table = TableDraft {
        states: 2,
        standing: 2,
        accepting: 2,
        lines: vec![line(0, 0, 1, RESETS, 0, 0), line(1, 0, 1, KEEPS, 0, 0)],
        ..plain()
    };
    let entries = vec![Letter(0), Letter(0), Span(1), Letter(0)];
    let lines = [
        "0 no settled 1",
        "1 yes settled 1",
        "2 yes settled 1",
        "3 yes settled 0",
        "4 yes settled 1",
    ];
    vec![session(1, table, entries, &lines)]
}

fn nothing_accepts_even_after_a_gap() -> Vec<Side> {
    let table = changed(plain(), |t| t.accepting = 0);
    let lines = ["0 no settled 1", "1 no open 1", "2 no open 1"];
    vec![session(64, table, vec![Gap, Letter(0)], &lines)]
}

fn settled_looks_above_the_horizon() -> Vec<Side> {
    // state 0 lives on above H after the gap, in the possible set alone
    let table = TableDraft {
        accepting: 0,
        lines: vec![line(0, 0, 0, KEEPS, 1, NONE)],
        ..plain()
    };
    let lines = [
        "0 no settled 1",
        "1 no open 1",
        "2 no open 0",
        "3 no open 0",
    ];
    vec![session(64, table, vec![Gap, Span(9), Letter(0)], &lines)]
}

fn a_letter_that_no_line_bears_is_accepted() -> Vec<Side> {
    let table = changed(plain(), |t| t.letters = 2);
    let standing = changed(table.clone(), |t| t.standing = 1);
    let gone = ["0 yes settled 1", "1 no settled 0", "2 no settled 0"];
    let joined = ["0 yes settled 1", "1 yes settled 0", "2 yes settled 1"];
    vec![
        session(64, table, vec![Letter(1), Letter(0)], &gone),
        session(64, standing, vec![Span(7), Letter(1)], &joined),
    ]
}

// ---- the frame

fn the_frame_comes_first() -> Vec<Side> {
    let mut draft = Draft::new(64, plain(), vec![Letter(0)]);
    draft.version = 2;
    vec![
        bytes(&[], &["0 refused 12"]),
        bytes(&[1], &["0 refused 12"]),
        bytes(&[2, 0], &["0 refused 12"]),
        // a frame without a table
        bytes(&[1, 64], &["0 refused 1"]),
        bytes(&[1, 0], &["0 refused 1"]),
        bytes(&[1, 64, 1, 0], &["0 refused 1"]),
        bytes(&draft.bytes(), &["0 refused 12"]),
    ]
}

/// A session of this size, of gaps and, where the size is odd, a length byte of 1 alone behind them.
fn of_gaps(size: usize) -> Vec<u8> {
    let mut draft = Draft::new(64, plain(), vec![Gap; (size - 26) / 2]);
    draft.tail = vec![1; (size - 26) % 2];
    draft.bytes()
}

fn the_longest_session() -> Vec<Side> {
    let gaps = |count: usize| -> String {
        let gap = |ordinal| format!("{ordinal} unsure open 1\n");
        "0 yes settled 1\n".to_string() + &(1..=count).map(gap).collect::<String>()
    };
    vec![
        (of_gaps(32_768), gaps(16_371)),
        (of_gaps(32_767), gaps(16_370) + "16371 refused 12\n"),
        bytes(&of_gaps(32_769), &["0 refused 12"]),
        bytes(&of_gaps(32_770), &["0 refused 12"]),
    ]
}

fn a_table_that_the_input_cuts_off() -> Vec<Side> {
    let whole = Draft::new(64, plain(), vec![]).bytes();
    let cut = |at: usize| match at {
        0..=13 => bytes(&whole[..at], &["0 refused 1"]),
        14..=25 => bytes(&whole[..at], &["0 refused 4"]),
        _ => bytes(&whole, &["0 yes settled 1"]),
    };
    (2..=26).map(cut).collect()
}

// ---- entries

/// A refused letter, then these bytes, of which the second entry cannot be read.
fn broken(tail: &[u8]) -> Side {
    let mut draft = Draft::new(64, plain(), vec![Letter(1)]);
    draft.tail = tail.to_vec();
    bytes(
        &draft.bytes(),
        &["0 yes settled 1", "1 refused 9", "2 refused 12"],
    )
}

fn entries_cut_short() -> Vec<Side> {
    let cut: [&[u8]; 7] = [&[0], &[1], &[2], &[2, 1], &[5], &[5, 2], &[5, 2, 0, 0, 0]];
    cut.into_iter().map(broken).collect()
}

fn entries_of_no_kind_or_of_another_length() -> Vec<Side> {
    let unreadable: [&[u8]; 10] = [
        &[0],
        &[1, 1, 0],
        &[3, 1, 0],
        &[2, 3, 0],
        &[4, 2, 0, 0, 1],
        &[6, 2, 0, 0, 0, 1, 0],
        &[1, 0],
        &[1, 4],
        &[2, 4, 0],
        &[255, 1, 0],
    ];
    // nothing behind it is read
    let with_gap = |tail: &[u8]| broken(&[tail, &[1, 3]].concat());
    unreadable.into_iter().map(with_gap).collect()
}

fn a_refused_entry_uses_its_ordinal_and_leaves_the_stream() -> Vec<Side> {
    let entries = vec![Letter(1), Span(0), Letter(0), Span(1)];
    let lines = [
        "0 yes settled 1",
        "1 refused 9",
        "2 refused 10",
        "3 yes settled 1",
        "4 yes settled 0",
    ];
    vec![session(64, plain(), entries, &lines)]
}
