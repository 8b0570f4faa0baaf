//! The sessions themselves.

use crate::make::Entry::{Gap, Letter, Span};
use crate::make::{Entry, Line, Session, Table, KEEPS, RESETS, UNBOUNDED};

const DAY: u32 = 86_400;
const YEAR: u32 = 366 * DAY;

/// The numbers of lines, and of stretches, by which growth is shown.
const STEPS: [usize; 7] = [1, 2, 4, 8, 16, 32, 64];

pub fn all() -> Vec<Session> {
    let mut all = vec![board(), heavy(), spans(), gaps()];
    all.extend(STEPS.map(by_lines));
    all.extend(STEPS.map(by_stretches));
    all
}

/// The table of examples/board.hex. Nine times the board is refreshed and looked at twice, at ages on both sides of 5;
/// then the link drops part of the stream, there are a look, two seconds and a refresh, and one entry is refused: a
/// span of 0, or, in the second half of the mix, a letter that there is not. Of a hundred entries two are gaps and two
/// are refused.
fn board() -> Session {
    const REFRESHED: Entry = Letter(0);
    const LOOK: Entry = Letter(1);
    let mut mix = Vec::new();
    for refused in [Span(0), Letter(2)] {
        let waits = [
            (5, 1),
            (1, 2),
            (2, 3),
            (3, 1),
            (1, 7),
            (4, 1),
            (2, 2),
            (6, 1),
            (1, 1),
        ];
        for (first, second) in waits {
            mix.extend([REFRESHED, Span(first), LOOK, Span(second), LOOK]);
        }
        mix.extend([Gap, LOOK, Span(2), REFRESHED, refused]);
    }
    Session {
        name: "board".to_string(),
        room: 4,
        table: Table {
            states: 2,
            letters: 2,
            initial: 0b01,
            standing: 0b01,
            accepting: 0b10,
            lines: vec![(0, 0, 1, RESETS, 0, UNBOUNDED), (1, 1, 1, KEEPS, 0, 5)],
        },
        lead: Vec::new(),
        mix,
        short: 200,
        long: 2_200,
        held: 0..=2,
        open: 0,
    }
}

/// All at once: 16 states, 64 lines of one letter with bounds of their own, and 64 stretches, of one age each, two
/// seconds apart. State 15 is possible since the gap and never sure, so that the two sets differ at every age.
fn heavy() -> Session {
    // all ages up to 127 are kept; 128 is held before a letter and not behind it
    let mut lines: Vec<Line> = vec![
        (0, 0, 0, KEEPS, 0, 127),
        (15, 0, 15, KEEPS, 0, 127),
        (15, 0, 15, RESETS, 0, UNBOUNDED),
        (15, 0, 7, KEEPS, 16, 112),
    ];
    for i in 0..15u8 {
        let step = u32::from(i);
        lines.push((i, 0, (i + 1) % 15, KEEPS, 8 * step, 127));
        lines.push((i, 0, (i + 4) % 15, KEEPS, 3 * step, 3 * step + 64));
        lines.push((i, 0, (i + 7) % 15, KEEPS, 0, 20 + 7 * step));
        lines.push((i, 0, (i + 2) % 15, RESETS, 5 * step, 130 + step));
    }
    let mix = vec![Letter(0), Span(2)];
    let mut lead = vec![Gap, Span(200)];
    lead.extend(mix.iter().cycle().take(2 * 64));
    Session {
        name: "heavy".to_string(),
        room: 64,
        table: Table {
            states: 16,
            letters: 1,
            initial: 1,
            standing: 1,
            accepting: 1 << 14,
            lines,
        },
        lead,
        mix,
        short: 20,
        long: 120,
        held: 64..=64,
        open: 100,
    }
}

/// Three of four entries are spans, of seconds to months, with a horizon of a year: the oldest stretches pass it one
/// by one, and all of them once in a while.
fn spans() -> Session {
    const READING: Entry = Letter(0);
    const SERVICE: Entry = Letter(1);
    let mut mix = Vec::new();
    for days in [3, 11, 1, 30, 7, 19, 2, 14] {
        mix.extend([READING, Span(days * DAY), Span(3_600), Span(5 * DAY + 1)]);
        mix.extend([SERVICE, Span(60), Span(DAY), Span(days * 7_200)]);
    }
    let mut rare = mix.repeat(3);
    rare.extend([READING, Span(10 * DAY), Span(2 * YEAR), Span(1)]);
    Session {
        name: "spans".to_string(),
        room: 64,
        table: Table {
            states: 4,
            letters: 2,
            initial: 0b0001,
            standing: 0b0001,
            accepting: 0b0100,
            lines: vec![
                (0, 0, 0, KEEPS, 0, UNBOUNDED),
                (0, 1, 0, KEEPS, 0, YEAR),
                (0, 1, 1, KEEPS, 30 * DAY, 90 * DAY),
                (1, 0, 1, KEEPS, 0, YEAR),
                (1, 1, 2, KEEPS, 60 * DAY, UNBOUNDED),
                (2, 0, 2, KEEPS, 0, YEAR),
                (2, 1, 3, RESETS, 180 * DAY, UNBOUNDED),
                (3, 0, 3, KEEPS, 0, 7 * DAY),
            ],
        },
        lead: Vec::new(),
        mix: rare,
        short: 196,
        long: 980,
        held: 0..=42,
        open: 0,
    }
}

/// A link that drops part of the stream at every sixth entry: nearly nothing is sure, and each letter behind a gap
/// cuts all ages into pieces.
fn gaps() -> Session {
    let mut mix = Vec::new();
    for (first, second) in [(2, 7), (11, 1), (5, 5), (1, 30)] {
        mix.extend([
            Gap,
            Letter(0),
            Span(first),
            Letter(1),
            Span(second),
            Letter(2),
        ]);
        mix.extend([
            Gap,
            Letter(1),
            Letter(0),
            Span(second),
            Letter(2),
            Span(first),
        ]);
    }
    Session {
        name: "gaps".to_string(),
        room: 32,
        table: Table {
            states: 6,
            letters: 3,
            initial: 0b000001,
            standing: 0b000001,
            accepting: 0b100100,
            lines: vec![
                (0, 0, 1, RESETS, 0, UNBOUNDED),
                (1, 0, 2, KEEPS, 5, 20),
                (2, 0, 2, KEEPS, 0, 40),
                (5, 0, 4, KEEPS, 10, UNBOUNDED),
                (1, 1, 3, KEEPS, 0, 15),
                (2, 1, 5, KEEPS, 8, 30),
                (3, 1, 3, KEEPS, 25, UNBOUNDED),
                (4, 1, 1, RESETS, 35, 60),
                (1, 2, 1, KEEPS, 0, 50),
                (3, 2, 5, KEEPS, 3, 12),
                (4, 2, 4, KEEPS, 18, UNBOUNDED),
                (5, 2, 0, RESETS, 45, 45),
            ],
        },
        lead: Vec::new(),
        mix,
        short: 96,
        long: 960,
        held: 1..=6,
        open: 90,
    }
}

/// A letter and so many seconds, over and over, until there are so many stretches of one age each; and a letter.
fn rising(stretches: usize, apart: u32) -> Vec<Entry> {
    let more = [Letter(0), Span(apart)].repeat(stretches - 1);
    more.into_iter().chain([Letter(0)]).collect()
}

/// Only letters, each at the same ages.
fn letters_only(name: String, lines: Vec<Line>, lead: Vec<Entry>, stretches: usize) -> Session {
    Session {
        name,
        room: 64,
        table: Table {
            states: 16,
            letters: 1,
            initial: 1,
            standing: 1,
            accepting: 2,
            lines,
        },
        lead,
        mix: vec![Letter(0)],
        short: 50,
        long: 250,
        held: stretches..=stretches,
        open: 0,
    }
}

/// Letters alone, over 4 stretches of one age each, ten seconds apart. All lines bear the letter; each after the first
/// has bounds of its own, so that the pieces of ages grow with the lines.
fn by_lines(lines: usize) -> Session {
    let line = |i: usize| -> Line {
        let (small, least) = (i as u8, 7 * i as u32 % 31);
        let flags = if i % 2 == 0 { KEEPS } else { RESETS };
        match i {
            0 => (0, 0, 0, KEEPS, 0, 40),
            _ => (
                5 * small % 16,
                0,
                (3 * small + 1) % 16,
                flags,
                least,
                least + 9,
            ),
        }
    };
    let name = format!("lines-{lines}");
    letters_only(name, (0..lines).map(line).collect(), rising(4, 10), 4)
}

/// Letters alone, over so many stretches of one age each, two seconds apart; 4 lines, whose bounds lie among them.
fn by_stretches(stretches: usize) -> Session {
    let lines = vec![
        (0, 0, 0, KEEPS, 0, 200),
        (0, 0, 1, KEEPS, 20, 120),
        (1, 0, 0, KEEPS, 0, 60),
        (0, 0, 1, RESETS, 100, 200),
    ];
    let name = format!("stretches-{stretches}");
    letters_only(name, lines, rising(stretches, 2), stretches)
}
