//! Random tables, entries and sessions.

use crate::generate::draft::{
    entry_bytes, line, Draft, LineDraft, TableDraft, KEEPS, NONE, RESETS,
};
use crate::generate::random::Random;
use crate::session::{Symbol, LONGEST};
use crate::table::GREATEST;

pub const LONGEST_SPAN: u32 = 2_147_483_647;

/// How large the parts of a random table are.
pub struct Size {
    pub states: u8,
    pub letters: u8,
    pub lines: u64,
    /// No line names a greater age.
    pub top: u32,
}

fn below(random: &mut Random, n: u8) -> u8 {
    random.from(0, u64::from(n) - 1) as u8
}

fn upto(random: &mut Random, greatest: u32) -> u32 {
    random.from(0, u64::from(greatest)) as u32
}

fn bounds(random: &mut Random, top: u32) -> (u32, u32) {
    let (a, b) = (upto(random, top), upto(random, top));
    match random.from(0, 5) {
        0 => (0, NONE),
        1 => (a, NONE),
        2 => (a, a),
        3 => (0, a),
        _ => (a.min(b), a.max(b)),
    }
}

fn random_line(random: &mut Random, size: &Size) -> LineDraft {
    let (least, greatest) = bounds(random, size.top);
    line(
        below(random, size.states),
        below(random, size.letters),
        below(random, size.states),
        if random.one_in(3) { RESETS } else { KEEPS },
        least,
        greatest,
    )
}

pub fn random_table(random: &mut Random, size: &Size) -> TableDraft {
    TableDraft {
        version: 1,
        length: None,
        states: size.states,
        letters: size.letters,
        initial: random.states(size.states, 2),
        standing: random.states(size.states, 3),
        accepting: random.states(size.states, 2),
        lines: (0..size.lines).map(|_| random_line(random, size)).collect(),
    }
}

/// How a session's entries are drawn.
struct Habit {
    entries: u64,
    /// One entry in so many is a gap.
    gap: u64,
    /// Spans lie around this one.
    span: u32,
}

fn random_entry(random: &mut Random, letters: u8, habit: &Habit) -> Symbol {
    if random.one_in(habit.gap) {
        return Symbol::Gap;
    }
    match random.from(0, 19) {
        0 => Symbol::Letter(random.from(u64::from(letters), 255) as u8),
        1 => Symbol::Span(random.pick(&[0, LONGEST_SPAN + 1, u32::MAX])),
        2 => Symbol::Span(random.pick(&[LONGEST_SPAN, habit.span, habit.span + 1])),
        3..=7 => Symbol::Span(random.from(1, u64::from(habit.span)) as u32),
        8 => Symbol::Span(1),
        _ => Symbol::Letter(below(random, letters)),
    }
}

impl Draft {
    /// The draft with entries more, over its table's letters.
    fn going_on(mut self, random: &mut Random, habit: &Habit) -> Draft {
        for _ in 0..habit.entries {
            let symbol = random_entry(random, self.table.letters, habit);
            self.entries.push(symbol);
        }
        self
    }
}

fn random_room(random: &mut Random) -> u8 {
    match random.from(0, 3) {
        0 => random.from(1, 2) as u8,
        1 => random.from(1, 64) as u8,
        _ => 64,
    }
}

fn random_start(random: &mut Random, size: &Size) -> Draft {
    Draft::new(random_room(random), random_table(random, size), Vec::new())
}

/// Small horizons: all that can happen, happens soon.
pub fn small(random: &mut Random, _: usize) -> Draft {
    let size = Size {
        states: random.from(1, 4) as u8,
        letters: random.from(1, 3) as u8,
        lines: random.from(0, 8),
        top: random.from(0, 8) as u32,
    };
    let habit = Habit {
        entries: random.from(0, 60),
        gap: 25,
        span: size.top / 2 + 1,
    };
    random_start(random, &size).going_on(random, &habit)
}

/// Many gaps, some directly after another.
pub fn gaps(random: &mut Random, number: usize) -> Draft {
    let habit = Habit {
        entries: random.from(10, 50),
        gap: 5,
        span: random.from(1, 7) as u32,
    };
    small(random, number).going_on(random, &habit)
}

fn with_top(random: &mut Random, top: u32, entries: u64) -> Draft {
    let size = Size {
        states: random.from(1, 6) as u8,
        letters: random.from(1, 3) as u8,
        lines: random.from(1, 14),
        top,
    };
    let habit = Habit {
        entries,
        gap: 12,
        span: random.sized(1, u64::from(top)) as u32,
    };
    let mut draft = random_start(random, &size);
    // the horizon is as large as is meant
    draft.table.lines[0].least = 0;
    draft.table.lines[0].greatest = top;
    draft.going_on(random, &habit)
}

/// Horizons of 1,000 to 300,000 seconds.
pub fn wide(random: &mut Random, _: usize) -> Draft {
    let top = random.sized(1_000, 300_000) as u32;
    let entries = random.from(10, 40);
    with_top(random, top, entries)
}

/// Horizons up to a year and spans up to the longest.
pub fn year(random: &mut Random, number: usize) -> Draft {
    let top = match number % 2 {
        0 => GREATEST,
        _ => random.sized(300_000, GREATEST),
    };
    let entries = random.from(8, 24);
    let mut draft = with_top(random, top as u32, entries);
    draft.entries.push(Symbol::Span(LONGEST_SPAN));
    draft.entries.push(Symbol::Letter(0));
    draft
}

/// All states, letters and lines that a table can have. Every other session first fills all 64 stretches.
pub fn heavy(random: &mut Random, number: usize) -> Draft {
    let size = Size {
        states: 16,
        letters: random.from(1, 3) as u8,
        lines: 64,
        top: random.sized(40, 4_000) as u32,
    };
    let habit = Habit {
        entries: random.from(20, 60),
        gap: 20,
        span: random.sized(1, 1_000) as u32,
    };
    let start = match number % 2 {
        0 => random_start(random, &size),
        _ => crowded(random, 64, 16, 62),
    };
    let mut draft = start.going_on(random, &habit);
    let palette = random.pick(&[[31, 7, 19], [5, 31, 12], [0, 16, 31]]);
    spread_letters(&mut draft, palette);
    // of so many states some would nearly always accept
    draft.table.accepting = random.states(16, 8);
    draft
}

/// Letters 0, 1 and 2 of a draft become the three given, of 32 in all.
fn spread_letters(draft: &mut Draft, palette: [u8; 3]) {
    let spread = |letter: u8| palette.get(usize::from(letter)).copied().unwrap_or(letter);
    draft.table.letters = 32;
    for line in &mut draft.table.lines {
        line.letter = spread(line.letter);
    }
    for entry in &mut draft.entries {
        if let Symbol::Letter(letter) = entry {
            *letter = spread(*letter);
        }
    }
}

/// A table and entries that fill any room and pass it: letter 0 keeps all that is held and adds age 0, and spans of 2
/// keep the ages apart. The last entry is the letter that is one too many. The table has two lines more than `lines`.
pub fn crowded(random: &mut Random, room: u8, states: u8, lines: u64) -> Draft {
    let size = Size {
        states,
        letters: 3,
        lines,
        top: 2 * u32::from(room) + 2,
    };
    let mut table = random_table(random, &size);
    for line in &mut table.lines {
        // letter 0 is as said, letter 2 has no line at all
        line.letter = 1;
    }
    let top = size.top + random.from(0, 50) as u32;
    table.lines.push(line(0, 0, 0, KEEPS, 0, NONE));
    table.lines.push(line(1, 0, 1, KEEPS, 0, top));
    table.initial &= !1;
    table.standing |= 1;
    let mut entries = vec![Symbol::Letter(2)];
    for _ in 0..room {
        entries.extend([Symbol::Span(2), Symbol::Letter(0)]);
    }
    Draft::new(room, table, entries)
}

/// A small table that is crowded so.
pub fn crowded_small(random: &mut Random, room: u8) -> Draft {
    let (states, lines) = (random.from(2, 4) as u8, random.from(0, 6));
    crowded(random, room, states, lines)
}

/// Each room in turn driven into 11 and out again: by a letter at which all dies, or by waiting.
pub fn rooms(random: &mut Random, number: usize) -> Draft {
    let room = (number % 64) as u8 + 1;
    let mut draft = crowded_small(random, room);
    for _ in 0..random.from(1, 3) {
        let habit = Habit {
            entries: random.from(0, 6),
            gap: 8,
            span: 3,
        };
        draft = draft.going_on(random, &habit);
        let waits = Symbol::Span(random.from(200, 4_000) as u32);
        draft.entries.push(random.pick(&[Symbol::Letter(2), waits]));
        draft.entries.push(Symbol::Letter(0));
    }
    draft
}

/// Entries that fill a session to a size.
pub fn long(random: &mut Random, number: usize) -> Draft {
    let size = match number % 6 {
        0 => LONGEST,
        1 => LONGEST + 1,
        2 => LONGEST - 1,
        _ => random.from(2_000, 40_000) as usize,
    };
    let habit = Habit {
        entries: 1,
        gap: 40,
        span: 3,
    };
    let mut draft = small(random, number);
    let mut filled = draft.bytes().len();
    while filled + 1 < size {
        // letters have three bytes and gaps two: any rest from 2 on can be filled
        let symbol = match size - filled {
            2 | 4 | 6 | 8 => Symbol::Gap,
            3 | 5 | 7 => Symbol::Letter(0),
            _ => random_entry(random, draft.table.letters, &habit),
        };
        filled += entry_bytes(symbol).len();
        draft.entries.push(symbol);
    }
    draft
}

fn any_session(random: &mut Random) -> Draft {
    match random.from(0, 2) {
        0 => small(random, 0),
        1 => gaps(random, 0),
        _ => rooms(random, 3),
    }
}

/// A session with one to three bytes changed, lost or added.
pub fn damaged(random: &mut Random, _: usize) -> Vec<u8> {
    let mut bytes = any_session(random).bytes();
    for _ in 0..random.from(1, 3) {
        let last = bytes.len() as u64 - 1;
        let at = match random.from(0, 2) {
            0 => random.from(0, last.min(13)),
            1 => random.from(0, last.min(60)),
            _ => random.from(0, last),
        } as usize;
        let byte = random.from(0, 255) as u8;
        match random.from(0, 5) {
            0 => drop(bytes.remove(at)),
            1 => bytes.insert(at, byte),
            2 => bytes[at] = byte,
            3 => bytes[at] ^= 1 << random.from(0, 7),
            4 => bytes[at] = bytes[at].wrapping_add(1),
            _ => bytes[at] = bytes[at].wrapping_sub(1),
        }
    }
    bytes
}

/// A session that breaks off: every fourth in its frame or its table's head, the others anywhere behind.
pub fn cut(random: &mut Random, number: usize) -> Vec<u8> {
    let mut draft = any_session(random);
    let whole = draft.bytes().len() as u64;
    draft.cut = Some(match number % 4 {
        0 => random.from(0, whole.min(26)),
        _ => random.from(14.min(whole), whole),
    } as usize);
    draft.bytes()
}
