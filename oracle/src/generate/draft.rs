//! Sessions before they are bytes: any numbers may stand in them, bad ones too.

use crate::session::Symbol;
use crate::table::UNBOUNDED;

#[derive(Clone, Debug)]
pub struct LineDraft {
    pub from: u8,
    pub letter: u8,
    pub to: u8,
    pub flags: u8,
    pub least: u32,
    pub greatest: u32,
}

/// No upper bound.
pub const NONE: u32 = UNBOUNDED as u32;
/// Flags of a line that keeps the clock, and of one that resets it.
pub const KEEPS: u8 = 0;
pub const RESETS: u8 = 1;

/// `from -letter-> to` with its flags, at ages `least` to `greatest`.
pub fn line(from: u8, letter: u8, to: u8, flags: u8, least: u32, greatest: u32) -> LineDraft {
    LineDraft {
        from,
        letter,
        to,
        flags,
        least,
        greatest,
    }
}

#[derive(Clone, Debug)]
pub struct TableDraft {
    pub version: u8,
    /// Stated in bytes 1-2; `None`: the right one.
    pub length: Option<u16>,
    pub states: u8,
    pub letters: u8,
    pub initial: u16,
    pub standing: u16,
    pub accepting: u16,
    pub lines: Vec<LineDraft>,
}

impl TableDraft {
    pub fn bytes(&self) -> Vec<u8> {
        let whole = 12 + 12 * self.lines.len() as u16;
        let mut bytes = vec![self.version];
        bytes.extend(self.length.unwrap_or(whole).to_be_bytes());
        bytes.extend([self.states, self.letters]);
        for mask in [self.initial, self.standing, self.accepting] {
            bytes.extend(mask.to_be_bytes());
        }
        bytes.push(self.lines.len() as u8);
        for line in &self.lines {
            bytes.extend([line.from, line.letter, line.to, line.flags]);
            bytes.extend(line.least.to_be_bytes());
            bytes.extend(line.greatest.to_be_bytes());
        }
        bytes
    }
}

pub fn entry_bytes(symbol: Symbol) -> Vec<u8> {
    match symbol {
        Symbol::Letter(letter) => vec![2, 1, letter],
        Symbol::Span(seconds) => {
            let mut bytes = vec![5, 2];
            bytes.extend(seconds.to_be_bytes());
            bytes
        }
        Symbol::Gap => vec![1, 3],
    }
}

#[derive(Clone, Debug)]
pub struct Draft {
    pub version: u8,
    pub room: u8,
    pub table: TableDraft,
    pub entries: Vec<Symbol>,
    /// Bytes after the entries, of any kind.
    pub tail: Vec<u8>,
    /// Where the session breaks off, in bytes; `None`: nowhere.
    pub cut: Option<usize>,
}

impl Draft {
    pub fn new(room: u8, table: TableDraft, entries: Vec<Symbol>) -> Draft {
        Draft {
            version: 1,
            room,
            table,
            entries,
            tail: Vec::new(),
            cut: None,
        }
    }

    pub fn bytes(&self) -> Vec<u8> {
        let mut bytes = vec![self.version, self.room];
        bytes.extend(self.table.bytes());
        bytes.extend(self.entries.iter().flat_map(|&symbol| entry_bytes(symbol)));
        bytes.extend(&self.tail);
        bytes.truncate(self.cut.unwrap_or(bytes.len()));
        bytes
    }
}

/// The table of the worked session: 0 refreshed, 1 look; state 0 waiting, state 1 fresh.
pub fn board() -> TableDraft {
    TableDraft {
        version: 1,
        length: None,
        states: 2,
        letters: 2,
        initial: 1,
        standing: 1,
        accepting: 2,
        lines: vec![line(0, 0, 1, RESETS, 0, NONE), line(1, 1, 1, KEEPS, 0, 5)],
    }
}

/// The entries of the worked session.
pub fn board_entries() -> Vec<Symbol> {
    use Symbol::{Gap, Letter, Span};
    vec![
        Letter(0),
        Span(5),
        Letter(1),
        Span(1),
        Letter(1),
        Gap,
        Letter(1),
        Span(2),
        Letter(0),
        Span(0),
        Letter(2),
    ]
}

/// One state, initial and accepting, which letter 0 keeps at any age.
pub fn plain() -> TableDraft {
    TableDraft {
        version: 1,
        length: None,
        states: 1,
        letters: 1,
        initial: 1,
        standing: 0,
        accepting: 1,
        lines: vec![line(0, 0, 0, KEEPS, 0, NONE)],
    }
}
