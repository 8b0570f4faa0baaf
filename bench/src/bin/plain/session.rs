//! A session: its frame, its start, and its entries one by one.

use crate::lines::Lines;
use crate::record::Record;
use crate::table::Table;

/// The longest session, in bytes.
pub const LONGEST: usize = 32_768;
/// The longest span, in seconds.
const LONGEST_SPAN: u32 = 2_147_483_647;

enum Symbol {
    Letter(u8),
    Span(u32),
    Gap,
}

/// The room, the table's bytes and the entries, or nothing where the size or the version is wrong.
fn framed(input: &[u8]) -> Option<(u8, &[u8], &[u8])> {
    if input.len() > LONGEST {
        return None;
    }
    let (room, rest) = match input {
        [1, room, rest @ ..] => (*room, rest),
        _ => return None,
    };
    let stated = match rest {
        [_, high, low, ..] => usize::from(u16::from_be_bytes([*high, *low])),
        _ => rest.len(),
    };
    let (table, entries) = rest.split_at(stated.min(rest.len()));
    Some((room, table, entries))
}

/// The entry in front and what follows it, or nothing where it cannot be read.
fn first(entries: &[u8]) -> Option<(Symbol, &[u8])> {
    match entries {
        [2, 1, letter, rest @ ..] => Some((Symbol::Letter(*letter), rest)),
        [5, 2, a, b, c, d, rest @ ..] => {
            Some((Symbol::Span(u32::from_be_bytes([*a, *b, *c, *d])), rest))
        }
        [1, 3, rest @ ..] => Some((Symbol::Gap, rest)),
        _ => None,
    }
}

/// The record, and a second one that a letter writes into: it may turn out not to fit, and then the first stays.
struct Watch {
    table: Table,
    room: usize,
    now: Box<Record>,
    next: Box<Record>,
}

impl Watch {
    fn start(table: &[u8], room: u8) -> Result<Watch, u8> {
        let table = Table::read(table)?;
        if !(1..=64).contains(&room) {
            return Err(8);
        }
        let mut now = Box::new(Record::empty());
        now.start(&table);
        Ok(Watch {
            table,
            room: usize::from(room),
            now,
            next: Box::new(Record::empty()),
        })
    }

    fn take(&mut self, symbol: Symbol) -> Result<(), u8> {
        match symbol {
            Symbol::Letter(letter) => {
                let rows = self.table.letters.get(usize::from(letter)).ok_or(9)?;
                let standing = self.table.standing;
                if !(self.now).letter(rows, standing, self.room, &mut self.next) {
                    return Err(11);
                }
                std::mem::swap(&mut self.now, &mut self.next);
            }
            Symbol::Span(seconds) => {
                if !(1..=LONGEST_SPAN).contains(&seconds) {
                    return Err(10);
                }
                self.now.span(&self.table, seconds);
            }
            Symbol::Gap => self.now.gap(&self.table),
        }
        Ok(())
    }

    fn put_line(&self, ordinal: u16, lines: &mut Lines) {
        let (verdict, settled) = self.now.said(&self.table);
        lines.stands(ordinal, verdict, settled, self.now.count());
    }
}

/// The session in `input`: a line for its start and for each entry.
pub fn run(input: &[u8], lines: &mut Lines) {
    let (room, table, mut entries) = match framed(input) {
        Some(parts) => parts,
        None => return lines.refused(0, 12),
    };
    let mut watch = match Watch::start(table, room) {
        Ok(watch) => watch,
        Err(number) => return lines.refused(0, number),
    };
    watch.put_line(0, lines);
    let mut ordinal = 0;
    while !entries.is_empty() {
        ordinal += 1;
        let (symbol, rest) = match first(entries) {
            Some(entry) => entry,
            None => return lines.refused(ordinal, 12),
        };
        match watch.take(symbol) {
            Ok(()) => watch.put_line(ordinal, lines),
            Err(number) => lines.refused(ordinal, number),
        }
        entries = rest;
    }
}
