//! The session: its frame, its table's bytes and its entries.

use crate::table::big_endian;

/// The longest session, in bytes.
pub const LONGEST: usize = 32_768;

#[derive(Clone, Copy, Debug, PartialEq, Eq)]
pub enum Symbol {
    Letter(u8),
    Span(u32),
    Gap,
}

/// A session whose frame is right: nothing is known yet of the room, the table or the entries.
pub struct Framed<'a> {
    pub room: u8,
    pub table: &'a [u8],
    pub entries: &'a [u8],
}

/// The parts of a session, or nothing where its size or its version byte is wrong.
pub fn framed(input: &[u8]) -> Option<Framed<'_>> {
    if input.len() > LONGEST {
        return None;
    }
    let (room, rest) = match input {
        [1, room, rest @ ..] => (*room, rest),
        _ => return None,
    };
    let stated = match rest {
        [_, high, low, ..] => big_endian(&[*high, *low]) as usize,
        _ => rest.len(),
    };
    let (table, entries) = rest.split_at(stated.min(rest.len()));
    Some(Framed {
        room,
        table,
        entries,
    })
}

/// The entry in front and what follows it, or nothing where it cannot be read: it is cut short, its kind is unknown,
/// or its length is not its kind's.
pub fn first(entries: &[u8]) -> Option<(Symbol, &[u8])> {
    match entries {
        [2, 1, letter, rest @ ..] => Some((Symbol::Letter(*letter), rest)),
        [5, 2, a, b, c, d, rest @ ..] => {
            Some((Symbol::Span(u32::from_be_bytes([*a, *b, *c, *d])), rest))
        }
        [1, 3, rest @ ..] => Some((Symbol::Gap, rest)),
        _ => None,
    }
}
