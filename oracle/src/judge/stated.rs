//! Records written down, and calls with what document 01 says of them.

use crate::generate::draft::{LineDraft, TableDraft};
use crate::judge::probe::handed;
use crate::judge::record_edges::{pair, table};
use crate::judge::sequence::Sequence;
use crate::judge::Case;
use crate::record::{Place, Record};
use crate::session::Symbol;

/// All 16 states.
pub const ALL: u16 = 0xFFFF;

pub fn stretch(first: u32, last: u32, sure: u16, possible: u16) -> Place {
    let pair = pair(sure, possible);
    Place { first, last, pair }
}

/// These stretches, and nothing above H.
pub fn record(room: u8, stretches: &[Place]) -> Record {
    let mut record = Record::empty(room);
    record.count = stretches.len() as u8;
    record.places[..stretches.len()].copy_from_slice(stretches);
    record
}

/// These lines over 16 states and one letter. Nothing is initial or standing, and state 0 accepts.
pub fn lines_of(lines: Vec<LineDraft>) -> TableDraft {
    TableDraft {
        lines,
        initial: 0,
        ..table(16, 0)
    }
}

/// A symbol that is taken and leads to this record, and then the questions.
pub fn taken(
    label: &str,
    from: &Record,
    symbol: Symbol,
    table: &TableDraft,
    to: &Record,
) -> Vec<Case> {
    let mut sequence = Sequence::of(from.clone(), table.bytes());
    sequence.take(symbol);
    sequence.state(label, &handed((0, to.clone())));
    sequence.ask_all();
    sequence.state(label, &[0, to.count]);
    sequence.cases
}

/// A symbol that is refused and leaves the record as it is, and then the questions.
pub fn refused(label: &str, from: &Record, symbol: Symbol, table: &[u8], number: u8) -> Vec<Case> {
    let mut sequence = Sequence::of(from.clone(), table.to_vec());
    sequence.take(symbol);
    sequence.state(label, &handed((number, from.clone())));
    sequence.ask_all();
    sequence.cases
}
