//! The library's calls, each from the record and the table that it is handed, wherever these come from.
//!
//! A record is taken as the two sets of configurations that it stands for, these are stepped as in a session, and the
//! record that is handed back is read off them.

use crate::record::{proper, Pair, Place, Record};
use crate::session::Symbol;
use crate::table::{States, Table};
use crate::watch::{Answer, Configurations, Row, Watch};

/// The number, and the record that is handed back: all zeros where the start is refused.
pub fn start<S: Configurations>(room: u8, table: &[u8]) -> (u8, Record) {
    match Watch::<S>::start(table, room) {
        Ok(watch) => (0, watch.record()),
        Err(number) => (number, Record::empty(0)),
    }
}

/// The number, and the record that is handed back: the one handed in where the symbol is refused.
pub fn step<S: Configurations>(record: &Record, symbol: Symbol, table: &[u8]) -> (u8, Record) {
    let mut watch = match Watch::<S>::of(record, table) {
        Ok(watch) => watch,
        Err(number) => return (number, record.clone()),
    };
    match watch.take(symbol) {
        Ok(()) => (0, watch.record()),
        Err(number) => (number, record.clone()),
    }
}

/// What the three plain questions come to.
pub fn ask<S: Configurations>(record: &Record, table: &[u8]) -> Answer {
    match Watch::<S>::of(record, table) {
        Ok(watch) => watch.answer(),
        Err(number) => Answer::Refused(number),
    }
}

/// How many stretches there are after a letter of the table, whatever the room.
pub fn needed<S: Configurations>(record: &Record, letter: u8, table: &[u8]) -> Result<usize, u8> {
    let watch = Watch::<S>::of(record, table)?;
    let (sure, possible) = watch.after_letter(letter);
    Ok(S::stretches(&sure, &possible, &watch.table).len())
}

impl<S: Configurations> Watch<S> {
    /// What a record and a table stand for, or the number that they are refused with.
    pub fn of(record: &Record, table: &[u8]) -> Result<Self, u8> {
        let table = Table::read(table)?;
        if !proper(record, &table) {
            return Err(8);
        }
        let set = |side| S::at_ages(&table, &rows(record, &table, side));
        Ok(Watch {
            room: usize::from(record.room),
            sure: set(|pair| pair.sure),
            possible: set(|pair| pair.possible),
            table,
        })
    }

    /// The record of the two sets. They have no more stretches than there is room for: only a letter could raise the
    /// count above it, and is refused then.
    pub fn record(&self) -> Record {
        let stretches = S::stretches(&self.sure, &self.possible, &self.table);
        let mut record = Record::empty(self.room as u8);
        record.count = stretches.len() as u8;
        record.places[..stretches.len()].copy_from_slice(&stretches);
        record.above = Pair {
            sure: self.sure.above(&self.table),
            possible: self.possible.above(&self.table),
        };
        record
    }
}

/// The states of one side of the record's pairs, with the ages that they are held at.
///
/// The document has one pair for all ages above H, so its states are taken at every one of these ages. A record does
/// not say at which of them a state is held, and nothing that it shows depends on it: a line admits all of them or
/// none, for no L and no finite U lies above H; a span leaves them above H, and a letter leaves them where they are or
/// brings them to age 0. Taken at age H + 1 alone they would come to the same records.
pub fn rows(record: &Record, table: &Table, side: fn(&Pair) -> States) -> Vec<Row> {
    let ages = |stretch: &Place| u64::from(stretch.first)..=u64::from(stretch.last);
    let mut rows: Vec<Row> = (record.stretches().iter())
        .map(|stretch| (side(&stretch.pair), ages(stretch)))
        .collect();
    rows.push((side(&record.above), table.horizon + 1..=u64::MAX));
    rows
}
