//! A sequence of calls, each handed the record that the one before it handed back.

use crate::judge::probe::{parted, Kind, QUESTIONS};
use crate::judge::Case;
use crate::record::Record;
use crate::session::Symbol;

/// Calls one after the other, and what the next one is handed.
pub struct Sequence {
    pub cases: Vec<Case>,
    pub record: Record,
    pub table: Vec<u8>,
}

impl Sequence {
    /// With a record, wherever it comes from.
    pub fn of(record: Record, table: Vec<u8>) -> Sequence {
        Sequence {
            cases: Vec::new(),
            record,
            table,
        }
    }

    /// With a start.
    pub fn start(room: u8, table: Vec<u8>) -> Sequence {
        let mut sequence = Sequence::of(Record::empty(0), table);
        let load = [&[room], &sequence.table[..]].concat();
        sequence.call(Kind::Start, load);
        sequence
    }

    pub fn take(&mut self, symbol: Symbol) {
        let (kind, symbol) = match symbol {
            Symbol::Letter(letter) => (Kind::Letter, vec![letter]),
            Symbol::Span(seconds) => (Kind::Span, seconds.to_be_bytes().to_vec()),
            Symbol::Gap => (Kind::Gap, Vec::new()),
        };
        let load = [self.record.bytes(), symbol, self.table.clone()].concat();
        self.call(kind, load);
    }

    pub fn ask(&mut self, kind: Kind) {
        let load = [self.record.bytes(), self.table.clone()].concat();
        self.call(kind, load);
    }

    pub fn ask_all(&mut self) {
        for kind in QUESTIONS {
            self.ask(kind);
        }
    }

    fn call(&mut self, kind: Kind, load: Vec<u8>) {
        let case = Case::plain(kind, kind.name(), load);
        if !QUESTIONS.contains(&kind) {
            self.record = parted(&case.answer[1..]).0;
        }
        self.cases.push(case);
    }

    /// Says something of the last call.
    pub fn state(&mut self, label: impl Into<String>, stated: &[u8]) {
        let case = self.cases.pop().expect("a call");
        self.cases.push(case.stated(label, stated));
    }
}
