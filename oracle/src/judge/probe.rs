//! The cases and their answers as bytes: what a program that is judged reads and writes.
//!
//! A case is a kind, a length (4 bytes) and its load:
//!
//! | kind | load | answer |
//! |---|---|---|
//! | 1 table | table | number, horizon (4 bytes, 0 if it is refused) |
//! | 2 record | record, table | number |
//! | 3 start | room, table | number, record |
//! | 4 letter | record, letter, table | number, record |
//! | 5 span | record, seconds (4 bytes), table | number, record |
//! | 6 gap | record, table | number, record |
//! | 7 verdict | record, table | number, 1 yes, 2 no or 3 unsure |
//! | 8 settled | record, table | number, 1 settled or 0 open |
//! | 9 count | record, table | number, count |
//!
//! A question that is refused has 0 behind its number.

use crate::calls;
use crate::record::{proper, Record, SIZE};
use crate::session::Symbol;
use crate::spells::Spells;
use crate::table::{big_endian, Table};
use crate::watch::{Answer, Verdict};
use std::io::{BufReader, BufWriter, Error, ErrorKind, Read, Result, Write};

#[derive(Clone, Copy, Debug, PartialEq, Eq)]
pub enum Kind {
    Table = 1,
    Record,
    Start,
    Letter,
    Span,
    Gap,
    Verdict,
    Settled,
    Count,
}

const KINDS: [Kind; 9] = [
    Kind::Table,
    Kind::Record,
    Kind::Start,
    Kind::Letter,
    Kind::Span,
    Kind::Gap,
    Kind::Verdict,
    Kind::Settled,
    Kind::Count,
];

/// The calls that hand back another record than they are handed.
pub const STEPS: [Kind; 3] = [Kind::Letter, Kind::Span, Kind::Gap];
/// The plain questions.
pub const QUESTIONS: [Kind; 3] = [Kind::Verdict, Kind::Settled, Kind::Count];

/// No load is longer.
pub const LONGEST: usize = 131_072;

impl Kind {
    fn read(byte: u8) -> Option<Kind> {
        KINDS.into_iter().find(|kind| *kind as u8 == byte)
    }

    pub fn name(self) -> &'static str {
        match self {
            Kind::Table => "table",
            Kind::Record => "record",
            Kind::Start => "start",
            Kind::Letter => "letter",
            Kind::Span => "span",
            Kind::Gap => "gap",
            Kind::Verdict => "verdict",
            Kind::Settled => "settled",
            Kind::Count => "count",
        }
    }

    /// The bytes of an answer.
    pub fn answer_size(self) -> usize {
        match self {
            Kind::Table => 5,
            Kind::Record => 1,
            Kind::Start | Kind::Letter | Kind::Span | Kind::Gap => 1 + SIZE,
            Kind::Verdict | Kind::Settled | Kind::Count => 2,
        }
    }

    /// The bytes of a load without its table.
    fn shortest(self) -> usize {
        match self {
            Kind::Table => 0,
            Kind::Start => 1,
            Kind::Letter => SIZE + 1,
            Kind::Span => SIZE + 4,
            _ => SIZE,
        }
    }
}

/// The case as it is sent.
pub fn case_bytes(kind: Kind, load: &[u8]) -> Vec<u8> {
    let mut bytes = vec![kind as u8];
    bytes.extend((load.len() as u32).to_be_bytes());
    bytes.extend(load);
    bytes
}

/// The answer of this program.
pub fn answer(kind: Kind, load: &[u8]) -> Vec<u8> {
    match kind {
        Kind::Table => {
            let (number, horizon) = match Table::read(load) {
                Ok(table) => (0, table.horizon),
                Err(number) => (number, 0),
            };
            let mut bytes = vec![number];
            bytes.extend((horizon as u32).to_be_bytes());
            bytes
        }
        Kind::Record => vec![record_number(load)],
        Kind::Start => handed(calls::start::<Spells>(load[0], &load[1..])),
        Kind::Letter | Kind::Span | Kind::Gap => {
            let (record, symbol, table) = parted_step(kind, load);
            handed(calls::step::<Spells>(&record, symbol, table))
        }
        Kind::Verdict | Kind::Settled | Kind::Count => {
            let (record, table) = parted(load);
            said(kind, calls::ask::<Spells>(&record, table))
        }
    }
}

/// The record of a load and what is behind it.
pub fn parted(load: &[u8]) -> (Record, &[u8]) {
    let (record, rest) = load.split_at(SIZE);
    (Record::read(record.try_into().expect("SIZE bytes")), rest)
}

/// The record, the symbol and the table of a letter, a span or a gap.
pub fn parted_step(kind: Kind, load: &[u8]) -> (Record, Symbol, &[u8]) {
    let (record, rest) = parted(load);
    let (symbol, table) = rest.split_at(kind.shortest() - SIZE);
    let symbol = match symbol {
        [] => Symbol::Gap,
        [letter] => Symbol::Letter(*letter),
        seconds => Symbol::Span(big_endian(seconds) as u32),
    };
    (record, symbol, table)
}

/// The answer of a call that hands back a record.
pub fn handed((number, record): (u8, Record)) -> Vec<u8> {
    [vec![number], record.bytes()].concat()
}

/// The answer to one of the three questions.
pub fn said(kind: Kind, answer: Answer) -> Vec<u8> {
    let (verdict, settled, count) = match answer {
        Answer::Refused(number) => return vec![number, 0],
        Answer::Stands {
            verdict,
            settled,
            count,
        } => (verdict, settled, count),
    };
    let byte = match (kind, verdict) {
        (Kind::Settled, _) => u8::from(settled),
        (Kind::Count, _) => count as u8,
        (_, Verdict::Yes) => 1,
        (_, Verdict::No) => 2,
        (_, Verdict::Unsure) => 3,
    };
    vec![0, byte]
}

fn record_number(load: &[u8]) -> u8 {
    let (record, table) = parted(load);
    match Table::read(table) {
        Err(number) => number,
        Ok(table) if proper(&record, &table) => 0,
        Ok(_) => 8,
    }
}

/// Answers each case of the input until it ends.
pub fn serve(
    input: impl Read,
    output: impl Write,
    answer: impl Fn(Kind, &[u8]) -> Vec<u8>,
) -> Result<()> {
    let (mut input, mut output) = (BufReader::new(input), BufWriter::new(output));
    let mut kind = [0];
    while input.read(&mut kind)? == 1 {
        let mut length = [0; 4];
        input.read_exact(&mut length)?;
        let length = u32::from_be_bytes(length) as usize;
        let kind = Kind::read(kind[0])
            .filter(|kind| (kind.shortest()..=LONGEST).contains(&length))
            .ok_or_else(|| Error::new(ErrorKind::InvalidData, "no such case"))?;
        let mut load = vec![0; length];
        input.read_exact(&mut load)?;
        output.write_all(&answer(kind, &load))?;
    }
    output.flush()
}
