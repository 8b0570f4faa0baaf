//! The watch: a session in, its lines out, over either form of the two sets.

use crate::record::Place;
use crate::session::{first, framed, Symbol};
use crate::table::{States, Table};
use std::fmt;
use std::ops::RangeInclusive;

/// States, and the ages at which each of them is held.
pub type Row = (States, RangeInclusive<u64>);

/// A set of configurations of a table. All ages above the horizon meet the same conditions, and a form may take them
/// as one.
pub trait Configurations: Clone {
    /// These states at age 0 and nothing else.
    fn newborn(table: &Table, states: States) -> Self;
    /// All n states at every age.
    fn everything(table: &Table) -> Self;
    /// What these rows hold and nothing else.
    fn at_ages(table: &Table, rows: &[Row]) -> Self;
    fn after_letter(&self, table: &Table, letter: u8) -> Self;
    fn after_span(&self, table: &Table, seconds: u32) -> Self;
    /// It holds a configuration whose state is accepting, at any age.
    fn accepts(&self, table: &Table) -> bool;
    /// The two sets are equal, all ages above the horizon taken as one.
    fn same(&self, other: &Self, table: &Table) -> bool;
    /// The states held at any age above the horizon.
    fn above(&self, table: &Table) -> States;
    /// The longest runs of consecutive ages in 0 to H with the same pair and a non-empty possible set, rising.
    fn stretches(sure: &Self, possible: &Self, table: &Table) -> Vec<Place>;
}

#[derive(Clone, Copy, Debug, PartialEq, Eq)]
pub enum Verdict {
    Yes,
    No,
    Unsure,
}

/// What stands in one line of output behind its ordinal.
#[derive(Clone, Copy, Debug, PartialEq, Eq)]
pub enum Answer {
    Stands {
        verdict: Verdict,
        settled: bool,
        count: usize,
    },
    Refused(u8),
}

impl fmt::Display for Answer {
    fn fmt(&self, out: &mut fmt::Formatter<'_>) -> fmt::Result {
        match self {
            Answer::Refused(number) => write!(out, "refused {number}"),
            Answer::Stands {
                verdict,
                settled,
                count,
            } => {
                let verdict = match verdict {
                    Verdict::Yes => "yes",
                    Verdict::No => "no",
                    Verdict::Unsure => "unsure",
                };
                let settled = if *settled { "settled" } else { "open" };
                write!(out, "{verdict} {settled} {count}")
            }
        }
    }
}

/// The record, as the two sets that it stands for.
#[derive(Clone)]
pub struct Watch<S> {
    pub table: Table,
    pub room: usize,
    pub sure: S,
    pub possible: S,
}

impl<S: Configurations> Watch<S> {
    pub fn start(table: &[u8], room: u8) -> Result<Self, u8> {
        let table = Table::read(table)?;
        if !(1..=64).contains(&room) {
            return Err(8);
        }
        let initial = S::newborn(&table, table.initial);
        Ok(Watch {
            room: usize::from(room),
            sure: initial.clone(),
            possible: initial,
            table,
        })
    }

    /// A refused symbol is not part of the stream: the sets stay as they are.
    pub fn take(&mut self, symbol: Symbol) -> Result<(), u8> {
        let (sure, possible) = match symbol {
            Symbol::Letter(letter) => {
                if letter >= self.table.letters {
                    return Err(9);
                }
                let (sure, possible) = self.after_letter(letter);
                if S::stretches(&sure, &possible, &self.table).len() > self.room {
                    return Err(11);
                }
                (sure, possible)
            }
            Symbol::Span(seconds) => {
                if !(1..=2_147_483_647).contains(&seconds) {
                    return Err(10);
                }
                (
                    self.sure.after_span(&self.table, seconds),
                    self.possible.after_span(&self.table, seconds),
                )
            }
            Symbol::Gap => (S::newborn(&self.table, 0), S::everything(&self.table)),
        };
        self.sure = sure;
        self.possible = possible;
        Ok(())
    }

    /// Both sets after a letter, whatever the room.
    pub fn after_letter(&self, letter: u8) -> (S, S) {
        let after = |set: &S| set.after_letter(&self.table, letter);
        (after(&self.sure), after(&self.possible))
    }

    pub fn answer(&self) -> Answer {
        let verdict = if self.sure.accepts(&self.table) {
            Verdict::Yes
        } else if self.possible.accepts(&self.table) {
            Verdict::Unsure
        } else {
            Verdict::No
        };
        Answer::Stands {
            verdict,
            settled: self.sure.same(&self.possible, &self.table),
            count: S::stretches(&self.sure, &self.possible, &self.table).len(),
        }
    }
}

/// The answers to a whole session; an answer's ordinal is its place.
pub fn answers<S: Configurations>(input: &[u8]) -> Vec<Answer> {
    let framed = match framed(input) {
        Some(framed) => framed,
        None => return vec![Answer::Refused(12)],
    };
    let mut watch = match Watch::<S>::start(framed.table, framed.room) {
        Ok(watch) => watch,
        Err(number) => return vec![Answer::Refused(number)],
    };
    let mut answers = vec![watch.answer()];
    let mut entries = framed.entries;
    while !entries.is_empty() {
        let (symbol, rest) = match first(entries) {
            Some(entry) => entry,
            None => {
                answers.push(Answer::Refused(12));
                break;
            }
        };
        answers.push(match watch.take(symbol) {
            Ok(()) => watch.answer(),
            Err(number) => Answer::Refused(number),
        });
        entries = rest;
    }
    answers
}

/// The lines that `watch` prints for these answers.
pub fn lines(answers: &[Answer]) -> String {
    let line = |(ordinal, answer)| format!("{ordinal} {answer}\n");
    answers.iter().enumerate().map(line).collect()
}
