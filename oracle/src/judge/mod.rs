//! Holds what a program says of tables, of records and at its calls to what this program says.

pub mod aims;
mod alike;
pub mod call_edges;
pub mod marks;
pub mod probe;
pub mod reached;
pub mod record_edges;
pub mod records;
pub mod sequence;
pub mod sequences;
mod stated;
pub mod table_edges;
pub mod tables;
mod widest;

use crate::generate::random::Random;
use crate::run::{on_all_processors, Failure};
use alike::{alike, as_stated, Placed};
use probe::{answer, case_bytes, Kind};
use reached::{Label, Reached};
use std::collections::BTreeSet;
use std::ops::Range;
use std::sync::Mutex;

/// A table, a record with a table, or a call with all that it is handed.
#[derive(Clone)]
pub struct Case {
    pub kind: Kind,
    /// How it was made, or which call it is.
    pub making: &'static str,
    /// The edge, the order of checks or the broken clause that it stands for; empty: none.
    pub label: String,
    /// What document 01 says of it: the answer, or how the answer begins; empty: nothing is stated.
    pub stated: Vec<u8>,
    pub load: Vec<u8>,
    /// What this program answers.
    pub answer: Vec<u8>,
}

impl Case {
    pub fn plain(kind: Kind, making: &'static str, load: Vec<u8>) -> Case {
        Case {
            kind,
            making,
            label: String::new(),
            stated: Vec::new(),
            answer: answer(kind, &load),
            load,
        }
    }

    pub fn stated(mut self, label: impl Into<String>, stated: &[u8]) -> Case {
        self.label = label.into();
        self.stated = stated.to_vec();
        self
    }

    /// The number answered.
    pub fn number(&self) -> u8 {
        self.answer[0]
    }
}

/// How cases at an edge are made: each edge has an accepted side and a refused one.
pub const EDGES: &str = "edges";

/// A part of the judgement. Each number stands for a case, or for a sequence of calls in which each is handed the
/// record that the one before it handed back. Those with a label come first.
pub struct Part {
    pub name: &'static str,
    /// Says which case it is, by its number and its place there, counted from 1.
    at: fn(usize, usize) -> String,
    seed: u64,
    rows: Vec<Vec<Case>>,
    make: fn(&mut Random) -> Vec<Case>,
    /// Each making, with the numbers that it must reach.
    pub wanted: &'static [(&'static str, &'static [u8])],
    /// What a case shows beside its own label.
    shows: fn(&Case) -> Vec<String>,
    /// What must be reached beside the labels of the rows.
    labels: Vec<Label>,
    /// What is counted one by one: all of these labels must be reached too.
    pub counted: Vec<(String, Vec<Label>)>,
    /// So many numbers go to one run of the program.
    batch: usize,
}

impl Part {
    pub fn tables(seed: u64) -> Part {
        let rows = table_edges::rows(&mut Random::new(seed, "table edges", 0));
        let make = |random: &mut Random| vec![tables::make(random)];
        Part::of_cases("tables", seed, rows, make, &tables::WANTED)
    }

    pub fn records(seed: u64) -> Part {
        let rows = record_edges::rows(&mut Random::new(seed, "record edges", 0));
        let make = |random: &mut Random| vec![records::make(random)];
        Part {
            labels: aims::labels(),
            ..Part::of_cases("records", seed, rows, make, &records::WANTED)
        }
    }

    /// Each number stands for one case.
    fn of_cases(
        name: &'static str,
        seed: u64,
        rows: Vec<Case>,
        make: fn(&mut Random) -> Vec<Case>,
        wanted: &'static [(&'static str, &'static [u8])],
    ) -> Part {
        Part {
            name,
            at: |number, _| format!("case {number}"),
            seed,
            rows: rows.into_iter().map(|row| vec![row]).collect(),
            make,
            wanted,
            shows: |_| Vec::new(),
            labels: Vec::new(),
            counted: Vec::new(),
            batch: 20_000,
        }
    }

    pub fn calls(seed: u64) -> Part {
        Part {
            name: "calls",
            at: |number, place| format!("sequence {number}, call {place}"),
            seed,
            rows: call_edges::rows(&mut Random::new(seed, "call edges", 0)),
            make: sequences::make,
            wanted: &sequences::WANTED,
            shows: marks::shown,
            labels: sequences::labels(),
            counted: marks::counted(),
            batch: 2_000,
        }
    }

    /// What this number stands for.
    pub fn sequence(&self, number: usize) -> Vec<Case> {
        match self.rows.get(number) {
            Some(row) => row.clone(),
            None => (self.make)(&mut Random::new(self.seed, self.name, number)),
        }
    }

    /// The cases of these numbers, each with its place.
    fn placed(&self, numbers: Range<usize>) -> Vec<Placed> {
        let of = |number| {
            let cases = self.sequence(number).into_iter().enumerate();
            cases.map(move |(before, case)| Placed {
                number,
                place: before + 1,
                case,
            })
        };
        numbers.flat_map(of).collect()
    }

    /// What the cases did not reach, and should.
    fn missed(&self, reached: &Reached) -> Vec<String> {
        let mut missed = Vec::new();
        for &(making, numbers) in self.wanted {
            let not = |number: &&u8| reached.times(making, **number) == 0;
            missed.extend((numbers.iter().filter(not)).map(|number| format!("{making} {number}")));
        }
        let of_rows = (self.rows.iter().flatten())
            .filter(|row| !row.label.is_empty())
            .map(|row| (row.making, row.label.clone()));
        let counted = self.counted.iter().flat_map(|(_, labels)| labels);
        let others = self.labels.iter().chain(counted).cloned();
        let labels: BTreeSet<_> = of_rows.chain(others).collect();
        for label in labels {
            let numbers = reached.numbers_of(&label);
            let both = numbers.contains(&0) && numbers.len() > 1;
            if numbers.is_empty() || label.0 == EDGES && !both {
                missed.push(format!("{}: {}", label.0, label.1));
            }
        }
        missed
    }
}

/// A program that is judged: the bytes of cases in, the bytes of its answers out. It is also told the batch's number.
pub type Program<'a> = &'a (dyn Fn(usize, &[u8]) -> Result<Vec<u8>, Failure> + Sync);

/// Judges a program over the first numbers of a part, on all processors.
pub fn judge(part: &Part, numbers: usize, program: Program) -> Result<Reached, Failure> {
    let reached = Mutex::new(Reached::default());
    let batches = (numbers + part.batch - 1) / part.batch;
    on_all_processors(batches, |batch| {
        let from = batch * part.batch;
        let placed = part.placed(from..numbers.min(from + part.batch));
        as_stated(part, &placed)?;
        for Placed { case, .. } in &placed {
            let shows = (part.shows)(case);
            reached.lock().unwrap().note(case, shows);
        }
        let input: Vec<u8> = (placed.iter())
            .flat_map(|placed| case_bytes(placed.case.kind, &placed.case.load))
            .collect();
        let answered = program(batch, &input)?;
        alike(part, &placed, &answered)
    })?;
    let reached = reached.into_inner().unwrap();
    let missed = part.missed(&reached);
    if missed.is_empty() {
        Ok(reached)
    } else {
        Err(format!("no case reached: {}", missed.join("; ")).into())
    }
}
