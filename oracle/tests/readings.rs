//! The five "Readings that look right" of document 01. For each: a session whose lines were worked out by hand, a
//! watch that makes the mistake and prints other lines, and generated sessions, which must catch it too.

mod common;

use common::printed;
use oracle::ages::Ages;
use oracle::generate::draft::{board, line, plain, Draft, TableDraft, KEEPS, NONE, RESETS};
use oracle::generate::kinds::KINDS;
use oracle::session::Symbol::{self, Gap, Letter, Span};
use oracle::session::{first, framed};
use oracle::spells::Spells;
use oracle::table::Table;
use oracle::watch::{answers, lines, Answer, Configurations, Watch};

#[derive(Clone, Copy, Debug)]
enum Mistake {
    DropsAtHorizon,
    StandsBeforeTheLetter,
    GapRestarts,
    LeavesTouchingApart,
    SavesRefused,
}

/// A watch that makes one of the mistakes and is right in everything else.
struct Mistaken {
    watch: Watch<Ages>,
    mistake: Mistake,
}

/// The set without what lies above the horizon.
fn dropped(set: &Ages, table: &Table) -> Ages {
    let mut kept = Ages::empty(table);
    for age in 0..=table.horizon {
        kept.add(set.at(age), age);
    }
    kept
}

/// The standing states join first and take the letter.
fn stood_before(set: &Ages, table: &Table, letter: u8) -> Ages {
    let mut joined = set.clone();
    joined.add(table.standing, 0);
    let mut none_stands = table.clone();
    none_stands.standing = 0;
    joined.after_letter(&none_stands, letter)
}

impl Mistaken {
    fn after_letter(&self, set: &Ages, letter: u8) -> Ages {
        match self.mistake {
            Mistake::StandsBeforeTheLetter => stood_before(set, &self.watch.table, letter),
            _ => set.after_letter(&self.watch.table, letter),
        }
    }

    fn count(&self, sure: &Ages, possible: &Ages) -> usize {
        let table = &self.watch.table;
        match self.mistake {
            Mistake::LeavesTouchingApart => (0..=table.horizon)
                .filter(|&age| possible.at(age) != 0)
                .count(),
            _ => Ages::stretches(sure, possible, table).len(),
        }
    }

    fn letter(&mut self, letter: u8) -> Result<(), u8> {
        if letter >= self.watch.table.letters {
            return Err(9);
        }
        let sure = self.after_letter(&self.watch.sure, letter);
        let possible = self.after_letter(&self.watch.possible, letter);
        let crowded = self.count(&sure, &possible) > self.watch.room;
        if !crowded || matches!(self.mistake, Mistake::SavesRefused) {
            (self.watch.sure, self.watch.possible) = (sure, possible);
        }
        if crowded {
            Err(11)
        } else {
            Ok(())
        }
    }

    fn take(&mut self, symbol: Symbol) -> Result<(), u8> {
        match (self.mistake, symbol) {
            (_, Letter(letter)) => return self.letter(letter),
            (Mistake::GapRestarts, Gap) => {
                let initial = Ages::newborn(&self.watch.table, self.watch.table.initial);
                (self.watch.sure, self.watch.possible) = (initial.clone(), initial);
                return Ok(());
            }
            _ => self.watch.take(symbol)?,
        }
        if matches!(self.mistake, Mistake::DropsAtHorizon) {
            self.watch.sure = dropped(&self.watch.sure, &self.watch.table);
            self.watch.possible = dropped(&self.watch.possible, &self.watch.table);
        }
        Ok(())
    }

    fn answer(&self) -> Answer {
        match self.watch.answer() {
            Answer::Stands {
                verdict, settled, ..
            } => Answer::Stands {
                verdict,
                settled,
                count: self.count(&self.watch.sure, &self.watch.possible),
            },
            refused => refused,
        }
    }
}

/// What the mistaken watch prints for a session whose start is in order and whose entries can be read.
fn mistaken(mistake: Mistake, input: &[u8]) -> Option<String> {
    let session = framed(input)?;
    let watch = Watch::start(session.table, session.room).ok()?;
    let mut mistaken = Mistaken { watch, mistake };
    let mut answers = vec![mistaken.answer()];
    let mut entries = session.entries;
    while !entries.is_empty() {
        let (symbol, rest) = first(entries)?;
        answers.push(match mistaken.take(symbol) {
            Ok(()) => mistaken.answer(),
            Err(number) => Answer::Refused(number),
        });
        entries = rest;
    }
    Some(lines(&answers))
}

/// The right lines are printed, the mistaken watch prints its own, and some generated session catches it.
fn look(mistake: Mistake, session: Draft, right: &[&str], wrong: &[&str]) {
    let input = session.bytes();
    let text =
        |lines: &[&str]| -> String { lines.iter().map(|line| format!("{line}\n")).collect() };
    assert_eq!(printed(&input), text(right));
    assert_eq!(mistaken(mistake, &input), Some(text(wrong)));
    assert!(caught(mistake), "no generated session shows {mistake:?}");
}

fn caught(mistake: Mistake) -> bool {
    let differs = |input: &[u8]| match mistaken(mistake, input) {
        Some(printed) => printed != lines(&answers::<Spells>(input)),
        None => false,
    };
    let kinds = KINDS
        .iter()
        .filter(|kind| ["small", "gaps", "rooms"].contains(&kind.name));
    kinds
        .flat_map(|kind| (0..kind.least).map(move |number| kind.session(1, number)))
        .any(|session| differs(&session.bytes))
}

#[test]
fn a_configuration_lives_on_above_the_horizon() {
    // at age 4, above H = 3, it still takes the line without upper bound
    let table = TableDraft {
        states: 2,
        accepting: 2,
        lines: vec![line(0, 0, 1, KEEPS, 3, NONE)],
        ..plain()
    };
    look(
        Mistake::DropsAtHorizon,
        Draft::new(4, table, vec![Span(4), Letter(0)]),
        &["0 no settled 1", "1 no settled 0", "2 yes settled 0"],
        &["0 no settled 1", "1 no settled 0", "2 no settled 0"],
    );
}

#[test]
fn the_standing_states_join_after_the_letter() {
    // nothing is initial: the first letter finds nobody, the second finds who joined after the first
    let table = TableDraft {
        states: 2,
        initial: 0,
        standing: 1,
        accepting: 2,
        lines: vec![line(0, 0, 1, RESETS, 0, NONE)],
        ..plain()
    };
    look(
        Mistake::StandsBeforeTheLetter,
        Draft::new(4, table, vec![Letter(0), Letter(0)]),
        &["0 no settled 0", "1 no settled 1", "2 yes settled 1"],
        &["0 no settled 0", "1 yes settled 1", "2 yes settled 1"],
    );
}

#[test]
fn a_gap_is_no_restart() {
    look(
        Mistake::GapRestarts,
        Draft::new(4, board(), vec![Letter(0), Gap, Letter(1)]),
        &[
            "0 no settled 1",
            "1 yes settled 1",
            "2 unsure open 1",
            "3 unsure open 2",
        ],
        &[
            "0 no settled 1",
            "1 yes settled 1",
            "2 no settled 1",
            "3 no settled 1",
        ],
    );
}

#[test]
fn touching_stretches_with_equal_pairs_are_one() {
    // after the gap state 0 may have any age; letter 0 keeps ages 0 to 3, four ages with one pair
    let table = TableDraft {
        lines: vec![line(0, 0, 0, KEEPS, 0, 3)],
        ..plain()
    };
    look(
        Mistake::LeavesTouchingApart,
        Draft::new(1, table, vec![Gap, Letter(0)]),
        &["0 yes settled 1", "1 unsure open 1", "2 unsure open 1"],
        &["0 yes settled 1", "1 unsure open 4", "2 refused 11"],
    );
}

#[test]
fn a_refused_letter_leaves_nothing_behind() {
    // saved, age 0 of entry 3 would still be held one second later
    let entries = vec![Letter(0), Span(5), Letter(1), Span(1)];
    look(
        Mistake::SavesRefused,
        Draft::new(1, board(), entries),
        &[
            "0 no settled 1",
            "1 yes settled 1",
            "2 yes settled 1",
            "3 refused 11",
            "4 yes settled 0",
        ],
        &[
            "0 no settled 1",
            "1 yes settled 1",
            "2 yes settled 1",
            "3 refused 11",
            "4 yes settled 1",
        ],
    );
}
