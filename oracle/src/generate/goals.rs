//! What the sessions of a kind must reach. A kind that does not reach its goals compares nothing of what it is for.

use crate::session::{first, framed, Symbol};
use crate::table::{Line, Table};
use crate::watch::{Answer, Verdict};

/// A session as it went.
pub struct Seen<'a> {
    pub bytes: &'a [u8],
    pub answers: &'a [Answer],
    pub room: u8,
    pub table: Option<Table>,
    /// The entries that could be read, each with its answer.
    pub steps: Vec<(Symbol, Answer)>,
}

impl<'a> Seen<'a> {
    pub fn new(bytes: &'a [u8], answers: &'a [Answer]) -> Seen<'a> {
        let mut seen = Seen {
            bytes,
            answers,
            room: 0,
            table: None,
            steps: Vec::new(),
        };
        if let Some(framed) = framed(bytes) {
            seen.room = framed.room;
            seen.table = Table::read(framed.table).ok();
            let mut entries = framed.entries;
            for &answer in answers.iter().skip(1) {
                if let Some((symbol, rest)) = first(entries) {
                    seen.steps.push((symbol, answer));
                    entries = rest;
                }
            }
        }
        seen
    }

    /// What follows the first gap.
    fn since_gap(&self) -> &[(Symbol, Answer)] {
        let gap = self.steps.iter().position(|step| step.0 == Symbol::Gap);
        gap.map_or(&[], |at| &self.steps[at + 1..])
    }
}

/// Something that at least one session of a kind must show.
pub struct Goal {
    pub name: String,
    met: Box<dyn Fn(&Seen) -> bool + Send + Sync>,
}

impl Goal {
    pub fn met(&self, seen: &Seen) -> bool {
        (self.met)(seen)
    }
}

pub fn goal(name: impl Into<String>, met: impl Fn(&Seen) -> bool + Send + Sync + 'static) -> Goal {
    Goal {
        name: name.into(),
        met: Box::new(met),
    }
}

fn is(answer: &Answer, wanted: Verdict) -> bool {
    matches!(answer, Answer::Stands { verdict, .. } if *verdict == wanted)
}

fn is_settled(answer: &Answer, wanted: bool) -> bool {
    matches!(answer, Answer::Stands { settled, .. } if *settled == wanted)
}

fn is_taken(answer: &Answer) -> bool {
    matches!(answer, Answer::Stands { .. })
}

/// Each verdict, settled and open.
pub fn every_word() -> Vec<Goal> {
    let verdicts = [
        ("yes", Verdict::Yes),
        ("no", Verdict::No),
        ("unsure", Verdict::Unsure),
    ];
    let mut goals: Vec<Goal> = verdicts
        .into_iter()
        .map(|(word, verdict)| {
            goal(word, move |s: &Seen| {
                s.answers.iter().any(|a| is(a, verdict))
            })
        })
        .collect();
    for (word, settled) in [("settled", true), ("open", false)] {
        goals.push(goal(word, move |s: &Seen| {
            s.answers.iter().any(|a| is_settled(a, settled))
        }));
    }
    goals
}

/// After a gap: each verdict, open and settled, and a gap that follows a gap and answers alike.
pub fn every_word_after_gap() -> Vec<Goal> {
    vec![
        goal("yes after a gap", |s| {
            s.since_gap().iter().any(|step| is(&step.1, Verdict::Yes))
        }),
        goal("no after a gap", |s| {
            s.since_gap().iter().any(|step| is(&step.1, Verdict::No))
        }),
        goal("yes, open", |s| {
            (s.answers.iter()).any(|a| is(a, Verdict::Yes) && is_settled(a, false))
        }),
        goal("no, open", |s| {
            (s.answers.iter()).any(|a| is(a, Verdict::No) && is_settled(a, false))
        }),
        goal("a gap settled again by a letter", |s| {
            s.since_gap().windows(2).any(|w| {
                let by_letter = matches!(w[1].0, Symbol::Letter(_));
                is_settled(&w[0].1, false) && by_letter && is_settled(&w[1].1, true)
            })
        }),
        goal("a gap after a gap", |s| {
            (s.steps.windows(2))
                .any(|w| w[0].0 == Symbol::Gap && w[1].0 == Symbol::Gap && w[0].1 == w[1].1)
        }),
    ]
}

pub fn refused(number: u8) -> Goal {
    goal(format!("refused {number}"), move |s: &Seen| {
        s.answers.contains(&Answer::Refused(number))
    })
}

pub fn count_of(least: usize) -> Goal {
    goal(format!("a count of {least} or more"), move |s: &Seen| {
        (s.answers.iter()).any(|a| matches!(a, Answer::Stands { count, .. } if *count >= least))
    })
}

pub fn count_none() -> Goal {
    goal("a count of 0", |s| {
        (s.answers.iter()).any(|a| matches!(a, Answer::Stands { count: 0, .. }))
    })
}

/// In this room a letter is refused with 11 and a later one is taken.
pub fn into_room_and_out(room: u8) -> Goal {
    goal(
        format!("room {room}: 11, then a letter taken"),
        move |s: &Seen| {
            let crowded = (s.steps.iter()).position(|step| step.1 == Answer::Refused(11));
            let is_letter = |symbol| matches!(symbol, Symbol::Letter(_));
            s.room == room
                && crowded.map_or(false, |at| {
                    (s.steps[at..].iter()).any(|step| is_letter(step.0) && is_taken(&step.1))
                })
        },
    )
}

pub fn horizon_of(ages: u64) -> Goal {
    goal(format!("a horizon of {ages}"), move |s: &Seen| {
        s.table
            .as_ref()
            .map_or(false, |table| table.horizon == ages)
    })
}

pub fn span_taken(seconds: u32) -> Goal {
    goal(format!("a span of {seconds} taken"), move |s: &Seen| {
        (s.steps.iter()).any(|step| step.0 == Symbol::Span(seconds) && is_taken(&step.1))
    })
}

/// The letter is taken in a table with a line that bears it, from or to this state.
pub fn letter_at_state(wanted: u8, state: usize) -> Goal {
    goal(
        format!("letter {wanted} taken, state {state} in a line of it"),
        move |s: &Seen| {
            let taken =
                (s.steps.iter()).any(|step| step.0 == Symbol::Letter(wanted) && is_taken(&step.1));
            let touches =
                |line: &Line| line.letter == wanted && (line.from == state || line.to == state);
            taken
                && s.table
                    .as_ref()
                    .map_or(false, |table| table.lines.iter().any(touches))
        },
    )
}

/// The session of this many bytes is read to its end.
pub fn read_whole(size: usize) -> Goal {
    goal(format!("{size} bytes read whole"), move |s: &Seen| {
        s.bytes.len() == size && s.answers.len() > 1 && !s.answers.contains(&Answer::Refused(12))
    })
}

/// The session of this many bytes gets 12 for its frame.
pub fn frame_refused(size: usize) -> Goal {
    goal(format!("{size} bytes refused"), move |s: &Seen| {
        s.bytes.len() == size && s.answers == [Answer::Refused(12)]
    })
}

/// The reading breaks off after this many lines at least.
pub fn unreadable_after(lines: usize) -> Goal {
    goal(
        format!("an unreadable entry after {lines} lines or more"),
        move |s: &Seen| s.answers.len() > lines && s.answers.last() == Some(&Answer::Refused(12)),
    )
}
