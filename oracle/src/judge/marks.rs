//! What the calls must show beside each number: read off a call and its answer, however it was made.

use crate::calls::needed;
use crate::judge::probe::{parted, parted_step, Kind, STEPS};
use crate::judge::reached::Label;
use crate::judge::Case;
use crate::record::{Place, Record};
use crate::session::Symbol;
use crate::spells::Spells;
use crate::table::{Table, GREATEST};
use std::collections::BTreeSet;

/// A letter, a span or a gap that was taken, or a letter that was refused for room.
struct Step {
    table: Table,
    record: Record,
    symbol: Symbol,
    taken: bool,
    after: Record,
    /// The count after it; where it is refused, the count that there would be.
    count: usize,
}

impl Step {
    fn read(case: &Case) -> Option<Step> {
        let (record, symbol, table) = parted_step(case.kind, &case.load);
        let after = parted(&case.answer[1..]).0;
        let count = match (case.number(), symbol) {
            (0, _) => after.stretches().len(),
            (11, Symbol::Letter(letter)) => needed::<Spells>(&record, letter, table).ok()?,
            _ => return None,
        };
        Some(Step {
            table: Table::read(table).ok()?,
            record,
            symbol,
            taken: case.number() == 0,
            after,
            count,
        })
    }

    fn room(&self) -> usize {
        usize::from(self.record.room)
    }

    fn letter(&self) -> Option<u8> {
        match self.symbol {
            Symbol::Letter(letter) => Some(letter),
            _ => None,
        }
    }

    /// The span's seconds, and the stretches before it.
    fn span(&self) -> (u64, &[Place]) {
        match self.symbol {
            Symbol::Span(seconds) => (u64::from(seconds), self.record.stretches()),
            _ => (0, &[]),
        }
    }

    /// Some line of the letter resets the clock from a state of the set, at this age.
    fn resets(&self, states: u16, age: u64) -> bool {
        let mut lines = self.letter().into_iter().flat_map(|l| self.table.on(l));
        self.taken
            && lines.any(|line| line.resets && states >> line.from & 1 == 1 && line.admits(age))
    }

    /// As much as there can be: 16 states, all of them held, 64 lines with the letter, 64 stretches in room 64, and the
    /// most pieces.
    fn widest(&self) -> bool {
        let held = (self.record.stretches().iter()).fold(0, |set, s| set | s.pair.possible);
        let on_letter = |letter| self.table.on(letter).count() == 64;
        held == 0xFFFF
            && self.letter().map_or(false, on_letter)
            && (self.room(), self.record.count) == (64, 64)
            && pieces(&self.table) == 129
    }
}

/// How many pieces the bounds of the lines cut all ages into: an L begins one, and so does the age after a U. 64 lines
/// make 129 at most, the last of them above H.
pub fn pieces(table: &Table) -> usize {
    let begin = (table.lines.iter())
        .flat_map(|line| [Some(line.least), line.greatest.map(|age| age + 1)])
        .flatten();
    begin.chain([0]).collect::<BTreeSet<u64>>().len()
}

/// Something that a step can show.
type Mark = (Kind, &'static str, fn(&Step) -> bool);

const MARKS: [Mark; 21] = [
    (Kind::Letter, "no lines", |s| s.table.lines.is_empty()),
    (Kind::Letter, "H of 0, by a line", |s| {
        s.table.horizon == 0 && !s.table.lines.is_empty()
    }),
    (Kind::Letter, "H of 31,622,400", |s| {
        s.table.horizon == GREATEST
    }),
    (Kind::Letter, "letter 31, 16 states, 64 lines", |s| {
        s.letter() == Some(31) && (s.table.states, s.table.lines.len()) == (16, 64)
    }),
    (Kind::Letter, "the widest", |s| s.widest()),
    (Kind::Letter, "the widest, 64 in room 64", |s| {
        s.widest() && s.taken && s.count == 64
    }),
    (Kind::Letter, "the widest, 65 needed", |s| {
        s.widest() && s.count == 65
    }),
    (Kind::Letter, "the widest, 129 needed or more", |s| {
        s.widest() && s.count >= 129
    }),
    (Kind::Letter, "the widest, joined to one", |s| {
        s.widest() && s.count == 1
    }),
    (
        Kind::Letter,
        "age 0 is new, joins age 1, and the room is full",
        |s| {
            let new = s.record.stretches().iter().all(|stretch| stretch.first > 0);
            let joined = (s.after.stretches().iter()).any(|st| st.first == 0 && st.last > 0);
            new && s.taken && joined && s.count == s.room()
        },
    ),
    (Kind::Letter, "a reset from above H", |s| {
        s.resets(s.record.above.possible, s.table.horizon + 1)
    }),
    (Kind::Letter, "a reset from the 64th stretch", |s| {
        let last = s.record.places[63];
        s.record.count == 64 && s.resets(last.pair.possible, u64::from(last.last))
    }),
    (Kind::Span, "a stretch is cut at H", |s| {
        let (seconds, stretches) = s.span();
        let horizon = s.table.horizon;
        (stretches.iter()).any(|stretch| {
            u64::from(stretch.first) + seconds <= horizon
                && u64::from(stretch.last) + seconds > horizon
        })
    }),
    (Kind::Span, "a stretch of many ends at H", |s| {
        let (seconds, stretches) = s.span();
        let mut lasts = stretches.iter().map(|stretch| u64::from(stretch.last));
        stretches.len() > 1 && lasts.any(|last| last + seconds == s.table.horizon)
    }),
    (Kind::Span, "a stretch begins at H", |s| {
        let (seconds, stretches) = s.span();
        let mut firsts = stretches.iter().map(|stretch| u64::from(stretch.first));
        firsts.any(|first| first + seconds == s.table.horizon)
    }),
    (Kind::Span, "all of 64 stretches pass H", |s| {
        s.record.count == 64 && s.count == 0
    }),
    (Kind::Span, "some of 64 stretches pass H", |s| {
        s.record.count == 64 && (1..64).contains(&s.count)
    }),
    (Kind::Span, "the longest, from age 31,622,400", |s| {
        let (seconds, stretches) = s.span();
        let oldest = stretches.last().map_or(0, |stretch| stretch.last);
        seconds == 2_147_483_647 && u64::from(oldest) == GREATEST
    }),
    (Kind::Span, "nothing is held", |s| s.record.count == 0),
    (Kind::Gap, "after a gap, the same record", |s| {
        s.record == s.after
    }),
    (Kind::Gap, "64 stretches become one", |s| {
        s.record.count == 64 && s.count == 1
    }),
];

/// What the questions can say, each with its byte.
const WORDS: [(Kind, &str, u8); 5] = [
    (Kind::Verdict, "yes", 1),
    (Kind::Verdict, "no", 2),
    (Kind::Verdict, "unsure", 3),
    (Kind::Settled, "settled", 1),
    (Kind::Settled, "open", 0),
];

/// A letter for which there is just enough room, and one for which there is one stretch too little.
const ROOMS: [&str; 2] = ["just filled", "one too small"];

fn of_room(room: usize, at: usize) -> String {
    format!("room {room} {}", ROOMS[at])
}

/// What a call shows.
pub fn shown(case: &Case) -> Vec<String> {
    if !STEPS.contains(&case.kind) {
        return said(case);
    }
    let step = match Step::read(case) {
        Some(step) => step,
        None => return Vec::new(),
    };
    let marks = (MARKS.iter()).filter(|(kind, _, met)| *kind == case.kind && met(&step));
    let mut shown: Vec<String> = marks.map(|mark| mark.1.to_string()).collect();
    if case.kind == Kind::Letter && step.count == step.room() {
        shown.push(of_room(step.room(), 0));
    }
    if case.kind == Kind::Letter && step.count == step.room() + 1 {
        shown.push(of_room(step.room(), 1));
    }
    shown
}

fn said(case: &Case) -> Vec<String> {
    let is = |&&(kind, _, byte): &&(Kind, &str, u8)| kind == case.kind && case.answer == [0, byte];
    let word = WORDS.iter().find(is);
    word.map(|word| word.1.to_string()).into_iter().collect()
}

/// What must be shown, each with the labels that show it, all of which must be reached.
pub fn counted() -> Vec<(String, Vec<Label>)> {
    let words = WORDS.iter().map(|word| (word.0, word.1));
    let marks = MARKS.iter().map(|mark| (mark.0, mark.1));
    let named = |(kind, label): (Kind, &str)| {
        let label = (kind.name(), label.to_string());
        (format!("{}: {}", label.0, label.1), vec![label])
    };
    let of_rooms = |at| {
        let labels = (1..=64).map(|room| (Kind::Letter.name(), of_room(room, at)));
        (format!("letter: each room {}", ROOMS[at]), labels.collect())
    };
    (marks.chain(words).map(named))
        .chain([of_rooms(0), of_rooms(1)])
        .collect()
}
