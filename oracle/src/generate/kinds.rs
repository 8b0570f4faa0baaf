//! The kinds of sessions, each with what it must reach. A session is given by its kind, the seed and its number.

use crate::generate::edges::{self, edges};
use crate::generate::faults::{pair, single, Faulty, PAIRS, SINGLES};
use crate::generate::goals::{
    count_none, count_of, every_word, every_word_after_gap, frame_refused, goal, horizon_of,
    into_room_and_out, letter_at_state, read_whole, refused, span_taken, unreadable_after, Goal,
};
use crate::generate::make;
use crate::generate::random::Random;
use crate::session::LONGEST;
use crate::table::GREATEST;
use crate::watch::{lines, Answer};

pub struct Session {
    pub bytes: Vec<u8>,
    /// Refusals that must stand in its answers: ordinal and number.
    pub refusals: Vec<(usize, u8)>,
    /// All of its lines, where they were worked out beforehand.
    pub lines: Option<String>,
}

impl Session {
    fn plain(bytes: Vec<u8>) -> Session {
        Session {
            bytes,
            refusals: Vec::new(),
            lines: None,
        }
    }

    fn faulty(faulty: Faulty) -> Session {
        Session {
            bytes: faulty.draft.bytes(),
            refusals: faulty.refusals,
            lines: None,
        }
    }

    /// The `number`-th edge, counted round.
    fn at_edge(number: usize) -> Session {
        let mut edges = edges();
        let edge = edges.swap_remove(number % edges.len());
        Session {
            bytes: edge.bytes,
            refusals: Vec::new(),
            lines: Some(edge.lines),
        }
    }

    /// The stated refusals stand in the answers, nothing stands behind a refused start, and stated lines are those of
    /// the answers.
    pub fn answered_as_stated(&self, answers: &[Answer]) -> bool {
        let stands = |&(ordinal, number): &(usize, u8)| {
            answers.get(ordinal) == Some(&Answer::Refused(number))
                && (ordinal > 0 || answers.len() == 1)
        };
        let stated = self.lines.as_ref();
        self.refusals.iter().all(stands) && stated.map_or(true, |stated| *stated == lines(answers))
    }
}

pub struct Kind {
    pub name: &'static str,
    pub about: &'static str,
    make: fn(&mut Random, usize) -> Session,
    /// How many sessions it takes to reach the goals.
    pub least: usize,
    /// How many there are: no more are compared.
    pub most: usize,
    pub goals: fn() -> Vec<Goal>,
}

impl Kind {
    pub fn session(&self, seed: u64, number: usize) -> Session {
        (self.make)(&mut Random::new(seed, self.name, number), number)
    }
}

pub static KINDS: [Kind; 12] = [
    Kind {
        name: "edges",
        about: "both sides of each edge, with lines worked out by hand; the same for every seed",
        make: |_, number| Session::at_edge(number),
        least: edges::COUNT,
        most: edges::COUNT,
        goals: || {
            let run = |edge: edges::Edge| goal(edge.name, move |s| s.bytes == edge.bytes);
            edges().into_iter().map(run).collect()
        },
    },
    Kind {
        name: "small",
        about: "horizons of 0 to 8",
        make: |random, number| Session::plain(make::small(random, number).bytes()),
        least: 100,
        most: usize::MAX,
        goals: || {
            let counts = [count_none(), count_of(3)];
            joined(every_word(), joined(refusals(9..=11), counts))
        },
    },
    Kind {
        name: "gaps",
        about: "many gaps",
        make: |random, number| Session::plain(make::gaps(random, number).bytes()),
        least: 100,
        most: usize::MAX,
        goals: || joined(every_word(), every_word_after_gap()),
    },
    Kind {
        name: "wide",
        about: "horizons of 1,000 to 300,000",
        make: |random, number| Session::plain(make::wide(random, number).bytes()),
        least: 60,
        most: usize::MAX,
        goals: || joined(every_word(), [count_none(), count_of(6)]),
    },
    Kind {
        name: "year",
        about: "horizons up to 31,622,400, spans up to 2,147,483,647",
        make: |random, number| Session::plain(make::year(random, number).bytes()),
        least: 6,
        most: usize::MAX,
        goals: || {
            let longest = [horizon_of(GREATEST), span_taken(make::LONGEST_SPAN)];
            joined(every_word(), joined(longest, [count_of(2)]))
        },
    },
    Kind {
        name: "rooms",
        about: "each room driven into 11 and out again",
        make: |random, number| Session::plain(make::rooms(random, number).bytes()),
        least: 64,
        most: usize::MAX,
        goals: || (1..=64).map(into_room_and_out).collect(),
    },
    Kind {
        name: "heavy",
        about: "16 states, 32 letters, 64 lines",
        make: |random, number| Session::plain(make::heavy(random, number).bytes()),
        least: 60,
        most: usize::MAX,
        goals: || {
            joined(
                every_word(),
                [refused(11), count_of(64), letter_at_state(31, 15)],
            )
        },
    },
    Kind {
        name: "long",
        about: "up to the longest session and above",
        make: |random, number| Session::plain(make::long(random, number).bytes()),
        least: 6,
        most: usize::MAX,
        goals: || {
            vec![
                read_whole(LONGEST),
                read_whole(LONGEST - 1),
                frame_refused(LONGEST + 1),
            ]
        },
    },
    Kind {
        name: "faults",
        about: "each refusal alone",
        make: |random, number| Session::faulty(single(random, number)),
        least: SINGLES,
        most: usize::MAX,
        goals: || refusals(1..=12),
    },
    Kind {
        name: "pairs",
        about: "each pair of refusals",
        make: |random, number| Session::faulty(pair(random, number)),
        least: PAIRS,
        most: usize::MAX,
        goals: || refusals(1..=12),
    },
    Kind {
        name: "damaged",
        about: "bytes changed, lost or added",
        make: |random, number| Session::plain(make::damaged(random, number)),
        least: 120,
        most: usize::MAX,
        goals: || {
            joined(
                refusals([2, 3, 4, 5, 6, 7, 9, 10, 12]),
                [unreadable_after(1)],
            )
        },
    },
    Kind {
        name: "cut",
        about: "sessions that break off",
        make: |random, number| Session::plain(make::cut(random, number)),
        least: 60,
        most: usize::MAX,
        goals: || joined(refusals([1, 4, 12]), [unreadable_after(1)]),
    },
];

fn joined(
    goals: impl IntoIterator<Item = Goal>,
    more: impl IntoIterator<Item = Goal>,
) -> Vec<Goal> {
    goals.into_iter().chain(more).collect()
}

fn refusals(numbers: impl IntoIterator<Item = u8>) -> Vec<Goal> {
    numbers.into_iter().map(refused).collect()
}

pub fn named(name: &str) -> Option<&'static Kind> {
    KINDS.iter().find(|kind| kind.name == name)
}
