//! The generated sessions: the same for the same seed, each kind reaching what it must, and both forms alike on them.

use oracle::ages::Ages;
use oracle::generate::draft::{Draft, NONE};
use oracle::generate::faults::{pair, PAIRS};
use oracle::generate::goals::Seen;
use oracle::generate::kinds::{named, KINDS};
use oracle::generate::random::Random;
use oracle::session::Symbol;
use oracle::spells::Spells;
use oracle::watch::{answers, Answer};

#[test]
fn a_session_is_given_by_kind_seed_and_number() {
    for kind in &KINDS {
        let session = |seed, number| kind.session(seed, number).bytes;
        assert_eq!(session(1, 2), session(1, 2), "{}", kind.name);
        // the edges come of no seed
        let seeded = kind.name != "edges";
        assert_eq!(session(1, 2) != session(2, 2), seeded, "{}", kind.name);
        assert_ne!(session(1, 2), session(1, 3), "{}", kind.name);
    }
}

#[test]
fn the_least_number_of_sessions_reaches_each_goal() {
    let mut missed = Vec::new();
    for seed in 1..=8 {
        for kind in &KINDS {
            let sessions: Vec<_> = (0..kind.least).map(|n| kind.session(seed, n)).collect();
            let answers: Vec<_> = (sessions.iter())
                .map(|session| answers::<Spells>(&session.bytes))
                .collect();
            for goal in (kind.goals)() {
                let mut all = sessions.iter().zip(&answers);
                let reached = all.any(|(s, a)| goal.met(&Seen::new(&s.bytes, a)));
                if !reached {
                    missed.push(format!("{}, seed {seed}: {}", kind.name, goal.name));
                }
            }
            for (number, (session, answers)) in sessions.iter().zip(&answers).enumerate() {
                let stated = session.answered_as_stated(answers);
                assert!(stated, "{}, seed {seed}, {number}: {answers:?}", kind.name);
            }
        }
    }
    assert!(missed.is_empty(), "{missed:?}");
}

/// The draft has a fault that this number, 2 to 8, is for, whatever else is wrong in it.
fn has_fault(draft: &Draft, number: u8) -> bool {
    let table = &draft.table;
    let masks = table.initial | table.standing | table.accepting;
    let (n, m, e) = (table.states, table.letters, table.lines.len());
    match number {
        2 => table.version != 1,
        3 => !(1..=16).contains(&n) || !(1..=32).contains(&m) || e > 64,
        4 => table
            .length
            .map_or(false, |length| usize::from(length) != 12 + 12 * e),
        5 => (n..16).any(|state| masks >> state & 1 == 1),
        6 => (table.lines.iter()).any(|l| l.from >= n || l.to >= n || l.letter >= m || l.flags > 1),
        7 => (table.lines.iter()).any(|l| {
            let late = |age: u32| age > 31_622_400;
            late(l.least) || late(l.greatest) && l.greatest != NONE || l.greatest < l.least
        }),
        _ => !(1..=64).contains(&draft.room),
    }
}

#[test]
fn a_pair_has_both_faults() {
    let all_pairs = (1..=12).flat_map(|a| (a + 1..=12).map(move |b| (a, b)));
    for (number, (a, b)) in all_pairs.enumerate() {
        for round in 0..40 {
            let number = number + round * PAIRS;
            let draft = pair(&mut Random::new(1, "pairs", number), number).draft;
            for fault in [a, b] {
                let has = !(2..=8).contains(&fault) || has_fault(&draft, fault);
                assert!(has, "({a}, {b}) without {fault}, round {round}");
            }
        }
    }
}

fn count_of(answer: &Answer) -> Option<usize> {
    match answer {
        Answer::Stands { count, .. } => Some(*count),
        Answer::Refused(_) => None,
    }
}

#[test]
fn only_a_letter_can_want_for_room() {
    for name in ["small", "gaps", "wide", "rooms", "heavy"] {
        let kind = named(name).unwrap();
        for number in 0..kind.least {
            let bytes = kind.session(5, number).bytes;
            let answers = answers::<Spells>(&bytes);
            let mut held = count_of(&answers[0]).expect("a start in order");
            assert!(held <= 1, "a start: {name}, session {number}");
            for (symbol, answer) in Seen::new(&bytes, &answers).steps {
                let count = match count_of(&answer) {
                    Some(count) => count,
                    None => continue,
                };
                match symbol {
                    Symbol::Gap => assert!(count <= 1, "a gap: {name}, session {number}"),
                    Symbol::Span(_) => assert!(count <= held, "a span: {name}, session {number}"),
                    Symbol::Letter(_) => {}
                }
                held = count;
            }
        }
    }
}

#[test]
fn both_forms_are_alike() {
    for name in [
        "small", "gaps", "rooms", "faults", "pairs", "damaged", "cut",
    ] {
        let kind = named(name).unwrap();
        for number in 0..500 {
            let bytes = kind.session(99, number).bytes;
            let alike = answers::<Ages>(&bytes) == answers::<Spells>(&bytes);
            assert!(alike, "{name}, session {number}");
        }
    }
}
