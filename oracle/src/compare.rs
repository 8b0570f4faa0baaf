//! Holds a given `watch` to this program's lines: what it prints for generated sessions is compared byte for byte.

use crate::generate::goals::{Goal, Seen};
use crate::generate::kinds::{Kind, Session};
use crate::run::{hex, on_all_processors, Failure};
use crate::spells::Spells;
use crate::watch::{answers, lines, Answer};
use std::sync::atomic::{AtomicUsize, Ordering};

/// What is compared: so many sessions of a kind, made from the seed.
pub struct Plan {
    pub kind: &'static Kind,
    pub sessions: usize,
    pub seed: u64,
}

/// What the watch prints for a session, given by its number and its bytes.
pub type Asked<'a> = &'a (dyn Fn(usize, &[u8]) -> Result<Vec<u8>, Failure> + Sync);

/// The lines compared, or why the comparison fails.
pub type Outcome = Result<usize, Failure>;

/// Compares all sessions of a plan, on all processors, and looks whether the kind's goals were reached.
pub fn compare(plan: &Plan, asked: Asked) -> Outcome {
    if plan.sessions < plan.kind.least {
        let few = format!(
            "{}: {} sessions cannot reach the kind's goals, it takes {}",
            plan.kind.name, plan.sessions, plan.kind.least
        );
        return Err(few.into());
    }
    let goals = (plan.kind.goals)();
    let reached: Vec<AtomicUsize> = goals.iter().map(|_| AtomicUsize::new(0)).collect();
    let compared = AtomicUsize::new(0);
    on_all_processors(plan.sessions, |number| {
        let session = plan.kind.session(plan.seed, number);
        let expected = answers::<Spells>(&session.bytes);
        note_goals(&goals, &reached, &Seen::new(&session.bytes, &expected));
        compare_one(plan, asked, &session, &expected, number)?;
        compared.fetch_add(expected.len(), Ordering::SeqCst);
        Ok(())
    })?;
    let missed: Vec<&str> = (goals.iter().zip(&reached))
        .filter(|(_, times)| times.load(Ordering::SeqCst) == 0)
        .map(|(goal, _)| goal.name.as_str())
        .collect();
    if missed.is_empty() {
        Ok(compared.into_inner())
    } else {
        let missed = missed.join("; ");
        Err(format!("{}: no session reached: {missed}", plan.kind.name).into())
    }
}

fn note_goals(goals: &[Goal], reached: &[AtomicUsize], seen: &Seen) {
    for (goal, times) in goals.iter().zip(reached) {
        if goal.met(seen) {
            times.fetch_add(1, Ordering::SeqCst);
        }
    }
}

fn compare_one(
    plan: &Plan,
    asked: Asked,
    session: &Session,
    expected: &[Answer],
    number: usize,
) -> Result<(), Failure> {
    let expected_lines = lines(expected);
    let place = format!(
        "kind {}, seed {}, session {number} ({} bytes)",
        plan.kind.name,
        plan.seed,
        session.bytes.len()
    );
    if !session.answered_as_stated(expected) {
        let otherwise = format!(
            "the second program does not answer as stated, {:?} {:?}\n{expected_lines}",
            session.refusals, session.lines
        );
        return Err(Failure::from(otherwise).at(&place, &session.bytes));
    }
    let printed =
        asked(number, &session.bytes).map_err(|failure| failure.at(&place, &session.bytes))?;
    if printed == expected_lines.as_bytes() {
        return Ok(());
    }
    let printed = String::from_utf8_lossy(&printed);
    let alike = (printed.lines().zip(expected_lines.lines())).take_while(|(a, b)| a == b);
    Err(Failure::from(format!(
        "{place} differs after {} lines\n{}\n-- expected\n{expected_lines}-- printed\n{printed}",
        alike.count(),
        hex(&session.bytes)
    )))
}
