//! Records that break one clause and no other, at each place where it can be broken.

use crate::generate::random::Random;
use crate::judge::probe::Kind;
use crate::judge::reached::Label;
use crate::judge::records::{held, Held, ONE_CLAUSE};
use crate::judge::Case;
use crate::record::{broken, Clause, Pair, Record, CLAUSES, PLACES};
use crate::table::Table;

/// Where a clause is broken. Used places first, then unused ones.
#[derive(Clone, Copy, Debug, PartialEq, Eq)]
enum Spot {
    /// It is said of the record as a whole.
    Whole,
    First,
    Middle,
    Last,
    /// Place 63, used.
    Full,
    FirstUnused,
    MiddleUnused,
    LastUnused,
}

impl Spot {
    fn name(self) -> &'static str {
        match self {
            Spot::Whole => "the record",
            Spot::First => "first place",
            Spot::Middle => "a middle place",
            Spot::Last => "last place used",
            Spot::Full => "place 63, used",
            Spot::FirstUnused => "first place unused",
            Spot::MiddleUnused => "a middle place, unused",
            Spot::LastUnused => "place 63, unused",
        }
    }

    /// The place, if the record has it.
    fn place(self, random: &mut Random, record: &Record) -> Option<usize> {
        let (count, end) = (record.stretches().len(), PLACES - 1);
        let between = |random: &mut Random, low: usize, high: usize| {
            (low + 1 < high).then(|| random.from(low as u64 + 1, high as u64 - 1) as usize)
        };
        match self {
            Spot::Whole => Some(0),
            Spot::First => (count > 0).then_some(0),
            Spot::Middle => between(random, 0, count.max(1) - 1),
            Spot::Last => (1 < count && count <= end).then(|| count - 1),
            Spot::Full => (count == PLACES).then_some(end),
            Spot::FirstUnused => (count <= end).then_some(count),
            Spot::MiddleUnused => between(random, count, end),
            Spot::LastUnused => (count < end).then_some(end),
        }
    }
}

/// Each clause with the places at which it can be broken alone: before the last stretch, one that reaches beyond H
/// meets the next one too.
fn aims() -> Vec<(Clause, Spot)> {
    let used = [Spot::First, Spot::Middle, Spot::Last, Spot::Full];
    let unused = [Spot::FirstUnused, Spot::MiddleUnused, Spot::LastUnused];
    let spots = |clause| match clause {
        Clause::Room | Clause::Count | Clause::AbovePart | Clause::AboveStates => {
            &[Spot::Whole][..]
        }
        Clause::Within => &used[2..],
        Clause::Unused => &unused[..],
        _ => &used[..],
    };
    let of = |&clause: &Clause| -> Vec<_> {
        (spots(clause).iter()).map(|&spot| (clause, spot)).collect()
    };
    CLAUSES.iter().flat_map(of).collect()
}

fn label((clause, spot): (Clause, Spot)) -> String {
    format!("{}: {}", clause.name(), spot.name())
}

/// The labels that must be reached.
pub fn labels() -> Vec<Label> {
    let of = |aim| (ONE_CLAUSE, label(aim));
    aims().into_iter().map(of).collect()
}

/// A record that breaks a clause at a place, and nothing else.
pub fn aimed(random: &mut Random) -> Case {
    let aim = random.pick(&aims());
    aimed_at(random, aim)
}

/// One such record for each clause and place.
pub fn each(random: &mut Random) -> Vec<Case> {
    let aims = aims().into_iter();
    aims.map(|aim| aimed_at(random, aim)).collect()
}

fn aimed_at(random: &mut Random, aim: (Clause, Spot)) -> Case {
    loop {
        let mut held = held(random);
        let hit = spoil(random, &mut held, aim).is_some();
        if hit && broken(&held.record, &held.table) == [aim.0] {
            return Case::plain(Kind::Record, ONE_CLAUSE, held.load()).stated(label(aim), &[8]);
        }
    }
}

/// The record with two clauses broken, or more.
pub fn spoiled_twice(random: &mut Random, mut held: Held) -> Held {
    while broken(&held.record, &held.table).len() < 2 {
        let aim = random.pick(&aims());
        spoil(random, &mut held, aim);
    }
    held
}

/// Breaks the clause at the place, if the record has such a place.
fn spoil(random: &mut Random, held: &mut Held, (clause, spot): (Clause, Spot)) -> Option<()> {
    let (record, table) = (&mut held.record, &held.table);
    let at = spot.place(random, record)?;
    match clause {
        Clause::Room => record.room = random.pick(&[0, 65, 66, 128, 255]),
        Clause::Count if record.count == 64 && random.one_in(2) => {
            record.count = random.pick(&[65, 66, 128, 255]);
        }
        Clause::Count => {
            let short = u64::from(record.count).checked_sub(1)?;
            record.room = random.from(short.min(1), short) as u8;
        }
        Clause::Rising | Clause::Disjoint | Clause::Touching => {
            // the last stretch has its neighbour before it
            let last = record.stretches().len().checked_sub(1)?;
            spoil_neighbours(random, record, clause, at.min(last.checked_sub(1)?));
        }
        Clause::Within => spoil_within(random, record, table, at)?,
        Clause::Ends => spoil_ends(random, record, at)?,
        Clause::NonEmpty => record.places[at].pair = Pair::default(),
        Clause::Part => spoil_part(random, &mut record.places[at].pair, table),
        Clause::States => spoil_states(random, &mut record.places[at].pair, table)?,
        Clause::AbovePart => spoil_part(random, &mut record.above, table),
        Clause::AboveStates => spoil_states(random, &mut record.above, table)?,
        Clause::Unused => {
            let place = &mut record.places[at];
            let bit = random.from(0, 15);
            match random.from(0, 3) {
                0 => place.first = 1 << (2 * bit),
                1 => place.last = 1 << (2 * bit),
                2 => place.pair.sure = 1 << bit,
                _ => place.pair.possible = 1 << bit,
            }
        }
    }
    Some(())
}

/// The stretches at this place and the next: swapped, meeting, or touching with the same pair.
fn spoil_neighbours(random: &mut Random, record: &mut Record, clause: Clause, at: usize) {
    let next = record.places[at + 1];
    match clause {
        Clause::Rising => record.places.swap(at, at + 1),
        Clause::Disjoint => {
            let (first, last) = (next.first, next.last.max(next.first));
            let any = random.from(u64::from(first), u64::from(last)) as u32;
            record.places[at].last = random.pick(&[first, last, any]);
        }
        _ => {
            record.places[at].last = next.first.saturating_sub(1);
            record.places[at + 1].pair = record.places[at].pair;
        }
    }
}

fn spoil_within(random: &mut Random, record: &mut Record, table: &Table, at: usize) -> Option<()> {
    let place = record.places.get_mut(at)?;
    let above = table.horizon as u32 + 1;
    let far = random.from(u64::from(above), u64::from(u32::MAX)) as u32;
    place.last = random.pick(&[above, above, u32::MAX, far]);
    if random.one_in(4) {
        place.first = place.last;
    }
    Some(())
}

fn spoil_ends(random: &mut Random, record: &mut Record, at: usize) -> Option<()> {
    let place = &mut record.places[at];
    if random.one_in(2) {
        place.first = place.last.checked_add(1)?;
    } else {
        place.last = place.first.checked_sub(1)?;
    }
    Some(())
}

/// A state is sure and not possible.
fn spoil_part(random: &mut Random, pair: &mut Pair, table: &Table) {
    let state = 1 << random.from(0, table.states as u64 - 1);
    pair.sure |= state;
    pair.possible &= !state;
}

/// State n or one above is possible, and in half of the cases sure.
fn spoil_states(random: &mut Random, pair: &mut Pair, table: &Table) -> Option<()> {
    let n = table.states as u64;
    if n > 15 {
        return None;
    }
    let any = random.from(n, 15);
    let state = 1 << random.pick(&[n, any]);
    pair.possible |= state;
    if random.one_in(2) {
        pair.sure |= state;
    }
    Some(())
}
