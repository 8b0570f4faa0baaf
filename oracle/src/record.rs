//! The record: its bytes, and the sentence of document 01 that says which records are proper, clause by clause.

use crate::table::{big_endian, States, Table};

/// A record has so many places, whatever its room.
pub const PLACES: usize = 64;
/// Room, count, the places of 12 bytes each, the pair above H.
pub const SIZE: usize = 2 + 12 * PLACES + 4;

#[derive(Clone, Copy, Debug, Default, PartialEq, Eq)]
pub struct Pair {
    pub sure: States,
    pub possible: States,
}

/// A stretch, or all zero where none is held.
#[derive(Clone, Copy, Debug, Default, PartialEq, Eq)]
pub struct Place {
    pub first: u32,
    pub last: u32,
    pub pair: Pair,
}

#[derive(Clone, Debug, PartialEq, Eq)]
pub struct Record {
    pub room: u8,
    pub count: u8,
    pub places: [Place; PLACES],
    /// For all ages above H.
    pub above: Pair,
}

impl Pair {
    fn read(bytes: &[u8]) -> Pair {
        Pair {
            sure: big_endian(&bytes[..2]) as States,
            possible: big_endian(&bytes[2..4]) as States,
        }
    }

    fn bytes(&self) -> Vec<u8> {
        [self.sure.to_be_bytes(), self.possible.to_be_bytes()].concat()
    }
}

impl Record {
    /// Nothing is held, in this room.
    pub fn empty(room: u8) -> Record {
        Record {
            room,
            count: 0,
            places: [Place::default(); PLACES],
            above: Pair::default(),
        }
    }

    /// The record in so many bytes, proper or not.
    pub fn read(bytes: &[u8; SIZE]) -> Record {
        let mut record = Record::empty(bytes[0]);
        record.count = bytes[1];
        for (place, bytes) in record.places.iter_mut().zip(bytes[2..].chunks(12)) {
            *place = Place {
                first: big_endian(&bytes[..4]) as u32,
                last: big_endian(&bytes[4..8]) as u32,
                pair: Pair::read(&bytes[8..]),
            };
        }
        record.above = Pair::read(&bytes[SIZE - 4..]);
        record
    }

    pub fn bytes(&self) -> Vec<u8> {
        let mut bytes = vec![self.room, self.count];
        for place in &self.places {
            bytes.extend(place.first.to_be_bytes());
            bytes.extend(place.last.to_be_bytes());
            bytes.extend(place.pair.bytes());
        }
        bytes.extend(self.above.bytes());
        bytes
    }

    /// A count above 64 has no places beyond the 64th.
    fn used(&self) -> usize {
        usize::from(self.count).min(PLACES)
    }

    pub fn stretches(&self) -> &[Place] {
        &self.places[..self.used()]
    }

    pub fn unused(&self) -> &[Place] {
        &self.places[self.used()..]
    }
}

/// What is asked of a proper record, one after the other.
#[derive(Clone, Copy, Debug, PartialEq, Eq)]
pub enum Clause {
    Room,
    Count,
    Rising,
    Disjoint,
    Within,
    Ends,
    NonEmpty,
    Touching,
    Part,
    States,
    AbovePart,
    AboveStates,
    Unused,
}

pub const CLAUSES: [Clause; 13] = [
    Clause::Room,
    Clause::Count,
    Clause::Rising,
    Clause::Disjoint,
    Clause::Within,
    Clause::Ends,
    Clause::NonEmpty,
    Clause::Touching,
    Clause::Part,
    Clause::States,
    Clause::AbovePart,
    Clause::AboveStates,
    Clause::Unused,
];

impl Clause {
    /// In the words of document 01.
    pub fn name(self) -> &'static str {
        match self {
            Clause::Room => "room 1 to 64",
            Clause::Count => "count at most room",
            Clause::Rising => "rising order",
            Clause::Disjoint => "disjoint",
            Clause::Within => "within 0 to H",
            Clause::Ends => "first at most last",
            Clause::NonEmpty => "possible non-empty",
            Clause::Touching => "touching differ",
            Clause::Part => "sure part of possible",
            Clause::States => "no state n or above",
            Clause::AbovePart => "above H: sure part of possible",
            Clause::AboveStates => "above H: no state n or above",
            Clause::Unused => "unused places zero",
        }
    }

    /// Each clause is asked by itself, also of a record that breaks others.
    pub fn holds(self, record: &Record, table: &Table) -> bool {
        let stretches = record.stretches();
        match self {
            Clause::Room => (1..=64).contains(&record.room),
            Clause::Count => record.count <= record.room,
            Clause::Rising => in_pairs(stretches, |a, b| a.first < b.first),
            Clause::Disjoint => in_pairs(stretches, |a, b| !overlap(a, b)),
            Clause::Within => (stretches.iter())
                .flat_map(|stretch| [stretch.first, stretch.last])
                .all(|age| u64::from(age) <= table.horizon),
            Clause::Ends => stretches
                .iter()
                .all(|stretch| stretch.first <= stretch.last),
            Clause::NonEmpty => (stretches.iter())
                .all(|stretch| (0..16).any(|state| holds(stretch.pair.possible, state))),
            Clause::Touching => in_pairs(stretches, |a, b| {
                !(touch(a, b) || touch(b, a)) || !same(a.pair, b.pair)
            }),
            Clause::Part => stretches.iter().all(|stretch| part(stretch.pair)),
            Clause::States => stretches.iter().all(|stretch| known(stretch.pair, table)),
            Clause::AbovePart => part(record.above),
            Clause::AboveStates => known(record.above, table),
            Clause::Unused => (record.unused().iter()).all(|place| *place == Place::default()),
        }
    }
}

/// The clauses that the record breaks.
pub fn broken(record: &Record, table: &Table) -> Vec<Clause> {
    let breaks = |clause: &Clause| !clause.holds(record, table);
    CLAUSES.into_iter().filter(breaks).collect()
}

pub fn proper(record: &Record, table: &Table) -> bool {
    CLAUSES.iter().all(|clause| clause.holds(record, table))
}

/// Said of every two stretches, the one at the earlier place first.
fn in_pairs(stretches: &[Place], said: impl Fn(&Place, &Place) -> bool) -> bool {
    (0..stretches.len()).all(|j| (0..j).all(|i| said(&stretches[i], &stretches[j])))
}

/// Some age is in both.
fn overlap(a: &Place, b: &Place) -> bool {
    a.first.max(b.first) <= a.last.min(b.last)
}

/// The next age after the one is the other's first.
fn touch(before: &Place, after: &Place) -> bool {
    u64::from(before.last) + 1 == u64::from(after.first)
}

fn holds(set: States, state: usize) -> bool {
    set >> state & 1 == 1
}

fn same(a: Pair, b: Pair) -> bool {
    let alike = |a, b| (0..16).all(|state| holds(a, state) == holds(b, state));
    alike(a.sure, b.sure) && alike(a.possible, b.possible)
}

/// Every sure state is possible.
fn part(pair: Pair) -> bool {
    (0..16).all(|state| !holds(pair.sure, state) || holds(pair.possible, state))
}

/// No state is n or above, sure or possible.
fn known(pair: Pair, table: &Table) -> bool {
    (table.states..16).all(|state| !holds(pair.sure, state) && !holds(pair.possible, state))
}
