//! The record: stretches of ages, each with its pair, and one pair for all ages above the horizon.

use crate::table::{Row, Table};
use std::ops::BitOrAssign;

/// The sure and the possible states, bit i for state i, in the low and the high half of one word: a pair is compared
/// and joined in one step.
#[derive(Clone, Copy, Default, PartialEq, Eq)]
pub struct Pair(u32);

impl Pair {
    pub fn new(sure: u16, possible: u16) -> Pair {
        Pair(u32::from(possible) << 16 | u32::from(sure))
    }

    pub fn same(states: u16) -> Pair {
        Pair::new(states, states)
    }

    pub fn sure(self) -> u16 {
        self.0 as u16
    }

    pub fn possible(self) -> u16 {
        (self.0 >> 16) as u16
    }

    pub fn is_same(self) -> bool {
        self.0 == self.0.rotate_left(16)
    }

    fn is_empty(self) -> bool {
        // what is sure is possible
        self.0 == 0
    }
}

impl BitOrAssign for Pair {
    fn bitor_assign(&mut self, other: Pair) {
        self.0 |= other.0;
    }
}

#[derive(Clone, Copy, Default)]
struct Stretch {
    first: u32,
    last: u32,
    pair: Pair,
}

#[derive(Clone, Copy)]
pub enum Verdict {
    Yes,
    No,
    Unsure,
}

/// The greatest room, and the place of age 0 in front of it.
const PLACES: usize = 65;

/// The stretches stand in `places` from `begin` on, rising, up to `end`. `begin` is 0 or 1: a letter writes the ages
/// above 0 from place 1 on, and what stands at age 0 is known only when it has walked them all.
#[derive(Clone, Copy)]
pub struct Record {
    places: [Stretch; PLACES],
    begin: usize,
    end: usize,
    above: Pair,
}

impl Record {
    pub fn empty() -> Record {
        Record {
            places: [Stretch::default(); PLACES],
            begin: 1,
            end: 1,
            above: Pair::default(),
        }
    }

    pub fn count(&self) -> usize {
        self.end - self.begin
    }

    fn stretches(&self) -> &[Stretch] {
        &self.places[self.begin..self.end]
    }

    /// What stands at age 0, in front of the others: it goes on in the one that begins at age 1 with the same pair.
    fn put_newborn(&mut self, pair: Pair) {
        self.begin = 1;
        if pair.is_empty() {
            return;
        }
        let next = &mut self.places[1];
        if self.end > 1 && next.first == 1 && next.pair == pair {
            next.first = 0;
            return;
        }
        self.places[0] = Stretch {
            first: 0,
            last: 0,
            pair,
        };
        self.begin = 0;
    }

    pub fn start(&mut self, table: &Table) {
        self.end = 1;
        self.above = Pair::default();
        self.put_newborn(Pair::same(table.initial));
    }

    /// Nothing is sure and everything is possible, at every age.
    pub fn gap(&mut self, table: &Table) {
        let anything = Pair::new(0, table.all);
        self.places[0] = Stretch {
            first: 0,
            last: table.horizon,
            pair: anything,
        };
        self.begin = 0;
        self.end = 1;
        self.above = anything;
    }

    /// Every age is so many seconds later. No sum passes 32 bits: a span and the horizon together do not.
    pub fn span(&mut self, table: &Table, seconds: u32) {
        // they rise, so that those which pass the horizon are the last ones
        while self.end > self.begin {
            let newest = &mut self.places[self.end - 1];
            if newest.last + seconds <= table.horizon {
                break;
            }
            self.above |= newest.pair;
            if newest.first + seconds <= table.horizon {
                newest.last = table.horizon - seconds;
                break;
            }
            self.end -= 1;
        }
        for stretch in &mut self.places[self.begin..self.end] {
            stretch.first += seconds;
            stretch.last += seconds;
        }
    }

    /// What a letter makes of this record, into `next`; the stretches and the letter's rows are walked side by side.
    /// False where the room does not take it: `next` is of no use then.
    // by itself, so that the walk has the registers to itself
    #[inline(never)]
    pub fn letter(&self, mut rows: &[Row], standing: u16, room: usize, next: &mut Record) -> bool {
        let mut newborn = Pair::same(standing);
        match self.stretches() {
            [young, ..] if young.first == 0 => {
                let (kept, reset) = rows[0].led(young.pair);
                newborn |= kept;
                newborn |= reset;
            }
            _ => {}
        }
        let mut end = 1;
        let mut newest = Stretch::default();
        for stretch in self.stretches() {
            let mut age = stretch.first.max(1);
            while age <= stretch.last {
                // the last row has no end
                while rows[0].last < age {
                    rows = &rows[1..];
                }
                let last = stretch.last.min(rows[0].last);
                let (kept, reset) = rows[0].led(stretch.pair);
                newborn |= reset;
                if kept.is_empty() {
                    // nothing is held at these ages
                } else if newest.last + 1 == age && newest.pair == kept {
                    newest.last = last;
                    next.places[end - 1].last = last;
                } else if end <= room {
                    newest = Stretch {
                        first: age,
                        last,
                        pair: kept,
                    };
                    next.places[end] = newest;
                    end += 1;
                } else {
                    return false;
                }
                age = last + 1;
            }
        }
        // above the horizon no condition changes any more
        let (kept, reset) = rows[rows.len() - 1].led(self.above);
        newborn |= reset;
        next.above = kept;
        next.end = end;
        next.put_newborn(newborn);
        next.count() <= room
    }

    /// The verdict, and whether it is settled.
    pub fn said(&self, table: &Table) -> (Verdict, bool) {
        let mut held = self.above;
        let mut settled = held.is_same();
        for stretch in self.stretches() {
            held |= stretch.pair;
            settled &= stretch.pair.is_same();
        }
        let verdict = if held.sure() & table.accepting != 0 {
            Verdict::Yes
        } else if held.possible() & table.accepting == 0 {
            Verdict::No
        } else {
            Verdict::Unsure
        };
        (verdict, settled)
    }
}
