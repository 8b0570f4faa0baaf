//! A set of configurations written down age by age: for each age 0 to H the states held at it, and at place H + 1 the
//! states held at any age above H. Nothing is saved: a horizon of a year makes 31,622,402 places.

use crate::record::{Pair, Place};
use crate::table::{States, Table};
use crate::watch::{Configurations, Row};

#[derive(Clone, Debug, PartialEq, Eq)]
pub struct Ages {
    held: Vec<States>,
}

impl Ages {
    pub fn empty(table: &Table) -> Ages {
        Ages {
            held: vec![0; table.horizon as usize + 2],
        }
    }

    /// The states held at an age, or above H at any age above H.
    pub fn at(&self, age: u64) -> States {
        self.held[self.place(age)]
    }

    pub fn add(&mut self, states: States, age: u64) {
        let place = self.place(age);
        self.held[place] |= states;
    }

    fn place(&self, age: u64) -> usize {
        (self.held.len() - 1).min(age as usize)
    }
}

impl Configurations for Ages {
    fn newborn(table: &Table, states: States) -> Ages {
        let mut set = Ages::empty(table);
        set.add(states, 0);
        set
    }

    fn everything(table: &Table) -> Ages {
        let mut set = Ages::empty(table);
        set.held.fill(table.all());
        set
    }

    fn at_ages(table: &Table, rows: &[Row]) -> Ages {
        let mut set = Ages::empty(table);
        for (states, ages) in rows {
            for age in *ages.start()..=(*ages.end()).min(table.horizon + 1) {
                set.add(*states, age);
            }
        }
        set
    }

    fn after_letter(&self, table: &Table, letter: u8) -> Ages {
        let lines: Vec<_> = table.on(letter).collect();
        let mut after = Ages::empty(table);
        for (age, &states) in self.held.iter().enumerate() {
            if states == 0 {
                continue;
            }
            for line in &lines {
                if states >> line.from & 1 == 1 && line.admits(age as u64) {
                    after.add(1 << line.to, if line.resets { 0 } else { age as u64 });
                }
            }
        }
        after.add(table.standing, 0);
        after
    }

    fn after_span(&self, table: &Table, seconds: u32) -> Ages {
        let mut after = Ages::empty(table);
        for (age, &states) in self.held.iter().enumerate() {
            after.add(states, age as u64 + u64::from(seconds));
        }
        after
    }

    fn accepts(&self, table: &Table) -> bool {
        self.held.iter().any(|states| states & table.accepting != 0)
    }

    fn same(&self, other: &Ages, _: &Table) -> bool {
        self == other
    }

    fn above(&self, table: &Table) -> States {
        self.at(table.horizon + 1)
    }

    fn stretches(sure: &Ages, possible: &Ages, table: &Table) -> Vec<Place> {
        let mut runs: Vec<Place> = Vec::new();
        for age in 0..=table.horizon as u32 {
            let at = |set: &Ages| set.at(u64::from(age));
            let (sure, possible) = (at(sure), at(possible));
            let pair = Pair { sure, possible };
            match runs.last_mut() {
                _ if possible == 0 => {}
                Some(run) if run.last + 1 == age && run.pair == pair => run.last = age,
                _ => runs.push(Place {
                    first: age,
                    last: age,
                    pair,
                }),
            }
        }
        runs
    }
}
