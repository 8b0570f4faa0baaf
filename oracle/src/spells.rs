//! A set of configurations as spells: for each state, the ages at which it is held, as spells from a first age to a
//! last, in rising order and not touching each other. Ages are the true ones, without bound, so that nothing here knows
//! of the horizon but the questions that speak of it.

use crate::record::{Pair, Place};
use crate::table::{members, States, Table};
use crate::watch::{Configurations, Row};
use std::collections::BTreeSet;

/// The last age of a spell without end.
const FOREVER: u64 = u64::MAX;

/// Ages from `first` to `last`, both in.
#[derive(Clone, Copy, Debug, PartialEq, Eq)]
struct Spell {
    first: u64,
    last: u64,
}

#[derive(Clone, Debug)]
pub struct Spells {
    /// One list for each state.
    held: Vec<Vec<Spell>>,
}

impl Spells {
    /// Sorts each state's spells and joins those that overlap or touch.
    fn tidy(mut held: Vec<Vec<Spell>>) -> Spells {
        for spells in &mut held {
            spells.sort_by_key(|spell| spell.first);
            let mut tidy: Vec<Spell> = Vec::new();
            for spell in spells.drain(..) {
                match tidy.last_mut() {
                    Some(before) if spell.first <= before.last.saturating_add(1) => {
                        before.last = before.last.max(spell.last);
                    }
                    _ => tidy.push(spell),
                }
            }
            *spells = tidy;
        }
        Spells { held }
    }

    /// The state's spells as far as they lie in `first` to `last`.
    fn within(&self, state: usize, first: u64, last: u64) -> impl Iterator<Item = Spell> + '_ {
        let cut = move |spell: &Spell| Spell {
            first: spell.first.max(first),
            last: spell.last.min(last),
        };
        self.held[state]
            .iter()
            .map(cut)
            .filter(|spell| spell.first <= spell.last)
    }

    /// The states held at an age.
    fn at(&self, age: u64) -> States {
        let holds = |spells: &Vec<Spell>| {
            let next = spells.partition_point(|spell| spell.last < age);
            next < spells.len() && spells[next].first <= age
        };
        let states = (0..self.held.len()).filter(|&state| holds(&self.held[state]));
        states.fold(0, |set, state| set | 1 << state)
    }
}

impl Configurations for Spells {
    fn newborn(table: &Table, states: States) -> Spells {
        let mut held = vec![Vec::new(); table.states];
        for state in members(states) {
            held[state].push(Spell { first: 0, last: 0 });
        }
        Spells { held }
    }

    fn everything(table: &Table) -> Spells {
        let always = Spell {
            first: 0,
            last: FOREVER,
        };
        Spells {
            held: vec![vec![always]; table.states],
        }
    }

    fn at_ages(table: &Table, rows: &[Row]) -> Spells {
        let mut held = vec![Vec::new(); table.states];
        for (states, ages) in rows {
            let (&first, &last) = (ages.start(), ages.end());
            for state in members(*states) {
                held[state].push(Spell { first, last });
            }
        }
        Spells::tidy(held)
    }

    fn after_letter(&self, table: &Table, letter: u8) -> Spells {
        let mut after = Spells::newborn(table, table.standing).held;
        for line in table.on(letter) {
            let taken = self.within(line.from, line.least, line.greatest.unwrap_or(FOREVER));
            for spell in taken {
                let newborn = Spell { first: 0, last: 0 };
                after[line.to].push(if line.resets { newborn } else { spell });
            }
        }
        Spells::tidy(after)
    }

    fn after_span(&self, _: &Table, seconds: u32) -> Spells {
        let older = |age: u64| age.saturating_add(u64::from(seconds));
        let mut after = self.clone();
        for spell in after.held.iter_mut().flatten() {
            spell.first = older(spell.first);
            spell.last = older(spell.last);
        }
        after
    }

    fn accepts(&self, table: &Table) -> bool {
        members(table.accepting).any(|state| !self.held[state].is_empty())
    }

    fn same(&self, other: &Spells, table: &Table) -> bool {
        let low =
            |set: &Spells, state| -> Vec<Spell> { set.within(state, 0, table.horizon).collect() };
        self.above(table) == other.above(table)
            && (0..table.states).all(|state| low(self, state) == low(other, state))
    }

    fn above(&self, table: &Table) -> States {
        let is_above = |state| {
            self.within(state, table.horizon + 1, FOREVER)
                .next()
                .is_some()
        };
        let states = (0..table.states).filter(|&state| is_above(state));
        states.fold(0, |set, state| set | 1 << state)
    }

    fn stretches(sure: &Spells, possible: &Spells, table: &Table) -> Vec<Place> {
        // the pair changes where some spell begins and directly after one ends, for a state's spells do not touch; and
        // nowhere else
        let mut changes = BTreeSet::from([0]);
        for state in 0..table.states {
            for set in [sure, possible] {
                for spell in set.within(state, 0, table.horizon) {
                    changes.extend([spell.first, spell.last + 1]);
                }
            }
        }
        changes.remove(&(table.horizon + 1));
        let lasts = changes.iter().skip(1).map(|next| next - 1);
        (changes.iter().zip(lasts.chain([table.horizon])))
            .map(|(&first, last)| Place {
                first: first as u32,
                last: last as u32,
                pair: Pair {
                    sure: sure.at(first),
                    possible: possible.at(first),
                },
            })
            .filter(|stretch| stretch.pair.possible != 0)
            .collect()
    }
}
