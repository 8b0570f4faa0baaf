//! What the cases of a part reached.

use crate::judge::Case;
use std::collections::BTreeMap;

/// A making and what its cases show.
pub type Label = (&'static str, String);

#[derive(Default)]
pub struct Reached {
    /// All cases.
    pub cases: usize,
    numbers: BTreeMap<(&'static str, u8), usize>,
    labels: BTreeMap<Label, BTreeMap<u8, usize>>,
}

impl Reached {
    /// Notes a case, its label and what else it shows.
    pub fn note(&mut self, case: &Case, shows: Vec<String>) {
        let number = case.number();
        self.cases += 1;
        *self.numbers.entry((case.making, number)).or_default() += 1;
        let labels = shows.into_iter().chain([case.label.clone()]);
        for label in labels.filter(|label| !label.is_empty()) {
            let numbers = self.labels.entry((case.making, label)).or_default();
            *numbers.entry(number).or_default() += 1;
        }
    }

    /// How many cases of this making were answered with the number.
    pub fn times(&self, making: &'static str, number: u8) -> usize {
        self.numbers.get(&(making, number)).copied().unwrap_or(0)
    }

    /// The numbers that the cases with this label were answered with.
    pub fn numbers_of(&self, label: &Label) -> Vec<u8> {
        let numbers = self.labels.get(label);
        numbers.map_or(Vec::new(), |numbers| numbers.keys().copied().collect())
    }

    /// How many cases have the label of these that is the rarest.
    pub fn rarest(&self, labels: &[Label]) -> usize {
        let times = |label| {
            let numbers = self.labels.get(label);
            numbers.map_or(0, |numbers| numbers.values().sum())
        };
        labels.iter().map(times).min().unwrap_or(0)
    }

    /// How many labels this making reached.
    pub fn labels(&self, making: &str) -> usize {
        self.labels.keys().filter(|label| label.0 == making).count()
    }
}
