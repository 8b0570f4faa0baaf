//! What a session is made of, and its bytes.

use std::ops::RangeInclusive;

/// The longest session, in bytes.
const LONGEST: usize = 32_768;
/// The greatest age of a line that has none.
pub const UNBOUNDED: u32 = u32::MAX;

#[derive(Clone, Copy)]
pub enum Entry {
    Letter(u8),
    Span(u32),
    Gap,
}

pub const KEEPS: u8 = 0;
pub const RESETS: u8 = 1;

/// From, letter, to, flags, least and greatest age.
pub type Line = (u8, u8, u8, u8, u32, u32);

pub struct Table {
    pub states: u8,
    pub letters: u8,
    pub initial: u16,
    pub standing: u16,
    pub accepting: u16,
    pub lines: Vec<Line>,
}

pub struct Session {
    pub name: String,
    pub room: u8,
    pub table: Table,
    pub lead: Vec<Entry>,
    pub mix: Vec<Entry>,
    /// How many entries of the mix, over and over, the two lengths have.
    pub short: usize,
    pub long: usize,
    /// How many stretches are held during the mix.
    pub held: RangeInclusive<usize>,
    /// At least so many of a hundred lines of the mix are open.
    pub open: usize,
}

impl Table {
    fn bytes(&self) -> Vec<u8> {
        let length = (12 + 12 * self.lines.len()) as u16;
        let mut bytes = vec![1];
        bytes.extend(length.to_be_bytes());
        bytes.extend([self.states, self.letters]);
        for mask in [self.initial, self.standing, self.accepting] {
            bytes.extend(mask.to_be_bytes());
        }
        bytes.push(self.lines.len() as u8);
        for &(from, letter, to, flags, least, greatest) in &self.lines {
            bytes.extend([from, letter, to, flags]);
            bytes.extend(least.to_be_bytes());
            bytes.extend(greatest.to_be_bytes());
        }
        bytes
    }
}

impl Session {
    /// The session with so many entries of its mix.
    pub fn bytes(&self, entries: usize) -> Vec<u8> {
        let mut bytes = vec![1, self.room];
        bytes.extend(self.table.bytes());
        let mix = self.mix.iter().cycle().take(entries);
        for entry in self.lead.iter().chain(mix) {
            match entry {
                Entry::Letter(letter) => bytes.extend([2, 1, *letter]),
                Entry::Span(seconds) => {
                    bytes.extend([5, 2]);
                    bytes.extend(seconds.to_be_bytes());
                }
                Entry::Gap => bytes.extend([1, 3]),
            }
        }
        assert!(bytes.len() <= LONGEST, "{} is too long", self.name);
        bytes
    }
}
