//! The lines that are printed, in one buffer that has room for those of the longest session.

use crate::record::Verdict;
use crate::session::LONGEST;

/// No line is longer, with the bytes behind its word that are written over.
const WIDEST: usize = 32;

pub struct Lines {
    bytes: Vec<u8>,
    end: usize,
}

/// What stands between the ordinal and the count: always 16 bytes, so that copying them is one move. What lies behind
/// the word is written over.
struct Word {
    text: &'static [u8; 16],
    length: usize,
}

const fn word(text: &'static [u8; 16], length: usize) -> Word {
    Word { text, length }
}

const REFUSED: Word = word(b" refused        ", 9);

/// By verdict, open before settled.
const STANDS: [[Word; 2]; 3] = [
    [word(b" yes open       ", 10), word(b" yes settled    ", 13)],
    [word(b" no open        ", 9), word(b" no settled     ", 12)],
    [word(b" unsure open    ", 13), word(b" unsure settled ", 16)],
];

impl Lines {
    pub fn new() -> Lines {
        // a line for the start, and one for each of the shortest entries; an entry has at least 2 bytes
        Lines {
            bytes: vec![0; (1 + LONGEST / 2) * WIDEST],
            end: 0,
        }
    }

    pub fn written(&self) -> &[u8] {
        &self.bytes[..self.end]
    }

    pub fn stands(&mut self, ordinal: u16, verdict: Verdict, settled: bool, count: usize) {
        let word = &STANDS[verdict as usize][usize::from(settled)];
        self.put(ordinal, word, count as u16);
    }

    pub fn refused(&mut self, ordinal: u16, number: u8) {
        self.put(ordinal, &REFUSED, u16::from(number));
    }

    fn put(&mut self, ordinal: u16, word: &Word, last: u16) {
        // one check of the bounds for the whole line
        let line = &mut self.bytes[self.end..self.end + WIDEST];
        let at = put_number(line, 0, ordinal);
        line[at..at + 16].copy_from_slice(word.text);
        let at = put_number(line, at + word.length, last);
        line[at] = b'\n';
        self.end += at + 1;
    }
}

/// The number in decimal from a place on; answers the place behind it.
fn put_number(line: &mut [u8], at: usize, number: u16) -> usize {
    let digits = match number {
        0..=9 => 1,
        10..=99 => 2,
        100..=999 => 3,
        1_000..=9_999 => 4,
        _ => 5,
    };
    let mut rest = number;
    for place in line[at..at + digits].iter_mut().rev() {
        *place = b'0' + (rest % 10) as u8;
        rest /= 10;
    }
    at + digits
}
