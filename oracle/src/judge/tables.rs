//! Random tables: valid ones of all sizes, and what becomes of them when bytes change, are lost or are added.

use crate::generate::draft::{line, TableDraft, KEEPS, NONE};
use crate::generate::make::{random_table, Size};
use crate::generate::random::Random;
use crate::judge::probe::Kind;
use crate::judge::{Case, EDGES};
use crate::table::GREATEST;

/// Each making, with the numbers that it must reach. No change of bytes alone makes a table shorter than 12.
pub const WANTED: [(&str, &[u8]); 10] = [
    ("valid", &[0]),
    ("one byte", &[0, 2, 3, 4, 5, 6, 7]),
    ("two bytes", &[0, 2, 3, 4, 5, 6, 7]),
    ("cut", &[1, 4]),
    ("longer", &[4]),
    ("stated length", &[4]),
    ("wild", &[0, 1, 2, 3, 4, 5, 6, 7]),
    (EDGES, &[0, 1, 2, 3, 4, 5, 6, 7]),
    ("orders", &[1, 2, 3, 4, 5, 6, 7]),
    ("horizons", &[0]),
];

pub fn make(random: &mut Random) -> Case {
    let mut bytes = valid(random).bytes();
    let making = match random.from(0, 15) {
        0..=3 => "valid",
        4..=8 => {
            change_byte(random, &mut bytes);
            "one byte"
        }
        9..=11 => {
            change_two(random, &mut bytes, change_byte);
            "two bytes"
        }
        12 => {
            cut(random, &mut bytes);
            "cut"
        }
        13 => {
            lengthen(random, &mut bytes);
            "longer"
        }
        14 => {
            let stated = bytes.len() as u16;
            let wrong = random.pick(&[stated - 1, stated + 1]);
            bytes[1..3].copy_from_slice(&wrong.to_be_bytes());
            "stated length"
        }
        _ => {
            bytes = wild(random);
            "wild"
        }
    };
    Case::plain(Kind::Table, making, bytes)
}

/// A valid table of any size.
pub fn valid(random: &mut Random) -> TableDraft {
    let any = (random.from(1, 16), random.from(1, 32), random.sized(1, 64));
    let size = Size {
        states: random.pick(&[1, 16, any.0 as u8, any.0 as u8]),
        letters: random.pick(&[1, 32, any.1 as u8, any.1 as u8]),
        lines: random.pick(&[0, 1, any.2, any.2, any.2, any.2, any.2, 64]),
        top: random.pick(&[0, 1, 300, 70_000, GREATEST as u32]),
    };
    let mut table = random_table(random, &size);
    let all = !0 >> (16 - size.states);
    for mask in [
        &mut table.initial,
        &mut table.standing,
        &mut table.accepting,
    ] {
        if random.one_in(3) {
            *mask = random.pick(&[0, all, 1 << (size.states - 1)]);
        }
    }
    for line in &mut table.lines {
        // ages that one step takes over an edge
        if random.one_in(6) {
            line.least = random.pick(&[0, 1, 255, 256, 65_535, 65_536, GREATEST as u32]);
            line.greatest = random.pick(&[line.least, GREATEST as u32, NONE]);
        }
    }
    table
}

/// Another value for a byte: most often next to it, or at an edge.
pub fn other_byte(random: &mut Random, byte: u8, edges: &[u8]) -> u8 {
    loop {
        let other = match random.from(0, 5) {
            0 => byte.wrapping_add(1),
            1 => byte.wrapping_sub(1),
            2 => byte ^ 1 << random.from(0, 7),
            3 | 4 => random.pick(edges),
            _ => random.from(0, 255) as u8,
        };
        if other != byte {
            return other;
        }
    }
}

/// A byte of a table changes, most often one of its head or of its last line.
pub fn change_byte(random: &mut Random, bytes: &mut [u8]) {
    let (n, m, last) = (bytes[3], bytes[4], bytes.len() as u64 - 1);
    let at = match random.from(0, 3) {
        0 => random.from(0, 11),
        1 => random.from(last - 11, last),
        _ => random.from(0, last),
    } as usize;
    let before = |number: u8| number.saturating_sub(1);
    let edges = [0, 1, 2, before(n), n, before(m), m, 16, 17, 32, 33, 255];
    bytes[at] = other_byte(random, bytes[at], &edges);
}

/// Two bytes change, each as `change` does it.
pub fn change_two(random: &mut Random, bytes: &mut [u8], change: fn(&mut Random, &mut [u8])) {
    let before = bytes.to_vec();
    let changed = |bytes: &[u8]| bytes.iter().zip(&before).filter(|(a, b)| a != b).count();
    while changed(bytes) < 2 {
        change(random, bytes);
    }
}

fn cut(random: &mut Random, bytes: &mut Vec<u8>) {
    let whole = bytes.len() as u64;
    let left = match random.from(0, 3) {
        0 => random.from(0, 11),
        1 => whole - 1,
        2 => whole - 12,
        _ => random.from(0, whole - 1),
    };
    bytes.truncate(left as usize);
}

/// The table with bytes behind it: a few, some lines more, or far too many.
fn lengthen(random: &mut Random, bytes: &mut Vec<u8>) {
    let more = match random.from(0, 31) {
        0 => random.from(800, 100_000),
        // as long as stated, if only 16 bits of the length are looked at
        1 => 65_536,
        2..=12 => 12 * random.from(1, 64),
        _ => random.from(1, 20),
    };
    let byte = random.pick(&[0, 1, 255]);
    bytes.resize(bytes.len() + more as usize, byte);
}

/// Bytes of any kind behind a head that may pass.
fn wild(random: &mut Random) -> Vec<u8> {
    let seldom = |random: &mut Random, usual: u8| match random.one_in(12) {
        true => random.from(0, 255) as u8,
        false => usual,
    };
    if random.one_in(8) {
        let size = random.from(0, 40);
        return (0..size).map(|_| random.from(0, 255) as u8).collect();
    }
    let states = random.from(1, 16) as u8;
    let mut table = TableDraft {
        version: seldom(random, 1),
        length: None,
        states: seldom(random, states),
        letters: random.from(1, 33) as u8,
        initial: random.states(states, 2),
        standing: random.states(states, 2),
        accepting: random.states(states + u8::from(states < 16), 8),
        lines: Vec::new(),
    };
    for _ in 0..random.from(0, 5) {
        let state = |random: &mut Random| random.from(0, u64::from(states) - 1) as u8;
        let (from, to) = (state(random), state(random));
        let age = random.sized(1, 40_000_000) as u32;
        let (least, greatest) = (random.pick(&[0, age]), random.from(0, 40_000_000) as u32);
        let greatest = random.pick(&[age, greatest, NONE]);
        let letter = random.from(0, u64::from(table.letters) - 1) as u8;
        table.lines.push(line(
            seldom(random, from),
            seldom(random, letter),
            seldom(random, to),
            seldom(random, KEEPS),
            least,
            greatest,
        ));
    }
    let whole = table.bytes().len() as u16;
    table.length = Some(random.pick(&[whole, whole, whole, whole, whole, whole ^ 4, 780]));
    table.bytes()
}
