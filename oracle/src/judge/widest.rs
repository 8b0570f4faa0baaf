//! Letters at the most that they can be asked for: 16 states, 64 lines whose bounds all differ, 64 stretches, and each
//! room just filled and one too small. What they come to is worked out from the words of document 01.

use crate::generate::draft::{line, TableDraft, KEEPS, NONE, RESETS};
use crate::judge::record_edges::pair;
use crate::judge::stated::{lines_of, record, refused, stretch, taken, ALL};
use crate::judge::Case;
use crate::record::{Pair, Place, Record};
use crate::session::Symbol::Letter;

pub fn rows() -> Vec<Vec<Case>> {
    let mut rows = Vec::new();
    for room in 1..=64 {
        combs(room, &mut rows);
    }
    far_more(&mut rows);
    to_one(&mut rows);
    joins(&mut rows);
    resets(&mut rows);
    rows
}

/// 64 lines: line k takes state k mod 16 to the next one, at age 4k + 2 alone. All bounds differ, so there are 129
/// pieces; H is 254.
pub fn comb() -> TableDraft {
    let tooth = |k: u8| {
        let age = 4 * u32::from(k) + 2;
        line(k % 16, 0, (k + 1) % 16, KEEPS, age, age)
    };
    lines_of((0..64).map(tooth).collect())
}

/// Every other one is sure.
fn every_other(k: u8, states: u16) -> u16 {
    match k % 2 {
        0 => states,
        _ => 0,
    }
}

/// So many stretches of all states in this room, stretch k at ages 4k + 1 to 4k + 3, as far as H.
pub fn teeth(count: u8, room: u8) -> Record {
    let tooth = |k: u8| {
        let first = 4 * u32::from(k) + 1;
        stretch(first, (first + 2).min(254), every_other(k, ALL), ALL)
    };
    record(room, &(0..count).map(tooth).collect::<Vec<_>>())
}

/// What the comb leaves of them: of each stretch one age with one state.
pub fn combed(count: u8) -> Vec<Place> {
    let left = |k: u8| {
        let (age, to) = (4 * u32::from(k) + 2, 1 << ((k + 1) % 16));
        stretch(age, age, every_other(k, to), to)
    };
    (0..count).map(left).collect()
}

/// As many stretches as there is room for, and one more: the standing state joins at age 0, apart from age 2.
fn combs(room: u8, rows: &mut Vec<Vec<Case>>) {
    let standing = 1 << 5;
    let one_more = TableDraft { standing, ..comb() };
    let with_0 = |count| [vec![stretch(0, 0, standing, standing)], combed(count)].concat();
    let full = teeth(room, room);
    rows.push(taken(
        &format!("a comb, room {room}"),
        &full,
        Letter(0),
        &comb(),
        &record(room, &combed(room)),
    ));
    rows.push(refused(
        &format!("a comb and age 0, room {room}"),
        &full,
        Letter(0),
        &one_more.bytes(),
        11,
    ));
    let one_less = teeth(room - 1, room);
    rows.push(taken(
        &format!("a shorter comb and age 0, room {room}"),
        &one_less,
        Letter(0),
        &one_more,
        &record(room, &with_0(room - 1)),
    ));
}

/// 64 stretches of so many ages, each touching the next, from this age on.
fn touching(first: u32, width: u32, pair: fn(u8) -> Pair) -> Record {
    let at = |k: u8| {
        let first = first + width * u32::from(k);
        let last = first + width - 1;
        let pair = pair(k);
        Place { first, last, pair }
    };
    record(64, &(0..64).map(at).collect::<Vec<_>>())
}

/// A letter that needs 190 stretches.
///
/// Line k keeps state k mod 16 at ages 4k + 2 to 4k + 7, so that two lines meet at ages 4k + 2 and 4k + 3. Between
/// these two ages one stretch ends and the next begins. Of the four ages of each stretch the first, the two in the
/// middle and the last come to three stretches. At the first three ages of all there is only the first line, and at the
/// last three only the last: these are one stretch each, and 3 * 64 - 2 it is.
fn far_more(rows: &mut Vec<Vec<Case>>) {
    let chain = |k: u8| {
        let age = 4 * u32::from(k);
        line(k % 16, 0, k % 16, KEEPS, age + 2, age + 7)
    };
    let table = lines_of((0..64).map(chain).collect());
    let from = touching(3, 4, |k| pair(every_other(k, ALL), ALL));
    rows.push(refused("190 needed", &from, Letter(0), &table.bytes(), 11));
}

/// Lines from all states but 15, which meet at each other's ends, lead to state 0 at all ages 1 to 129. The stretches,
/// at ages 0 to 127, differ in state 15 alone, so that one is left, with age 0 or without.
fn to_one(rows: &mut Vec<Vec<Case>>) {
    let funnel = |k: u8| {
        let age = 2 * u32::from(k);
        line(k % 15, 0, 0, KEEPS, age + 1, age + 3)
    };
    let mut table = lines_of((0..64).map(funnel).collect());
    let from = touching(0, 2, |k| pair(0x7FFF, 0x7FFF | every_other(k, ALL)));
    for (standing, first, label) in [(0, 1, "64 join to one"), (1, 0, "64 and age 0 join to one")] {
        table.standing = standing;
        let to = record(64, &[stretch(first, 127, 1, 1)]);
        rows.push(taken(label, &from, Letter(0), &table, &to));
    }
}

/// Age 0 is new and its pair is that of age 1, or is not: that decides the count.
fn joins(rows: &mut Vec<Vec<Case>>) {
    // the first tooth is age 1 alone; its state 0 leads to state 1, which stands
    let mut table = comb();
    table.lines[0] = line(0, 0, 1, KEEPS, 1, 1);
    table.standing = 2;
    let mut sure = teeth(64, 64);
    sure.places[0] = stretch(1, 1, ALL, ALL);
    let mut joined = record(64, &combed(64));
    joined.places[0] = stretch(0, 1, 2, 2);
    let label = "age 0 joins age 1, room 64";
    rows.push(taken(label, &sure, Letter(0), &table, &joined));
    let mut unsure = sure.clone();
    unsure.places[0] = stretch(1, 1, 0, ALL);
    let label = "age 0 differs from age 1, room 64";
    rows.push(refused(label, &unsure, Letter(0), &table.bytes(), 11));

    // the same in room 1, by a reset
    let (keeps, resets) = (line(0, 0, 0, KEEPS, 1, 1), line(0, 0, 0, RESETS, 1, 1));
    let mut table = lines_of(vec![keeps, resets]);
    for sure in [0, 1] {
        let from = record(1, &[stretch(1, 1, sure, 1)]);
        let to = record(1, &[stretch(0, 1, sure, 1)]);
        let label = "a reset joins age 1, room 1";
        rows.push(taken(label, &from, Letter(0), &table, &to));
    }
    table.standing = 1;
    let from = record(1, &[stretch(1, 1, 0, 1)]);
    let label = "age 0 is sure and age 1 is not, room 1";
    rows.push(refused(label, &from, Letter(0), &table.bytes(), 11));
}

/// Resets bring state 15 of the 64th stretch to state 0, and state 14 above H, which that stretch lacks, to state 5.
fn resets(rows: &mut Vec<Vec<Case>>) {
    let mut table = comb();
    table.lines[62] = line(14, 0, 5, RESETS, 254, NONE);
    table.lines[63] = line(15, 0, 0, RESETS, 254, 254);
    let mut from = teeth(64, 64);
    from.places[63].pair = pair(ALL & !(1 << 14), ALL & !(1 << 14));
    for sure in [0, 1] {
        from.above = pair(sure << 14, 1 << 14);
        let newborn = stretch(0, 0, 1 | sure << 5, 1 | 1 << 5);
        let to = record(64, &[vec![newborn], combed(62)].concat());
        let label = "resets from above H and from the 64th stretch";
        rows.push(taken(label, &from, Letter(0), &table, &to));
    }
}
