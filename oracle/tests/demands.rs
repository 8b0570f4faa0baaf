//! Demands 1 to 3 by brute force on tiny tables: every run of 001 is written out, and after a gap every set of
//! configurations is followed on its own. Every word of a small alphabet is tried, refused symbols among them.

use oracle::ages::Ages;
use oracle::generate::draft::{line, TableDraft, NONE};
use oracle::generate::random::Random;
use oracle::session::Symbol::{self, Gap, Letter, Span};
use oracle::spells::Spells;
use oracle::table::{Line, Table};
use oracle::watch::{Answer, Configurations, Verdict, Watch};
use std::collections::BTreeSet;

/// A state and its true age.
type Configuration = (usize, u64);

/// A tiny table: at most two states, two letters, four lines, ages of at most `top`.
fn tiny(random: &mut Random, top: u64) -> TableDraft {
    let states = random.from(1, 2) as u8;
    let letters = random.from(1, 2) as u8;
    let mut lines = Vec::new();
    for _ in 0..random.from(0, 4) {
        let (a, b) = (random.from(0, top) as u32, random.from(0, top) as u32);
        lines.push(line(
            random.from(0, u64::from(states) - 1) as u8,
            random.from(0, u64::from(letters) - 1) as u8,
            random.from(0, u64::from(states) - 1) as u8,
            random.from(0, 1) as u8,
            a.min(b),
            if random.one_in(3) { NONE } else { a.max(b) },
        ));
    }
    TableDraft {
        version: 1,
        length: None,
        states,
        letters,
        initial: random.states(states, 2),
        standing: random.states(states, 3),
        accepting: random.states(states, 2),
        lines,
    }
}

fn has(set: u16, state: usize) -> bool {
    set >> state & 1 == 1
}

/// L ≤ t ≤ U. Said here again: what judges the second program uses nothing of it but the table's parts.
fn holds(line: &Line, age: u64) -> bool {
    let late = match line.greatest {
        Some(greatest) => age > greatest,
        None => false,
    };
    !late && age >= line.least
}

/// The largest L or finite U in any line, 0 if there are no lines; said here again likewise.
fn horizon(table: &Table) -> u64 {
    let mut horizon = 0;
    for line in &table.lines {
        horizon = horizon.max(line.least).max(line.greatest.unwrap_or(0));
    }
    horizon
}

/// The configurations that one step leads to, as 001 says it.
fn steps(table: &Table, (state, age): Configuration, symbol: Symbol) -> Vec<Configuration> {
    match symbol {
        Span(seconds) => vec![(state, age + u64::from(seconds))],
        Letter(letter) => (table.lines.iter())
            .filter(|line| line.from == state && line.letter == letter && holds(line, age))
            .map(|line| (line.to, if line.resets { 0 } else { age }))
            .collect(),
        Gap => unreachable!("a run has no gap"),
    }
}

/// All runs over a word, each as the chain of its configurations: from the start in an initial state, or from directly
/// after a letter in a standing state, in both cases at age 0.
fn runs(table: &Table, word: &[Symbol]) -> Vec<Vec<Configuration>> {
    let mut whole = Vec::new();
    for begin in 0..=word.len() {
        let may_begin = match begin {
            0 => table.initial,
            _ if matches!(word[begin - 1], Letter(_)) => table.standing,
            _ => 0,
        };
        let mut chains: Vec<Vec<Configuration>> = (0..table.states)
            .filter(|&state| has(may_begin, state))
            .map(|state| vec![(state, 0)])
            .collect();
        for &symbol in &word[begin..] {
            chains = (chains.iter())
                .flat_map(|chain| {
                    let ends = steps(table, *chain.last().unwrap(), symbol);
                    ends.into_iter()
                        .map(|end| [chain.as_slice(), &[end]].concat())
                })
                .collect();
        }
        whole.extend(chains);
    }
    whole
}

fn accepting(table: &Table, set: &BTreeSet<Configuration>) -> bool {
    set.iter().any(|&(state, _)| has(table.accepting, state))
}

/// The longest runs of consecutive ages in 0 to H with the same pair and a non-empty possible set.
fn longest_runs(
    table: &Table,
    sure: &BTreeSet<Configuration>,
    possible: &BTreeSet<Configuration>,
) -> usize {
    let at = |set: &BTreeSet<Configuration>, age| -> Vec<usize> {
        (0..table.states)
            .filter(|&state| set.contains(&(state, age)))
            .collect()
    };
    let pair = |age| (at(sure, age), at(possible, age));
    (0..=horizon(table))
        .filter(|&age| !pair(age).1.is_empty())
        .filter(|&age| age == 0 || pair(age - 1) != pair(age))
        .count()
}

/// The number that this symbol must be refused with, if any, where so many longest runs would come after it.
fn refusal<S>(watch: &Watch<S>, symbol: Symbol, count: usize) -> Option<u8> {
    match symbol {
        Letter(letter) if letter >= watch.table.letters => Some(9),
        Letter(_) if count > watch.room => Some(11),
        Span(0) => Some(10),
        _ => None,
    }
}

fn start<S: Configurations>(draft: &TableDraft, room: u8) -> Watch<S> {
    Watch::start(&draft.bytes(), room).expect("a table in order")
}

/// Where the runs over a word end.
fn ends(table: &Table, word: &[Symbol]) -> BTreeSet<Configuration> {
    let all = runs(table, word).into_iter();
    all.map(|run| *run.last().unwrap()).collect()
}

/// Follows every word of this depth, holding the watch to all runs over the symbols accepted so far.
fn follow_runs<S: Configurations>(watch: &Watch<S>, word: &[Symbol], depth: usize) -> usize {
    let table = &watch.table;
    let held = ends(table, word);
    let expected = Answer::Stands {
        verdict: match accepting(table, &held) {
            true => Verdict::Yes,
            false => Verdict::No,
        },
        settled: true,
        count: longest_runs(table, &held, &held),
    };
    assert_eq!(watch.answer(), expected, "{table:?} after {word:?}");
    if depth == 0 {
        return 1;
    }
    let mut looked = 1;
    for symbol in [Letter(0), Letter(1), Letter(2), Span(1), Span(2), Span(0)] {
        let longer = [word, &[symbol]].concat();
        let held = ends(table, &longer);
        let refusal = refusal(watch, symbol, longest_runs(table, &held, &held));
        let mut next = watch.clone();
        assert_eq!(next.take(symbol), refusal.map_or(Ok(()), Err));
        looked += match refusal {
            None => follow_runs(&next, &longer, depth - 1),
            Some(_) => follow_runs(&next, word, depth - 1),
        };
    }
    looked
}

#[test]
fn without_a_gap_the_verdict_is_that_of_all_runs() {
    for number in 0..200 {
        let mut random = Random::new(7, "runs", number);
        let draft = tiny(&mut random, 3);
        let room = random.pick(&[1, 1, 2, 3, 64]);
        let by_ages = follow_runs(&start::<Ages>(&draft, room), &[], 4);
        let by_spells = follow_runs(&start::<Spells>(&draft, room), &[], 4);
        assert_eq!((by_ages, by_spells), (1 + 6 + 36 + 216 + 1296, by_ages));
    }
}

/// One step of a whole set, with true ages, as document 01 says it.
fn stepped(
    table: &Table,
    set: &BTreeSet<Configuration>,
    symbol: Symbol,
) -> BTreeSet<Configuration> {
    let mut after: BTreeSet<_> = set.iter().flat_map(|&c| steps(table, c, symbol)).collect();
    if matches!(symbol, Letter(_)) {
        let standing = (0..table.states).filter(|&state| has(table.standing, state));
        after.extend(standing.map(|state| (state, 0)));
    }
    after
}

/// The set with all ages above the horizon counted as one.
fn clipped(table: &Table, set: &BTreeSet<Configuration>) -> BTreeSet<Configuration> {
    let clip = |&(state, age): &Configuration| (state, age.min(horizon(table) + 1));
    set.iter().map(clip).collect()
}

/// All sets of configurations over the table's states and the ages 0 to H + 2: two ages above H, so that taking them
/// as one is looked at too. The empty set is the first.
fn all_sets(table: &Table) -> Vec<BTreeSet<Configuration>> {
    let ages = 0..=horizon(table) + 2;
    let all: Vec<Configuration> = ages
        .flat_map(|age| (0..table.states).map(move |state| (state, age)))
        .collect();
    let chosen = |bits: u32| -> BTreeSet<Configuration> {
        (all.iter().enumerate())
            .filter(|(place, _)| bits >> place & 1 == 1)
            .map(|(_, &configuration)| configuration)
            .collect()
    };
    (0..1 << all.len()).map(chosen).collect()
}

/// What all of the sets hold, and what any of them holds.
fn common_and_joint(sets: &[BTreeSet<Configuration>]) -> [BTreeSet<Configuration>; 2] {
    let joint: BTreeSet<_> = sets.iter().flatten().copied().collect();
    let in_all = |configuration: &Configuration| sets.iter().all(|set| set.contains(configuration));
    let common = joint.iter().filter(|c| in_all(c)).copied().collect();
    [common, joint]
}

/// What a watch that could not tell these sets apart must answer.
fn expected_of(table: &Table, sets: &[BTreeSet<Configuration>]) -> Answer {
    let clip: BTreeSet<_> = sets.iter().map(|set| clipped(table, set)).collect();
    let accept = sets.iter().filter(|set| accepting(table, set)).count();
    let [sure, possible] = common_and_joint(sets);
    Answer::Stands {
        verdict: match accept {
            0 => Verdict::No,
            _ if accept == sets.len() => Verdict::Yes,
            _ => Verdict::Unsure,
        },
        settled: clip.len() == 1,
        count: longest_runs(table, &sure, &possible),
    }
}

/// Follows every word after a gap, holding the watch to all sets that may have stood at the gap's end.
fn follow_sets<S: Configurations>(
    watch: &Watch<S>,
    sets: &[BTreeSet<Configuration>],
    depth: usize,
) -> usize {
    let table = &watch.table;
    assert_eq!(watch.answer(), expected_of(table, sets), "{table:?}");
    if depth == 0 {
        return 1;
    }
    let mut looked = 1;
    for symbol in [Letter(0), Letter(1), Span(1), Span(2)] {
        let after: Vec<_> = sets.iter().map(|set| stepped(table, set, symbol)).collect();
        let [sure, possible] = common_and_joint(&after);
        let refusal = refusal(watch, symbol, longest_runs(table, &sure, &possible));
        let mut next = watch.clone();
        assert_eq!(next.take(symbol), refusal.map_or(Ok(()), Err));
        looked += match refusal {
            None => follow_sets(&next, &after, depth - 1),
            Some(_) => follow_sets(&next, sets, depth - 1),
        };
    }
    looked
}

#[test]
fn after_a_gap_the_verdict_is_that_of_all_sets() {
    for number in 0..80 {
        let mut random = Random::new(7, "sets", number);
        let draft = tiny(&mut random, 1);
        let room = random.pick(&[1, 2, 64, 64]);
        let mut by_ages = start::<Ages>(&draft, room);
        let mut by_spells = start::<Spells>(&draft, room);
        let sets = all_sets(&by_ages.table);
        // what came before the gap does not matter
        for symbol in [Letter(0), Span(1), Gap] {
            assert_eq!(by_ages.take(symbol), by_spells.take(symbol));
        }
        let looked = follow_sets(&by_ages, &sets, 4);
        assert_eq!(looked, follow_sets(&by_spells, &sets, 4));
        assert_eq!(looked, 1 + 4 + 16 + 64 + 256);
    }
}
