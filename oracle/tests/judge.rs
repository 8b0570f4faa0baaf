//! The judgement passes a right program and refuses liars: in what they say of a table or a record, in how much they
//! say, and in how they end. Those that lie at their calls have a file of their own.

mod common;

use common::{judged, oracle, refuses, ORACLE};
use oracle::judge::probe::{answer, parted, Kind};
use oracle::judge::Part;
use oracle::record::{broken, Clause, CLAUSES};
use oracle::table::Table;
use std::io::Write;
use std::process::{Command, Stdio};

/// As many cases as it takes to reach the goals, and as many sequences.
const CASES: usize = 6_000;
const SEQUENCES: usize = 2_500;

/// Each part, with as many numbers as it takes.
fn parts(seed: u64) -> [(Part, usize); 3] {
    [
        (Part::tables(seed), CASES),
        (Part::records(seed), CASES),
        (Part::calls(seed), SEQUENCES),
    ]
}

#[test]
fn a_case_is_given_by_seed_and_number() {
    for of in [Part::tables, Part::records, Part::calls] {
        let loads = |seed, number| -> Vec<Vec<u8>> {
            let cases = of(seed).sequence(number).into_iter();
            cases.map(|case| case.load).collect()
        };
        for number in [40, 5_000] {
            assert_eq!(loads(1, number), loads(1, number));
        }
        assert_ne!(loads(1, 5_000), loads(2, 5_000));
        assert_ne!(loads(1, 5_000), loads(1, 5_001));
    }
}

#[test]
fn few_cases_reach_the_goals() {
    for seed in 1..=6 {
        for (part, numbers) in parts(seed) {
            let outcome = judged(&part, numbers, answer);
            assert!(
                outcome.is_ok(),
                "seed {seed}: {}",
                outcome.err().unwrap().why
            );
        }
    }
}

#[test]
fn too_few_cases_are_no_judgement() {
    for (part, _) in parts(1) {
        for numbers in [0, 100] {
            let failure = judged(&part, numbers, answer).err().unwrap();
            assert!(failure.why.contains("no case reached: "), "{}", failure.why);
        }
    }
}

/// Why tables are refused to a program that answers this.
fn refused_tables(lie: impl Fn(&[u8]) -> Vec<u8> + Sync) -> String {
    let failure = judged(&Part::tables(1), CASES, |_, load| lie(load));
    let failure = failure.err().expect("a lie");
    assert!(
        failure.why.contains("tables, seed 1, case "),
        "{}",
        failure.why
    );
    failure.why
}

fn table_answer(load: &[u8]) -> Vec<u8> {
    answer(Kind::Table, load)
}

/// The lines of a table that has any.
fn lines(load: &[u8]) -> impl DoubleEndedIterator<Item = &[u8]> {
    load.get(12..).unwrap_or(&[]).chunks_exact(12)
}

#[test]
fn a_u_below_l_is_no_table() {
    let why = refused_tables(|load| {
        let mut mended = load.to_vec();
        for line in mended.get_mut(12..).unwrap_or(&mut []).chunks_exact_mut(12) {
            if line[8..] < line[4..8] {
                line.copy_within(4..8, 8);
            }
        }
        table_answer(&mended)
    });
    assert!(why.contains("edges: U at least L, the only line"), "{why}");
    assert!(
        why.contains("expected 7 with horizon 0, answered 0 with horizon "),
        "{why}"
    );
    assert!(
        why.contains("\n01 00 18 "),
        "the table in hexadecimal: {why}"
    );
}

#[test]
fn a_horizon_is_said() {
    let why = refused_tables(|load| vec![table_answer(load)[0], 0, 0, 0, 0]);
    assert!(why.contains("answered 0 with horizon 0"), "{why}");
    refused_tables(|load| {
        // of the last line alone
        let mut answer = table_answer(load);
        if let (0, Some(line)) = (answer[0], lines(load).next_back()) {
            let none = line[8..] == [255; 4];
            answer[1..].copy_from_slice(if none { &line[4..8] } else { &line[8..] });
        }
        answer
    });
    // where a table is refused it is 0
    refused_tables(|load| match table_answer(load)[0] {
        0 => table_answer(load),
        number => vec![number, 0, 0, 0, 1],
    });
}

#[test]
fn all_of_a_length_counts() {
    let why = refused_tables(|load| {
        let sixteen_bits = load.len() & 0xFFFF;
        table_answer(&load[..sixteen_bits])
    });
    assert!(why.contains("the slice is as long as stated"), "{why}");
    refused_tables(|load| table_answer(&load[..load.len().min(780)]));
}

#[test]
fn the_order_of_checks_counts() {
    let why = refused_tables(|load| match table_answer(load) {
        // 6 in all lines before 7 in any
        answer if answer[0] == 7 => {
            let (n, m) = (load[3], load[4]);
            let bad = |l: &[u8]| l[0] >= n || l[1] >= m || l[2] >= n || l[3] > 1;
            vec![if lines(load).any(bad) { 6 } else { 7 }, 0, 0, 0, 0]
        }
        answer => answer,
    });
    assert!(why.contains("a line with 7, then one with 6"), "{why}");
    // the version before the size
    refused_tables(|load| match load.first() {
        Some(&version) if version != 1 => vec![2, 0, 0, 0, 0],
        _ => table_answer(load),
    });
}

#[test]
fn each_number_of_a_table_counts() {
    for number in 1..=7 {
        refused_tables(|load| match table_answer(load) {
            answer if answer[0] == number => vec![0; 5],
            answer => answer,
        });
    }
}

/// The answer of a program that does not ask this clause.
fn without(clause: Clause, load: &[u8]) -> Vec<u8> {
    let (record, table) = parted(load);
    vec![match Table::read(table) {
        Err(number) => number,
        Ok(table) if broken(&record, &table).iter().all(|&b| b == clause) => 0,
        Ok(_) => 8,
    }]
}

#[test]
fn each_clause_of_a_record_counts() {
    let part = Part::records(1);
    for clause in CLAUSES {
        let failure = judged(&part, CASES, |_, load| without(clause, load)).err();
        let why = failure.unwrap_or_else(|| panic!("without {clause:?}")).why;
        assert!(why.contains("records, seed 1, case "), "{why}");
        assert!(
            why.contains(": expected 8, answered 0, the first of "),
            "{why}"
        );
    }
}

#[test]
fn a_record_comes_after_its_table() {
    let part = Part::records(1);
    let failure = judged(&part, CASES, |kind, load| match answer(kind, load)[0] {
        // 8 is answered first
        1..=7 if load[0] == 0 => vec![8],
        number => vec![number],
    });
    let why = failure.err().unwrap().why;
    assert!(why.contains("(orders: 1 before 8; "), "{why}");
}

fn judged_within(patience: &str, program: &[&str]) -> (Option<i32>, String) {
    let (cases, sequences) = (CASES.to_string(), SEQUENCES.to_string());
    let mut words = vec!["judge", "--seed", "3", "--patience", patience];
    words.extend(["--tables", &cases, "--records", &cases]);
    words.extend(["--sequences", &sequences, "--"]);
    words.extend(program);
    oracle(&words)
}

/// How many tables, records, sequences and calls are alike, and how many parts failed.
fn last_line([tables, records, sequences, calls]: [usize; 4], failed: usize) -> String {
    format!(
        "\n{tables} tables, {records} records and {sequences} sequences of {calls} calls alike, {failed} failed\n"
    )
}

/// The calls of the first sequences.
fn calls(seed: u64, sequences: usize) -> usize {
    let part = Part::calls(seed);
    (0..sequences)
        .map(|number| part.sequence(number).len())
        .sum()
}

/// Why a shell command is refused; it is refused in this many parts.
fn refused_command(command: &str, parts: usize) -> String {
    let (status, text) = judged_within("120", &["sh", "-c", command]);
    assert_eq!(status, Some(1), "{text}");
    assert!(text.ends_with(&last_line([0; 4], parts)), "{text}");
    text
}

#[test]
fn the_probe_passes() {
    let (status, text) = judged_within("120", &[ORACLE, "probe"]);
    assert_eq!(status, Some(0), "{text}");
    let alike = [CASES, CASES, SEQUENCES, calls(3, SEQUENCES)];
    assert!(text.ends_with(&last_line(alike, 0)), "{text}");
}

#[test]
fn batches_are_judged_one_by_one() {
    let mut words = vec!["judge", "--tables", "45000", "--records", "41000"];
    words.extend(["--sequences", "4500", "--", ORACLE, "probe"]);
    let (status, text) = oracle(&words);
    assert_eq!(status, Some(0), "{text}");
    let alike = [45_000, 41_000, 4_500, calls(1, 4_500)];
    assert!(text.ends_with(&last_line(alike, 0)), "{text}");
}

#[test]
fn answers_too_few_or_too_many_fail() {
    let few = refused_command(&format!("'{ORACLE}' probe | head -c 100"), 3);
    assert!(
        few.contains("tables from 0 on: 100 bytes answer 6000 cases, expected 30000"),
        "{few}"
    );
    assert!(
        few.contains("records from 0 on: 100 bytes answer 6000 cases, expected 6000"),
        "{few}"
    );
    let many = refused_command(&format!("'{ORACLE}' probe; printf x"), 3);
    assert!(
        many.contains("30001 bytes answer 6000 cases, expected 30000"),
        "{many}"
    );
    let none = refused_command("true", 3);
    assert!(none.contains("0 bytes answer 6000 cases"), "{none}");
}

#[test]
fn a_program_that_ends_badly_fails() {
    let text = refused_command(&format!("'{ORACLE}' probe; exit 3"), 3);
    assert!(text.contains("sh ended with"), "{text}");
}

#[test]
fn a_program_that_does_not_end_fails() {
    let answers_and_sleeps = format!("'{ORACLE}' probe; exec >/dev/null; exec sleep 1000");
    for program in [&answers_and_sleeps, "exec sleep 1000"] {
        let (status, text) = judged_within("2", &["sh", "-c", program]);
        assert_eq!(status, Some(1));
        assert!(text.contains("the program does not end"), "{text}");
        // nothing else is tried with it
        assert!(text.ends_with(&last_line([0; 4], 1)), "{text}");
    }
}

#[test]
fn a_program_that_is_not_there_fails() {
    let (status, text) = judged_within("120", &["./no-such-probe"]);
    assert_eq!(status, Some(1));
    assert!(text.contains("cannot run ./no-such-probe"), "{text}");
}

/// How the probe ends after these bytes, and what it has answered.
fn probed(input: &[u8]) -> (Option<i32>, Vec<u8>) {
    let mut probe = Command::new(ORACLE)
        .arg("probe")
        .stdin(Stdio::piped())
        .stdout(Stdio::piped())
        .stderr(Stdio::null())
        .spawn()
        .unwrap();
    probe.stdin.take().unwrap().write_all(input).unwrap();
    let output = probe.wait_with_output().unwrap();
    (output.status.code(), output.stdout)
}

#[test]
fn a_probe_takes_no_other_cases() {
    let bad: [&[u8]; 5] = [
        &[0, 0, 0, 0, 0],
        &[10, 0, 0, 0, 0],
        &[1, 0, 2, 0, 1],
        &[1, 0, 0],
        &[1, 0, 0, 0, 2, 7],
    ];
    for case in bad {
        assert_eq!(probed(case), (Some(1), Vec::new()), "{case:?}");
    }
}

#[test]
fn a_load_has_all_that_its_kind_is_handed() {
    // the kind, the least size of its load and the size of its answer
    let kinds = [
        (2, 774, 1),
        (3, 1, 775),
        (4, 775, 775),
        (5, 778, 775),
        (6, 774, 775),
        (7, 774, 2),
        (8, 774, 2),
        (9, 774, 2),
    ];
    for (kind, least, size) in kinds {
        let of = |length: u16| {
            let [high, low] = length.to_be_bytes();
            let case = [vec![kind, 0, 0, high, low], vec![0; length.into()]].concat();
            probed(&case)
        };
        assert_eq!(of(least - 1), (Some(1), Vec::new()), "kind {kind}");
        // there is no table in it
        let mut answer = vec![0; size];
        answer[0] = 1;
        assert_eq!(of(least), (Some(0), answer), "kind {kind}");
    }
}

#[test]
fn bad_words_are_refused() {
    let bad: [&[&str]; 7] = [
        &["judge"],
        &["judge", "--"],
        &["judge", "--tables", "many", "--", "true"],
        &["judge", "--sequences", "--", "true"],
        &["judge", "--each", "5", "--", "true"],
        &["judge", "--patience", "0", "--", "true"],
        &["probe", "--ages"],
    ];
    for words in bad {
        refuses(words);
    }
}
