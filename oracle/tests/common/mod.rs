//! What several tests share: what both forms answer, the judgement of a function, and the program run as a command.
#![allow(dead_code)]

use oracle::ages::Ages;
use oracle::judge::probe::{serve, Kind};
use oracle::judge::reached::Reached;
use oracle::judge::{judge, Case, Part};
use oracle::run::Failure;
use oracle::spells::Spells;
use oracle::watch::{answers, lines};
use std::process::{Command, Output, Stdio};

pub const ORACLE: &str = env!("CARGO_BIN_EXE_oracle");

fn run(words: &[&str]) -> Output {
    (Command::new(ORACLE).args(words).stdin(Stdio::null()))
        .output()
        .unwrap()
}

/// Its exit status, and what it prints, without input.
pub fn oracle(words: &[&str]) -> (Option<i32>, String) {
    let output = run(words);
    let text = String::from_utf8(output.stdout).unwrap();
    (output.status.code(), text)
}

/// Words that make no sense: it says so, and does nothing.
pub fn refuses(words: &[&str]) {
    let output = run(words);
    assert_eq!(output.status.code(), Some(2), "{words:?}");
    assert!(output.stdout.is_empty(), "{words:?}");
    let error = String::from_utf8(output.stderr).unwrap();
    assert!(error.starts_with("oracle: "), "{words:?}: {error}");
}

/// Judges a program that answers this.
pub fn judged(
    part: &Part,
    numbers: usize,
    answer: impl Fn(Kind, &[u8]) -> Vec<u8> + Sync,
) -> Result<Reached, Failure> {
    judge(part, numbers, &|_, input| {
        let mut answers = Vec::new();
        serve(input, &mut answers, &answer).map_err(|error| error.to_string())?;
        Ok(answers)
    })
}

/// What a number of a part stands for where that is a single case.
pub fn only_case(part: &Part, number: usize) -> Case {
    match &part.sequence(number)[..] {
        [case] => case.clone(),
        cases => panic!("{} cases", cases.len()),
    }
}

/// What both forms print for a session.
pub fn printed(input: &[u8]) -> String {
    let by_ages = lines(&answers::<Ages>(input));
    let by_spells = lines(&answers::<Spells>(input));
    assert_eq!(by_ages, by_spells, "the two forms differ");
    by_ages
}
