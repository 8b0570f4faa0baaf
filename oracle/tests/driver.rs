//! The comparison fails where it should: on a program that prints something else, ends badly or cannot be run, and on
//! words that make no sense.

mod common;

use common::{oracle, refuses, ORACLE};
use oracle::generate::kinds::KINDS;

/// The comparison over the least number of sessions of each kind.
fn compared(program: &[&str]) -> (Option<i32>, String) {
    compared_within("120", program)
}

fn compared_within(patience: &str, program: &[&str]) -> (Option<i32>, String) {
    let mut words = vec!["compare", "--seed", "3", "--patience", patience];
    let counts: Vec<String> = (KINDS.iter())
        .map(|kind| format!("{}={}", kind.name, kind.least))
        .collect();
    for count in &counts {
        words.extend(["--of", count]);
    }
    words.push("--");
    words.extend(program);
    oracle(&words)
}

#[test]
fn a_right_program_passes() {
    let (status, text) = compared(&[ORACLE, "watch"]);
    assert_eq!(status, Some(0), "{text}");
    assert!(
        text.ends_with(" sessions alike, 0 kinds failed\n"),
        "{text}"
    );
}

#[test]
fn a_program_that_prints_something_else_is_shown() {
    let wrong = format!("'{ORACLE}' watch | sed 's/unsure open/no open/'");
    let (status, text) = compared(&["sh", "-c", &wrong]);
    assert_eq!(status, Some(1));
    assert!(text.contains("gaps     FAILED"), "{text}");
    assert!(text.contains("kind gaps, seed 3, session "), "{text}");
    assert!(text.contains("-- expected\n0 "), "{text}");
    assert!(text.contains("-- printed\n0 "), "{text}");
    assert!(text.contains("\n01 "), "the session in hexadecimal: {text}");
    assert!(!text.ends_with(" 0 kinds failed\n"), "{text}");
}

#[test]
fn a_program_that_prints_nothing_fails() {
    let (status, text) = compared(&["true"]);
    assert_eq!(status, Some(1));
    assert!(text.contains("differs after 0 lines"), "{text}");
    assert!(
        text.ends_with("0 sessions alike, 12 kinds failed\n"),
        "{text}"
    );
}

#[test]
fn a_program_that_ends_badly_fails() {
    let right_but = format!("'{ORACLE}' watch; exit 3");
    let (status, text) = compared(&["sh", "-c", &right_but]);
    assert_eq!(status, Some(1));
    assert!(text.contains("sh ended with"), "{text}");
}

#[test]
fn a_program_that_does_not_end_fails() {
    let reads_and_sleeps = format!("'{ORACLE}' watch; exec >/dev/null; exec sleep 1000");
    let reads_nothing = "exec sleep 1000".to_string();
    for program in [reads_and_sleeps, reads_nothing] {
        let (status, text) = compared_within("2", &["sh", "-c", &program]);
        assert_eq!(status, Some(1));
        assert!(text.contains("the program does not end"), "{text}");
        // no other kind is tried with it
        assert!(
            text.ends_with("0 sessions alike, 1 kinds failed\n"),
            "{text}"
        );
    }
}

#[test]
fn a_program_that_is_not_there_fails() {
    let (status, text) = compared(&["./no-such-watch"]);
    assert_eq!(status, Some(1));
    assert!(text.contains("cannot run ./no-such-watch"), "{text}");
}

#[test]
fn too_few_sessions_are_no_comparison() {
    let (status, text) = oracle(&["compare", "--each", "5", "--", ORACLE, "watch"]);
    assert_eq!(status, Some(1));
    assert!(text.contains("rooms: 5 sessions cannot reach"), "{text}");
}

#[test]
fn bad_words_are_refused() {
    let bad: [&[&str]; 12] = [
        &[],
        &["watches"],
        &["watch", "--age"],
        &["compare"],
        &["compare", "--"],
        &["compare", "--each", "many", "--", "true"],
        &["compare", "--patience", "0", "--", "true"],
        &[
            "compare",
            "--patience",
            "18446744073709551615",
            "--",
            "true",
        ],
        &["compare", "--of", "small", "--", "true"],
        &["compare", "--of", "tiny=5", "--", "true"],
        &["session", "small", "1"],
        &["session", "tiny", "1", "1"],
    ];
    for words in bad {
        refuses(words);
    }
}
