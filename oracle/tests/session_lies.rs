//! Watches that read or print a session wrongly in one thing and are right in everything else: the comparison catches each of
//! them at an edge and by generated sessions. What a watch can hold wrongly is in `readings` and `call_lies`.

use oracle::compare::{compare, Plan};
use oracle::generate::edges::COUNT;
use oracle::generate::kinds::named;
use oracle::session::{first, framed, LONGEST};
use oracle::spells::Spells;
use oracle::watch::{answers, lines, Answer};

fn right(input: &[u8]) -> Vec<Answer> {
    answers::<Spells>(input)
}

/// The comparison fails on what the liar prints: over the edges, and over so many sessions of each of these kinds.
fn caught(kinds: &[(&str, usize)], liar: impl Fn(&[u8]) -> String + Sync) {
    for &(name, sessions) in [("edges", COUNT)].iter().chain(kinds) {
        let plan = Plan {
            kind: named(name).unwrap(),
            sessions,
            seed: 1,
        };
        let failure = match compare(&plan, &|_, input| Ok(liar(input).into_bytes())) {
            Ok(_) => panic!("not caught by {name}"),
            Err(failure) => failure,
        };
        assert!(failure.why.contains("differs after"), "{}", failure.why);
    }
}

/// Where the session breaks off: the place of the entry that cannot be read, if its start is in order and one is there.
fn unreadable(input: &[u8]) -> Option<usize> {
    if matches!(right(input)[0], Answer::Refused(_)) {
        return None;
    }
    let mut entries = framed(input)?.entries;
    while let Some((_, rest)) = first(entries) {
        entries = rest;
    }
    match entries {
        [] => None,
        _ => Some(input.len() - entries.len()),
    }
}

fn is_cut_short(entry: &[u8]) -> bool {
    match entry {
        [1] | [2] | [2, 1] | [5] => true,
        [5, 2, load @ ..] => load.len() < 4,
        _ => false,
    }
}

/// The right lines, without the last where what cannot be read is so.
fn silent_at(input: &[u8], is_so: impl Fn(&[u8]) -> bool) -> String {
    let mut answers = right(input);
    if unreadable(input).map_or(false, |at| is_so(&input[at..])) {
        answers.pop();
    }
    lines(&answers)
}

#[test]
fn an_entry_cut_short_taken_as_the_end() {
    caught(&[("cut", 60), ("faults", 60)], |input| {
        silent_at(input, is_cut_short)
    });
}

#[test]
fn zeros_at_the_end_taken_as_padding() {
    let zeros = |rest: &[u8]| rest.iter().all(|&byte| byte == 0);
    caught(&[("faults", 1200)], |input| silent_at(input, zeros));
}

/// 12 is printed, as many bytes are passed over as the length byte says, and the session goes on.
fn passed_over(input: &[u8]) -> Vec<Answer> {
    let at = match unreadable(input) {
        Some(at) => at,
        None => return right(input),
    };
    let behind = input.len().min(at + 1 + usize::from(input[at]));
    let ordinal = right(input).len() - 1;
    let mut answers = passed_over(&[&input[..at], &input[behind..]].concat());
    answers.insert(ordinal, Answer::Refused(12));
    answers
}

#[test]
fn an_unreadable_entry_passed_over() {
    caught(&[("damaged", 120)], |input| lines(&passed_over(input)));
}

#[test]
fn a_refused_start_goes_on() {
    caught(&[("faults", 12), ("pairs", 67)], |input| {
        let mut answers = right(input);
        if let (Answer::Refused(number), Some(session)) = (answers[0], framed(input)) {
            let mut entries = session.entries;
            while let Some((_, rest)) = first(entries) {
                answers.push(Answer::Refused(number));
                entries = rest;
            }
        }
        lines(&answers)
    });
}

#[test]
fn what_is_above_32_768_bytes_dropped() {
    caught(&[("long", 6), ("faults", 120)], |input| {
        lines(&right(&input[..input.len().min(LONGEST)]))
    });
}

#[test]
fn refused_entries_have_no_ordinal() {
    caught(&[("small", 100), ("faults", 12)], |input| {
        let mut ordinal = 0;
        let mut text = String::new();
        for answer in right(input) {
            text += &format!("{ordinal} {answer}\n");
            if !matches!(answer, Answer::Refused(_)) {
                ordinal += 1;
            }
        }
        text
    });
}

#[test]
fn the_session_ends_after_9_10_or_11() {
    for number in 9..=11 {
        caught(&[("small", 100), ("faults", 12)], |input| {
            let mut answers = right(input);
            let refused = (answers.iter()).position(|answer| *answer == Answer::Refused(number));
            answers.truncate(refused.map_or(answers.len(), |at| at + 1));
            lines(&answers)
        });
    }
}

#[test]
fn open_and_settled_exchanged() {
    caught(&[("small", 100), ("gaps", 100)], |input| {
        let exchanged = |answer| match answer {
            Answer::Stands {
                verdict,
                settled,
                count,
            } => Answer::Stands {
                verdict,
                settled: !settled,
                count,
            },
            refused => refused,
        };
        lines(&right(input).into_iter().map(exchanged).collect::<Vec<_>>())
    });
}
