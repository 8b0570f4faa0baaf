//! `oracle`: the second watch, the comparison with it, and the judgement of tables, records and calls.

use oracle::ages::Ages;
use oracle::compare::{compare, Plan};
use oracle::generate::kinds::{named, Kind, KINDS};
use oracle::judge::probe::{answer, serve};
use oracle::judge::reached::Reached;
use oracle::judge::{judge, Part};
use oracle::run::{run, Failure};
use oracle::session::LONGEST;
use oracle::spells::Spells;
use oracle::watch::{answers, lines};
use std::io::{Read, Write};
use std::process::exit;
use std::time::{Duration, Instant};

const USAGE: &str = "\
oracle watch [--ages]
    reads a session from standard input and prints its lines;
    --ages: the sets are held age by age
oracle compare [--seed S] [--each N] [--of KIND=N].. [--patience SECONDS] -- PROGRAM [WORD]..
    runs PROGRAM over generated sessions, N of each kind or as many as there are,
    and compares what it prints with `oracle watch`
oracle session KIND SEED NUMBER
    writes one generated session to standard output
oracle kinds
    lists the kinds and what the sessions of each must reach
oracle judge [--seed S] [--tables N] [--records N] [--sequences N] [--patience SECONDS] -- PROGRAM [WORD]..
    gives PROGRAM generated tables, records with a table, and sequences of calls
    with a table and the record that the call before handed back, and compares
    what it answers with `oracle probe`
oracle probe
    answers such cases from standard input";

fn main() {
    let words: Vec<String> = std::env::args().skip(1).collect();
    let words: Vec<&str> = words.iter().map(String::as_str).collect();
    match words.split_first() {
        Some((&"watch", [])) => watch(false),
        Some((&"watch", ["--ages"])) => watch(true),
        Some((&"compare", rest)) => compare_all(rest),
        Some((&"session", [kind, seed, number])) => {
            write_out(
                &kind_of(kind)
                    .session(number_of(seed), number_of(number) as usize)
                    .bytes,
            );
        }
        Some((&"kinds", [])) => list_kinds(),
        Some((&"judge", rest)) => judge_all(rest),
        Some((&"probe", [])) => probe(),
        Some((&"help" | &"--help", _)) => write_out(format!("{USAGE}\n").as_bytes()),
        _ => wrong_use("expected watch, compare, session, kinds, judge or probe with its words"),
    }
}

/// Bad words: say what is wrong and how it is used.
fn wrong_use(what: &str) -> ! {
    eprintln!("oracle: {what}\n{USAGE}");
    exit(2)
}

fn number_of(word: &str) -> u64 {
    let number = word.parse();
    number.unwrap_or_else(|_| wrong_use(&format!("'{word}' is not a number")))
}

fn kind_of(word: &str) -> &'static Kind {
    named(word).unwrap_or_else(|| wrong_use(&format!("there is no kind '{word}'")))
}

fn write_out(bytes: &[u8]) {
    let mut out = std::io::stdout();
    if let Err(error) = out.write_all(bytes).and_then(|()| out.flush()) {
        eprintln!("oracle: cannot write: {error}");
        exit(1);
    }
}

fn watch(by_ages: bool) {
    let mut input = Vec::new();
    // one byte above the longest session tells enough
    let mut readable = std::io::stdin().take(LONGEST as u64 + 1);
    if let Err(error) = readable.read_to_end(&mut input) {
        eprintln!("oracle: cannot read: {error}");
        exit(1);
    }
    let answers = match by_ages {
        true => answers::<Ages>(&input),
        false => answers::<Spells>(&input),
    };
    write_out(lines(&answers).as_bytes());
}

fn list_kinds() {
    let mut text = String::new();
    for kind in &KINDS {
        text += &format!("{:8} {}\n", kind.name, kind.about);
        for goal in (kind.goals)() {
            text += &format!("         - {}\n", goal.name);
        }
    }
    write_out(text.as_bytes());
}

/// How many sessions of each kind, over which program.
struct Task {
    seed: u64,
    sessions: Vec<usize>,
    patience: Duration,
    program: Vec<String>,
}

/// The options, each with its value, and the program with its words behind them.
fn parted<'a>(words: &[&'a str]) -> (Vec<(&'a str, &'a str)>, Vec<String>) {
    let mut options = Vec::new();
    let mut rest = words;
    loop {
        match rest {
            ["--", program @ ..] if !program.is_empty() => {
                return (
                    options,
                    program.iter().map(|word| word.to_string()).collect(),
                );
            }
            [] | ["--"] => wrong_use("no program to compare with, after --"),
            [option, value, more @ ..] => {
                options.push((*option, *value));
                rest = more;
            }
            [word] => not_expected(word),
        }
    }
}

fn not_expected(word: &str) -> ! {
    wrong_use(&format!("'{word}' is not expected here"))
}

const PATIENCE: Duration = Duration::from_secs(120);

fn patience_of(word: &str) -> Duration {
    match number_of(word) {
        seconds @ 1..=86_400 => Duration::from_secs(seconds),
        _ => wrong_use("patience is 1 to 86,400 seconds"),
    }
}

fn task(words: &[&str]) -> Task {
    let (options, program) = parted(words);
    let mut task = Task {
        seed: 1,
        sessions: vec![120; KINDS.len()],
        patience: PATIENCE,
        program,
    };
    let mut of = Vec::new();
    for (option, value) in options {
        match option {
            "--seed" => task.seed = number_of(value),
            "--each" => task.sessions.fill(number_of(value) as usize),
            "--patience" => task.patience = patience_of(value),
            "--of" => {
                let (kind, number) = value
                    .split_once('=')
                    .unwrap_or_else(|| wrong_use(&format!("'{value}' is not KIND=N")));
                of.push((kind_of(kind).name, number_of(number) as usize));
            }
            _ => not_expected(option),
        }
    }
    for (name, number) in of {
        let at = KINDS.iter().position(|kind| kind.name == name);
        task.sessions[at.expect("a kind's name")] = number;
    }
    task
}

fn compare_all(words: &[&str]) {
    let task = task(words);
    let began = Instant::now();
    let asked = |number: usize, input: &[u8]| -> Result<Vec<u8>, Failure> {
        // every fourth session comes one byte at a time
        let piece = match number % 4 {
            3 => 1,
            _ => input.len().max(1),
        };
        run(&task.program, input, piece, task.patience)
    };
    let (mut all, mut failed) = (0, 0);
    for (kind, &sessions) in KINDS.iter().zip(&task.sessions) {
        let sessions = sessions.min(kind.most);
        let plan = Plan {
            kind,
            sessions,
            seed: task.seed,
        };
        match compare(&plan, &asked) {
            Ok(lines) => {
                all += sessions;
                println!(
                    "{:8} {sessions:6} sessions, {lines:8} lines: alike",
                    kind.name
                );
            }
            Err(failure) => {
                failed += 1;
                println!("{:8} FAILED\n{}", kind.name, failure.why);
                if failure.hangs {
                    break;
                }
            }
        }
    }
    println!("{:.1} seconds", began.elapsed().as_secs_f64());
    println!("{all} sessions alike, {failed} kinds failed");
    if failed > 0 {
        exit(1);
    }
}

fn probe() {
    if let Err(error) = serve(std::io::stdin(), std::io::stdout(), answer) {
        eprintln!("oracle: cannot answer: {error}");
        exit(1);
    }
}

/// How many numbers of each part are judged, over which program.
struct Judgement {
    seed: u64,
    tables: usize,
    records: usize,
    sequences: usize,
    patience: Duration,
    program: Vec<String>,
}

fn judgement(words: &[&str]) -> Judgement {
    let (options, program) = parted(words);
    let mut judgement = Judgement {
        seed: 1,
        tables: 120_000,
        records: 120_000,
        sequences: 20_000,
        patience: PATIENCE,
        program,
    };
    for (option, value) in options {
        match option {
            "--seed" => judgement.seed = number_of(value),
            "--tables" => judgement.tables = number_of(value) as usize,
            "--records" => judgement.records = number_of(value) as usize,
            "--sequences" => judgement.sequences = number_of(value) as usize,
            "--patience" => judgement.patience = patience_of(value),
            _ => not_expected(option),
        }
    }
    judgement
}

fn judge_all(words: &[&str]) {
    let of = judgement(words);
    let began = Instant::now();
    let asked = |batch: usize, input: &[u8]| -> Result<Vec<u8>, Failure> {
        // every third batch comes in small pieces
        let piece = if batch % 3 == 2 { 61 } else { 1 << 16 };
        run(&of.program, input, piece, of.patience)
    };
    let parts = [
        (Part::tables(of.seed), of.tables),
        (Part::records(of.seed), of.records),
        (Part::calls(of.seed), of.sequences),
    ];
    let (mut alike, mut failed) = ([(0, 0); 3], 0);
    for (at, (part, numbers)) in parts.iter().enumerate() {
        match judge(part, *numbers, &asked) {
            Ok(reached) => {
                alike[at] = (*numbers, reached.cases);
                print_reached(part, &reached);
            }
            Err(failure) => {
                failed += 1;
                println!("{} FAILED\n{}", part.name, failure.why);
                if failure.hangs {
                    break;
                }
            }
        }
    }
    let [(tables, _), (records, _), (sequences, calls)] = alike;
    println!("{:.1} seconds", began.elapsed().as_secs_f64());
    println!(
        "{tables} tables, {records} records and {sequences} sequences of {calls} calls alike, {failed} failed"
    );
    if failed > 0 {
        exit(1);
    }
}

/// How many cases of each making were answered with each number, how many edges, orders, clauses or marks they show,
/// and how many cases show each of those that are counted.
fn print_reached(part: &Part, reached: &Reached) {
    let all = part.wanted.iter().flat_map(|(_, numbers)| *numbers);
    let greatest = all.copied().max().unwrap_or(0);
    let numbers: String = (0..=greatest).map(|number| format!("{number:7}")).collect();
    println!("{:15}{numbers}", part.name);
    for (making, _) in part.wanted {
        let times: String = (0..=greatest)
            .map(|number| match reached.times(making, number) {
                0 => format!("{:>7}", "-"),
                times => format!("{times:7}"),
            })
            .collect();
        let named = match reached.labels(making) {
            0 => String::new(),
            labels => format!("  ({labels} named)"),
        };
        println!("  {making:13}{times}{named}");
    }
    for (name, labels) in &part.counted {
        println!("{:7}  {name}", reached.rarest(labels));
    }
}
