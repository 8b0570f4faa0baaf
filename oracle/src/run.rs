//! Runs a given program: feeds it, reads what it prints and stops it when it does not end.

use std::io::{ErrorKind, Read, Write};
use std::process::{Child, Command, ExitStatus, Stdio};
use std::sync::atomic::{AtomicUsize, Ordering};
use std::sync::mpsc::{channel, Receiver};
use std::sync::Mutex;
use std::time::{Duration, Instant};

/// Why a comparison fails.
#[derive(Debug)]
pub struct Failure {
    pub why: String,
    /// The program did not end: there is no use in going on with it.
    pub hangs: bool,
}

impl From<String> for Failure {
    fn from(why: String) -> Failure {
        Failure { why, hangs: false }
    }
}

impl Failure {
    /// The failure, told with the bytes that it came of.
    pub fn at(self, place: &str, bytes: &[u8]) -> Failure {
        Failure {
            why: format!("{place}: {}\n{}", self.why, hex(bytes)),
            hangs: self.hangs,
        }
    }
}

/// Does the works 0 to `count` - 1 on all processors and stops at a failure: that of the least number is told.
pub fn on_all_processors(
    count: usize,
    work: impl Fn(usize) -> Result<(), Failure> + Sync,
) -> Result<(), Failure> {
    let next = AtomicUsize::new(0);
    let first_failure: Mutex<Option<(usize, Failure)>> = Mutex::new(None);
    let worker = || loop {
        let number = next.fetch_add(1, Ordering::SeqCst);
        if number >= count || first_failure.lock().unwrap().is_some() {
            return;
        }
        if let Err(why) = work(number) {
            let mut failure = first_failure.lock().unwrap();
            if failure
                .as_ref()
                .map_or(true, |(before, _)| number < *before)
            {
                *failure = Some((number, why));
            }
        }
    };
    let workers = std::thread::available_parallelism().map_or(1, |n| n.get());
    std::thread::scope(|scope| {
        for _ in 0..workers {
            scope.spawn(worker);
        }
    });
    match first_failure.into_inner().unwrap() {
        Some((_, why)) => Err(why),
        None => Ok(()),
    }
}

/// What the program prints when it is fed the input in pieces of this size, if it ends well and in time.
pub fn run(
    program: &[String],
    input: &[u8],
    piece: usize,
    patience: Duration,
) -> Result<Vec<u8>, Failure> {
    let deadline = Instant::now() + patience;
    let mut child = Command::new(&program[0])
        .args(&program[1..])
        .stdin(Stdio::piped())
        .stdout(Stdio::piped())
        .spawn()
        .map_err(|error| format!("cannot run {}: {error}", program[0]))?;
    let printed = exchange(&mut child, input, piece, deadline);
    let ended = printed.and_then(|printed| Ok((printed, wait(&mut child, deadline)?)));
    match ended {
        Ok((printed, status)) if status.success() => Ok(printed),
        Ok((_, status)) => Err(format!("{} ended with {status}", program[0]).into()),
        Err(failure) => {
            // it may have ended by now: then there is nothing to stop
            let _ = child.kill();
            let _ = child.wait();
            Err(failure)
        }
    }
}

fn late() -> Failure {
    Failure {
        why: "the program does not end".to_string(),
        hangs: true,
    }
}

/// Feeds and reads at the same time, since either side may wait for the other.
fn exchange(
    child: &mut Child,
    input: &[u8],
    piece: usize,
    deadline: Instant,
) -> Result<Vec<u8>, Failure> {
    let mut to = child.stdin.take().expect("a piped input");
    let mut from = child.stdout.take().expect("a piped output");
    let input = input.to_vec();
    let fed = aside(move || -> std::io::Result<()> {
        for part in input.chunks(piece) {
            match to.write_all(part) {
                // a program may leave before the end of its input
                Err(error) if error.kind() == ErrorKind::BrokenPipe => break,
                other => other?,
            }
        }
        Ok(())
    });
    let printed = aside(move || {
        let mut printed = Vec::new();
        from.read_to_end(&mut printed).map(|_| printed)
    });
    let left = || deadline.saturating_duration_since(Instant::now());
    let printed = printed.recv_timeout(left()).map_err(|_| late())?;
    let fed = fed.recv_timeout(left()).map_err(|_| late())?;
    fed.map_err(|error| format!("cannot feed it: {error}"))?;
    Ok(printed.map_err(|error| format!("cannot read what it prints: {error}"))?)
}

/// Does the work on a thread of its own, which is left behind if nobody waits for it any more.
fn aside<T: Send + 'static>(work: impl FnOnce() -> T + Send + 'static) -> Receiver<T> {
    let (done, result) = channel();
    std::thread::spawn(move || {
        let _ = done.send(work());
    });
    result
}

fn wait(child: &mut Child, deadline: Instant) -> Result<ExitStatus, Failure> {
    loop {
        match child.try_wait().map_err(|error| error.to_string())? {
            Some(status) => return Ok(status),
            None if Instant::now() >= deadline => return Err(late()),
            None => std::thread::sleep(Duration::from_micros(200)),
        }
    }
}

/// Bytes in hexadecimal, sixteen to a line.
pub fn hex(bytes: &[u8]) -> String {
    let row = |row: &[u8]| -> String {
        let digits: Vec<String> = row.iter().map(|byte| format!("{byte:02X}")).collect();
        digits.join(" ")
    };
    bytes.chunks(16).map(row).collect::<Vec<_>>().join("\n")
}
