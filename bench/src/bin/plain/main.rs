//! A watch as one would write it by hand, with nothing proved: what the proved `watch` is measured against. It is to print
//! the same bytes for every input. It shares no code with the second program, which it is compared with.

#![no_main]

mod lines;
mod record;
mod session;
mod table;

use lines::Lines;
use std::io::{self, Read, Write};

fn read_input() -> io::Result<Vec<u8>> {
    let mut input = Vec::with_capacity(session::LONGEST + 1);
    let mut stdin = io::stdin().lock();
    // one byte above the longest session tells enough; the rest is read so that whoever writes it is not cut off
    (&mut stdin)
        .take(session::LONGEST as u64 + 1)
        .read_to_end(&mut input)?;
    io::copy(&mut stdin, &mut io::sink())?;
    Ok(input)
}

fn write_output(lines: &[u8]) -> io::Result<()> {
    let mut stdout = io::stdout().lock();
    stdout.write_all(lines)?;
    stdout.flush()
}

fn watch() -> Result<(), String> {
    let input = read_input().map_err(|error| format!("standard input: {error}"))?;
    let mut lines = Lines::new();
    session::run(&input, &mut lines);
    write_output(lines.written()).map_err(|error| format!("standard output: {error}"))
}

/// The C library's entry in place of Rust's, which asks for the bounds of the stack first.
#[no_mangle]
pub extern "C" fn main() -> i32 {
    match watch() {
        Ok(()) => 0,
        Err(failure) => {
            eprintln!("plain: {failure}");
            1
        }
    }
}
