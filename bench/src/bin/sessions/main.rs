//! sessions FOLDER: writes the sessions that the two watches are measured with, and prints a line for each.
//!
//! A session is a lead, which brings the record into shape, and then a mix of entries over and over. Each is written
//! in two lengths, FOLDER/NAME.short and FOLDER/NAME.long: what the longer one costs more is the mix alone, without
//! the program's start, the table and the lead. The line says what the lines of the mix have to show:
//!
//! NAME, entries of the lead, entries of the short and of the long mix, least and most stretches held, and how many of
//! a hundred lines are at least open.

mod make;
mod mixes;

use std::path::Path;
use std::process::exit;

fn main() {
    let words: Vec<String> = std::env::args().skip(1).collect();
    let folder = match words.as_slice() {
        [folder] => Path::new(folder),
        _ => {
            eprintln!("usage: sessions FOLDER");
            exit(2);
        }
    };
    for session in mixes::all() {
        for (length, entries) in [("short", session.short), ("long", session.long)] {
            let file = folder.join(format!("{}.{length}", session.name));
            if let Err(error) = std::fs::write(&file, session.bytes(entries)) {
                eprintln!("sessions: {}: {error}", file.display());
                exit(1);
            }
        }
        println!(
            "{} {} {} {} {} {} {}",
            session.name,
            session.lead.len(),
            session.short,
            session.long,
            session.held.start(),
            session.held.end(),
            session.open,
        );
    }
}
