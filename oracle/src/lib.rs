//! A second watch, written from document 01 alone.
//!
//! It shares no code, no algorithm and no representation with the proved library: what it holds are the two sets of
//! configurations themselves. [`ages`] writes such a set down age by age and is as plain as the document. [`spells`]
//! holds, for each state, the spells of ages at which it is held; it takes horizons of any size. Both are run by
//! [`watch`], which reads a whole session and prints its lines, and the tests hold the one to the other.
//!
//! [`generate`] makes sessions from a seed, and [`compare`] runs a given program over them.
//!
//! [`mod@record`] says what a proper record is, and [`calls`] answers the library's calls by the same sets, each from
//! the record and the table that it is handed. [`judge`] makes tables, records and sequences of calls, and holds what a
//! given program answers to [`table`] and to these.

pub mod ages;
pub mod calls;
pub mod compare;
pub mod generate;
pub mod judge;
pub mod record;
pub mod run;
pub mod session;
pub mod spells;
pub mod table;
pub mod watch;
