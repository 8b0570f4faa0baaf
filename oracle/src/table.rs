//! The table: read from its bytes, or refused with its number (1 to 7).

/// The greatest age that a line may name.
pub const GREATEST: u64 = 31_622_400;
/// The greatest age of a line that has none.
pub const UNBOUNDED: u64 = 4_294_967_295;

/// A set of states, bit i for state i.
pub type States = u16;

/// The states of a set, in rising order.
pub fn members(set: States) -> impl Iterator<Item = usize> {
    (0..16).filter(move |&state| set >> state & 1 == 1)
}

#[derive(Clone, Debug)]
pub struct Line {
    pub from: usize,
    pub letter: u8,
    pub to: usize,
    pub resets: bool,
    pub least: u64,
    /// `None`: no upper bound.
    pub greatest: Option<u64>,
}

impl Line {
    /// L ≤ t ≤ U.
    pub fn admits(&self, age: u64) -> bool {
        self.least <= age && self.greatest.map_or(true, |greatest| age <= greatest)
    }
}

#[derive(Clone, Debug)]
pub struct Table {
    pub states: usize,
    pub letters: u8,
    pub initial: States,
    pub standing: States,
    pub accepting: States,
    pub lines: Vec<Line>,
    /// The largest L or finite U in any line, 0 if there are no lines.
    pub horizon: u64,
}

impl Table {
    /// The table in `bytes`, or the number of the first check that fails.
    pub fn read(bytes: &[u8]) -> Result<Table, u8> {
        if bytes.len() < 12 {
            return Err(1);
        }
        if bytes[0] != 1 {
            return Err(2);
        }
        let (n, m, e) = (bytes[3], bytes[4], bytes[11]);
        if !(1..=16).contains(&n) || !(1..=32).contains(&m) || !(0..=64).contains(&e) {
            return Err(3);
        }
        let stated = big_endian(&bytes[1..3]);
        if stated != 12 + 12 * u64::from(e) || stated != bytes.len() as u64 {
            return Err(4);
        }
        let mask = |at: usize| big_endian(&bytes[at..at + 2]) as States;
        let (initial, standing, accepting) = (mask(5), mask(7), mask(9));
        let states = usize::from(n);
        if members(initial | standing | accepting).any(|state| state >= states) {
            return Err(5);
        }
        let mut lines = Vec::new();
        for line in bytes[12..].chunks(12) {
            lines.push(read_line(line, n, m)?);
        }
        let horizon = lines
            .iter()
            .flat_map(|line| [Some(line.least), line.greatest])
            .flatten()
            .max()
            .unwrap_or(0);
        Ok(Table {
            states,
            letters: m,
            initial,
            standing,
            accepting,
            lines,
            horizon,
        })
    }

    /// The lines that bear a letter.
    pub fn on(&self, letter: u8) -> impl Iterator<Item = &Line> {
        self.lines.iter().filter(move |line| line.letter == letter)
    }

    /// All n states.
    pub fn all(&self) -> States {
        (0..self.states).fold(0, |set, state| set | 1 << state)
    }
}

fn read_line(bytes: &[u8], n: u8, m: u8) -> Result<Line, u8> {
    let (from, letter, to, flags) = (bytes[0], bytes[1], bytes[2], bytes[3]);
    if from >= n || to >= n || letter >= m || flags > 1 {
        return Err(6);
    }
    let (least, greatest) = (big_endian(&bytes[4..8]), big_endian(&bytes[8..12]));
    if least > GREATEST || greatest > GREATEST && greatest != UNBOUNDED || greatest < least {
        return Err(7);
    }
    Ok(Line {
        from: usize::from(from),
        letter,
        to: usize::from(to),
        resets: flags == 1,
        least,
        greatest: Some(greatest).filter(|&greatest| greatest != UNBOUNDED),
    })
}

/// The number that bytes spell, the greatest place first.
pub fn big_endian(bytes: &[u8]) -> u64 {
    bytes
        .iter()
        .fold(0, |number, &byte| number * 256 + u64::from(byte))
}
