//! The table: checked once, with the numbers 1 to 7, and turned into rows.

use crate::record::Pair;

/// The greatest age that a line may name.
const GREATEST: u32 = 31_622_400;
/// The greatest age of a line that has none.
const UNBOUNDED: u32 = u32::MAX;

/// What a letter does at a piece of ages on which no line's condition changes. The piece begins behind that of the row
/// before, the first at age 0.
pub struct Row {
    pub last: u32,
    /// For each state the states that it is led to: kept at their age in the low half, reset to age 0 in the high one.
    led: [u32; 16],
}

impl Row {
    /// Where the letter leads from a pair: what is kept, and what is reset.
    pub fn led(&self, from: Pair) -> (Pair, Pair) {
        let possible = self.led_from(from.possible());
        // nearly always the two sets are the same
        if from.is_same() {
            let reset = (possible >> 16) as u16;
            return (Pair::same(possible as u16), Pair::same(reset));
        }
        let sure = self.led_from(from.sure());
        let kept = Pair::new(sure as u16, possible as u16);
        let reset = Pair::new((sure >> 16) as u16, (possible >> 16) as u16);
        (kept, reset)
    }

    fn led_from(&self, states: u16) -> u32 {
        let mut led = 0;
        let mut left = states;
        while left != 0 {
            led |= self.led[left.trailing_zeros() as usize];
            left &= left - 1;
        }
        led
    }
}

pub struct Table {
    pub all: u16,
    pub initial: u16,
    pub standing: u16,
    pub accepting: u16,
    /// The largest L or finite U in any line.
    pub horizon: u32,
    /// For each letter its rows; there is at least one, and the last has no end.
    pub letters: Vec<Vec<Row>>,
}

struct Line {
    from: u8,
    letter: u8,
    to: u8,
    resets: bool,
    least: u32,
    greatest: u32,
}

impl Table {
    /// The table in `bytes`, or the number of the first check that fails.
    pub fn read(bytes: &[u8]) -> Result<Table, u8> {
        if bytes.len() < 12 {
            return Err(1);
        }
        if bytes[0] != 1 {
            return Err(2);
        }
        let (n, m, e) = (bytes[3], bytes[4], bytes[11]);
        if !(1..=16).contains(&n) || !(1..=32).contains(&m) || e > 64 {
            return Err(3);
        }
        let stated = usize::from(be16(bytes, 1));
        if stated != 12 + 12 * usize::from(e) || stated != bytes.len() {
            return Err(4);
        }
        let all = ((1u32 << n) - 1) as u16;
        let (initial, standing, accepting) = (be16(bytes, 5), be16(bytes, 7), be16(bytes, 9));
        if (initial | standing | accepting) & !all != 0 {
            return Err(5);
        }
        let lines = (bytes[12..].chunks_exact(12))
            .map(|line| read_line(line, n, m))
            .collect::<Result<Vec<Line>, u8>>()?;
        let bounds = lines.iter().flat_map(|line| [line.least, line.greatest]);
        let horizon = bounds.filter(|&age| age != UNBOUNDED).max().unwrap_or(0);
        Ok(Table {
            all,
            initial,
            standing,
            accepting,
            horizon,
            letters: (0..m).map(|letter| rows(&lines, letter)).collect(),
        })
    }
}

fn read_line(bytes: &[u8], n: u8, m: u8) -> Result<Line, u8> {
    let (from, letter, to, flags) = (bytes[0], bytes[1], bytes[2], bytes[3]);
    if from >= n || to >= n || letter >= m || flags > 1 {
        return Err(6);
    }
    let (least, greatest) = (be32(bytes, 4), be32(bytes, 8));
    if least > GREATEST || greatest > GREATEST && greatest != UNBOUNDED || greatest < least {
        return Err(7);
    }
    Ok(Line {
        from,
        letter,
        to,
        resets: flags == 1,
        least,
        greatest,
    })
}

/// The rows of a letter: a piece ends before the least age of a line, and with the greatest.
fn rows(lines: &[Line], letter: u8) -> Vec<Row> {
    let own: Vec<&Line> = lines.iter().filter(|line| line.letter == letter).collect();
    let mut ends = vec![UNBOUNDED];
    for line in &own {
        ends.extend(line.least.checked_sub(1));
        ends.push(line.greatest);
    }
    ends.sort_unstable();
    ends.dedup();
    let row = |last: u32| {
        let mut row = Row { last, led: [0; 16] };
        // a line holds at all ages of a piece or at none, so its last age speaks for it
        for line in own
            .iter()
            .filter(|line| (line.least..=line.greatest).contains(&last))
        {
            let to = 1u32 << line.to;
            row.led[usize::from(line.from)] |= if line.resets { to << 16 } else { to };
        }
        row
    };
    ends.into_iter().map(row).collect()
}

fn be16(bytes: &[u8], at: usize) -> u16 {
    u16::from_be_bytes([bytes[at], bytes[at + 1]])
}

fn be32(bytes: &[u8], at: usize) -> u32 {
    u32::from_be_bytes([bytes[at], bytes[at + 1], bytes[at + 2], bytes[at + 3]])
}
