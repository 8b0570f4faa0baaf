//! Whether the answers are the expected ones, and how a difference is told.

use crate::judge::probe::{parted, Kind};
use crate::judge::{Case, Part};
use crate::record::{Pair, Place, Record};
use crate::run::{hex, Failure};
use crate::table::big_endian;

/// A case, the number that it comes of and its place there, counted from 1.
pub struct Placed {
    pub number: usize,
    pub place: usize,
    pub case: Case,
}

/// The answers of this program are as stated.
pub fn as_stated(part: &Part, placed: &[Placed]) -> Result<(), Failure> {
    let otherwise = |placed: &&Placed| !placed.case.answer.starts_with(&placed.case.stated);
    match placed.iter().find(otherwise) {
        None => Ok(()),
        Some(placed) => {
            let Case { stated, answer, .. } = &placed.case;
            let mut wanted = answer.clone();
            wanted[..stated.len()].copy_from_slice(stated);
            let (wanted, answer) = spelled(placed.case.kind, &wanted, answer);
            let otherwise =
                format!("the second program does not answer {wanted} as stated, but {answer}");
            Err(shown(part, placed, &otherwise))
        }
    }
}

/// The answers are the expected ones, byte for byte, and there are no others.
pub fn alike(part: &Part, placed: &[Placed], answered: &[u8]) -> Result<(), Failure> {
    let mut rest = answered;
    let mut differ = Vec::new();
    for placed in placed {
        let size = placed.case.kind.answer_size();
        if rest.len() < size {
            break;
        }
        let (answer, behind) = rest.split_at(size);
        if answer != placed.case.answer {
            differ.push((placed, answer));
        }
        rest = behind;
    }
    if let Some((placed, answer)) = differ.first() {
        let (expected, answered) = spelled(placed.case.kind, &placed.case.answer, answer);
        let differs = format!(
            "expected {expected}, answered {answered}, the first of {} that differ",
            differ.len()
        );
        return Err(shown(part, placed, &differs));
    }
    let expected: usize = placed.iter().map(|placed| placed.case.answer.len()).sum();
    if expected != answered.len() {
        let sizes = format!(
            "{} from {} on: {} bytes answer {} cases, expected {expected}",
            part.name,
            placed.first().map_or(0, |placed| placed.number),
            answered.len(),
            placed.len(),
        );
        return Err(sizes.into());
    }
    Ok(())
}

/// Two answers: their numbers, each with the first of its other parts that is not the other's.
fn spelled(kind: Kind, a: &[u8], b: &[u8]) -> (String, String) {
    let (of_a, of_b) = (parts(kind, a), parts(kind, b));
    match of_a.iter().zip(&of_b).find(|(a, b)| a != b) {
        None => (a[0].to_string(), b[0].to_string()),
        Some((of_a, of_b)) => (
            format!("{} with {of_a}", a[0]),
            format!("{} with {of_b}", b[0]),
        ),
    }
}

/// What an answer says behind its number, part by part.
fn parts(kind: Kind, answer: &[u8]) -> Vec<String> {
    let said = |words: &[&str]| match words.get(usize::from(answer[1])) {
        Some(word) => vec![word.to_string()],
        None => vec![format!("byte {}", answer[1])],
    };
    match kind {
        Kind::Table => vec![format!("horizon {}", big_endian(&answer[1..]))],
        Kind::Record => Vec::new(),
        Kind::Start | Kind::Letter | Kind::Span | Kind::Gap => of_record(&parted(&answer[1..]).0),
        Kind::Verdict => said(&["no verdict", "yes", "no", "unsure"]),
        Kind::Settled => said(&["open", "settled"]),
        Kind::Count => vec![format!("count {}", answer[1])],
    }
}

fn of_record(record: &Record) -> Vec<String> {
    let pair = |pair: &Pair| format!("sure {:04X}, possible {:04X}", pair.sure, pair.possible);
    let stretch = |(at, place): (usize, &Place)| {
        let (first, last) = (place.first, place.last);
        format!("place {at}: {first} to {last}, {}", pair(&place.pair))
    };
    let mut parts = vec![
        format!("room {}", record.room),
        format!("count {}", record.count),
    ];
    parts.extend(record.places.iter().enumerate().map(stretch));
    parts.push(format!("above H: {}", pair(&record.above)));
    parts
}

/// Of a longer case the bytes behind decide nothing but its length.
const SHOWN: usize = 2_048;

fn shown(part: &Part, placed: &Placed, what: &str) -> Failure {
    let Placed {
        number,
        place,
        case,
    } = placed;
    let load = &case.load[..case.load.len().min(SHOWN)];
    let label = match case.label.as_str() {
        "" => String::new(),
        label => format!(": {label}"),
    };
    let why = format!(
        "{}, seed {}, {} ({}{label}; {} bytes): {what}\n{}",
        part.name,
        part.seed,
        (part.at)(*number, *place),
        case.making,
        case.load.len(),
        hex(load)
    );
    why.into()
}
