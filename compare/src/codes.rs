//! 01, "Code keys": from a line to its key.

use crate::lent::Code;

/// The code, the key, and the part of the line that is handed on.
#[derive(Clone, Debug, PartialEq, Eq)]
pub struct Reading {
    pub code: Code,
    pub key: u64,
    pub part: Vec<u8>,
}

pub fn read(line: &[u8]) -> Reading {
    let part = trimmed(line);
    let values: Option<Vec<u64>> = part.iter().map(|&byte| value(byte)).collect();
    match values {
        Some(values) if (1..=12).contains(&values.len()) => {
            let places = values.into_iter().chain(std::iter::repeat(0)).take(12);
            Reading { code: Code::Done, key: places.fold(0, |key, place| key * 37 + place), part: part.to_vec() }
        }
        _ => Reading { code: Code::BadCode, key: 0, part: Vec::new() },
    }
}

fn trimmed(line: &[u8]) -> &[u8] {
    let Some(first) = line.iter().position(|&byte| byte != 32) else { return &[] };
    let last = line.iter().rposition(|&byte| byte != 32).expect("the first one at least");
    &line[first..=last]
}

fn value(byte: u8) -> Option<u64> {
    if byte.is_ascii_digit() {
        Some(u64::from(byte - b'0') + 1)
    } else if byte.is_ascii_alphabetic() {
        Some(u64::from(byte.to_ascii_lowercase() - b'a') + 11)
    } else {
        None
    }
}
