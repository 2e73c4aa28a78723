//! Lines: the examples of 01, every byte at every place of short lines, random ones.

use crate::random::Random;
use crate::scripts;
use crate::trials::Trial;

/// What "What the desk can try" spells, and lines about as long as a code may be.
const SPELT: [&str; 14] = [
    "0",
    "A",
    "Ab",
    "aB",
    " AB ",
    "ZZZZZZZZZZZZ",
    "ZZZZZZZZZZZZZ",
    "   ",
    "",
    "a b",
    "-",
    " 0z ",
    "zzzzzzzzzzzz ",
    " 012345678901",
];

/// Bytes are put at every place of these.
const SHORT: [&str; 5] = ["", "7", "q7Z", " x ", "abcdefghijkl"];

pub fn fixed() -> Vec<Trial> {
    let mut lines: Vec<Vec<u8>> = SPELT.iter().map(|line| line.as_bytes().to_vec()).collect();
    for line in SHORT.map(str::as_bytes) {
        for (place, byte) in (0..=line.len()).flat_map(|place| (0..=255).map(move |byte| (place, byte))) {
            lines.push([&line[..place], &[byte], &line[place..]].concat());
            lines.push([&line[..place], &[byte], line.get(place + 1..).unwrap_or(&[])].concat());
        }
    }
    for length in 0..=16 {
        lines.extend([b' ', b'0', b'Z', b'z', 255].map(|byte| vec![byte; length]));
    }
    lines.into_iter().map(Trial::Line).collect()
}

/// A line as a desk would type it, or bytes at random.
pub fn random(random: &mut Random) -> Vec<Trial> {
    if random.once_in(3) {
        let length = random.below(17);
        return vec![Trial::Line((0..length).map(|_| random.below(256) as u8).collect())];
    }
    scripts::line(random)
}
