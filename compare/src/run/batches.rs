//! Batches: the edges of their length and of their buffer, bad records, damaged arrays, full ones, and the records of
//! a batch one by one.

use crate::batch::{self, ANSWER, RECORD};
use crate::damage;
use crate::lent::Lent;
use crate::random::Random;
use crate::rules;
use crate::scripts;
use crate::trees;
use crate::trials::Trial;

/// Input lengths round the edges, each with buffers round the edge, on fine and on damaged arrays.
pub fn edges(random: &mut Random) -> Vec<Trial> {
    let tree = trees::random(8, random);
    let fine = trees::lay(&tree, 8, random);
    let mut made = Vec::new();
    for length in [0, 1, 15, 16, 17, 32, 16_383, 16_384, 16_385, 16_400, 32_768] {
        let input = filled(length, random);
        let needed = length / RECORD * ANSWER;
        for room in [needed.saturating_sub(1), needed, needed + 1, needed + 100, 0] {
            let buffer = vec![0xEE; room];
            let damaged = damage::arrays(fine.clone(), random);
            made.push(Trial::Batch { input: input.clone(), buffer: buffer.clone(), before: fine.clone() });
            made.push(Trial::Batch { input: input.clone(), buffer, before: damaged });
        }
    }
    made
}

fn filled(length: usize, random: &mut Random) -> Vec<u8> {
    let mut input = scripts::records(length / RECORD, &Lent::empty(8), random);
    input.resize(length, 0x43);
    input
}

/// Good records with one in the middle that has another mark, operation or kind; each byte of it is tried.
pub fn bad_records(random: &mut Random) -> Vec<Trial> {
    let tree = trees::random(8, random);
    let before = trees::lay(&tree, 8, random);
    let mut made = Vec::new();
    for (place, value) in (0..4).flat_map(|place| [0, 1, 2, 3, 12, 13, 0x43, 0x4E, 255].map(|value| (place, value))) {
        let mut input = scripts::records(5, &before, random);
        input[2 * RECORD + place] = value;
        made.push(Trial::Batch { input, buffer: vec![7; 5 * ANSWER], before: before.clone() });
    }
    made
}

/// A batch of 1,024 records over 2,048 slots.
pub fn full(random: &mut Random) -> Trial {
    let tree = trees::random(2040, random);
    let before = trees::lay(&tree, 2048, random);
    let input = scripts::records(1024, &before, random);
    Trial::Batch { input, buffer: vec![7; 1024 * ANSWER + 9], before }
}

/// A random batch, and its records one by one on what those before them leave.
pub fn singly(random: &mut Random) -> Vec<Trial> {
    let mut made = scripts::batched(random);
    let Some(Trial::Batch { input, buffer, before }) = made.first().cloned() else { return made };
    let whole = batch::batch(&input, &buffer, &before);
    let mut now = before;
    for record in input.chunks(RECORD).take(whole.count) {
        if let Some(command) = batch::command(record) {
            made.push(Trial::Call { command, before: now.clone() });
            now = rules::perform(&command, &now).after;
        }
    }
    assert!(whole.count == 0 || now == whole.after, "01: a batch equals its records run singly");
    made
}
