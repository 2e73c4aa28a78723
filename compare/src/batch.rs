//! 01, "Batch bytes and the program": command records, answer records, the batch call, the program.

use crate::lent::{Answer, Code, Command, Lent, OPERATIONS};
use crate::rules;
use crate::wellformed;

pub const RECORD: usize = 16;
pub const ANSWER: usize = 6;

#[derive(Clone, Debug, PartialEq, Eq)]
pub struct BatchOutcome {
    pub code: Code,
    pub count: usize,
    pub buffer: Vec<u8>,
    pub after: Lent,
}

pub fn batch(input: &[u8], buffer: &[u8], before: &Lent) -> BatchOutcome {
    let mut outcome = BatchOutcome { code: Code::Done, count: 0, buffer: buffer.to_vec(), after: before.clone() };
    if let Some(&code) = refusals(input, buffer, before).first() {
        return BatchOutcome { code, ..outcome };
    }
    for (record, place) in input.chunks(RECORD).zip(outcome.buffer.chunks_mut(ANSWER)) {
        let told = match command(record) {
            Some(command) => rules::operate(&command, &outcome.after),
            None => rules::refused(Code::BadRecord, &outcome.after),
        };
        place.copy_from_slice(&answer(&told.answer));
        outcome.after = told.after;
        outcome.count += 1;
    }
    outcome
}

/// Every reason to refuse the whole batch, in their order.
pub fn refusals(input: &[u8], buffer: &[u8], before: &Lent) -> Vec<Code> {
    let length = !input.chunks_exact(RECORD).remainder().is_empty() || input.len() > 16_384;
    let short = buffer.len() < ANSWER * (input.len() / RECORD);
    let reasons = [(length, Code::BadLength), (short, Code::Short), (!wellformed::holds(before), Code::Damaged)];
    reasons.into_iter().filter(|(given, _)| *given).map(|(_, code)| code).collect()
}

/// From the bytes that the program reads to those that it writes.
pub fn program(input: &[u8]) -> Vec<u8> {
    let mut lent = Lent::empty(2048);
    let (whole, tail) = input.split_at(input.len() / RECORD * RECORD);
    let mut output = Vec::new();
    for records in whole.chunks(1024 * RECORD) {
        let told = batch(records, &vec![0; records.len() / RECORD * ANSWER], &lent);
        output.extend(told.buffer);
        lent = told.after;
    }
    if !tail.is_empty() {
        output.extend(answer(&Answer { code: Code::BadRecord, probes: 0, slot: 0 }));
    }
    output
}

/// The command of a record; none if its mark or its operation is wrong.
pub fn command(record: &[u8]) -> Option<Command> {
    let two = |at: usize| u32::from(u16::from_le_bytes([record[at], record[at + 1]]));
    let operation = *OPERATIONS.get(usize::from(record[2]).checked_sub(1)?)?;
    let key = u64::from_le_bytes(record[8..].try_into().expect("eight bytes"));
    let marked = record[..2] == [0x43, 0x4E];
    marked.then(|| Command { operation, kind: record[3].into(), position: two(4), slot: two(6), key })
}

/// The record of a command whose fields fit into one.
pub fn record(command: &Command) -> [u8; RECORD] {
    let mut bytes = [0; RECORD];
    bytes[..4].copy_from_slice(&[0x43, 0x4E, command.operation as u8, command.kind as u8]);
    bytes[4..6].copy_from_slice(&(command.position as u16).to_le_bytes());
    bytes[6..8].copy_from_slice(&(command.slot as u16).to_le_bytes());
    bytes[8..].copy_from_slice(&command.key.to_le_bytes());
    bytes
}

pub fn answer(answer: &Answer) -> [u8; ANSWER] {
    let slot = (answer.slot as u16).to_le_bytes();
    [0x41, 0x4E, answer.code as u8, answer.probes as u8, slot[0], slot[1]]
}
