//! Every state that few slots and few keys can reach from the empty tree, and every call in each of them.

use std::collections::{HashSet, VecDeque};

use super::report::Report;
use super::talk::Talk;
use crate::lent::{Code, Command, Entry, Lent, Operation, Side, OPERATIONS};
use crate::trials::{self, Said, Trial};

/// The keys that are placed; those below and above are looked for too.
const PLACED: std::ops::RangeInclusive<u64> = 1..=3;
const SOUGHT: std::ops::RangeInclusive<u64> = 0..=4;

/// Holds the library to all of it, and gives the number of states.
pub fn hold(capacity: usize, talk: &mut Talk) -> Result<usize, Report> {
    let commands = commands(capacity as u32);
    let mut seen = HashSet::from([Lent::empty(capacity)]);
    let mut waiting = VecDeque::from([Lent::empty(capacity)]);
    while let Some(before) = waiting.pop_front() {
        let calls = commands.iter().map(|&command| Trial::Call { command, before: before.clone() });
        let mut steps = Vec::new();
        for trial in calls.chain(others(&before)) {
            let said = trials::said(&trial);
            if let Said::Outcome(outcome) = &said {
                if outcome.answer.code == Code::Done && seen.insert(outcome.after.clone()) {
                    waiting.push_back(outcome.after.clone());
                }
            }
            steps.push((trial, said));
        }
        talk.hold(steps)?;
    }
    Ok(seen.len())
}

/// Every number that names a slot, none, and some that name nothing.
fn numbers(capacity: u32) -> Vec<u32> {
    (0..=capacity + 1).chain([u32::MAX]).collect()
}

/// Each operation with every number that its fields can have; 0 in those that it lacks.
fn commands(capacity: u32) -> Vec<Command> {
    let only = |has: bool, list: Vec<u32>| if has { list } else { vec![0] };
    let mut made = Vec::new();
    for operation in OPERATIONS {
        for kind in only(operation.has_kind(), vec![0, 1, 2, 3, u32::MAX]) {
            for position in only(operation.has_position(), numbers(capacity)) {
                for slot in only(operation.has_slot(), numbers(capacity)) {
                    made.extend(keys(operation).map(|key| Command { operation, kind, position, slot, key }));
                }
            }
        }
    }
    made
}

fn keys(operation: Operation) -> std::ops::RangeInclusive<u64> {
    match operation {
        _ if operation.has_slot() => PLACED,
        _ if operation.has_key() => SOUGHT,
        _ => 0..=0,
    }
}

/// The check, the entry of each key, and or_insert with every entry.
fn others(lent: &Lent) -> Vec<Trial> {
    let mut made = vec![Trial::Check(lent.clone())];
    made.extend(SOUGHT.map(|key| Trial::Entry { key, lent: lent.clone() }));
    for entry in numbers(lent.capacity()).into_iter().flat_map(entries) {
        for slot in numbers(lent.capacity()) {
            made.extend(PLACED.map(|key| Trial::OrInsert { entry, slot, key, before: lent.clone() }));
        }
    }
    made
}

fn entries(slot: u32) -> [Entry; 3] {
    [Entry::Occupied(slot), Entry::Vacant(slot, Side::Left), Entry::Vacant(slot, Side::Right)]
}
