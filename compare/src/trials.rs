//! What is tried on the model and on the compiled library, and what 01 and the crate say to it.

use crate::batch::{self, BatchOutcome};
use crate::codes::{self, Reading};
use crate::halfway;
use crate::lent::{Answer, Code, Command, Entry, Lent, Operation, Outcome, Side};
use crate::rules;
use crate::wellformed;

/// A link record: left, right, parent_color.
pub type Link = (u32, u32, u32);

#[derive(Clone, Debug)]
pub enum Trial {
    /// whether the numbers are well formed
    Check(Lent),
    /// a single call
    Call {
        command: Command,
        before: Lent,
    },
    /// what is said of an accepted command: the list and the keys after it, and the links halfway
    Meant {
        command: Command,
        before: Lent,
    },
    /// a cursor moved in place, to its next or its prev
    Move {
        side: Side,
        cursor: u32,
        lent: Lent,
    },
    Entry {
        key: u64,
        lent: Lent,
    },
    OrInsert {
        entry: Entry,
        slot: u32,
        key: u64,
        before: Lent,
    },
    /// first_child or last_child over link records
    End {
        side: Side,
        links: Vec<Link>,
        start: u32,
    },
    Line(Vec<u8>),
    Batch {
        input: Vec<u8>,
        buffer: Vec<u8>,
        before: Lent,
    },
    Program(Vec<u8>),
}

#[derive(Clone, Debug, PartialEq, Eq)]
pub enum Said {
    Holds(bool),
    Outcome(Outcome),
    Meant { list: Vec<u32>, keys: Vec<u64>, halfway: Lent },
    Moved { answer: Answer, cursor: u32 },
    Entered { code: Code, entry: Entry },
    Slot(u32),
    Read(Reading),
    Batched(BatchOutcome),
    Bytes(Vec<u8>),
}

pub fn said(trial: &Trial) -> Said {
    match trial {
        Trial::Check(lent) => Said::Holds(wellformed::holds(lent)),
        Trial::Call { command, before } => Said::Outcome(rules::perform(command, before)),
        Trial::Meant { command, before } => {
            let after = rules::perform(command, before).after;
            let list = rules::meaning(command, before).1;
            Said::Meant { list, keys: after.key, halfway: halfway::unmended(command, before) }
        }
        Trial::Move { side, cursor, lent } => moved(*side, *cursor, lent),
        Trial::Entry { key, lent } => {
            let (code, entry) = rules::entry(*key, lent);
            Said::Entered { code, entry }
        }
        Trial::OrInsert { entry, slot, key, before } => Said::Outcome(rules::or_insert(*entry, *slot, *key, before)),
        Trial::End { side, links, start } => Said::Slot(end(*side, links, *start)),
        Trial::Line(line) => Said::Read(codes::read(line)),
        Trial::Batch { input, buffer, before } => Said::Batched(batch::batch(input, buffer, before)),
        Trial::Program(input) => Said::Bytes(batch::program(input)),
    }
}

/// On a refusal the cursor stays put.
fn moved(side: Side, cursor: u32, lent: &Lent) -> Said {
    let operation = if side == Side::Right { Operation::Next } else { Operation::Prev };
    let command = Command { operation, kind: 0, position: cursor, slot: 0, key: 0 };
    let answer = rules::perform(&command, lent).answer;
    Said::Moved { answer, cursor: if answer.code == Code::Done { answer.slot } else { cursor } }
}

/// 0 if the walk leaves the list, or meets more nodes than it holds.
fn end(side: Side, links: &[Link], start: u32) -> u32 {
    let mut slot = start;
    for _ in links {
        let Some((left, right, _)) = (slot as usize).checked_sub(1).and_then(|index| links.get(index)) else {
            return 0;
        };
        match if side == Side::Left { *left } else { *right } {
            0 => return slot,
            child => slot = child,
        }
    }
    0
}
