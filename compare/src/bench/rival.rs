//! A batch on the crate, as a careful Rust program would do it: the same records, the tests without which the crate is
//! not safe or keys fall out of order, the same answers.

use crate::batch::{self, ANSWER, RECORD};
use crate::lent::{Answer, Code, Command, Operation};
use crate::oracle::Oracle;

pub fn batch(tree: &mut Oracle, input: &[u8], answers: &mut [u8]) {
    for (record, place) in input.chunks_exact(RECORD).zip(answers.chunks_exact_mut(ANSWER)) {
        place.copy_from_slice(&batch::answer(&answer(tree, record)));
    }
}

fn answer(tree: &mut Oracle, record: &[u8]) -> Answer {
    let Some(command) = batch::command(record) else { return refused(Code::BadRecord) };
    match refusal(tree, &command) {
        Code::Done => {
            let (slot, probes) = tree.run_counted(&command);
            Answer { code: Code::Done, probes, slot }
        }
        code => refused(code),
    }
}

fn refused(code: Code) -> Answer {
    Answer { code, probes: 0, slot: 0 }
}

fn refusal(tree: &Oracle, command: &Command) -> Code {
    let Command { operation, kind, position, slot, .. } = *command;
    if operation.has_kind() && kind > 2 {
        return Code::BadRecord;
    }
    if operation.has_position() {
        let needs_node = matches!(operation, Operation::Remove | Operation::ReplaceWith);
        match position {
            0 if needs_node => return Code::NullCursor,
            0 => {}
            _ if position > tree.capacity() => return Code::BadSlot,
            _ if !tree.is_linked(position) => return Code::NotLinked,
            _ => {}
        }
    }
    match operation.has_slot() {
        true if slot == 0 || slot > tree.capacity() => Code::BadSlot,
        true if tree.is_linked(slot) => Code::AlreadyLinked,
        true if !tree.fits(command) => Code::OutOfOrder,
        _ => Code::Done,
    }
}

impl Oracle {
    fn capacity(&self) -> u32 {
        self.nodes.len() as u32
    }

    pub fn is_linked(&self, slot: u32) -> bool {
        self.nodes[slot as usize - 1].link.is_linked()
    }

    pub fn key_of(&self, slot: u32) -> u64 {
        self.nodes[slot as usize - 1].key.get()
    }

    /// Whether the key of operations 9 to 11 lies between those of its neighbours to be.
    fn fits(&self, command: &Command) -> bool {
        let at = self.cursor(command.position);
        let (before, after) = match command.operation {
            Operation::InsertAfter => (at.get(), at.peek_next().get()),
            Operation::InsertBefore => (at.peek_prev().get(), at.get()),
            Operation::ReplaceWith => (at.peek_prev().get(), at.peek_next().get()),
            _ => return true,
        };
        before.is_none_or(|node| node.key.get() <= command.key)
            && after.is_none_or(|node| command.key <= node.key.get())
    }
}
