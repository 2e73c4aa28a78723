//! The records that are timed: all twelve operations, on a tree that keeps about 2,000 of its 2,048 slots linked.

use crate::batch::{self, RECORD};
use crate::lent::{Command, Lent, Operation};
use crate::oracle::Oracle;
use crate::random::Random;

pub const SLOTS: usize = 2048;
pub const LINKED: usize = 2000;
pub const RECORDS: usize = 1024;

/// How many of a hundred records have the operation; what is missing are records that are refused.
const MIX: [(Operation, usize); 11] = [
    (Operation::Find, 29),
    (Operation::LowerBound, 8),
    (Operation::UpperBound, 8),
    (Operation::Next, 9),
    (Operation::Prev, 9),
    (Operation::Insert, 8),
    (Operation::OrInsert, 6),
    (Operation::InsertAfter, 2),
    (Operation::InsertBefore, 2),
    (Operation::ReplaceWith, 3),
    (Operation::Remove, 15),
];

/// A tree that grows by the records that are made for it.
pub struct Maker {
    tree: Oracle,
    linked: Vec<u32>,
    free: Vec<u32>,
    random: Random,
}

impl Maker {
    /// 2,000 slots with random keys.
    pub fn new(seed: u64) -> Maker {
        let random = Random::new(seed);
        let free = (1..=SLOTS as u32).collect();
        let mut maker = Maker { tree: Oracle::load(&Lent::empty(SLOTS)), linked: Vec::new(), free, random };
        maker.random.shuffle(&mut maker.free);
        while maker.linked.len() < LINKED {
            let slot = maker.free.pop().expect("more slots than are linked");
            let key = maker.any_key();
            maker.tree.run(&Command { operation: Operation::Insert, kind: 0, position: 0, slot, key });
            maker.linked.push(slot);
        }
        maker
    }

    pub fn lent(&self) -> Lent {
        self.tree.read()
    }

    /// The records of a batch, which the tree follows.
    pub fn batch(&mut self) -> Vec<u8> {
        let mut input = Vec::with_capacity(RECORDS * RECORD);
        for _ in 0..RECORDS {
            input.extend(self.record());
        }
        input
    }

    fn record(&mut self) -> [u8; RECORD] {
        let mut drawn = self.random.below(100);
        for (operation, share) in MIX {
            if drawn < share {
                let command = self.command(self.kept_in_bounds(operation));
                self.follow(&command);
                return batch::record(&command);
            }
            drawn -= share;
        }
        let slot = self.random.pick(&self.linked);
        batch::record(&Command { operation: Operation::Insert, kind: 0, position: 0, slot, key: 1 })
    }

    /// Hangs where too few slots are linked, takes out where too many are.
    fn kept_in_bounds(&self, operation: Operation) -> Operation {
        match operation {
            Operation::Remove if self.linked.len() < LINKED - 10 => Operation::Insert,
            Operation::Insert | Operation::OrInsert if self.linked.len() > LINKED + 10 => Operation::Remove,
            _ => operation,
        }
    }

    fn command(&mut self, operation: Operation) -> Command {
        let position = self.random.pick(&self.linked);
        let slot = self.random.pick(&self.free);
        let kind = 1 + self.random.below(2) as u32;
        let held = operation.has_key() && self.random.once_in(2);
        let key = match operation {
            Operation::InsertAfter | Operation::InsertBefore | Operation::ReplaceWith => self.tree.key_of(position),
            Operation::Insert => self.any_key(),
            _ if held => self.tree.key_of(position),
            _ => self.any_key(),
        };
        Command { operation, kind, position, slot, key }
    }

    fn any_key(&mut self) -> u64 {
        self.random.below(1 << 40) as u64
    }

    fn follow(&mut self, command: &Command) {
        let changes = command.operation == Operation::Remove || command.operation.has_slot();
        if !changes {
            return;
        }
        self.tree.run(command);
        for slot in [command.position, command.slot] {
            self.sort(slot);
        }
    }

    /// Puts a slot into the list that it belongs to now.
    fn sort(&mut self, slot: u32) {
        let linked = self.tree.is_linked(slot);
        let (from, to) = if linked { (&mut self.free, &mut self.linked) } else { (&mut self.linked, &mut self.free) };
        if let Some(at) = from.iter().position(|&other| other == slot) {
            from.swap_remove(at);
            to.push(slot);
        }
    }
}
