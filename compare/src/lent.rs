//! The words that the comparison shares: lent numbers, commands, answers, entries. 01, "Slots and the lent arrays",
//! "When the index says no", "Operations".

/// Four lent arrays and the root. Slot k is element k - 1; 0 is none.
#[derive(Clone, Debug, Default, Hash, PartialEq, Eq)]
pub struct Lent {
    pub left: Vec<u32>,
    pub right: Vec<u32>,
    pub pc: Vec<u32>,
    pub key: Vec<u64>,
    pub root: u32,
}

#[derive(Clone, Copy, Debug, PartialEq, Eq)]
pub enum Side {
    Left,
    Right,
}

impl Lent {
    /// Unlinked slots with key 0.
    pub fn empty(capacity: usize) -> Lent {
        Lent {
            left: vec![0; capacity],
            right: vec![0; capacity],
            pc: vec![0; capacity],
            key: vec![0; capacity],
            root: 0,
        }
    }

    pub fn capacity(&self) -> u32 {
        self.pc.len() as u32
    }

    pub fn slots(&self) -> impl Iterator<Item = u32> {
        1..=self.capacity()
    }

    pub fn child(&self, side: Side, slot: u32) -> u32 {
        match side {
            Side::Left => self.left[slot as usize - 1],
            Side::Right => self.right[slot as usize - 1],
        }
    }

    pub fn key_of(&self, slot: u32) -> u64 {
        self.key[slot as usize - 1]
    }

    pub fn is_linked(&self, slot: u32) -> bool {
        self.pc[slot as usize - 1] != 0
    }

    pub fn parent(&self, slot: u32) -> u32 {
        self.pc[slot as usize - 1] / 2
    }

    pub fn is_red(&self, slot: u32) -> bool {
        self.pc[slot as usize - 1] & 1 == 0
    }

    /// The in-order list of slots, on arrays whose child numbers form a tree.
    pub fn order(&self) -> Vec<u32> {
        let mut list = Vec::new();
        self.walk(self.root, &mut list);
        list
    }

    fn walk(&self, slot: u32, list: &mut Vec<u32>) {
        if slot != 0 {
            self.walk(self.child(Side::Left, slot), list);
            list.push(slot);
            self.walk(self.child(Side::Right, slot), list);
        }
    }
}

#[derive(Clone, Copy, Debug, PartialEq, Eq)]
pub enum Operation {
    Insert = 1,
    OrInsert,
    Find,
    LowerBound,
    UpperBound,
    Remove,
    Next,
    Prev,
    InsertAfter,
    InsertBefore,
    ReplaceWith,
    Clear,
}

use Operation::*;

pub const OPERATIONS: [Operation; 12] =
    [Insert, OrInsert, Find, LowerBound, UpperBound, Remove, Next, Prev, InsertAfter, InsertBefore, ReplaceWith, Clear];

impl Operation {
    pub fn has_kind(self) -> bool {
        matches!(self, LowerBound | UpperBound)
    }

    pub fn has_position(self) -> bool {
        matches!(self, Remove | Next | Prev | InsertAfter | InsertBefore | ReplaceWith)
    }

    pub fn has_slot(self) -> bool {
        matches!(self, Insert | OrInsert | InsertAfter | InsertBefore | ReplaceWith)
    }

    pub fn has_key(self) -> bool {
        self.has_slot() || matches!(self, Find | LowerBound | UpperBound)
    }
}

/// An operation and every field that some operation has.
#[derive(Clone, Copy, Debug, PartialEq, Eq)]
pub struct Command {
    pub operation: Operation,
    pub kind: u32,
    pub position: u32,
    pub slot: u32,
    pub key: u64,
}

/// The codes under 01's names.
#[allow(clippy::enum_variant_names)]
#[derive(Clone, Copy, Debug, PartialEq, Eq)]
pub enum Code {
    Done,
    Damaged,
    BadSlot,
    AlreadyLinked,
    NotLinked,
    OutOfOrder,
    NullCursor,
    Stale,
    BadRecord,
    BadLength,
    Short,
    BadCode,
}

#[derive(Clone, Copy, Debug, PartialEq, Eq)]
pub struct Answer {
    pub code: Code,
    pub probes: u32,
    pub slot: u32,
}

/// An answer, and the lent numbers after it.
#[derive(Clone, Debug, PartialEq, Eq)]
pub struct Outcome {
    pub answer: Answer,
    pub after: Lent,
}

#[derive(Clone, Copy, Debug, PartialEq, Eq)]
pub enum Entry {
    Occupied(u32),
    Vacant(u32, Side),
}
