//! The numbers of the interface as types: slots and keys, codes, answers, entries.
use crate::raw;

/// A slot number, from 1 to the capacity; 0 is none.
#[derive(Clone, Copy, Debug, Default, PartialEq, Eq, PartialOrd, Ord, Hash)]
pub struct Slot(pub u32);

/// A 64-bit key.
#[derive(Clone, Copy, Debug, Default, PartialEq, Eq, PartialOrd, Ord, Hash)]
pub struct Key(pub u64);

/// What a call says: done, or why not.
#[derive(Clone, Copy, Debug, PartialEq, Eq, Hash)]
pub enum Code {
    /// The call did what it says.
    Done,
    /// The arrays are not well formed.
    Damaged,
    /// A position or new slot that is not there.
    BadSlot,
    /// The new slot is in the tree.
    AlreadyLinked,
    /// The position is not in the tree.
    NotLinked,
    /// The key does not fit at its place.
    OutOfOrder,
    /// Removing or replacing at position 0.
    NullCursor,
    /// The entry is not what it was.
    Stale,
    /// No such command, or no such kind of bound.
    BadRecord,
    /// A batch of no whole records, or of too many bytes.
    BadLength,
    /// Too little room for the answers of a batch.
    Short,
    /// The line spells no code.
    BadCode,
    /// A number that only a library of another version gives.
    Other(u32),
}

impl From<u32> for Code {
    fn from(number: u32) -> Code {
        match number {
            0 => Code::Done,
            1 => Code::Damaged,
            2 => Code::BadSlot,
            3 => Code::AlreadyLinked,
            4 => Code::NotLinked,
            5 => Code::OutOfOrder,
            6 => Code::NullCursor,
            7 => Code::Stale,
            8 => Code::BadRecord,
            9 => Code::BadLength,
            10 => Code::Short,
            11 => Code::BadCode,
            other => Code::Other(other),
        }
    }
}

/// The answer of an operation; on a refusal probes and slot are 0.
#[derive(Clone, Copy, Debug, PartialEq, Eq)]
pub struct Answer {
    /// Done, or why not.
    pub code: Code,
    /// How many nodes the descent met.
    pub probes: u32,
    /// The slot that the operation answers.
    pub slot: Slot,
}

impl Answer {
    /// The answered slot, or why there is none.
    pub fn done(self) -> Result<Slot, Code> {
        if self.code == Code::Done {
            Ok(self.slot)
        } else {
            Err(self.code)
        }
    }
}

impl From<raw::Answer> for Answer {
    fn from(answer: raw::Answer) -> Answer {
        Answer { code: answer.code.into(), probes: answer.probes, slot: Slot(answer.slot) }
    }
}

/// The answer of a whole batch.
#[derive(Clone, Copy, Debug, PartialEq, Eq)]
pub struct Batched {
    /// Done, or why the batch was refused as a whole.
    pub code: Code,
    /// How many answers were written.
    pub count: u32,
}

impl From<raw::Batched> for Batched {
    fn from(batched: raw::Batched) -> Batched {
        Batched { code: batched.code.into(), count: batched.count }
    }
}

/// A side of a parent.
#[derive(Clone, Copy, Debug, PartialEq, Eq)]
pub enum Side {
    /// The side of the smaller keys.
    Left,
    /// The side of the greater keys.
    Right,
}

/// What there is for a key.
#[derive(Clone, Copy, Debug, PartialEq, Eq)]
pub enum Entry {
    /// The slot that holds it.
    Occupied(Slot),
    /// The empty place where it would hang: under a parent, 0 in an empty tree, and on which side.
    Vacant {
        /// The parent.
        parent: Slot,
        /// The side of the parent.
        side: Side,
    },
}

impl From<raw::Entry> for Entry {
    fn from(entry: raw::Entry) -> Entry {
        let slot = Slot(entry.slot);
        if entry.occupied != 0 {
            return Entry::Occupied(slot);
        }
        Entry::Vacant { parent: slot, side: if entry.on_left != 0 { Side::Left } else { Side::Right } }
    }
}

impl From<Entry> for raw::Entry {
    fn from(entry: Entry) -> raw::Entry {
        match entry {
            Entry::Occupied(slot) => raw::Entry { code: 0, occupied: 1, slot: slot.0, on_left: 0 },
            Entry::Vacant { parent, side } => {
                raw::Entry { code: 0, occupied: 0, slot: parent.0, on_left: u32::from(side == Side::Left) }
            }
        }
    }
}
