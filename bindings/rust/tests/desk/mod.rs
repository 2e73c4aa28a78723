//! Arrays of a test's own, lent as an index, and every call on them by name.
#![allow(dead_code)]

use lichenbrooch::{Code, Entry, Index, Key, Side, Slot};
use std::ops::Bound;

/// A key that does not fit 32 bits.
pub const HIGH: u64 = 1 << 40;

#[derive(Clone, Debug, PartialEq, Eq)]
pub struct Desk {
    pub left: Vec<u32>,
    pub right: Vec<u32>,
    pub parent_color: Vec<u32>,
    pub key: Vec<u64>,
    pub root: u32,
}

impl Desk {
    /// An empty tree.
    pub fn new(slots: usize) -> Desk {
        Desk { left: vec![0; slots], right: vec![0; slots], parent_color: vec![0; slots], key: vec![0; slots], root: 0 }
    }

    /// The keys in the slots from 1 on, inserted in that order, with spare slots behind them.
    pub fn with(keys: &[u64], spare: usize) -> Desk {
        let mut desk = Desk::new(keys.len() + spare);
        for (slot, k) in (1..).zip(keys) {
            assert_eq!(desk.index().insert(Slot(slot), Key(*k)).done(), Ok(Slot(slot)));
        }
        desk
    }

    pub fn index(&mut self) -> Index<'_> {
        Index {
            left: &mut self.left,
            right: &mut self.right,
            parent_color: &mut self.parent_color,
            key: &mut self.key,
            root: &mut self.root,
        }
    }
}

/// A call with arguments of its own, of which only the code is looked at.
pub type Call = (&'static str, fn(&mut Index) -> Code);

/// Every call on an index.
pub const CALLS: [Call; 16] = [
    ("check", |index| index.check()),
    ("find", |index| index.find(Key(1)).code),
    ("lower_bound", |index| index.lower_bound(Bound::Included(Key(1))).code),
    ("upper_bound", |index| index.upper_bound(Bound::Excluded(Key(1))).code),
    ("next", |index| index.next(Slot(0)).code),
    ("prev", |index| index.prev(Slot(0)).code),
    ("entry", |index| index.entry(Key(1)).err().unwrap_or(Code::Done)),
    ("insert", |index| index.insert(Slot(3), Key(1)).code),
    ("find_or_insert", |index| index.find_or_insert(Slot(3), Key(1)).code),
    ("or_insert", |index| index.or_insert(Entry::Vacant { parent: Slot(0), side: Side::Right }, Slot(3), Key(1)).code),
    ("remove", |index| index.remove(Slot(1)).code),
    ("insert_after", |index| index.insert_after(Slot(0), Slot(3), Key(1)).code),
    ("insert_before", |index| index.insert_before(Slot(0), Slot(3), Key(1)).code),
    ("replace_with", |index| index.replace_with(Slot(1), Slot(3), Key(1)).code),
    ("clear", |index| index.clear().code),
    ("batch", |index| index.batch(&command(1, 0, 0, 3, 1), &mut [0; 6]).code),
];

/// The bytes of a command record.
pub fn command(operation: u8, kind: u8, position: u16, slot: u16, k: u64) -> [u8; 16] {
    let mut record = [0; 16];
    record[..4].copy_from_slice(&[0x43, 0x4E, operation, kind]);
    record[4..6].copy_from_slice(&position.to_le_bytes());
    record[6..8].copy_from_slice(&slot.to_le_bytes());
    record[8..].copy_from_slice(&k.to_le_bytes());
    record
}
