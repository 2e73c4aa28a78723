//! The index over lent arrays: a method for each call of the library.
use std::ops::Bound;

use crate::raw;
use crate::{Answer, Batched, Code, Entry, Key, Slot};

/// Four lent arrays and a root: slot k is element k - 1 of each. All zeros are an empty tree; any numbers are answered.
#[derive(Debug)]
pub struct Index<'a> {
    /// The left child of each slot, or 0.
    pub left: &'a mut [u32],
    /// The right child of each slot, or 0.
    pub right: &'a mut [u32],
    /// Twice the parent, and one more for black; 0 for a slot that is not in the tree.
    pub parent_color: &'a mut [u32],
    /// The key of each slot.
    pub key: &'a mut [u64],
    /// The slot at the top, or 0.
    pub root: &'a mut u32,
}

// A call that changes nothing. Each slice gives a pointer that is valid for its length.
macro_rules! look {
    ($index:ident, $call:ident $(, $argument:expr)*) => {
        unsafe {
            raw::$call(
                $index.left.as_ptr(),
                $index.left.len(),
                $index.right.as_ptr(),
                $index.right.len(),
                $index.parent_color.as_ptr(),
                $index.parent_color.len(),
                $index.key.as_ptr(),
                $index.key.len(),
                *$index.root
                $(, $argument)*
            )
        }
    };
}

// A call that changes the arrays. The slices and the root are held by `&mut`, so none overlaps another.
macro_rules! change {
    ($index:ident, $call:ident, $key:ident $(, $argument:expr)*) => {
        unsafe {
            raw::$call(
                $index.left.as_mut_ptr(),
                $index.left.len(),
                $index.right.as_mut_ptr(),
                $index.right.len(),
                $index.parent_color.as_mut_ptr(),
                $index.parent_color.len(),
                $index.key.$key(),
                $index.key.len(),
                $index.root
                $(, $argument)*
            )
        }
    };
}

// The number of a bound's kind, and its key.
fn numbers_of(bound: Bound<Key>) -> (u32, u64) {
    match bound {
        Bound::Unbounded => (0, 0),
        Bound::Included(k) => (1, k.0),
        Bound::Excluded(k) => (2, k.0),
    }
}

impl Index<'_> {
    /// Whether the arrays are well formed: Done or Damaged.
    pub fn check(&self) -> Code {
        look!(self, lichenbrooch_check).into()
    }

    /// The first slot with the key that a descent from the root meets, or 0.
    pub fn find(&self, k: Key) -> Answer {
        look!(self, lichenbrooch_find, k.0).into()
    }

    /// The first slot with a key from the bound on, or past it; the first of all for no bound.
    pub fn lower_bound(&self, bound: Bound<Key>) -> Answer {
        let (kind, k) = numbers_of(bound);
        look!(self, lichenbrooch_lower_bound, kind, k).into()
    }

    /// The last slot with a key up to the bound, or before it; the last of all for no bound.
    pub fn upper_bound(&self, bound: Bound<Key>) -> Answer {
        let (kind, k) = numbers_of(bound);
        look!(self, lichenbrooch_upper_bound, kind, k).into()
    }

    /// The slot after a position; from 0 the first.
    pub fn next(&self, position: Slot) -> Answer {
        look!(self, lichenbrooch_next, position.0).into()
    }

    /// The slot before a position; from 0 the last.
    pub fn prev(&self, position: Slot) -> Answer {
        look!(self, lichenbrooch_prev, position.0).into()
    }

    /// What there is for a key, unless the arrays are damaged.
    pub fn entry(&self, k: Key) -> Result<Entry, Code> {
        let entry = look!(self, lichenbrooch_entry_for, k.0);
        match entry.code.into() {
            Code::Done => Ok(entry.into()),
            code => Err(code),
        }
    }

    /// Hangs a slot with its key, behind all keys that are not greater.
    pub fn insert(&mut self, slot: Slot, k: Key) -> Answer {
        change!(self, lichenbrooch_insert, as_mut_ptr, slot.0, k.0).into()
    }

    /// The slot that holds the key, or the new one, hung with it.
    pub fn find_or_insert(&mut self, slot: Slot, k: Key) -> Answer {
        change!(self, lichenbrooch_find_or_insert, as_mut_ptr, slot.0, k.0).into()
    }

    /// The same with an entry at hand; Stale where `entry` would give another now.
    pub fn or_insert(&mut self, entry: Entry, slot: Slot, k: Key) -> Answer {
        change!(self, lichenbrooch_or_insert, as_mut_ptr, entry.into(), slot.0, k.0).into()
    }

    /// Takes a slot out and answers the one after it; its key stays.
    pub fn remove(&mut self, position: Slot) -> Answer {
        change!(self, lichenbrooch_remove, as_ptr, position.0).into()
    }

    /// Hangs a slot with its key right behind a position; from 0 at the front.
    pub fn insert_after(&mut self, position: Slot, slot: Slot, k: Key) -> Answer {
        change!(self, lichenbrooch_insert_after, as_mut_ptr, position.0, slot.0, k.0).into()
    }

    /// Hangs a slot with its key right before a position; from 0 at the back.
    pub fn insert_before(&mut self, position: Slot, slot: Slot, k: Key) -> Answer {
        change!(self, lichenbrooch_insert_before, as_mut_ptr, position.0, slot.0, k.0).into()
    }

    /// Puts a slot with its key in the place of another, which is released.
    pub fn replace_with(&mut self, position: Slot, slot: Slot, k: Key) -> Answer {
        change!(self, lichenbrooch_replace_with, as_mut_ptr, position.0, slot.0, k.0).into()
    }

    /// Unlinks all slots; the keys stay.
    pub fn clear(&mut self) -> Answer {
        change!(self, lichenbrooch_clear, as_ptr).into()
    }
    /// Works command records of 16 bytes one after another and writes an answer record of 6 bytes for each.
    pub fn batch(&mut self, commands: &[u8], answers: &mut [u8]) -> Batched {
        let (bytes, room) = (answers.as_mut_ptr(), answers.len());
        change!(self, lichenbrooch_batch, as_mut_ptr, commands.as_ptr(), commands.len(), bytes, room).into()
    }
}
