//! The lent arrays at their limits: unequal lengths, none at all, the most slots and one more.
mod desk;

use desk::{Desk, CALLS, HIGH};
use lichenbrooch::{Answer, Code, Entry, Key, Side, Slot, CAPACITY};
use std::ops::Bound;

/// Every call on the arrays is Damaged and changes nothing.
fn all_damaged(desk: &Desk, what: &str) {
    for (name, call) in CALLS {
        let mut lent = desk.clone();
        assert_eq!(call(&mut lent.index()), Code::Damaged, "{name}, {what}");
        assert_eq!(&lent, desk, "{name}, {what}");
    }
}

/// The calls do not refuse these arrays, so what the next tests see is due to the lengths alone.
#[test]
fn equal_lengths_are_accepted() {
    let desk = Desk::with(&[1, 2], 2);
    for (name, call) in CALLS {
        assert_ne!(call(&mut desk.clone().index()), Code::Damaged, "{name}");
    }
}

#[test]
fn one_array_longer_or_shorter_is_damaged() {
    let desk = Desk::with(&[1, 2], 2);
    for length in [3, 5] {
        let resized: [(&str, fn(&mut Desk, usize)); 4] = [
            ("left", |d, n| d.left.resize(n, 0)),
            ("right", |d, n| d.right.resize(n, 0)),
            ("parent_color", |d, n| d.parent_color.resize(n, 0)),
            ("key", |d, n| d.key.resize(n, 0)),
        ];
        for (name, resize) in resized {
            let mut other = desk.clone();
            resize(&mut other, length);
            all_damaged(&other, &format!("{name} of length {length}"));
        }
    }
}

#[test]
fn no_slots() {
    let mut desk = Desk::new(0);
    let none = Answer { code: Code::Done, probes: 0, slot: Slot(0) };
    let bad = Answer { code: Code::BadSlot, ..none };
    let mut index = desk.index();
    assert_eq!(index.check(), Code::Done);
    assert_eq!(index.find(Key(1)), none);
    assert_eq!(index.lower_bound(Bound::Unbounded), none);
    assert_eq!(index.next(Slot(0)), none);
    assert_eq!(index.prev(Slot(0)), none);
    assert_eq!(index.entry(Key(1)), Ok(Entry::Vacant { parent: Slot(0), side: Side::Right }));
    assert_eq!(index.insert(Slot(1), Key(1)), bad);
    assert_eq!(index.find_or_insert(Slot(0), Key(1)), bad);
    assert_eq!(index.next(Slot(1)), bad);
    assert_eq!(index.clear(), none);
    assert_eq!(desk, Desk::new(0));
}

#[test]
fn the_most_slots() {
    let mut desk = Desk::new(CAPACITY);
    for slot in 1..=CAPACITY as u32 {
        let answer = desk.index().insert(Slot(slot), Key(HIGH + u64::from(slot)));
        assert_eq!(answer.done(), Ok(Slot(slot)));
        assert!(answer.probes <= 22);
    }
    let mut index = desk.index();
    assert_eq!(index.check(), Code::Done);
    let mut slot = Slot(0);
    for expected in 1..=CAPACITY as u32 {
        slot = index.next(slot).slot;
        assert_eq!(slot, Slot(expected));
    }
    assert_eq!(index.next(slot).slot, Slot(0));
    assert_eq!(index.find(Key(HIGH + 1500)).slot, Slot(1500));
    assert_eq!(index.insert(Slot(CAPACITY as u32 + 1), Key(0)).code, Code::BadSlot);
}

#[test]
fn one_slot_too_many() {
    all_damaged(&Desk::new(CAPACITY + 1), "2,049 slots");
    assert_eq!(Desk::new(CAPACITY).index().check(), Code::Done);
}
