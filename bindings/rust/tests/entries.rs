//! Entries come out as they are and go back in as they came; one that is not the present one is stale.
mod desk;

use desk::{Desk, HIGH};
use lichenbrooch::{raw, Answer, Code, Entry, Key, Side, Slot};

fn vacant(parent: u32, side: Side) -> Entry {
    Entry::Vacant { parent: Slot(parent), side }
}

fn or_insert(desk: &mut Desk, entry: Entry, slot: u32, k: u64) -> Answer {
    desk.index().or_insert(entry, Slot(slot), Key(k))
}

#[test]
fn entries_tell_slot_parent_and_side() {
    let mut desk = Desk::with(&[HIGH + 20, HIGH + 10, HIGH + 30], 0);
    let index = desk.index();
    let entry = |k: u64| index.entry(Key(HIGH + k)).unwrap();
    assert_eq!([20, 10, 30].map(entry), [1, 2, 3].map(|slot| Entry::Occupied(Slot(slot))));
    assert_eq!([5, 15].map(entry), [vacant(2, Side::Left), vacant(2, Side::Right)]);
    assert_eq!([25, 35].map(entry), [vacant(3, Side::Left), vacant(3, Side::Right)]);
    assert_eq!(index.entry(Key(25)), Ok(vacant(2, Side::Left)));
    assert_eq!(Desk::new(1).index().entry(Key(1)), Ok(vacant(0, Side::Right)));
}

#[test]
fn a_damaged_tree_has_no_entries() {
    let mut desk = Desk::with(&[1, 2, 3], 0);
    desk.parent_color[0] = 9;
    assert_eq!(desk.index().entry(Key(1)), Err(Code::Damaged));
}

#[test]
fn a_fresh_entry_goes_back_in() {
    let mut desk = Desk::with(&[20, 10, 30], 2);
    let place = desk.index().entry(Key(HIGH)).unwrap();
    let answer = or_insert(&mut desk, place, 5, HIGH);
    assert_eq!(answer, Answer { code: Code::Done, probes: 2, slot: Slot(5) });
    assert_eq!((desk.right[2], desk.parent_color[4], desk.key[4]), (5, 6, HIGH));
    let held = desk.index().entry(Key(10)).unwrap();
    let before = desk.clone();
    let answer = or_insert(&mut desk, held, 4, 10);
    assert_eq!(answer, Answer { code: Code::Done, probes: 2, slot: Slot(2) });
    assert_eq!(desk, before);
    let place = desk.index().entry(Key(7)).unwrap();
    assert_eq!(or_insert(&mut desk, place, 4, 7).done(), Ok(Slot(4)));
    assert_eq!((desk.left[1], desk.parent_color[3], desk.key[3]), (4, 4, 7));
}

#[test]
fn every_other_entry_is_stale() {
    let mut desk = Desk::with(&[20, 10, 30], 1);
    let before = desk.clone();
    let others = [
        vacant(3, Side::Left),
        vacant(2, Side::Right),
        vacant(0, Side::Right),
        Entry::Occupied(Slot(3)),
        Entry::Occupied(Slot(0)),
        vacant(u32::MAX, Side::Right),
    ];
    for other in others {
        let answer = or_insert(&mut desk, other, 4, 35);
        assert_eq!(answer, Answer { code: Code::Stale, probes: 0, slot: Slot(0) }, "{other:?}");
        assert_eq!(desk, before, "{other:?}");
    }
    assert_eq!(or_insert(&mut desk, vacant(3, Side::Right), 4, 35).done(), Ok(Slot(4)));
}

#[test]
fn an_entry_is_stale_once_the_tree_has_changed() {
    let mut desk = Desk::with(&[20, 10, 30], 2);
    let place = desk.index().entry(Key(40)).unwrap();
    assert_eq!(or_insert(&mut desk, place, 4, 40).done(), Ok(Slot(4)));
    assert_eq!(or_insert(&mut desk, place, 4, 40).done(), Err(Code::AlreadyLinked));
    assert_eq!(or_insert(&mut desk, place, 5, 40).done(), Err(Code::Stale));
    assert_eq!(or_insert(&mut desk, Entry::Occupied(Slot(4)), 5, 40).done(), Ok(Slot(4)));
}

/// As for C: any number but 0 is a yes, and the code of an entry is not looked at.
#[test]
fn numbers_of_an_entry() {
    let numbers = |occupied, slot, on_left| raw::Entry { code: 42, occupied, slot, on_left };
    let cases = [
        (numbers(7, 1, 9), 4, 20, Ok(Slot(1))),
        (numbers(0, 2, 9), 4, 5, Ok(Slot(4))),
        (numbers(0, 3, 0), 5, 35, Ok(Slot(5))),
        (numbers(0, 5, 1), 6, 36, Err(Code::Stale)),
    ];
    let mut desk = Desk::with(&[20, 10, 30], 3);
    for (entry, slot, k, expected) in cases {
        let (left, right, parent_color) = (&mut desk.left, &mut desk.right, &mut desk.parent_color);
        let (left, right, parent_color) = (left.as_mut_ptr(), right.as_mut_ptr(), parent_color.as_mut_ptr());
        let (key, root) = (desk.key.as_mut_ptr(), &mut desk.root);
        let answer =
            unsafe { raw::lichenbrooch_or_insert(left, 6, right, 6, parent_color, 6, key, 6, root, entry, slot, k) };
        assert_eq!(Answer::from(answer).done(), expected, "{entry:?}");
    }
}
